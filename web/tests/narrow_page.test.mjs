// Tests of narrow_page.mjs: the page reads a pass, adds the chosen limits, and sends nothing.
import assert from "node:assert/strict";
import { before, test } from "node:test";
import { characters } from "../src/bytes.mjs";
import { byName } from "../src/elements.mjs";
import { readPass } from "../src/pass.mjs";
import { say } from "../src/words.mjs";
import { LIST, passOf, settled, shownIn } from "./doubles/club.mjs";
import { withNavigator } from "./doubles/dom.mjs";
import { openWhole } from "./doubles/start.mjs";

const asked = [];
let text;

before(async () => {
  text = await passOf("amy-1", "kind = court");
  openWhole("pass.html");
  globalThis.fetch = async (path) => {
    asked.push(path);
    return new Response(JSON.stringify(LIST));
  };
  await import("../src/narrow_page.mjs");
  await settled();
});

const enter = async (value) => {
  byName("given").value = value;
  await byName("given").emit("input");
};
const set = async (id, value) => {
  byName(id).value = value;
  await byName(id).emit("input");
};
const narrow = async () => {
  await byName("choices").emit("submit");
  await settled();
};

test("the page asks for the club's list alone, and offers its facilities", () => {
  assert.deepEqual(asked, ["club.json"]);
  const buttons = byName("club-facilities").querySelectorAll("button");
  assert.deepEqual(buttons.map((each) => each.textContent), ["Court 1", "Double scull"]);
});

test("a pass is shown with its limits, and another text with its fault", async () => {
  await enter(text);
  assert.match(shownIn("given-pass"), /kind = court/);
  assert.equal(byName("given").getAttribute("aria-invalid"), "false");
  await enter(text.slice(0, -4));
  assert.ok(shownIn("given-fault").includes(say("malformed-title")));
  assert.equal(byName("given").getAttribute("aria-invalid"), "true");
});

test("without a pass or a limit the page says what is missing", async () => {
  await enter("");
  await narrow();
  assert.equal(shownIn("narrow-fault"), say("obstacle-pass"));
  await enter(text);
  await narrow();
  assert.equal(shownIn("narrow-fault"), say("obstacle-none"));
  assert.ok(byName("result").hidden);
});

test("a wrong choice is marked, and nothing is narrowed", async () => {
  await enter(text);
  await set("guests-most", "many");
  await narrow();
  assert.equal(shownIn("narrow-fault"), say("obstacle-wrong"));
  assert.equal(shownIn("guests-wrong"), say("wrong-guests"));
  await set("guests-most", "");
});

test("the chosen limits are added in their order, and the old limit stays", async () => {
  await enter(text);
  await set("spend-most", "600");
  await set("facility-names", "court-1 court-2");
  assert.match(shownIn("facility-made"), /facility = court-1,court-2/);
  await narrow();
  assert.ok(!byName("result").hidden, shownIn("narrow-fault"));
  const lines = readPass(byName("narrowed").value).caveats.map(characters);
  assert.deepEqual(lines, ["kind = court", "facility = court-1,court-2", "spend <= 600"]);
  assert.equal(shownIn("outcome"), say("narrowed", { count: 2 }));
  assert.ok(shownIn("result-notes").includes(say("note-points-title")));
});

test("the links lead to this page and to the page that books", () => {
  const narrowed = encodeURIComponent(byName("narrowed").value);
  assert.equal(byName("address").value, `https://desk.example.org/pass.html#${narrowed}`);
  assert.equal(byName("book-address").value, `https://desk.example.org/book.html#${narrowed}`);
  assert.notEqual(byName("book-qr").querySelector("svg"), null);
});

test("a copy goes to the clipboard, or the field is selected", async () => {
  const copied = [];
  withNavigator({ clipboard: { writeText: async (each) => { copied.push(each); } } });
  await byName("copy").click();
  assert.deepEqual(copied, [byName("narrowed").value]);
  assert.equal(shownIn("narrowed-message"), say("copied-pass"));
  withNavigator({});
  await byName("copy").click();
  assert.equal(document.selected, byName("narrowed"));
});

test("a facility's button adds its name, and takes it away again", async () => {
  await set("facility-names", "");
  const [button] = byName("club-facilities").querySelectorAll("button");
  await button.click();
  assert.equal(byName("facility-names").value, "court-1");
  assert.equal(button.getAttribute("aria-pressed"), "true");
  await button.click();
  assert.equal(byName("facility-names").value, "");
});

test("a changed choice takes the result away", async () => {
  await set("spend-most", "500");
  assert.ok(byName("result").hidden);
});

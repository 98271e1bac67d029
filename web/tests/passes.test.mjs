// Tests of passes_view.mjs, lend_view.mjs, loans_view.mjs and spares_view.mjs: how the page finds,
// keeps and forgets a pass, and how a member lends a part of it.
import assert from "node:assert/strict";
import { beforeEach, test } from "node:test";
import { byName } from "../src/elements.mjs";
import {
  keepPass, keepSpares, keptLoans, keptPasses, keptSpares, passOfTab,
} from "../src/keeping.mjs";
import { goToLend, passSays, setUpLend, showLend } from "../src/lend_view.mjs";
import { readPass } from "../src/pass.mjs";
import {
  endedContent, findPass, forgetPass, isPassShown, keepThis, keptText, nameField, passNotices,
  setUpPasses, showChoice,
} from "../src/passes_view.mjs";
import { characters } from "../src/bytes.mjs";
import { offerSpares } from "../src/spares_view.mjs";
import { state } from "../src/state.mjs";
import { say } from "../src/words.mjs";
import { booked, buttonIn, openClub, passOf, settled, shownIn } from "./doubles/club.mjs";

let club;
let pages;
beforeEach(async () => {
  club = await openClub();
  pages = [];
  setUpPasses({ begin: () => pages.push("begin"), show: () => pages.push("show") });
});

const none = () =>
  Object.assign(state, { pass: null, text: "", given: "", key: null, isKept: false });

// ---- The pass in use

test("a pass in the address is used, and leaves the address", async () => {
  const text = await passOf("amy-1", "kind = court");
  none();
  location.hash = `#${text}`;
  assert.deepEqual(findPass(), { kind: "none", text: "" });
  assert.deepEqual([state.text, state.key, state.isKept], [text, "amy-1", false]);
  assert.deepEqual(globalThis.history.state, { pass: text });
  assert.deepEqual(passNotices().map(([words]) => words), [say("keep-question")]);
});

test("an address with spare passes or a list keeps the pass in use", async () => {
  const { text } = state;
  location.hash = `#spare=${await passOf("amy-lend-1")}`;
  assert.equal(findPass().kind, "spare");
  assert.equal(state.text, text);
});

test("a text that isn't a pass shows its fault", () => {
  none();
  location.hash = "#nonsense";
  assert.equal(findPass().kind, "pass");
  assert.ok(!isPassShown());
  assert.ok(shownIn("given-fault").includes(say("malformed-title")));
});

test("the page begins with the pass that the browser used last", async () => {
  const [first, second] = [await passOf("amy-1"), await passOf("amy-lend-1")];
  keepPass(first, "Mine");
  keepPass(second, "Spare");
  none();
  location.hash = "";
  findPass();
  assert.deepEqual([state.text, state.name, state.isKept], [second, "Spare", true]);
});

test("a pasted pass is kept if the member wants so", async () => {
  const text = await passOf("amy-lend-1");
  for (const isWanted of [false, true]) {
    byName("given").value = ` ${text} `;
    byName("keep").checked = isWanted;
    await byName("enter").emit("submit");
    assert.deepEqual([state.text, state.isKept], [text, isWanted]);
    assert.equal(keptText(), say(isWanted ? "pass-kept" : "pass-not-kept"));
  }
  assert.equal(passOfTab(), text);
  assert.deepEqual(pages, ["begin", "begin"]);
});

test("a forgotten pass is gone, and another one that is kept takes its place", async () => {
  keepThis("Mine");
  const other = await passOf("amy-lend-1");
  keepPass(other, "Spare");
  forgetPass();
  assert.deepEqual([state.text, pages], [other, ["begin"]]);
  forgetPass();
  assert.equal(state.pass, null);
  assert.deepEqual(keptPasses(), []);
  assert.equal(shownIn("welcome-news"), say("forgotten"));
});

test("a browser with two passes offers a choice, and a pass has the member's name", async () => {
  keepThis("Mine");
  keepPass(await passOf("amy-lend-1"), "Spare");
  keepThis("Mine");
  showChoice();
  assert.ok(!byName("who-part").hidden);
  const names = byName("who").options.map((each) => each.textContent);
  assert.ok(names.includes("Mine") && names.includes("Spare"));
  const field = nameField().children[1];
  field.value = "  My   pass ";
  await field.emit("change");
  assert.deepEqual([state.name, keptPasses()[0].name], ["My pass", "My pass"]);
});

test("a pass that has ended says so", async () => {
  assert.deepEqual(endedContent(), []);
  await openClub("until < 2026-04-20T12:00");
  assert.equal(endedContent()[0].textContent, say("pass-ended"));
  await openClub("until < 2026-04-20T12:01");
  assert.deepEqual(endedContent(), []);
});

// ---- Lending

const choose = (id, value) => {
  for (const each of byName(id).querySelectorAll("input")) each.checked = each.value === value;
};
const lent = async () => {
  await byName("lend-form").emit("submit");
  await settled();
  const [, text] = byName("lend-address").value.split("#");
  return text === undefined ? null : readPass(decodeURIComponent(text).split(" ")[0].split("~")[0]);
};

test("a loan narrows the pass by facilities, a day and points", async () => {
  setUpLend();
  showLend();
  choose("lend-what", "kind court");
  choose("lend-until", "2026-04-21");
  choose("lend-points", "200");
  const pass = await lent();
  assert.ok(!byName("lend-made").hidden, shownIn("lend-news"));
  const lines = pass.caveats.map(characters);
  assert.ok(lines.includes("kind = court"));
  assert.ok(lines.some((line) => line.startsWith("until < 2026-04-22")));
  assert.ok(lines.includes("spend <= 200"));
  assert.equal(keptLoans().length, 1);
});

test("a loan to look at slots books nothing", async () => {
  setUpLend();
  showLend();
  choose("lend-how", "look");
  const pass = await lent();
  assert.ok(pass.caveats.map(characters).includes("actions = view"));
});

test("a loan with a wrong number of points isn't made", async () => {
  setUpLend();
  showLend();
  choose("lend-points", "other");
  byName("lend-count").value = "many";
  await byName("lend-form").emit("submit");
  assert.ok(shownIn("lend-news").includes(say("lend-wrong-points")));
  assert.deepEqual(keptLoans(), []);
});

test("a spare pass is lent before the member's own", async () => {
  const spare = await passOf("amy-lend-1");
  keepSpares([spare]);
  setUpLend();
  goToLend();
  await settled();
  assert.equal(characters((await lent()).identifier), "key:amy-lend-1");
  assert.equal(keptLoans()[0].spare, spare);
});

test("a loan can be ended, and the member learns what the office does", async () => {
  setUpLend();
  showLend();
  choose("lend-until", "2026-04-21");
  await lent();
  assert.ok(shownIn("loans").includes(keptLoans()[0].says));
  await buttonIn("loans", say("lend-end")).click();
  assert.ok(shownIn("dialog").includes(say("lend-end-office-says", { key: "amy-1" })));
  await buttonIn("dialog", say("lend-end")).click();
  assert.ok(keptLoans()[0].ended);
  assert.ok(shownIn("dialog").includes(say("lend-ended-says")));
});

test("spare passes of a link are kept after a question", async () => {
  const spare = await passOf("amy-lend-1");
  let kept = 0;
  const offered = offerSpares([spare, spare], () => { kept += 1; });
  await settled();
  await buttonIn("dialog", say("keep-yes")).click();
  await settled();
  await buttonIn("dialog", say("close")).click();
  await offered;
  assert.deepEqual([keptSpares(), kept], [[spare], 1]);
  const wrong = offerSpares([spare.slice(4)], () => assert.fail("kept"));
  assert.ok(shownIn("dialog").includes(say("spares-wrong")));
  await buttonIn("dialog", say("close")).click();
  await wrong;
});

test("spare passes of another member aren't kept", async () => {
  club.desk.members.set("bob", { credited: 0, quota: 1 });
  club.desk.keys.get("amy-lend-1").member = "bob";
  const offered = offerSpares([await passOf("amy-lend-1")], () => assert.fail("kept"));
  await settled();
  assert.ok(shownIn("dialog").includes(say("spares-foreign", { keys: "amy-lend-1" })));
  await buttonIn("dialog", say("close")).click();
  await offered;
  assert.deepEqual(keptSpares(), []);
});

test("the holder of a narrowed pass sees its limits and points", async () => {
  club = await openClub("facility = court-1", "spend <= 600");
  await booked();
  const words = passSays(state.pass);
  assert.equal(words[0], say("limit-only", { what: "Court 1" }));
  assert.ok(words.some((each) => each.includes("400") && each.includes("600")), words.join("; "));
});

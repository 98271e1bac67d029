// Tests of book.mjs and booking_page.mjs: the page starts, finds the member's pass, shows its
// views, and sends what an earlier visit left open.
import assert from "node:assert/strict";
import { before, test } from "node:test";
import { byName } from "../src/elements.mjs";
import { newBooking, stateOf } from "../src/record.mjs";
import { state } from "../src/state.mjs";
import { Store } from "../src/store.mjs";
import { say } from "../src/words.mjs";
import { Club, passOf, settled, shownIn, SLOT } from "./doubles/club.mjs";
import { withNavigator } from "./doubles/dom.mjs";
import { openWhole, press, seen } from "./doubles/start.mjs";

const VIEWS = ["welcome", "day", "bookings", "lend", "account"];
const club = new Club();

before(async () => {
  openWhole("book.html", `#${await passOf("amy-1")}`);
  globalThis.fetch = (path, options) => club.answer(path, options);
  const store = await Store.open();
  await store.put(newBooking("amy-1", 7, SLOT, 1, 1000));
  await import("../src/book.mjs");
  await settled();
});

test("the page starts with the day, under the club's name", () => {
  assert.deepEqual(seen(...VIEWS), ["day"]);
  assert.equal(shownIn("club-name"), "Our club");
  assert.ok(club.asked.includes("GET club.json"));
});

test("a request that an earlier visit left open is sent", async () => {
  assert.ok(club.asked.includes("PUT /slots/court-1/2026-05-01/18/bookings/7"));
  assert.deepEqual(state.entries.map(stateOf), ["booked"]);
  assert.equal(shownIn("bookings-count"), "1");
});

test("each view has its button", async () => {
  for (const view of ["bookings", "lend", "account", "day"]) {
    await press(`to-${view}`);
    await settled();
    assert.deepEqual(seen(...VIEWS), [view]);
    assert.equal(byName(`to-${view}`).getAttribute("aria-current"), "page");
  }
});

test("the account shows the points, the pass and the list", async () => {
  await press("to-account");
  await settled();
  assert.match(shownIn("account-facts"), /4,600 points/);
  assert.match(byName("export-text").value, /^record of amy-1\n7 court-1 /);
  assert.equal(shownIn("at-hand"), say("opens-not-offline"));
});

test("without a network the page says so", async () => {
  withNavigator({ onLine: false, locks: navigator.locks });
  await globalThis.window.emit("offline");
  assert.ok(shownIn("notices").includes(say("offline")));
  withNavigator({ locks: navigator.locks });
  await globalThis.window.emit("online");
  await settled();
  assert.ok(!shownIn("notices").includes(say("offline")));
});

test("a list in the address is offered", async () => {
  globalThis.location.hash = "#record=amy-1;8+court-1+2026-05-02+18+guests+0";
  await globalThis.window.emit("hashchange");
  await settled();
  assert.ok(shownIn("dialog").includes(say("import-question")));
});

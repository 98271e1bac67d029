// Tests of day_view.mjs, find_view.mjs, bookings_view.mjs, account_view.mjs and screen_view.mjs:
// what a member sees of the club, and which requests the page sends for it.
import assert from "node:assert/strict";
import { beforeEach, test } from "node:test";
import {
  lookAtAccount, offerRecord, setUpAccount, showExport, showLost, showPass,
} from "../src/account_view.mjs";
import { lookAfterBookings, showBookings } from "../src/bookings_view.mjs";
import { look, setUpDay, showCells, showDay, shownDay } from "../src/day_view.mjs";
import { byName } from "../src/elements.mjs";
import { setUpFind, showFind } from "../src/find_view.mjs";
import { recordText, stateOf } from "../src/record.mjs";
import { startScreen } from "../src/screen_view.mjs";
import { state } from "../src/state.mjs";
import { say } from "../src/words.mjs";
import { booked, buttonIn, openClub, settled, shownIn, SLOT } from "./doubles/club.mjs";
import { withNavigator } from "./doubles/dom.mjs";

let club;
beforeEach(async () => { club = await openClub(); });

const slotsAsked = () => club.asked.filter((each) => each.startsWith("GET /slots/"));
const cellOf = (facility, hour) => byName("slots").querySelectorAll("button.slot")
  .find(({ slotCell: { slot } }) => slot.facility === facility && slot.hour === hour);

// ---- A day

test("a day has a cell for each hour of each facility, with the price of a free slot", async () => {
  showDay(SLOT.day);
  await settled();
  assert.equal(shownDay(), SLOT.day);
  assert.equal(byName("slots").querySelectorAll("button.slot").length, 14 + 15);
  assert.equal(slotsAsked().length, 14 + 15);
  const cell = cellOf("court-1", 18);
  assert.equal(cell.className, "slot free");
  assert.ok(cell.textContent.includes(say("cell-price", { count: 200 })));
  assert.ok(!cell.disabled);
});

test("today's past hours aren't requested", async () => {
  showDay("2026-04-20");
  await settled();
  assert.deepEqual(slotsAsked().filter((each) => / .*\/(?:0[0-9]|1[0-2])$/.test(each)), []);
  assert.equal(cellOf("court-1", 9).className, "slot past");
  assert.ok(!byName("earlier-part").hidden);
});

test("the member's booking, a closed slot and a full slot look different", async () => {
  await booked();
  club.desk.bookings.push({ ...club.desk.bookings[0], number: 99, hour: 19, guests: 3 });
  showDay(SLOT.day);
  await settled();
  assert.ok(cellOf("court-1", 18).textContent.includes(say("cell-mine", { count: 2 })));
  assert.equal(cellOf("court-1", 19).className, "slot full");
  assert.equal(cellOf("boat-1", 18).className, "slot closed");
  assert.match(cellOf("boat-1", 18).textContent, /Repairs/);
});

test("a slot without a reply can be pressed to try again", async () => {
  club.fails = true;
  showDay("2026-05-02");
  for (let count = 0; count < 60 && cellOf("boat-1", 20).className !== "slot failed"; count += 1) {
    await new Promise((done) => { setTimeout(done, 100); });
  }
  club.fails = false;
  await cellOf("boat-1", 20).click();
  await settled();
  showCells();
  assert.equal(cellOf("boat-1", 20).className, "slot free");
});

test("a pass for one facility shows this facility alone", async () => {
  club = await openClub("facility = boat-1");
  showDay(SLOT.day);
  await settled();
  assert.equal(byName("slots").querySelectorAll("button.slot").length, 15);
  assert.ok(byName("facility-bar").hidden);
});

test("without a network the page asks for nothing", async () => {
  withNavigator({ onLine: false });
  showDay(SLOT.day);
  await look();
  assert.deepEqual(slotsAsked(), []);
  assert.equal(shownIn("looked"), say("looked-offline"));
});

test("the buttons beside the day lead to the next day and back", async () => {
  setUpDay();
  showDay(SLOT.day);
  await byName("day-after").click();
  assert.equal(shownDay(), "2026-05-02");
  await byName("today").click();
  assert.equal(shownDay(), "2026-04-20");
  assert.ok(byName("day-before").disabled);
  await settled();
});

// ---- A free time

test("a week shows how many places of a kind are free at each hour", async () => {
  showFind("2026-05-01");
  await settled();
  assert.equal(byName("find-kinds").children.length, 2);
  assert.equal(byName("find-grid").querySelectorAll("tr").length, 1 + 7);
  assert.ok(shownIn("find-grid").includes(say("find-free", { count: 4 })));
});

test("the next free time is on the first day with a free slot", async () => {
  setUpFind();
  showFind("2026-05-01");
  await settled();
  await byName("find-next").click();
  await settled();
  assert.match(shownIn("find-news"), /1\s+May/);
});

// ---- Bookings

test("bookings are in two lists, of what comes and of what is over", async () => {
  await booked();
  const past = { ...(await state.sender.entries())[0], number: 8, day: "2026-04-19" };
  state.entries = [...state.entries, past, { ...past, key: "other-1", number: 9 }];
  showBookings(() => {});
  const counts = ["to-come", "past", "others"].map((id) => byName(id).children.length);
  assert.deepEqual(counts, [1, 1, 1]);
  assert.equal(shownIn("bookings-count"), "1");
  assert.ok(shownIn("to-come").includes(say("state-booked")));
  assert.notEqual(buttonIn("to-come", say("cancel")), null);
});

test("a pass that may not cancel offers no cancellation", async () => {
  club = await openClub("actions = view,book");
  await booked();
  showBookings(() => {});
  assert.equal(buttonIn("to-come", say("cancel")), null);
});

test("a booking that the office cancelled is marked", async () => {
  await booked();
  club.desk.bookings.length = 0;
  let looked = 0;
  await lookAfterBookings(() => { looked += 1; });
  showBookings(() => {});
  assert.equal(looked, 1);
  assert.ok(shownIn("to-come").includes(say("maybe-gone-title")));
});

test("a refused booking can be removed from the list", async () => {
  club.desk.members.get("amy").quota = 0;
  const entry = await booked();
  assert.equal(stateOf(entry), "refused");
  let removed = 0;
  showBookings(() => { removed += 1; });
  await buttonIn("to-come", say("remove")).click();
  await settled();
  assert.deepEqual([removed, (await state.store.all()).length], [1, 0]);
});

// ---- The account

test("the account shows points and open bookings, as the desk says", async () => {
  await booked();
  await lookAtAccount();
  assert.match(shownIn("account-facts"), /4,600 points/);
  assert.ok(shownIn("account-facts").includes(say("of-quota", { open: 1, quota: 9 })));
});

test("a pass that hides the account asks for nothing", async () => {
  club = await openClub("kind = court");
  await lookAtAccount();
  assert.deepEqual(club.asked, []);
  assert.ok(shownIn("account-facts").includes(say("account-denied")));
});

test("the pass's limits are shown, and a copy goes to the clipboard", async () => {
  await openClub("kind = court");
  const copied = [];
  withNavigator({ clipboard: { writeText: async (text) => { copied.push(text); } } });
  showPass();
  assert.match(shownIn("pass-limits"), /kind = court/);
  await buttonIn("pass-buttons", say("copy-pass")).click();
  assert.deepEqual(copied, [state.text]);
});

test("the list can be taken to another device, and brought back", async () => {
  await booked();
  showExport();
  const text = byName("export-text").value;
  assert.equal(text, recordText("amy-1", state.entries));
  assert.notEqual(byName("export-qr").querySelector("svg"), null);
  await state.store.remove("amy-1", state.entries[0].number);
  state.entries = [];
  const brought = offerRecord(text, () => {});
  await buttonIn("dialog", say("import-button")).click();
  await brought;
  assert.deepEqual((await state.store.all()).map(stateOf), ["listed"]);
});

test("a list that isn't right is refused with its line", async () => {
  const told = offerRecord("record of amy-1\nnonsense\n", () => {});
  assert.ok(shownIn("dialog").includes(say("import-wrong", { line: 2 })));
  await buttonIn("dialog", say("close")).click();
  await told;
});

test("a lost booking is noted only if the key used its number", async () => {
  setUpAccount(() => {});
  showLost();
  byName("lost-day").value = SLOT.day;
  const note = async (number) => {
    byName("lost-number").value = String(number);
    await byName("lost").emit("submit");
    return shownIn("lost-news");
  };
  assert.equal(await note("x"), say("lost-wrong-number"));
  assert.equal(await note(77), say("lost-unknown", { key: "amy-1" }));
  const { number } = await booked();
  await state.store.remove("amy-1", number);
  state.entries = [];
  assert.equal(await note(number), say("lost-done"));
});

// ---- The hall's screen

test("the hall's screen shows today and tomorrow, without buttons", async () => {
  // The screen refreshes for ever, each minute.
  const pause = setTimeout;
  globalThis.setTimeout = (act, wait) => (wait < 60_000 ? pause(act, wait) : null);
  globalThis.location.hash = "";
  startScreen(async () => "");
  await settled();
  assert.equal(byName("screen").querySelectorAll("table").length, 2);
  assert.equal(byName("screen").querySelectorAll("button").length, 0);
  assert.ok(shownIn("screen").includes(say("screen-stand", { time: "12:00" })));
  assert.ok(byName("day").hidden && !byName("screen").hidden);
});

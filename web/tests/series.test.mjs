// Tests of several bookings by one confirmation (series.mjs, choice_dialog.mjs, sending.mjs) and of changed bookings
// (change_dialog.mjs): nothing is booked twice, nothing is lost, and each slot's outcome is told.
import assert from "node:assert/strict";
import { beforeEach, test } from "node:test";
import { moreOf } from "../src/again.mjs";
import { offerBooking } from "../src/booking_dialog.mjs";
import { put } from "../src/elements.mjs";
import { exchange } from "../src/desk.mjs";
import { isEntry, newBooking, slotName, stateOf, unfinished } from "../src/record.mjs";
import { NoReply } from "../src/replies.mjs";
import { Sender } from "../src/sender.mjs";
import { limitsOf, mostHours, mostWeeks, NO_ANSWER, planOf, seriesOf, whyNot } from "../src/series.mjs";
import { state } from "../src/state.mjs";
import { say } from "../src/words.mjs";
import { booked, buttonIn, openClub, settled, shownIn, SLOT } from "./doubles/club.mjs";

let club;
beforeEach(async () => { club = await openClub(); });

const VIEW = { kind: "court", price: 200, places: 4, taken: 0, closed: false };
const requests = () => club.asked.filter((each) => !each.startsWith("GET"));
const slotsAsked = () => requests().map((each) => each.replace(/\/bookings.*/, ""));
const byLabel = (words) => document.getElementById("dialog").querySelectorAll("button")
  .find((each) => each.getAttribute("aria-label") === words);
const pressed = async (found) => {
  assert.ok(found !== null && found !== undefined && !found.disabled, shownIn("dialog"));
  await found.click();
  await settled();
};
const press = (words) => pressed(buttonIn("dialog", words));
const full = (day, hour) => club.desk.bookings.push({
  key: "amy-lend-1", number: hour, facility: "court-1", day, hour, guests: 3, charge: 800, left: 0, cancelled: false, refund: 0,
});

// ---- The plan

test("a series has neighbouring hours, and the same hours of the next weeks", () => {
  assert.deepEqual(seriesOf(SLOT, 2, 1).map(slotName), ["court-1 2026-05-01 18", "court-1 2026-05-01 19", "court-1 2026-05-08 18", "court-1 2026-05-08 19"]);
  assert.deepEqual([18, 20, 21].map((hour) => mostHours({ ...SLOT, hour })), [4, 2, 1]);
  assert.deepEqual(["2026-05-01", "2026-05-29", "2026-06-05", "2026-06-12"].map((day) => mostWeeks({ ...SLOT, day })), [3, 2, 1, 0], "60 days ahead");
});

test("a plan leaves out what can't be booked, and waits for what the desk hasn't answered", async () => {
  await booked({ ...SLOT, hour: 21 }, 0);
  const slots = seriesOf(SLOT, 4, 0);
  const views = new Map([[slotName(slots[0]), VIEW], [slotName(slots[1]), { ...VIEW, taken: 4 }], [slotName(slots[3]), VIEW]]);
  const plan = planOf(slots, views, 1);
  assert.deepEqual(plan.map(({ isWaiting, why, agreed }) => [isWaiting, why, agreed]),
    [[false, null, 400], [false, say("cell-full"), 400], [true, null, undefined], [false, say("cell-mine-only"), 400]], "the plan");
  const [failed] = planOf([SLOT], new Map([[slotName(SLOT), NO_ANSWER]]), 0);
  assert.deepEqual([failed.why, failed.agreed], [say("cell-failed"), undefined]);
  assert.equal(whyNot(SLOT, { ...VIEW, taken: 3 }, 1), say("free-now", { count: 1 }));
  assert.equal(whyNot(SLOT, { ...VIEW, closed: true }), say("cell-closed"));
  assert.deepEqual([whyNot(SLOT, null, 9), whyNot({ ...SLOT, day: "2026-04-19" }, VIEW)], [null, say("cell-past")]);
});

test("the quota and the points are told first", () => {
  const account = { quota: 5, open: 3, balance: 500 };
  assert.deepEqual(limitsOf(account, 2, 400), []);
  assert.deepEqual(limitsOf(account, 3, 600), [say("series-quota", { count: 2, quota: 5 }), say("series-points", { count: 500 })], "limits of a series");
  assert.deepEqual(limitsOf(null, 9, 9999), []);
});

// ---- Booking a series

test("two hours are booked by one confirmation, each with a number of its own", async () => {
  offerBooking(SLOT, VIEW, () => {});
  await pressed(byLabel(say("hour-more")));
  await press(say("book-several", { count: 2, points: 400 }));
  assert.deepEqual(slotsAsked(), ["PUT /slots/court-1/2026-05-01/18", "PUT /slots/court-1/2026-05-01/19"]);
  assert.equal(new Set(club.desk.bookings.map(({ number }) => number)).size, 2);
  assert.ok(shownIn("dialog").includes(say("series-booked", { count: 2, all: 2, points: 400 })), shownIn("dialog"));
  for (const { number } of club.desk.bookings) assert.ok(shownIn("dialog").includes(String(number)));
});

test("further weeks leave out a full slot, and say so before and after", async () => {
  full("2026-05-08", 18);
  offerBooking(SLOT, VIEW, () => {});
  await pressed(byLabel(say("week-more")));
  await pressed(byLabel(say("week-more")));
  assert.ok(shownIn("dialog").includes(say("cell-full")), shownIn("dialog"));
  await press(say("book-several", { count: 2, points: 400 }));
  assert.deepEqual(slotsAsked(), ["PUT /slots/court-1/2026-05-01/18", "PUT /slots/court-1/2026-05-15/18"], "the honest rest");
});

test("a second half that the desk refuses is told, and the first half stays", async () => {
  offerBooking(SLOT, VIEW, () => {});
  await pressed(byLabel(say("hour-more")));
  full("2026-05-01", 19);
  await press(say("book-several", { count: 2, points: 400 }));
  assert.ok(shownIn("dialog").includes(say("series-booked", { count: 1, all: 2, points: 200 })), shownIn("dialog"));
  assert.ok(shownIn("dialog").includes(say("fault-18")));
  assert.deepEqual((await state.sender.entries()).map(stateOf).sort(), ["booked", "refused"]);
});

test("a double press books each slot once", async () => {
  offerBooking(SLOT, VIEW, () => {});
  await pressed(byLabel(say("hour-more")));
  const found = buttonIn("dialog", say("book-several", { count: 2, points: 400 }));
  found.click();
  found.click();
  await settled();
  assert.equal(club.desk.bookings.filter(({ key }) => key === "amy-1").length, 2, "bookings after a double press");
});

test("a second tab books no slot of the series again", async () => {
  const orders = seriesOf(SLOT, 2, 0).map((slot) => ({ slot, guests: 0, agreed: 200 }));
  const tabs = [await state.sender.bookAll(orders), await state.sender.bookAll(orders)];
  assert.deepEqual(tabs[1].map(({ second }) => second.number), tabs[0].map(({ number }) => number), "a second tab");
  await state.sender.run();
  assert.equal(requests().length, 2);
});

test("a page that closes after the first half goes on at the next look", async () => {
  const orders = seriesOf(SLOT, 2, 0).map((slot) => ({ slot, guests: 0, agreed: 200 }));
  let count = 0;
  const { sender } = state;
  sender.exchange = (...words) => {
    if (words[1] === "book") count += 1;
    if (count > 1) throw new NoReply("no network");
    return exchange(...words);
  };
  sender.pause = async () => { throw new Error("the page closes"); };
  await sender.bookAll(orders);
  await assert.rejects(sender.run().then(() => sender.run()), /the page closes/);
  assert.deepEqual((await sender.entries()).map(stateOf).sort(), ["asked", "booked"]);
  const next = new Sender({ store: state.store, exchange, lock: (work) => work(), pause: async () => {}, changed: () => {} });
  await next.usePass(state.text, state.key);
  assert.deepEqual((await next.entries()).map(stateOf), ["booked", "booked"]);
  assert.equal(club.desk.bookings.length, 2);
});

// ---- Changing

async function offersChange(entry) {
  put("notices", ...moreOf(entry, () => {}));
  await buttonIn("notices", say("change")).click();
}

test("a booking moves to another day and facility, and the old one is cancelled", async () => {
  const entry = await booked();
  await offersChange(entry);
  document.getElementById("change-facility").value = "boat-1";
  document.getElementById("change-day").value = "2026-05-02";
  await press(say("change-look"));
  await press(say("change-now", { count: 300 }));
  assert.ok(shownIn("dialog").includes(say("changed")), shownIn("dialog"));
  assert.deepEqual(slotsAsked().slice(1), ["PUT /slots/boat-1/2026-05-02/18", "DELETE /slots/court-1/2026-05-01/18"]);
});

test("a change whose second half is lost is finished at the next look", async () => {
  const entry = await booked();
  await state.sender.book({ ...SLOT, hour: 19 }, 1, true, 400, entry.number);
  const lost = Object.assign(new Sender({
    store: state.store, lock: (work) => work(), changed: () => {}, pause: async () => { throw new Error("the page closes"); },
    exchange: (...words) => {
      if (words[1] === "cancel") throw new NoReply("no network");
      return exchange(...words);
    },
  }), { pass: state.text, key: state.key });
  await assert.rejects(lost.run(), /the page closes/);
  assert.deepEqual((await lost.entries()).map(unfinished).sort(), ["cancel", null], "the second half is recorded with the first reply");
  const next = new Sender({ store: state.store, exchange, lock: (work) => work(), pause: async () => {}, changed: () => {} });
  await next.usePass(state.text, state.key);
  assert.deepEqual((await next.entries()).map(stateOf).sort(), ["booked", "cancelled"]);
});

test("a refused change keeps the old booking, and two tabs change it once", async () => {
  const entry = await booked();
  club.desk.members.get("amy").quota = 1;
  await state.sender.book({ ...SLOT, hour: 19 }, 0, true, 200, entry.number);
  assert.deepEqual(await state.sender.book({ ...SLOT, hour: 20 }, 0, true, 200, entry.number), { second: entry }, "two tabs");
  await state.sender.run();
  assert.deepEqual([club.desk.bookings[0].cancelled, requests().length], [false, 2]);
  club.desk.members.get("amy").quota = 9;
  await state.sender.book({ ...SLOT, hour: 20 }, 0, true, 200, entry.number);
  await state.sender.run();
  assert.ok(club.desk.bookings[0].cancelled);
  const second = await state.sender.book({ ...SLOT, hour: 21 }, 0, true, 200, entry.number);
  assert.equal(stateOf(second.second), "cancelled");
});

test("stored values of a change are checked", () => {
  const made = newBooking("amy-1", 7, SLOT, 0, 1, { agreed: 200, replaces: 8 });
  assert.ok(isEntry(made));
  for (const replaces of [0, "8", null, 1.5, 1e9]) assert.ok(!isEntry({ ...made, replaces }), String(replaces));
});

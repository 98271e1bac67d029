// Tests of booking_dialog.mjs, cancel_dialog.mjs, again.mjs, points.mjs and slot_changes.mjs: the
// member sees the cost or the refund first, and each press sends one request to the club's desk.
import assert from "node:assert/strict";
import { beforeEach, test } from "node:test";
import { moreOf } from "../src/again.mjs";
import { closedOwn, offerBooking, offerClosed, offerListed } from "../src/booking_dialog.mjs";
import { fullRefundUntil, offerCancellation } from "../src/cancel_dialog.mjs";
import { put } from "../src/elements.mjs";
import { agreedFor, isDenied, owedFor } from "../src/points.mjs";
import { newBooking, readRecord, stateOf } from "../src/record.mjs";
import { hourChanges, slotChanges } from "../src/slot_changes.mjs";
import { state } from "../src/state.mjs";
import { say } from "../src/words.mjs";
import { booked, buttonIn, openClub, settled, shownIn, SLOT } from "./doubles/club.mjs";

let club;
beforeEach(async () => { club = await openClub(); });

const VIEW = { kind: "court", price: 200, places: 4, taken: 0, closed: false };
const CLOSED = { facility: "boat-1", day: SLOT.day, hour: 18 };
const requests = () => club.asked.filter((each) => !each.startsWith("GET"));
const says = (key) => assert.ok(shownIn("dialog").includes(say(key)), shownIn("dialog"));
const press = async (words) => {
  const found = buttonIn("dialog", words);
  assert.notEqual(found, null, `no button ${words} in ${shownIn("dialog")}`);
  assert.equal(found.disabled, false, `the button ${words} is disabled`);
  await found.click();
  await settled();
};

// ---- Points and changes

test("a booking costs the price for each person, and nothing is known without a view", () => {
  assert.deepEqual([owedFor(VIEW, 0), owedFor(VIEW, 2), owedFor(null, 2)], [200, 600, 0]);
  assert.deepEqual([agreedFor(VIEW, 2), agreedFor(null, 2)], [600, undefined]);
});

test("a pass with a limit of points denies a dearer booking", async () => {
  await openClub("spend <= 500");
  assert.deepEqual([0, 1, 2].map((guests) => isDenied(SLOT, VIEW, guests)), [false, false, true]);
});

test("what changed at a slot is told, and nothing else", () => {
  assert.deepEqual(slotChanges(VIEW, VIEW), []);
  assert.deepEqual(slotChanges(null, VIEW), []);
  const now = { ...VIEW, price: 300, places: 2, taken: 2 };
  const words = [["price-now", 300], ["places-now", 2], ["free-now", 0]];
  assert.deepEqual(slotChanges(VIEW, now), words.map(([key, count]) => say(key, { count })));
  assert.deepEqual(slotChanges(VIEW, { ...VIEW, taken: 4, closed: true }), []);
});

test("other hours of a facility are told", () => {
  const court = { opens: 8, shuts: 22 };
  assert.deepEqual([hourChanges(court, court), hourChanges(null, court)], [[], []]);
  const [words] = hourChanges(court, { opens: 9, shuts: 22 });
  assert.equal(words, say("hours-now", { from: "09:00", to: "22:00" }));
});

// ---- Booking

test("a member sees the cost, chooses guests, and books with one request", async () => {
  offerBooking(SLOT, VIEW, () => {});
  assert.match(shownIn("dialog"), /Court 1/);
  assert.notEqual(buttonIn("dialog", say("book-for", { count: 200 })), null);
  await press("+");
  await press(say("book-for", { count: 400 }));
  assert.equal(requests().length, 1);
  assert.match(requests()[0], /^PUT \/slots\/court-1\/2026-05-01\/18\/bookings\/[0-9]+$/);
  says("booked");
  assert.equal(club.desk.bookings[0].charge, 400);
});

test("no more guests are offered than places are free", async () => {
  offerBooking(SLOT, { ...VIEW, taken: 3 }, () => {});
  assert.ok(buttonIn("dialog", "+").disabled);
  assert.ok(buttonIn("dialog", "\u2212").disabled);
});

test("a second booking of the slot is first asked about", async () => {
  await booked();
  offerBooking(SLOT, { ...VIEW, taken: 2 }, () => {});
  says("second-title");
  await press(say("second-yes"));
  await press(say("book-for", { count: 200 }));
  assert.equal(requests().length, 2);
});

test("a refused booking shows the desk's reason, and books nothing", async () => {
  club.desk.members.get("amy").credited = 100;
  offerBooking(SLOT, VIEW, () => {});
  await press(say("book-for", { count: 200 }));
  says("not-booked");
  assert.equal(club.desk.bookings.length, 0);
});

test("a browser that stores nothing sends nothing", async () => {
  state.store.put = async () => { throw new Error("full"); };
  offerBooking(SLOT, VIEW, () => {});
  await press(say("book-for", { count: 200 }));
  says("not-stored-title");
  assert.deepEqual(requests(), []);
});

test("a closed slot shows its reason and the club's contact", async () => {
  offerClosed(CLOSED, () => {});
  assert.match(shownIn("dialog"), /Repairs/);
  assert.match(shownIn("dialog"), /Mondays at 16/);
  assert.ok(closedOwn(CLOSED).textContent.includes(say("closed-own")));
});

test("a booking of a list is asked for under its own number", async () => {
  const text = "record of amy-1\n7 court-1 2026-05-01 18 guests 1\n";
  const [entry] = readRecord(text, 5).entries;
  await state.store.put(entry);
  offerListed(entry, VIEW, () => {});
  await press(say("book-for", { count: 400 }));
  assert.deepEqual(requests(), ["PUT /slots/court-1/2026-05-01/18/bookings/7"]);
});

// ---- Cancelling

test("a member sees the refund, and cancels with one request", async () => {
  const entry = await booked();
  offerCancellation(entry, () => {});
  assert.ok(shownIn("dialog").includes(say("gives-back", { count: 400 })));
  await press(say("cancel-yes"));
  assert.match(requests()[1], /^DELETE /);
  says("cancelled");
  assert.ok(club.desk.bookings[0].cancelled);
});

test("a cancellation that the desk refuses keeps the booking", async () => {
  const entry = await booked();
  club.desk.bookings.length = 0;
  offerCancellation(entry, () => {});
  await press(say("cancel-yes"));
  says("not-cancelled-title");
});

test("the last moment of a full refund is a day before the slot", () => {
  const { day, time } = fullRefundUntil(SLOT);
  assert.match(day, /^Thursday\s30\sApril/);
  assert.equal(time, "18:00");
});

// ---- More

const more = (entry) => {
  put("notices", ...moreOf(entry, () => {}));
  const buttons = document.getElementById("notices").querySelectorAll("button");
  return buttons.map((each) => each.textContent);
};

test("a booking offers what fits its state", async () => {
  const entry = await booked();
  const all = ["to-calendar", "invite", "next-week", "change"].map((key) => say(key));
  assert.deepEqual(more(entry), all);
  assert.deepEqual(more(newBooking("amy-1", 9, SLOT, 0, 1)), [say("next-week")]);
  assert.deepEqual(more({ ...entry, key: "other" }), all.slice(0, 2));
  state.club = null;
  assert.deepEqual(more(entry), [say("invite")]);
});

test("a pass that may not cancel can't change a booking", async () => {
  club = await openClub("actions = view,book");
  assert.ok(!more(await booked()).includes(say("change")));
});

test("the same hour a week later is offered with its price", async () => {
  more(await booked());
  await buttonIn("notices", say("next-week")).click();
  await settled();
  assert.match(shownIn("dialog"), /8\s+?May/);
  await press(say("book-for", { count: 400 }));
  assert.match(requests()[1], /^PUT \/slots\/court-1\/2026-05-08\/18\//);
});

test("a changed booking is made first, and the old one cancelled after it", async () => {
  more(await booked());
  await buttonIn("notices", say("change")).click();
  document.getElementById("change-guests").value = "0";
  await press(say("change-look"));
  await press(say("change-now", { count: 200 }));
  assert.deepEqual(requests().map((each) => each.split(" ")[0]), ["PUT", "PUT", "DELETE"]);
  says("changed");
  assert.deepEqual(state.sender.unsaved.size, 0);
  const states = (await state.sender.entries()).map(stateOf).sort();
  assert.deepEqual(states, ["booked", "cancelled"]);
});

test("a change that the desk refuses keeps the old booking", async () => {
  more(await booked());
  club.desk.members.get("amy").quota = 1;
  await buttonIn("notices", say("change")).click();
  document.getElementById("change-guests").value = "0";
  await press(say("change-look"));
  await press(say("change-now", { count: 200 }));
  says("change-none");
  assert.ok(!club.desk.bookings[0].cancelled);
});

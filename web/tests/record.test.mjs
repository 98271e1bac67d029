// Tests of the record of bookings: numbers, states, refunds, and the record's text.
import assert from "node:assert/strict";
import { test } from "node:test";
import {
  answered, canBeAsked, compared, costOf, drawnNumber, fragmentOfRecord, hasBegun, isEntry, isLive, isTooFarAhead, merged, newBooking, readRecord, recordOfFragment, recordText,
  refundAt, stateOf, unfinished, wantsOtherNumber, withCancellation, withRequest,
} from "../src/record.mjs";

const SLOT = { facility: "court-1", day: "2026-05-01", hour: 18 };
const ASKED = newBooking("amy-1", 7, SLOT, 2, 1000);
const BOOKED = answered(ASKED, "book", { booking: "amy-1/7", charge: 601, left: 1 });

test("numbers are drawn from the whole range, and none twice", () => {
  const draws = [4294967295, 4294967293, 999999998, 0, 5];
  const next = (array) => { array[0] = draws.shift(); };
  const random = (array) => { next(array); return array; };
  assert.equal(drawnNumber(new Set([999999999]), random), 1);
  assert.equal(drawnNumber(new Set(), random), 6);
  for (let round = 0; round < 1000; round += 1) {
    const number = drawnNumber(new Set());
    assert.ok(number >= 1 && number <= 999999999);
  }
});

test("a booking from its request to its cancellation", () => {
  assert.deepEqual([stateOf(ASKED), unfinished(ASKED), isLive(ASKED)], ["asked", "book", true]);
  assert.deepEqual([stateOf(BOOKED), unfinished(BOOKED), isLive(BOOKED)], ["booked", null, true]);
  const cancelling = withCancellation(BOOKED);
  assert.deepEqual([stateOf(cancelling), unfinished(cancelling), isLive(cancelling)], ["cancelling", "cancel", true]);
  const cancelled = answered(cancelling, "cancel", { booking: "amy-1/7", refund: 601 });
  assert.deepEqual([stateOf(cancelled), unfinished(cancelled), isLive(cancelled)], ["cancelled", null, false]);
  const late = answered(cancelling, "cancel", { fault: 21, text: "slot has begun" });
  assert.deepEqual([stateOf(late), unfinished(late), late.notCancelled.fault], ["booked", null, 21]);
  assert.equal(unfinished(withCancellation(ASKED)), "book");
});

test("a refusal is final, except a refusal of the pass after a request that the desk may have carried out", () => {
  const full = answered({ ...ASKED, unsure: true }, "book", { fault: 18, text: "no places" });
  assert.equal(stateOf(full), "refused");
  const first = answered(ASKED, "book", { fault: 9, text: "not verified" });
  assert.equal(stateOf(first), "refused");
  const later = answered({ ...ASKED, unsure: true }, "book", { fault: 9, text: "not verified" });
  assert.deepEqual([stateOf(later), later.stopped.fault], ["asked", 9]);
  const again = answered(later, "book", { booking: "amy-1/7", charge: 601, left: 1 });
  assert.deepEqual([stateOf(again), again.stopped], ["booked", undefined]);
  assert.ok(wantsOtherNumber(answered(ASKED, "book", { fault: 13, text: "number used" })));
});

test("the refund of a cancellation", () => {
  const rows = [["2026-04-30T18:00", 601], ["2026-04-30T18:01", 300], ["2026-05-01T17:59", 300], ["2026-05-01T18:00", null]];
  for (const [moment, refund] of rows) assert.equal(refundAt(BOOKED, moment), refund, moment);
  assert.equal(refundAt({ ...BOOKED, book: {} }, "2026-04-30T18:00"), null);
});

test("the beginning of a slot, and how far ahead it may be", () => {
  assert.deepEqual([hasBegun(SLOT, "2026-05-01T17:59"), hasBegun(SLOT, "2026-05-01T18:00")], [false, true]);
  assert.deepEqual([isTooFarAhead(SLOT, "2026-03-02T18:00"), isTooFarAhead(SLOT, "2026-03-02T17:59")], [false, true]);
});

test("a round trip of the record as a text", () => {
  const entries = [
    BOOKED, { ...ASKED, number: 8 }, { ...BOOKED, number: 9, cancel: null }, { ...BOOKED, number: 10, cancel: { booking: "amy-1/10", refund: 300 } },
    { ...ASKED, number: 11, guests: null, book: {} }, { ...ASKED, number: 12, book: { fault: 18 } }, { ...BOOKED, key: "bob-1" },
  ];
  const text = recordText("amy-1", entries);
  assert.equal(text, "record of amy-1\n7 court-1 2026-05-01 18 guests 2 charge 601 left 1\n8 court-1 2026-05-01 18 guests 2\n"
    + "9 court-1 2026-05-01 18 guests 2 charge 601 left 1 cancel\n10 court-1 2026-05-01 18 guests 2 charge 601 left 1 refund 300\n"
    + "11 court-1 2026-05-01 18\n");
  const read = readRecord(text, 5);
  assert.equal(read.key, "amy-1");
  assert.deepEqual(read.entries.map(stateOf), Array(5).fill("listed"));
  assert.deepEqual(read.entries.map(unfinished), Array(5).fill(null));
  assert.deepEqual(read.entries.map(isLive), [true, true, true, false, true]);
  assert.deepEqual(read.entries.map(canBeAsked), [false, true, false, false, false]);
  assert.deepEqual(read.entries.map((entry) => refundAt(entry, "2026-04-30T18:00")), [601, null, 601, 601, null]);
  assert.equal(recordText("amy-1", read.entries), text);
  assert.ok(read.entries.every((entry) => entry.unsure && isEntry(entry)));
  assert.deepEqual([stateOf(withRequest(read.entries[1])), unfinished(withRequest(read.entries[1]))], ["asked", "book"]);
  assert.equal(recordOfFragment(`#${fragmentOfRecord(text)}`), text);
  assert.equal(recordOfFragment(`#${fragmentOfRecord(text).replaceAll(";", "%3B").replaceAll("+", "%20")}`), text);
  assert.equal(recordOfFragment("#AgEJY2x1Yi1kZXNr"), null);
  assert.equal(readRecord(text.replaceAll("\n", "\r\n\r\n"), 5).entries.length, 5);
});

test("for a text that isn't a record, the reader returns the wrong line", () => {
  const lines = ["7 court-1 2026-05-01 18 guests 2 charge 601", "0 court-1 2026-05-01 18", "1000000000 court-1 2026-05-01 18", "7 court-1 2026-02-30 18",
    "7 court-1 2026-05-01 24", "7 Court 2026-05-01 18", "7 court-1 2026-05-01 18 guests 50", "7 court-1 2026-05-01 18 guests 2 guests 2",
    "7 court-1 2026-05-01 18 left", "7 court-1 2026-05-01 18 tip 5", "7 court-1 2026-05-01 18 guests 02", "7", "record of amy-1"];
  for (const line of lines) assert.deepEqual(readRecord(`record of amy-1\n8 court-1 2026-05-01 18\n${line}\n`, 5), { wrong: 3 }, line);
  for (const text of ["", "record of Amy", "record", "7 court-1 2026-05-01 18"]) assert.deepEqual(readRecord(text, 5), { wrong: 1 }, text);
});

test("the desk's answers stay next to a list's claims, and of two lists the one that knows more counts", () => {
  const cancelled = { ...BOOKED, cancel: { booking: "amy-1/7", refund: 0 } };
  const [known, asked, booked, gone] = readRecord(`record of amy-1\n${["", " guests 2", " guests 2 charge 601 left 1", " guests 2 charge 601 left 1 refund 0"]
    .map((end) => `7 court-1 2026-05-01 18${end}`).join("\n")}\n`, 5).entries;
  for (const [own, other, kept] of [[undefined, asked, asked], [ASKED, booked, ASKED], [BOOKED, asked, BOOKED], [BOOKED, booked, BOOKED], [cancelled, booked, cancelled],
    [cancelled, gone, cancelled], [ASKED, gone, ASKED], [known, booked, booked], [booked, known, booked], [booked, gone, gone], [gone, booked, gone],
    [BOOKED, { ...gone, hour: 19 }, BOOKED], [booked, { ...gone, hour: 19 }, booked]]) assert.deepEqual(merged(own, other), kept);
  const noted = merged(BOOKED, gone);
  assert.deepEqual([stateOf(noted), isLive(noted), noted.saidCancelled], ["booked", true, true]);
  assert.equal(merged(noted, gone), noted);
  assert.equal(answered(withCancellation(noted), "cancel", { booking: "amy-1/7", refund: 0 }).saidCancelled, undefined);
  // A booking from one list is merged with another list's claims. The member's cancellation stays
  // open, and the desk's answer to it stays.
  const pressed = withCancellation(known);
  const rows = [[pressed, "cancelling"], [answered(pressed, "cancel", { booking: "amy-1/7", refund: 300 }), "cancelled"], [answered(pressed, "cancel", { fault: 21 }), "listed"]];
  for (const [own, state] of rows) {
    const { guests, listed, ...rest } = merged(own, booked);
    assert.deepEqual([stateOf(own), stateOf({ ...rest, listed }), guests, listed], [state, state, 2, booked.listed], `a list after ${state}`);
    assert.deepEqual(rest, (({ guests: before, listed: said, ...more }) => more)(own));
  }
  assert.equal(costOf(rows[1][0]), 0);
});

test("the points that the desk counts show which bookings are missing or may be gone", () => {
  const moment = "2026-04-01T12:00";
  const at = (number, charge, more = {}) => ({ ...BOOKED, number, book: { booking: `amy-1/${number}`, charge, left: 1 }, ...more });
  const list = [at(1, 400), at(2, 200), at(3, 601, { cancel: { booking: "amy-1/3", refund: 300 } }), { ...ASKED, number: 4, book: { fault: 18 } }];
  const rows = [[901, "same", 0, []], [1101, "more", 200, []], [501, "less", 400, [1]], [701, "less", 200, [1, 2]], [801, "less", 100, [2]], [894, "less", 7, [1, 2]]];
  for (const [spent, is, points, numbers] of rows) {
    const found = compared(list, spent, moment);
    assert.deepEqual([found.is, found.points, found.entries.map(({ number }) => number)], [is, points, numbers], spent);
  }
  for (const open of [ASKED, withCancellation(BOOKED), { ...BOOKED, book: {} }]) assert.equal(compared([...list, open], 901, moment), null);
  // A list may claim bookings that don't exist. Such claims neither cast doubt on the bookings that
  // the desk confirmed, nor hide that one of them is gone.
  const madeUp = (charge, refund) => ({ ...ASKED, number: 9, book: {}, listed: { charge, left: 0, ...(refund === undefined ? {} : { refund }) } });
  for (const [extra, spent, is, numbers] of [[madeUp(200), 901, "claims", [9]], [madeUp(400), 901, "claims", [9]], [madeUp(0, 400), 901, "same", []], [madeUp(0, 400), 501, "less", [1]]]) {
    const found = compared([...list, extra], spent, moment);
    assert.deepEqual([found.is, found.entries.map(({ number }) => number)], [is, numbers], `made up, ${spent}`);
  }
});

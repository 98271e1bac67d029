// Tests of the page's state: the bookings that may be gone, and the bookings at a slot.
import assert from "node:assert/strict";
import { test } from "node:test";
import { answered, newBooking, readRecord, slotName } from "../src/record.mjs";
import { isLost, ownAt, spentOfKey, state } from "../src/state.mjs";

const SLOT = { facility: "court-1", day: "2026-05-01", hour: 18 };
const OWN = answered(newBooking("amy-1", 7, SLOT, 1, 1000), "book", { booking: "amy-1/7", charge: 400, left: 2 });
const [LISTED, GONE] = readRecord("record of amy-1\n8 court-1 2026-05-01 18 guests 3 charge 800 left 0\n9 court-1 2026-05-01 18 guests 3 charge 800 left 0 refund 800\n", 5).entries;

function lost(taken, ...entries) {
  Object.assign(state, { key: "amy-1", entries, taken: new Map([[slotName(SLOT), taken]]) });
  return entries.filter(isLost).map(({ number }) => number);
}

test("a list casts no doubt on the desk's bookings, and is itself in doubt if its persons aren't there", () => {
  const rows = [[2, [OWN], []], [1, [OWN], [7]], [2, [OWN, LISTED], [8]], [5, [OWN, LISTED], [8]], [6, [OWN, LISTED], []], [1, [OWN, LISTED], [7, 8]], [4, [LISTED], []], [3, [LISTED], [8]],
    [2, [OWN, GONE], []]];
  for (const [taken, entries, numbers] of rows) assert.deepEqual(lost(taken, ...entries), numbers, `${taken} of ${entries.length}`);
  lost(2, OWN, LISTED);
  assert.equal(spentOfKey(), 400);
});

test("the bookings at a slot include a list's bookings, if the slot has enough persons", () => {
  lost(2, OWN, LISTED, GONE);
  for (const [view, numbers] of [[null, [7, 8]], [{ taken: 6 }, [7, 8]], [{ taken: 5 }, [7]], [{ taken: 1 }, [7]]]) {
    assert.deepEqual(ownAt(SLOT, view).map(({ number }) => number), numbers, `${view?.taken} there`);
  }
  lost(3, LISTED);
  assert.deepEqual([ownAt(SLOT, { taken: 3 }), ownAt(SLOT, { taken: 4 }).length], [[], 1]);
});

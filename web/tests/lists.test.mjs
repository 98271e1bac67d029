// Tests of long or hostile lists: how many bookings one press adds, what only lists show, and the
// cost of a long record.
import assert from "node:assert/strict";
import { test } from "node:test";
import { daysLater } from "../src/dates.mjs";
import { foreignAmong } from "../src/lend.mjs";
import { MOST_AT_ONCE, newsOf, onlyListed } from "../src/lists.mjs";
import { answered, newBooking, readRecord, slotName, withCancellation } from "../src/record.mjs";
import { Sender } from "../src/sender.mjs";
import { denial, isLost, liveAt, ownEntries, spentOfKey, state } from "../src/state.mjs";

function listOf(count, first = 1, day = "2026-05-01") {
  const lines = Array.from({ length: count }, (_, place) =>
    `${first + place} court-1 ${daysLater(day, place)} 18 guests 1 charge 400 left 2`);
  return readRecord(["record of amy-1", ...lines].join("\n"), 5).entries;
}

const SLOT = { facility: "court-1", day: "2026-05-01", hour: 18 };
const OWN = answered(newBooking("amy-1", 1, SLOT, 1, 1000, { agreed: 400 }), "book", { booking: "amy-1/1", charge: 400, left: 2 });

test("one press adds at most 300 bookings of a list, the latest first", () => {
  let entries = [];
  const list = listOf(700);
  const found = [];
  for (let press = 0; press < 4; press += 1) {
    const { news, more } = newsOf(entries, list);
    found.push([news.length, more]);
    entries = [...entries, ...news];
  }
  assert.deepEqual(found, [[300, 400], [300, 100], [100, 0], [0, 0]], "bookings at once");
  assert.equal(entries[0].number, 700);
  assert.equal(new Set(entries.map(({ number }) => number)).size, 700);
  assert.equal(MOST_AT_ONCE, 300);
});

test("a list adds nothing that is known, and changes only what it may", () => {
  assert.deepEqual(newsOf([OWN], listOf(1)), { news: [], more: 0 });
  const [again] = readRecord("record of amy-1\n1 court-1 2026-05-01 18 guests 1 charge 400 left 2 refund 400\n", 5).entries;
  assert.deepEqual(newsOf([OWN], [again]).news, [{ ...OWN, saidCancelled: true }]);
  assert.equal(newsOf([], [...listOf(1), again, again]).news.length, 1);
});

test("what only lists show is removed, and nothing else", async () => {
  const asked = newBooking("amy-1", 2, SLOT, 0, 1000, { agreed: 200 });
  const [listed, noted, cancelling] = readRecord("record of amy-1\n7 court-1 2026-05-01 18 guests 0 charge 200 left 3\n"
    + "8 court-1 2026-05-01 19\n9 court-1 2026-05-01 20 guests 0 charge 200 left 3\n", 5).entries;
  const rows = [OWN, asked, listed, noted, withCancellation(cancelling), { ...listed, key: "bob-1" }];
  assert.deepEqual(onlyListed(rows), [listed, noted, rows[5]]);
  const removed = [];
  const store = { all: async () => rows, removeAll: async (entries) => removed.push(...entries) };
  let changes = 0;
  const sender = new Sender({ store, lock: (work) => work(), changed: () => { changes += 1; } });
  await sender.dropListed();
  assert.deepEqual([removed.map(({ key, number }) => `${key}/${number}`), changes], [["amy-1/7", "amy-1/8", "bob-1/7"], 1]);
});

test("a long record is searched once, and not once for each card", () => {
  const entries = listOf(1500);
  let searches = 0;
  const { filter } = entries;
  entries.filter = (...words) => {
    searches += 1;
    return filter.apply(entries, words);
  };
  const pass = { caveats: [] };
  Object.assign(state, { key: "amy-1", pass, entries, account: null, taken: new Map(entries.map((each) => [slotName(each), 1])) });
  for (const entry of entries) {
    assert.ok(isLost(entry));
    assert.equal(liveAt(entry).length, 1);
    assert.equal(denial("cancel", entry), 0);
  }
  assert.deepEqual([spentOfKey(), ownEntries().length, searches], [0, 1500, 1], "searches of a long record");
  Object.assign(state, { pass: null, entries: [], taken: new Map(), key: null });
});

test("spare passes of another member, and refused ones, aren't kept", async () => {
  const accounts = { a: { member: "amy" }, b: { member: "bob" }, c: { fault: 9 }, d: { member: "amy" } };
  const foreign = await foreignAmong(["a", "b", "c", "d"], "amy", async (text) => accounts[text]);
  assert.deepEqual(foreign, ["b", "c"], "whose spare passes");
});

// Tests of watched slots (watch.mjs, watch_view.mjs): one look at each slot a minute, and one ring.
import assert from "node:assert/strict";
import { beforeEach, test } from "node:test";
import { exchange } from "../src/desk.mjs";
import { put } from "../src/elements.mjs";
import { NoReply } from "../src/replies.mjs";
import { state } from "../src/state.mjs";
import { MOST_WATCHED, Watch } from "../src/watch.mjs";
import { isWatched, offerWatch, setUpWatch, watchNotices } from "../src/watch_view.mjs";
import { say } from "../src/words.mjs";
import { buttonIn, openClub, settled, shownIn, SLOT } from "./doubles/club.mjs";

let club;
beforeEach(async () => { club = await openClub(); });

const FULL = { price: 200, places: 4, taken: 4, closed: false };

// Returns a watch, and what it does: the names of its looks and rings.
function watchOf(replies, moment = "2026-04-20T12:00") {
  const done = [];
  const watch = new Watch({
    look: async ({ hour }) => {
      done.push(`look ${hour}`);
      const reply = replies.shift();
      if (reply === null) throw new NoReply("cut");
      return reply;
    },
    moment: () => moment, ring: ({ hour }) => done.push(`ring ${hour}`), changed: () => {},
  });
  return [watch, done];
}

test("a slot is looked at once a round, and rings once when a place is free", async () => {
  const [watch, done] = watchOf([FULL, null, { ...FULL, closed: true, taken: 0 }, { ...FULL, taken: 3 }, FULL, FULL]);
  watch.add(SLOT);
  watch.add(SLOT);
  for (let round = 0; round < 6; round += 1) await watch.round();
  assert.deepEqual([done, watch.has(SLOT)], [["look 18", "look 18", "look 18", "look 18", "ring 18"], false], "one ring");
});

test("a refused slot, and a slot that has begun, aren't watched any more", async () => {
  const [watch, done] = watchOf([{ fault: 12, caveat: 1 }]);
  watch.add(SLOT);
  await watch.round();
  assert.deepEqual([done, watch.slots.size], [["look 18"], 0]);
  const [late, none] = watchOf([FULL], "2026-05-01T18:00");
  late.add(SLOT);
  await late.round();
  assert.deepEqual([none, late.slots.size], [[], 0]);
});

test("at most five slots are watched, and rounds don't overlap", async () => {
  const [watch, done] = watchOf(Array.from({ length: 20 }, () => FULL));
  const added = Array.from({ length: 7 }, (_, place) => watch.add({ ...SLOT, hour: 10 + place }));
  assert.deepEqual(added, [true, true, true, true, true, false, false]);
  assert.equal(MOST_WATCHED, 5);
  await Promise.all([watch.round(), watch.round()]);
  assert.equal(done.length, 5, "looks in two rounds at once");
});

test("a member lets the page watch a full slot, and stops it", async () => {
  setUpWatch(() => put("notices", ...watchNotices().flat()));
  offerWatch(SLOT, () => {});
  assert.ok(shownIn("dialog").includes(say("watch-says")));
  await buttonIn("dialog", say("watch")).click();
  assert.ok(isWatched(SLOT));
  assert.ok(shownIn("notices").includes("Court 1"));
  assert.deepEqual(club.asked, [], "no request at the press");
  await buttonIn("notices", say("watch-stop")).click();
  await settled();
  assert.deepEqual([isWatched(SLOT), shownIn("notices")], [false, ""]);
  assert.equal((await exchange(state.text, "view", SLOT)).taken, 0);
});

// Tests of demo.mjs and demo_desk.mjs: the trial club answers inside the page, and sends nothing.
import assert from "node:assert/strict";
import { before, test } from "node:test";
import { byName } from "../src/elements.mjs";
import { keptPasses, keptSpares } from "../src/keeping.mjs";
import { state } from "../src/state.mjs";
import { settled, shownIn } from "./doubles/club.mjs";
import { openWhole, seen } from "./doubles/start.mjs";

before(async () => {
  openWhole("book.html");
  globalThis.fetch = () => assert.fail("the trial club sent a request");
  await import("../src/demo.mjs");
  await settled();
});

const requested = async (path, options = {}) => {
  const Authorization = `Bearer ${state.text}`;
  const response = await fetch(path, { ...options, headers: { Authorization } });
  return { status: response.status, ...(await response.json()) };
};

test("the trial club has a member with a pass and two spare passes", () => {
  assert.equal(shownIn("club-name"), "Club to try");
  assert.deepEqual(keptPasses().map((each) => each.name), ["Anna"]);
  assert.equal(keptSpares().length, 2);
  assert.deepEqual(seen("welcome", "day"), ["day"]);
});

test("the trial club's day has slots that others booked, and closed ones", async () => {
  const states = byName("slots").querySelectorAll("button.slot").map((each) => each.className);
  assert.ok(states.length > 60, `${states.length} slots`);
  const { closures } = state.club;
  assert.deepEqual([closures.length, closures[0].why], [3, "Youth training"]);
});

test("a booking in the trial club costs points, and stays in the browser", async () => {
  const day = state.club.closures[0].day;
  const booking = `/slots/room-1/${day}/22/bookings/7`;
  const before = await requested("/account");
  const body = JSON.stringify({ guests: 0 });
  const reply = await requested(booking, { method: "PUT", body });
  assert.deepEqual([reply.status, reply.charge], [200, 600]);
  assert.equal((await requested("/account")).balance, before.balance - 600);
  assert.match(localStorage.getItem("club to try"), /"number":7/);
  const gone = await requested(booking, { method: "DELETE" });
  assert.equal(gone.status, 200);
});

test("a closed slot of the trial club can't be booked", async () => {
  const { facility, day, from } = state.club.closures[0];
  const body = JSON.stringify({ guests: 0 });
  const booking = `/slots/${facility}/${day}/${from}/bookings/8`;
  const reply = await requested(booking, { method: "PUT", body });
  assert.deepEqual([reply.status, reply.fault], [409, 17]);
});

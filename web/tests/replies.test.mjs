// Tests which responses count as replies of the desk.
import assert from "node:assert/strict";
import { test } from "node:test";
import { pauseBefore, REQUESTS } from "../src/desk.mjs";
import { isOfPass, NoReply, readReply, refuseTooMany } from "../src/replies.mjs";
import { VECTORS } from "./kit.mjs";

const SLOT = { facility: "court-1", day: "2026-05-01", hour: 8 };
const BOOKING = { ...SLOT, key: "amy-1", number: 7, guests: 2 };

test("requests have the form that the desk expects", () => {
  assert.deepEqual(REQUESTS.view(SLOT), ["GET", "/slots/court-1/2026-05-01/08"]);
  assert.deepEqual(REQUESTS.book(BOOKING), ["PUT", "/slots/court-1/2026-05-01/08/bookings/7", '{"guests":2}']);
  assert.deepEqual(REQUESTS.cancel(BOOKING), ["DELETE", "/slots/court-1/2026-05-01/08/bookings/7"]);
  assert.deepEqual(REQUESTS.account(), ["GET", "/account"]);
});

// Reads every reply in docs/vectors.json to a request that the page could send.
test("the replies of the vectors", () => {
  let count = 0;
  const steps = [...VECTORS.runs.map(({ exchanges }) => exchanges), ...VECTORS.office.map((run) => run.steps)];
  for (const exchanges of steps) {
    for (const { request, reply } of exchanges.filter((step) => "request" in step)) {
      const asked = /^(GET|PUT|DELETE) (?:\/account|\/slots\/([a-z0-9-]+)\/([0-9-]{10})\/([0-9]{2})(?:\/bookings\/([1-9][0-9]{0,8}))?) HTTP/.exec(request);
      const [head, body] = (reply ?? "").split("\r\n\r\n");
      const status = Number(head.split(" ")[1]);
      if (asked === null || body === undefined || status === 503) continue;
      const action = asked[2] === undefined ? "account" : { GET: "view", PUT: "book", DELETE: "cancel" }[asked[1]];
      const key = body.includes('"booking"') ? JSON.parse(body).booking.split("/")[0] : "amy-1";
      const words = { facility: asked[2], day: asked[3], hour: Number(asked[4]), key, number: Number(asked[5]) };
      assert.deepEqual(readReply(action, words, status, body), JSON.parse(body));
      count += 1;
    }
  }
  assert.ok(count > 40, `${count} replies`);
});

test("responses that aren't replies of the desk", () => {
  const rows = [
    [502, "<html>bad gateway</html>"], [504, ""], [200, "<html>a page</html>"], [200, ""], [200, "[]"], [200, "null"], [200, "7"], [200, '"done"'],
    [500, '{"error":"proxy"}'], [503, '{"fault":22,"text":"unavailable"}'], [200, '{"fault":22,"text":"unavailable"}'],
    [404, '{"fault":18,"text":"no places"}'], [409, '{"fault":"18"}'], [409, '{"fault":23,"text":"x"}'], [409, "{}"],
    [200, '{"booking":"amy-1/8","charge":600,"left":1}'], [200, '{"booking":"bob-1/7","charge":600,"left":1}'], [200, '{"booking":"amy-1/7","charge":600}'],
    [200, '{"booking":"amy-1/7","charge":-1,"left":1}'], [200, '{"booking":"amy-1/7","charge":600,"left":1'], [200, '{"booking":"amy-1/7","refund":600}'],
  ];
  for (const [status, body] of rows) {
    assert.throws(() => readReply("book", BOOKING, status, body), (fault) => fault instanceof NoReply && fault.status === status, body);
  }
  assert.throws(() => readReply("view", SLOT, 200, '{"facility":"court-2","day":"2026-05-01","hour":8,"price":1,"places":1,"taken":0,"closed":false}'), NoReply);
});

test("refusals of the pass", () => {
  for (let fault = 1; fault <= 22; fault += 1) assert.equal(isOfPass({ fault }), fault <= 12);
});

test("pauses double up to five seconds", () => {
  assert.deepEqual([1, 2, 3, 5, 6, 20].map((number) => pauseBefore(number, () => 1)), [200, 400, 800, 3200, 5000, 5000]);
  assert.equal(pauseBefore(4, () => 0), 0);
});

test("a proxy that refuses too many requests says when to retry", () => {
  for (const [field, wait] of [["1", 1000], ["7", 7000], [null, 1000], ["soon", 1000]]) {
    assert.throws(() => refuseTooMany(429, field), (fault) => fault instanceof NoReply && fault.wait === wait && fault.status === 429);
  }
  refuseTooMany(200, null);
});

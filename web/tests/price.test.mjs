// Tests of the price that the page showed: the desk never charges more, whatever happens to the
// request or to the price.
import assert from "node:assert/strict";
import { test } from "node:test";
import { narrowed, readPass, writePass } from "../src/pass.mjs";
import { bookAtPrice } from "../src/price.mjs";
import { answered, isEntry, newBooking, stateOf } from "../src/record.mjs";
import { refusalText } from "../src/refusals.mjs";
import { NoReply } from "../src/replies.mjs";
import { SmallDesk } from "../src/small_desk.mjs";
import { speak } from "./kit.mjs";

const ROOT = new Uint8Array(16);
// A pass of key amy-1, whose root has sixteen zero bytes.
const AMY = "AgIJa2V5OmFteS0xAAAGIN6DUCO_GPEfuM-1MV-MxNrJgiVxMmDgBrq42Kle8bor";
const SLOT = { facility: "court-1", day: "2026-05-01", hour: 18 };
const MOMENT = "2026-04-20T12:00";
const OWN = [8, "amy-1", 0]; // another booking of the key, in another slot

function makeDesk() {
  return new SmallDesk({
    members: { amy: { credited: 10000, quota: 9 } },
    facilities: { "court-1": { kind: "court", places: 4, price: 200, opens: 8, shuts: 22 } },
    keys: { "amy-1": { member: "amy", root: ROOT, revoked: false } },
  });
}

function entryOf(number = 7, guests = 0, agreed = 200) {
  return newBooking("amy-1", number, SLOT, guests, 1000, { agreed });
}

const UNSEEN = { ...entryOf(), agreed: undefined }; // the page showed no price

// Returns a function like exchange() that asks a desk. `before` and `after` run with each request,
// and may throw.
function exchangeWith(desk, { before = () => {}, after = () => {}, log = [] } = {}) {
  return async (text, action, { facility, day, hour, number, guests }) => {
    log.push(action);
    before(action, log);
    const slot = action === "account" ? undefined : { facility, day, hour };
    const { body } = await desk.answer(text, { action, slot, number, guests }, MOMENT);
    after(action, log);
    return body;
  };
}

function book(exchange, entry, more = {}) {
  return bookAtPrice({ exchange, text: AMY, entry, isRepeat: false, guess: 0, ...more });
}

const raise = (desk, price) => { desk.facilities.get("court-1").price = price; };
const elsewhere = (desk, charge) => desk.bookings.push({
  key: OWN[1], number: OWN[0] + desk.bookings.length, ...SLOT, hour: 10, guests: 0, charge, left: 3, cancelled: false, refund: 0,
});

test("a booking at the shown price, and at a lower price", async () => {
  for (const [price, charge] of [[200, 200], [150, 150], [0, 0]]) {
    const desk = makeDesk();
    elsewhere(desk, 450);
    raise(desk, price);
    assert.equal((await book(exchangeWith(desk), entryOf())).charge, charge);
  }
});

test("a price that rose is refused, and the refusal has the new price", async () => {
  const desk = makeDesk();
  elsewhere(desk, 450);
  raise(desk, 9000);
  const reply = await book(exchangeWith(desk), entryOf(7, 1, 400));
  assert.deepEqual([reply.fault, reply.price, desk.bookings.length], [12, 9000, 1], "charged the new price");
  raise(desk, 201); // one point more for each person
  assert.equal((await book(exchangeWith(desk), entryOf(7, 1, 400))).price, 201);
});

test("a price that rises between the page's requests is refused", async () => {
  const desk = makeDesk();
  const log = [];
  const before = (action) => { if (action === "book") raise(desk, 300); };
  const reply = await book(exchangeWith(desk, { before, log }), entryOf());
  assert.deepEqual([reply.price, desk.bookings.length, log], [300, 0, ["account", "book", "view"]]);
});

test("a repeat gets the first reply, although the price rose and the key spent more", async () => {
  const desk = makeDesk();
  const lost = exchangeWith(desk, { after: (action) => { if (action === "book") throw new NoReply("cut"); } });
  await assert.rejects(book(lost, entryOf()), NoReply);
  raise(desk, 900);
  elsewhere(desk, 900);
  const reply = await book(exchangeWith(desk), entryOf(), { isRepeat: true });
  assert.deepEqual([reply.charge, desk.bookings.length], [200, 2]);
});

test("a repeat of a request that never arrived is not charged the new price", async () => {
  const desk = makeDesk();
  const lost = exchangeWith(desk, { before: (action) => { if (action === "book") throw new NoReply("cut"); } });
  await assert.rejects(book(lost, entryOf()), NoReply);
  raise(desk, 900);
  const reply = await book(exchangeWith(desk), entryOf(), { isRepeat: true });
  assert.deepEqual([reply.price, desk.bookings.length], [900, 0]);
  const now = answered({ ...entryOf(), unsure: true }, "book", reply);
  assert.deepEqual([stateOf(now), now.stopped], ["refused", undefined], "the refusal shows that nothing is booked");
});

test("another device that spends points in the meantime delays the booking, and changes no price", async () => {
  const desk = makeDesk();
  let isFirst = true;
  const before = (action) => {
    if (action !== "book" || !isFirst) return;
    isFirst = false;
    elsewhere(desk, 200);
  };
  const exchange = exchangeWith(desk, { before });
  await assert.rejects(book(exchange, entryOf()), NoReply); // the sender then tries again
  assert.equal((await book(exchange, entryOf(), { isRepeat: true })).charge, 200);
});

const LOAN = ["actions = view,book,cancel", "spend <= 5000"];

test("a pass without the account: the page's guess, and a look at the price", async () => {
  const text = writePass(await narrowed(readPass(AMY), LOAN));
  for (const guess of [0, 450, 2000]) { // too low, right and too high
    const desk = makeDesk();
    elsewhere(desk, 450);
    const log = [];
    const exchange = exchangeWith(desk, { log });
    assert.equal((await book(exchange, entryOf(), { text, guess })).charge, 200, `guess ${guess}`);
    assert.ok(!log.includes("account"));
    raise(desk, 900);
    const reply = await book(exchange, entryOf(9), { text, guess });
    assert.deepEqual([reply.fault, reply.price], [12, 900], `guess ${guess}`);
  }
});

test("a repeat under a pass without the account", async () => {
  const text = writePass(await narrowed(readPass(AMY), LOAN));
  const desk = makeDesk();
  const lost = exchangeWith(desk, { after: (action) => { if (action === "book") throw new NoReply("cut"); } });
  await assert.rejects(book(lost, entryOf(), { text }), NoReply);
  raise(desk, 900);
  assert.equal((await book(exchangeWith(desk), entryOf(), { text, isRepeat: true })).charge, 200);
});

test("the pass's own refusals stay as they are", async () => {
  const desk = makeDesk();
  const own = writePass(await narrowed(readPass(AMY), ["guests <= 0", "spend <= 100"]));
  assert.deepEqual(await book(exchangeWith(desk), entryOf(), { text: own }), { fault: 12, text: "caveat denies", caveat: 2 });
  const ended = writePass(await narrowed(readPass(AMY), ["until < 2026-04-20T12:00"]));
  assert.equal((await book(exchangeWith(desk), entryOf(), { text: ended })).caveat, 1);
  desk.keys.get("amy-1").revoked = true;
  assert.equal((await book(exchangeWith(desk), entryOf())).fault, 10);
});

test("a pass that can't take another caveat: the page looks at the price first", async () => {
  const desk = makeDesk();
  const text = writePass(await narrowed(readPass(AMY), Array.from({ length: 64 }, () => "guests <= 9")));
  assert.equal((await book(exchangeWith(desk), entryOf(), { text })).charge, 200);
  raise(desk, 300);
  assert.deepEqual([(await book(exchangeWith(desk), entryOf(9), { text })).price, desk.bookings.length], [300, 1]);
});

test("without a shown price the page sends the pass as it is", async () => {
  const [desk, log] = [makeDesk(), []];
  assert.equal((await book(exchangeWith(desk, { log }), UNSEEN)).charge, 200);
  assert.deepEqual(log, ["book"]);
});

test("the sentence about a price, and the agreed points in the record", () => {
  const reply = { fault: 12, caveat: 1, price: 450 };
  speak("en");
  assert.match(refusalText(reply, "book", entryOf(7, 1, 400)), /900 points, not 400/);
  assert.match(refusalText({ ...reply, price: null }, "book", entryOf()), /doesn't show/);
  speak("de");
  assert.match(refusalText(reply, "book", entryOf(7, 1, 400)), /900 Punkte.* 400/);
  assert.ok(isEntry(entryOf()) && isEntry(UNSEEN));
  for (const agreed of [-1, 1.5, "200", null, 499951]) assert.ok(!isEntry(entryOf(7, 0, agreed)), String(agreed));
});

// Tests of the sender, with a store and a desk of the test. No failure makes the sender book twice
// or lose a booking that the desk has acknowledged.
import assert from "node:assert/strict";
import { test } from "node:test";
import { isEntry, readRecord, stateOf, unfinished } from "../src/record.mjs";
import { NoReply } from "../src/replies.mjs";
import { NotStored, Sender } from "../src/sender.mjs";

const SLOT = { facility: "court-1", day: "2026-05-01", hour: 18 };

class MemoryStore {
  constructor() {
    this.rows = new Map();
    this.log = [];
    this.failing = 0;
  }

  async all() { return [...this.rows.values()].map((entry) => structuredClone(entry)); }

  async get(key, number) { return structuredClone(this.rows.get(`${key}/${number}`)); }

  async put(...entries) {
    if (this.failing > 0) {
      this.failing -= 1;
      throw new Error("full");
    }
    for (const entry of entries) {
      this.rows.set(`${entry.key}/${entry.number}`, structuredClone(entry));
      this.log.push(`put ${entry.number} ${stateOf(entry)}`);
    }
  }
}

// A desk that records bookings, but may lose requests and replies. For each request, `fate` returns
// "reply", "lost before" or "lost after".
class Desk {
  constructor(fate = () => "reply") {
    this.fate = fate;
    this.bookings = new Map();
    this.log = [];
  }

  served(action, entry) {
    const name = `${entry.key}/${entry.number}`;
    const found = this.bookings.get(name);
    if (action === "book") {
      if (found !== undefined && found.guests !== entry.guests) return { fault: 13, text: "number used" };
      if (found === undefined) this.bookings.set(name, { guests: entry.guests, cancelled: false });
      return { booking: name, charge: 200 * (entry.guests + 1), left: 1 };
    }
    if (found === undefined) return { fault: 15, text: "no such booking" };
    found.cancelled = true;
    return { booking: name, refund: 200 };
  }

  async exchange(pass, action, entry) {
    this.log.push(`${action} ${entry.number}`);
    const fate = this.fate(this.log.length, pass, action, entry);
    if (typeof fate === "object") return fate;
    if (fate === "lost before") throw new NoReply("cut");
    const reply = this.served(action, entry);
    if (fate === "lost after") throw new NoReply("cut");
    return reply;
  }
}

function locked() {
  let last = Promise.resolve();
  return (work) => {
    const mine = last.then(work, work);
    last = mine.catch(() => {});
    return mine;
  };
}

function senderOf(store, desk, more = {}) {
  const numbers = [41, 42, 43, 44, 45, 46, 47, 48, 49];
  const sender = new Sender({
    store, exchange: (...words) => desk.exchange(...words), lock: locked(), pause: async () => {}, changed: () => {}, now: () => 1000,
    draw: (used) => numbers.find((number) => !used.has(number)), ...more,
  });
  sender.pass = "PASS";
  sender.key = "amy-1";
  return sender;
}

test("a booking is recorded before it is sent, and its reply afterwards", async () => {
  const [store, desk] = [new MemoryStore(), new Desk()];
  desk.fate = () => { assert.deepEqual(store.log, ["put 41 asked"]); return "reply"; };
  const sender = senderOf(store, desk);
  const entry = await sender.book(SLOT, 2, false);
  await sender.run();
  assert.deepEqual(store.log, ["put 41 asked", "put 41 booked"]);
  assert.deepEqual(desk.log, ["book 41"]);
  assert.equal(store.rows.get("amy-1/41").book.charge, 600);
  assert.equal(entry.number, 41);
});

test("the status of a response that isn't a reply is known until a reply comes", async () => {
  const [store, desk] = [new MemoryStore(), new Desk()];
  const found = [];
  const sender = senderOf(store, {
    exchange: (...words) => {
      found.push(sender.status);
      if (found.length < 3) throw new NoReply("status", [502, 504][found.length - 1]);
      return desk.exchange(...words);
    },
  });
  await sender.book(SLOT, 0, false);
  await sender.run();
  assert.deepEqual([...found, sender.status], [0, 502, 504, 0]);
});

for (const fate of ["lost before", "lost after"]) {
  test(`a request is sent again if it is ${fate} reaching the desk`, async () => {
    const store = new MemoryStore();
    const desk = new Desk((count) => count <= 3 ? fate : "reply");
    const sender = senderOf(store, desk);
    await sender.book(SLOT, 2, false);
    await sender.run();
    assert.deepEqual(desk.log, ["book 41", "book 41", "book 41", "book 41"]);
    assert.equal(desk.bookings.size, 1);
    assert.equal(stateOf(store.rows.get("amy-1/41")), "booked");
  });
}

test("the sender asks before a second booking of the slot", async () => {
  const [store, desk] = [new MemoryStore(), new Desk()];
  const sender = senderOf(store, desk);
  await Promise.all([sender.book(SLOT, 2, false), sender.book(SLOT, 2, false)]).then(([first, second]) => {
    assert.equal(first.number, 41);
    assert.equal(second.second.number, 41);
  });
  await sender.book(SLOT, 2, true);
  await sender.run();
  assert.equal(desk.bookings.size, 2);
});

test("two tabs send nothing twice", async () => {
  const [store, desk, lock] = [new MemoryStore(), new Desk(), locked()];
  const tabs = [senderOf(store, desk, { lock }), senderOf(store, desk, { lock })];
  await tabs[0].book(SLOT, 0, false);
  assert.equal((await tabs[1].book(SLOT, 0, false)).second.number, 41);
  await tabs[1].book({ ...SLOT, hour: 19 }, 0, false);
  await Promise.all(tabs.map((tab) => tab.run()));
  assert.deepEqual(desk.log.sort(), ["book 41", "book 42"]);
});

test("a used number is replaced in one change of the record", async () => {
  const [store, desk] = [new MemoryStore(), new Desk()];
  desk.bookings.set("amy-1/41", { guests: 9, cancelled: false });
  const sender = senderOf(store, desk);
  const entry = await sender.book(SLOT, 2, false);
  const followed = [];
  sender.follow(entry, (now) => followed.push([now.number, stateOf(now)]));
  await sender.run();
  assert.deepEqual(desk.log, ["book 41", "book 42"]);
  assert.deepEqual(followed, [[42, "asked"], [42, "booked"]]);
  assert.equal(stateOf(store.rows.get("amy-1/41")), "refused");
});

test("nothing is sent if the record can't be written", async () => {
  const [store, desk] = [new MemoryStore(), new Desk()];
  const sender = senderOf(store, desk);
  store.failing = 1;
  await assert.rejects(sender.book(SLOT, 2, false), NotStored);
  await sender.run();
  assert.deepEqual(desk.log, []);
});

test("a reply that can't be recorded is requested again at the next visit, and not before", async () => {
  const [store, desk] = [new MemoryStore(), new Desk()];
  const sender = senderOf(store, desk);
  await sender.book(SLOT, 2, false);
  store.failing = 1;
  await sender.run();
  assert.deepEqual(desk.log, ["book 41"]);
  assert.equal(stateOf((await sender.entries())[0]), "booked");
  assert.equal(sender.unsaved.size, 1);
  const next = senderOf(store, desk);
  await next.run();
  assert.deepEqual(desk.log, ["book 41", "book 41"]);
  assert.equal(stateOf(store.rows.get("amy-1/41")), "booked");
});

test("a refused pass stops a request that the desk may have carried out, until another pass comes", async () => {
  const store = new MemoryStore();
  const desk = new Desk((count, pass) => count === 1 ? "lost after" : pass === "PASS" ? { fault: 9, text: "not verified" } : "reply");
  const sender = senderOf(store, desk);
  await sender.book(SLOT, 2, false);
  await sender.run();
  assert.deepEqual(desk.log, ["book 41", "book 41"]);
  assert.equal(stateOf(store.rows.get("amy-1/41")), "asked");
  assert.equal(store.rows.get("amy-1/41").stopped.fault, 9);
  await sender.usePass("NEW", "amy-1");
  assert.equal(stateOf(store.rows.get("amy-1/41")), "booked");
  assert.equal(desk.bookings.size, 1);
});

test("a pass that is refused at once books nothing, and the request isn't sent again", async () => {
  const store = new MemoryStore();
  const desk = new Desk(() => ({ fault: 12, text: "caveat denies", caveat: 1 }));
  const sender = senderOf(store, desk);
  await sender.book(SLOT, 2, false);
  await sender.run();
  assert.equal(stateOf(store.rows.get("amy-1/41")), "refused");
  assert.equal(desk.log.length, 1);
});

test("a cancellation is sent after the booking that has no reply", async () => {
  const store = new MemoryStore();
  const desk = new Desk((count) => count <= 2 ? "lost after" : "reply");
  const sender = senderOf(store, desk);
  await sender.book(SLOT, 2, false);
  await sender.cancel("amy-1", 41);
  await sender.run();
  assert.deepEqual(desk.log, ["book 41", "book 41", "book 41", "cancel 41"]);
  assert.equal(stateOf(store.rows.get("amy-1/41")), "cancelled");
  await sender.cancel("amy-1", 41);
  await sender.run();
  assert.equal(desk.log.length, 4);
});

test("bookings of another key wait for its pass", async () => {
  const [store, desk] = [new MemoryStore(), new Desk()];
  const sender = senderOf(store, desk);
  await sender.book(SLOT, 2, false);
  sender.key = "bob-1";
  await sender.run();
  assert.deepEqual(desk.log, []);
  await sender.usePass("PASS", "amy-1");
  assert.deepEqual(desk.log, ["book 41"]);
});

test("200 bookings and cancellations, with requests lost at every place and tabs that end: the record matches the desk", async () => {
  let seed = 20260501;
  const random = () => { seed = (seed * 1103515245 + 12345) % 2147483648; return seed / 2147483648; };
  const store = new MemoryStore();
  const fates = ["reply", "reply", "lost before", "lost after"];
  const desk = new Desk(() => {
    if (random() < 0.05) throw new Error("the tab ends");
    return fates[Math.floor(random() * 4)];
  });
  const draw = (used) => { for (;;) { const number = 1 + Math.floor(random() * 400); if (!used.has(number)) return number; } };
  let sender = senderOf(store, desk, { draw });
  const surviving = async (work) => {
    for (;;) {
      try {
        return await work();
      } catch (fault) {
        if (fault.message !== "the tab ends") throw fault;
        sender = senderOf(store, desk, { draw });
      }
    }
  };
  for (let place = 0; place < 200; place += 1) {
    const slot = { ...SLOT, facility: `court-${place}`, hour: place % 24 };
    const entry = await sender.book(slot, place % 3, false);
    await surviving(() => sender.run());
    const booked = [...store.rows.values()].find((each) => each.facility === slot.facility && stateOf(each) === "booked");
    assert.ok(booked, `${entry.number}`);
    if (place % 2) await sender.cancel("amy-1", booked.number);
    await surviving(() => sender.run());
  }
  const rows = [...store.rows.values()].filter((entry) => stateOf(entry) !== "refused");
  assert.ok(rows.every((entry) => unfinished(entry) === null));
  assert.deepEqual(rows.map((entry) => [entry.number, entry.guests, stateOf(entry) === "cancelled"]).sort(),
    [...desk.bookings].map(([name, { guests, cancelled }]) => [Number(name.split("/")[1]), guests, cancelled]).sort());
});

test("a listed booking is never sent by itself, and on request only under its number", async () => {
  const store = new MemoryStore();
  const desk = new Desk();
  const { entries } = readRecord("record of amy-1\n7 court-1 2026-05-01 18 guests 1\n8 court-1 2026-05-01 19 guests 0 charge 200 left 3 cancel\n"
    + "9 court-1 2026-05-01 20 guests 0 cancel\n", 5);
  await store.put(...entries);
  const sender = senderOf(store, desk);
  await sender.usePass("pass", "amy-1");
  await sender.run();
  assert.deepEqual(desk.log, []);
  await sender.askFor("amy-1", 7);
  await sender.run();
  assert.deepEqual(desk.log, ["book 7"]);
  assert.deepEqual([stateOf(await store.get("amy-1", 7)), (await store.get("amy-1", 7)).book.charge], ["booked", 400]);
  await sender.askFor("amy-1", 7); // has no effect, because booking 7 isn't a listed booking any more
  await sender.cancel("amy-1", 8);
  await sender.run();
  assert.deepEqual(desk.log, ["book 7", "cancel 8"]);
  assert.equal((await store.get("amy-1", 8)).notCancelled.fault, 15);
  assert.equal(stateOf(await store.get("amy-1", 8)), "listed");
  // A listed booking may state other guests than the desk's booking with the same number. The
  // sender then makes no additional booking.
  desk.bookings.set("amy-1/9", { guests: 2, cancelled: false });
  await sender.askFor("amy-1", 9);
  await sender.run();
  assert.deepEqual(desk.log.slice(2), ["book 9"], "another booking of that number");
  assert.deepEqual([stateOf(await store.get("amy-1", 9)), (await sender.entries()).length], ["refused", 3]);
});

test("stored values that no page wrote are neither listed nor sent", async () => {
  const store = new MemoryStore();
  const desk = new Desk();
  const good = { key: "amy-1", number: 7, ...SLOT, guests: 0, book: null, unsure: true, asked: 1 };
  const odd = [{ number: "7" }, { number: 0 }, { number: 1e9 }, { facility: "Court" }, { facility: "../x" }, { day: "2026-02-30" }, { day: "2026-05" }, { hour: 24 },
    { hour: "18" }, { guests: null }, { guests: 50 }, { guests: "2" }, { book: "booked" }, { book: undefined }, { cancel: "x" }, { listed: null }, { listed: {} },
    { asked: "now" }, { key: "Amy" }, { key: ["amy-1"] }];
  for (const [place, more] of odd.entries()) store.rows.set(`odd ${place}`, { ...good, ...more });
  for (const [place, value] of [null, 7, "x", []].entries()) store.rows.set(`none ${place}`, value);
  const sender = senderOf(store, desk);
  await sender.usePass("pass", "amy-1");
  assert.deepEqual([await sender.entries(), desk.log], [[], []]);
  assert.ok(isEntry(good));
});

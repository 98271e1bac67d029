// Tests of stored passes and loans, and of loans that only the page knows because the browser can't
// store more.
import assert from "node:assert/strict";
import { beforeEach, test } from "node:test";
import { dropLoan, dropSpare, isPassTooMany, keepLoan, keepPass, keepSpares, keptLoans, keptPasses, keptSpares, sparesTooMany } from "../src/keeping.mjs";
import { freeSpares } from "../src/lend.mjs";
import { narrowed, readPass, writePass } from "../src/pass.mjs";

// AMY is a pass of key amy-1, whose root has sixteen zero bytes. SPARES has this pass, and the same
// pass with another signature.
const AMY = readPass("AgIJa2V5OmFteS0xAAAGIN6DUCO_GPEfuM-1MV-MxNrJgiVxMmDgBrq42Kle8bor");
const SPARES = [writePass(AMY), writePass({ ...AMY, signature: AMY.signature.map((byte) => byte ^ 1) })];

// A browser's storage, which refuses every value when it is full.
class Room {
  isFull = false;
  values = new Map();

  getItem(name) {
    return this.values.get(name) ?? null;
  }

  setItem(name, value) {
    if (this.isFull) throw new DOMException("no room", "QuotaExceededError");
    this.values.set(name, value);
  }

  removeItem(name) {
    this.values.delete(name);
  }
}

beforeEach(() => {
  Object.defineProperty(globalThis, "localStorage", { value: new Room(), configurable: true });
});

const free = () => freeSpares(SPARES, keptLoans(), "2026-12-01T00:00").map(({ text }) => text);
const loanOf = async (spare, number) => ({ given: writePass(await narrowed(AMY, ["until < 2026-12-05T00:00", `spend <= ${number}`])), says: `loan ${number}`, spare });

test("a spare pass is lent once while the page is open, even if the storage is full", async () => {
  localStorage.isFull = true;
  const first = await loanOf(SPARES[0], 1);
  assert.equal(keepLoan(first), false);
  assert.deepEqual(free(), [SPARES[1]]);
  const second = await loanOf(SPARES[1], 2);
  assert.equal(keepLoan(second), false);
  assert.deepEqual([free(), keptLoans().map(({ says }) => says)], [[], ["loan 2", "loan 1"]]);
  dropLoan(first);
  dropLoan(second);
  assert.deepEqual([free(), keptLoans()], [SPARES, []]);
});

test("a new loan replaces no earlier loan", async () => {
  const first = await loanOf(SPARES[0], 1);
  assert.equal(keepLoan(first), true);
  for (let number = 2; number <= 50; number += 1) assert.equal(keepLoan(await loanOf("", number)), true);
  const last = await loanOf(SPARES[1], 51);
  assert.equal(keepLoan(last), false);
  assert.deepEqual([free(), keptLoans().length, JSON.parse(localStorage.getItem("loans")).length], [[], 51, 50]);
  dropLoan(last);
});

const TWENTY = Array.from({ length: 20 }, (_, count) => `pass ${count + 1}`);

test("at most twenty passes are kept", () => {
  for (const text of TWENTY) assert.deepEqual([isPassTooMany(text), keepPass(text, text)], [false, true]);
  assert.deepEqual([isPassTooMany("another"), keepPass("another", "another"), keptPasses().length], [true, false, 20]);
  assert.deepEqual([isPassTooMany("pass 1"), keepPass("pass 1", "Anna"), keptPasses()[0]], [false, true, { text: "pass 1", name: "Anna" }]);
});

test("at most twenty spare passes are kept; of several new ones, all or none are kept", () => {
  assert.deepEqual([sparesTooMany(TWENTY), keepSpares(TWENTY.slice(0, 19)), keptSpares()], [0, true, TWENTY.slice(0, 19)]);
  assert.deepEqual([sparesTooMany(["pass 1", "a"]), sparesTooMany(["a", "b"]), keepSpares(["a", "b"]), keptSpares().length], [0, 1, false, 19]);
  dropSpare("pass 1");
  assert.deepEqual([sparesTooMany(["a", "b"]), keepSpares(["a", "b"]), keptSpares()], [0, true, [...TWENTY.slice(1, 19), "a", "b"]]);
  localStorage.isFull = true;
  assert.deepEqual([sparesTooMany(["pass 2"]), keepSpares(["pass 2"])], [0, false]);
});

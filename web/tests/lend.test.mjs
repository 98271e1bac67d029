// Tests of loans: the lines of a lent pass, its end, and the spare passes that aren't lent.
import assert from "node:assert/strict";
import { test } from "node:test";
import { allowsFacility, endOf, freeSpares, lastDayOf, limitOf, linesOf, sparesLent } from "../src/lend.mjs";
import { keyName, narrowed, readPass, splitGiven, withSpent, writePass } from "../src/pass.mjs";

// A pass of key amy-1, whose root has sixteen zero bytes.
const AMY = readPass("AgIJa2V5OmFteS0xAAAGIN6DUCO_GPEfuM-1MV-MxNrJgiVxMmDgBrq42Kle8bor");
const part = (...lines) => narrowed(AMY, lines);

test("the lines of a loan", () => {
  const friday = { isToLook: false, last: "2026-12-04", points: 600, spent: 0 };
  assert.deepEqual(linesOf({ ...friday, kind: "court" }), ["kind = court", "actions = view,book,cancel", "until < 2026-12-05T00:00", "spend <= 600"]);
  assert.deepEqual(linesOf({ ...friday, facility: "court-1", spent: 450 }), ["facility = court-1", "actions = view,book,cancel", "until < 2026-12-05T00:00", "spend <= 1050"]);
  assert.deepEqual(linesOf({ ...friday, isToLook: true }), ["actions = view", "until < 2026-12-05T00:00"]);
  assert.deepEqual(linesOf({ ...friday, points: null, last: "2026-12-31" }), ["actions = view,book,cancel", "until < 2027-01-01T00:00"]);
  assert.deepEqual(linesOf({ ...friday, spent: 999999900 }).at(-1), "spend <= 999999999");
});

test("the end of a pass, its points, and the facilities that it allows", async () => {
  assert.deepEqual([endOf(AMY), limitOf(AMY), allowsFacility(AMY, { name: "court-1", kind: "court" })], [null, null, true]);
  const lent = await part("until < 2026-12-05T00:00", "spend <= 600", "until < 2026-12-04T18:00", "spend <= 700", "kind = court", "facility = court-1,boat-1");
  assert.deepEqual([endOf(lent), limitOf(lent)], ["2026-12-04T18:00", 600]);
  assert.deepEqual([AMY, lent, await part("until < 2026-12-05T00:00"), await part("until < 2027-01-01T00:00")].map(lastDayOf), [null, "2026-12-04", "2026-12-04", "2026-12-31"]);
  assert.deepEqual([["court-1", "court"], ["court-2", "court"], ["boat-1", "boat"]].map(([name, kind]) => allowsFacility(lent, { name, kind })), [true, false, false]);
});

test("a spare pass is free before a loan, and again after the loan's end", async () => {
  const spare = writePass(AMY);
  const loans = [{ text: writePass(await part("until < 2026-12-05T00:00")), spare }, { text: "odd", spare }, { text: spare, spare: "" }];
  assert.deepEqual(freeSpares([spare, "odd"], loans, "2026-12-04T23:59"), []);
  assert.deepEqual(freeSpares([spare, "odd"], loans, "2026-12-05T00:00").map(({ pass }) => keyName(pass)), ["amy-1"]);
  assert.deepEqual([...sparesLent([{ text: spare, spare }], "2099-12-31T23:59")], [spare]);
  const renewed = writePass({ ...AMY, signature: AMY.signature.map((byte) => byte ^ 1) });
  assert.deepEqual(freeSpares([spare, renewed], loans, "2026-12-04T23:59").map(({ text }) => text), [renewed]);
});

test("the points that a pass's key spent before are next to the pass, and not a part of it", () => {
  const rows = [["AgEJ", 0, "AgEJ"], ["AgEJ", 450, "AgEJ;spent=450"]];
  for (const [text, spent, given] of rows) {
    assert.equal(withSpent(text, spent), given);
    assert.deepEqual(splitGiven(given), { text, spent });
  }
  for (const odd of ["AgEJ;spent=", "AgEJ;spent=-1", "AgEJ;spent=1e3", "AgEJ;spent=1234567890", "AgEJ;more=1"]) assert.deepEqual(splitGiven(odd), { text: odd, spent: 0 });
});

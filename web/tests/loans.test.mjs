// Tests of loans: what was booked under them, their points, their end, and the way to the office.
import assert from "node:assert/strict";
import { beforeEach, test } from "node:test";
import { readCaveat } from "../src/caveats.mjs";
import { fullRefundUntil } from "../src/cancel_dialog.mjs";
import { bytesOf } from "../src/bytes.mjs";
import { endLoan, keepLoan, keptLoans } from "../src/keeping.mjs";
import { freeSpares, fullRefundEnd, linesOf } from "../src/lend.mjs";
import { bookedUnder, keyOfLoan, mailTo, openUnder, pointsOf, stateOfLoan, unknownPoints, waysTo } from "../src/loans.mjs";
import { narrowed, readPass, writePass } from "../src/pass.mjs";
import { readRecord, withCancellation } from "../src/record.mjs";
import { canCancel, cancelled, senderOf } from "../src/senders.mjs";
import { state } from "../src/state.mjs";
import { speak } from "./kit.mjs";

// A pass of key amy-1, whose root has sixteen zero bytes. In these tests, it is a spare pass.
const SPARE = "AgIJa2V5OmFteS0xAAAGIN6DUCO_GPEfuM-1MV-MxNrJgiVxMmDgBrq42Kle8bor";
const LINES = ["actions = view,book,cancel", "until < 2026-12-05T00:00", "spend <= 800"];
const loanOf = async (more = {}) => ({
  given: "", text: writePass(await narrowed(readPass(SPARE), LINES)), says: "Max may book.", spare: SPARE, spent: 200, ended: false, ...more,
});
const ENTRIES = readRecord("record of amy-1\n7 court-1 2026-12-04 18 guests 0 charge 200 left 3\n8 court-1 2026-12-03 18 guests 0 charge 200 left 3 refund 200\n"
  + "9 court-1 2026-12-01 08 guests 1 charge 400 left 2\n", 5).entries;
const NOON = "2026-12-01T12:00";

beforeEach(() => {
  const values = new Map();
  const room = { getItem: (name) => values.get(name) ?? null, setItem: (name, value) => values.set(name, value), removeItem: (name) => values.delete(name) };
  Object.defineProperty(globalThis, "localStorage", { value: room, configurable: true });
});

test("until Friday means slots until Friday, unless later days are allowed", () => {
  const friday = { isToLook: false, last: "2026-12-04", points: 600, spent: 0 };
  assert.deepEqual(linesOf({ ...friday, first: "2026-12-01" }),
    ["actions = view,book,cancel", "days = 2026-12-01..2026-12-04", "until < 2026-12-05T00:00", "spend <= 600"], "the days of a loan");
  assert.equal(linesOf({ ...friday, first: "" }).length, 3);
  assert.deepEqual(linesOf({ ...friday, first: "2026-12-01", isToLook: true }), ["actions = view", "until < 2026-12-05T00:00"]);
  assert.ok(linesOf({ ...friday, first: "2026-12-04" }).every((line) => readCaveat(bytesOf(line)) !== null));
});

test("a refund is promised only until the pass ends", async () => {
  const pass = readPass((await loanOf()).text);
  const [late, early] = [{ day: "2026-12-08", hour: 18 }, { day: "2026-12-04", hour: 18 }];
  assert.deepEqual([fullRefundEnd(late, pass), fullRefundEnd(early, pass), fullRefundEnd(late, null)],
    ["2026-12-05T00:00", "2026-12-03T18:00", "2026-12-07T18:00"], "the end of a refund");
  speak("en");
  assert.deepEqual(fullRefundUntil(late, pass), { day: "Friday 4 December", time: "24:00" });
  assert.deepEqual(fullRefundUntil(early, pass), { day: "Thursday 3 December", time: "18:00" });
});

test("what was booked under a loan", async () => {
  const loan = await loanOf();
  assert.equal(keyOfLoan(loan), "amy-1");
  assert.deepEqual(bookedUnder(loan, ENTRIES).map(({ number }) => number), [9, 8, 7]);
  assert.deepEqual(openUnder(loan, ENTRIES, NOON).map(({ number }) => number), [7]);
  assert.deepEqual(bookedUnder({ ...loan, spare: "" }, ENTRIES), []);
  assert.deepEqual(pointsOf(loan, 800), { spent: 600, most: 600 });
  assert.deepEqual([pointsOf(loan, undefined), pointsOf({ ...loan, text: SPARE }, 800)], [null, null]);
  assert.deepEqual([800, 950, 700, undefined].map((spent) => unknownPoints(loan, ENTRIES, spent)), [0, 150, 0, 0]);
});

test("the states of a loan", async () => {
  const loan = await loanOf();
  const ended = { ...loan, ended: true };
  const rows = [[loan, NOON, false, "current"], [loan, "2026-12-05T00:00", false, "over"], [ended, NOON, false, "ended"], [ended, NOON, true, "revoked"],
    [ended, "2026-12-05T00:00", false, "over"], [loan, NOON, true, "current"]];
  for (const [each, moment, isRefused, wanted] of rows) assert.equal(stateOfLoan(each, moment, isRefused), wanted, wanted);
});

test("an ended loan's spare pass is lent to nobody else", async () => {
  const { text: given, says, spare } = await loanOf();
  keepLoan({ given, says, spare });
  assert.deepEqual([keptLoans()[0].ended, endLoan({ given }), keptLoans()[0].ended], [false, true, true]);
  for (const moment of [NOON, "2027-01-01T00:00"]) assert.deepEqual(freeSpares([SPARE], keptLoans(), moment), [], "an ended loan's spare pass");
  assert.equal(freeSpares([SPARE], [], NOON).length, 1);
});

test("the office's mail address and telephone number, from the club's contact", () => {
  const rows = [
    ["Club house, Mondays from 16 to 18", "", ""], ["Tel. 030 1234-56", "", "030123456"], ["+49 (0)30 123456, office@club.example", "office@club.example", "+4930123456"],
    ["buero@tc-blau-weiss.de", "buero@tc-blau-weiss.de", ""], ["javascript:alert(1)", "", ""], ["a@b", "", ""], ["x@y.example?bcc=evil@z.example", "x@y.example", ""],
  ];
  for (const [contact, mail, phone] of rows) assert.deepEqual(waysTo(contact), { mail, phone }, contact);
  assert.equal(mailTo("a@b.example", "R&D?", "x\ny&bcc=z"), "mailto:a@b.example?subject=R%26D%3F&body=x%0Ay%26bcc%3Dz");
});

test("a member cancels under a loan with her spare pass", async () => {
  const sent = [];
  const makeSender = () => ({
    async cancel(key, number) { sent.push([this.pass, key, number]); },
    follow(entry, call) { this.call = () => call({ ...withCancellation(entry), cancel: { refund: 200 } }); },
    async run() { this.call(); },
  });
  Object.assign(state, { key: "bob-1", pass: { caveats: [] }, makeSender, club: { zone: "UTC", facilities: [] } });
  assert.equal(senderOf("amy-1"), null);
  localStorage.setItem("spares", JSON.stringify([SPARE]));
  assert.ok(canCancel(ENTRIES[0]));
  assert.equal((await cancelled(ENTRIES[0])).cancel.refund, 200);
  assert.deepEqual(sent, [[SPARE, "amy-1", 7]]);
  localStorage.setItem("spares", JSON.stringify([writePass(await narrowed(readPass(SPARE), ["actions = view"]))]));
  assert.ok(!canCancel(ENTRIES[0]));
  Object.assign(state, { key: null, pass: null, makeSender: null, club: null });
});

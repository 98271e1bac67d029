// Tests of the reader of the address's part after #: the reader recognizes each kind of part, and
// mistakes no unusual text for another kind.
import assert from "node:assert/strict";
import { test } from "node:test";
import { isScreen, readFragment } from "../src/fragment.mjs";

test("a fragment is empty, a screen with or without a pass, a list, or otherwise a pass", () => {
  const rows = [
    ["", "none", ""], ["#", "none", ""], ["#screen", "screen", ""], ["#screen=", "screen", ""], ["#screen=AgEJ", "screen", "AgEJ"],
    ["#AgEJ", "pass", "AgEJ"], ["#%7B%22v%22%3A2%7D", "pass", '{"v":2}'], ["#%", "pass", "%"], ["#screens", "pass", "screens"], ["#Record=x", "pass", "Record=x"],
    ["#record=amy-1;7+court-1+2026-05-01+18", "record", "record of amy-1\n7 court-1 2026-05-01 18\n"], ["#record=", "record", "record of \n"],
    ["#spare=AgEJ;AgIJ", "spare", "AgEJ;AgIJ"], ["#spare=", "spare", ""], ["#spare", "pass", "spare"], ["#AgEJ;spent=5", "pass", "AgEJ;spent=5"],
    ["#record=amy-1%3B7%2Bcourt-1", "record", "record of amy-1\n7 court-1\n"],
  ];
  for (const [fragment, kind, text] of rows) assert.deepEqual(readFragment(fragment), { kind, text }, fragment);
  assert.deepEqual(["#screen", "#screen=x", "#screenx", "#record=screen"].map(isScreen), [true, true, false, false]);
});

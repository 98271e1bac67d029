// Tests of the page's words, dates, club's list and QR codes.
import assert from "node:assert/strict";
import { execFileSync } from "node:child_process";
import { mkdtempSync, readdirSync, readFileSync, rmSync, writeFileSync } from "node:fs";
import { tmpdir } from "node:os";
import { join } from "node:path";
import { test } from "node:test";
import { facilityOf, firstDayOf, hoursOf, readClub, titleOf, whyClosed } from "../src/club.mjs";
import { daysLater, isDate, isZone, minutesOf, momentIn, startOf, weekdayOf } from "../src/dates.mjs";
import { placesLeft } from "../src/points.mjs";
import { qrRows } from "../src/qr.mjs";
import { refusesPass } from "../src/replies.mjs";
import { dateText, grouped, languageFor, listed, say, shortDayText } from "../src/words.mjs";
import { speak, TABLES } from "./kit.mjs";

test("words", () => {
  speak("en");
  assert.equal(grouped(123456789), "123,456,789");
  assert.equal(listed(["a", "b", "c"]), "a, b or c");
  assert.equal(dateText("2026-05-01"), "Friday 1 May 2026");
  assert.equal(shortDayText("2026-12-04"), "Fri 4 Dec");
  assert.equal(say("gives-back", { count: 1 }), "Cancelling now gives back 1 point.");
  assert.equal(languageFor(["fr-CH", "de-CH", "en"]), "de");
  assert.equal(languageFor(["fr"]), "en");
  assert.throws(() => say("no such words"));
  speak("de");
  assert.equal(grouped(1000), "1.000");
  assert.equal(shortDayText("2026-12-04"), "Fr 4. Dez");
});

test("all faults of the desk have a sentence", () => {
  for (let fault = 1; fault <= 22; fault += 1) {
    const keys = fault === 13 ? ["fault-13-book", "fault-13-listed", "fault-13-cancel"] : [`fault-${fault}`];
    for (const table of Object.values(TABLES)) for (const key of keys) assert.match(table[key], /[.}]$/);
  }
});

test("a pass is called a pass", () => {
  for (const [key, sentence] of Object.values(TABLES).flatMap(Object.entries)) {
    const words = [sentence].flat().join(" ").replaceAll(/\{[a-z]+\}/g, "");
    assert.doesNotMatch(words, /\b(?:keys?|macaroons?|tokens?|Schl\u00fcssel)\b/i, key);
  }
});

test("dates of the club", () => {
  assert.deepEqual(["2026-02-28", "2026-02-29", "2026-13-01", "2024-02-29", "x"].map(isDate), [true, false, false, true, false]);
  assert.equal(weekdayOf("2026-05-01"), 4);
  assert.equal(daysLater("2026-02-28", 1), "2026-03-01");
  assert.equal(daysLater("2026-01-01", -1), "2025-12-31");
  assert.equal(startOf({ day: "2026-05-01", hour: 8 }), "2026-05-01T08:00");
  assert.equal(minutesOf("2026-05-02T00:00") - minutesOf("2026-05-01T23:59"), 1);
});

test("the club's wall clock, in any time zone of the browser", () => {
  assert.equal(momentIn("Europe/Berlin", Date.parse("2026-03-29T00:59:00Z")), "2026-03-29T01:59");
  assert.equal(momentIn("Europe/Berlin", Date.parse("2026-03-29T01:00:00Z")), "2026-03-29T03:00");
  assert.equal(momentIn("Europe/Berlin", Date.parse("2026-10-25T01:30:00Z")), "2026-10-25T02:30");
  assert.equal(momentIn("America/New_York", Date.parse("2026-01-01T04:59:00Z")), "2025-12-31T23:59");
  assert.equal(momentIn("UTC", Date.parse("2026-01-01T00:00:00Z")), "2026-01-01T00:00");
  assert.deepEqual(["Europe/Berlin", "UTC", "Nowhere/None", "", 7, undefined].map(isZone), [true, true, false, false, false, false]);
});

test("the club's list", () => {
  const court = { name: "court-1", title: "Court 1", kind: "court", opens: 8, shuts: 22 };
  const room = { name: "room-1", kind: "room", opens: 0, shuts: 24 };
  const club = readClub({ name: "Club", zone: "Europe/Berlin", facilities: [court, room] });
  assert.equal(titleOf(club, "court-1"), "Court 1");
  assert.equal(titleOf(club, "room-1"), "room-1");
  assert.equal(titleOf(null, "room-1"), "room-1");
  const closure = { facility: "court-1", day: "2026-05-01", from: 18, until: 20, why: "Training" };
  const oddOnes = [null, {}, { ...closure, day: "2026-02-30" }, { ...closure, until: 18 }, { ...closure, why: "" }, { ...closure, why: 7 }, { ...closure, facility: "Court" }, { ...closure, from: 24 }];
  const closed = readClub({ zone: "Europe/Berlin", facilities: [court], closures: [...oddOnes, closure] });
  assert.deepEqual(closed.closures, [closure]);
  const why = (hour, day = "2026-05-01", facility = "court-1") => whyClosed(closed, { facility, day, hour });
  assert.deepEqual([17, 18, 19, 20].map((hour) => why(hour)), ["", "Training", "Training", ""]);
  assert.deepEqual([why(18, "2026-05-02"), why(18, "2026-05-01", "room-1"), whyClosed(null, closure), whyClosed(club, closure)], ["", "", "", ""]);
  for (const closures of [null, {}, "x", 7]) assert.deepEqual(readClub({ zone: "Europe/Berlin", facilities: [court], closures }).closures, []);
  assert.equal(facilityOf(club, "court-2"), null);
  assert.deepEqual(hoursOf({ opens: 8, shuts: 10 }), [8, 9]);
  const odd = [null, 7, [], {}, { zone: "Europe/Berlin" }, { zone: "Nowhere", facilities: [] }, { zone: "UTC", facilities: [null] },
    { zone: "UTC", facilities: [court, court] }, ...[["name", "Court"], ["kind", "pool"], ["opens", 24], ["opens", 22], ["shuts", 25], ["opens", "8"],
      ["title", ""], ["title", 7], ["name", 7]].map(([name, value]) => ({ zone: "UTC", facilities: [{ ...court, [name]: value }] }))];
  for (const value of odd) assert.equal(readClub(value), null, JSON.stringify(value));
});

test("the page begins with a day that has slots left", () => {
  const courts = [{ opens: 8, shuts: 22 }, { opens: 7, shuts: 23 }];
  const rows = [["2026-05-01T00:00", "2026-05-01"], ["2026-05-01T20:59", "2026-05-01"], ["2026-05-01T21:59", "2026-05-01"], ["2026-05-01T22:00", "2026-05-02"],
    ["2026-05-31T23:30", "2026-06-01"]];
  for (const [moment, day] of rows) assert.equal(firstDayOf(courts, moment), day, "the first day");
  assert.equal(firstDayOf(courts.slice(0, 1), "2026-05-01T21:00"), "2026-05-02", "the first day");
});

test("free places are counted over several facilities", () => {
  assert.equal(placesLeft([{ places: 4, taken: 1 }, { places: 2, taken: 0 }, { places: 2, taken: 3 }]), 5, "places of several facilities");
});

test("a refusal of the pass is told from a refusal of a request", () => {
  assert.deepEqual(Array.from({ length: 22 }, (_, place) => place + 1).filter((fault) => refusesPass({ fault })), [5, 6, 7, 8, 9, 10, 11], "refusals of the pass");
  assert.ok(!refusesPass({ member: "amy" }));
});

test("every module of the page compiles", () => {
  const folder = new URL("../src/", import.meta.url);
  for (const file of readdirSync(folder)) if (file.endsWith(".mjs")) execFileSync(process.execPath, ["--check", new URL(file, folder).pathname]);
});

// The test below reads the page's QR codes with zbarimg, if this program is installed.
let zbar = true;
try {
  execFileSync("zbarimg", ["--version"]);
} catch {
  zbar = false;
}

test("QR codes of every version are read by another program", { skip: !zbar && "no zbarimg" }, () => {
  const folder = mkdtempSync(join(tmpdir(), "qr-"));
  try {
    for (const length of [1, 17, 18, 32, 53, 78, 106, 134, 154, 192, 230, 231, 271, 321, 367, 425, 458, 520, 586, 644, 718, 792, 858, 929, 1003, 1091, 1171, 1273]) {
      const text = Array.from({ length }, (_, place) => "https://desk.example.org/book.html#record=amy-1;"[place % 48] ?? "x").join("");
      const rows = qrRows(text);
      const size = (rows.length + 8) * 4;
      const pixels = Buffer.alloc(size * size, 255);
      rows.forEach((row, y) => row.forEach((isDark, x) => {
        if (!isDark) return;
        for (let line = 0; line < 4; line += 1) pixels.fill(0, ((y + 4) * 4 + line) * size + (x + 4) * 4, ((y + 4) * 4 + line) * size + (x + 5) * 4);
      }));
      const file = join(folder, "code.pgm");
      writeFileSync(file, Buffer.concat([Buffer.from(`P5 ${size} ${size} 255\n`), pixels]));
      assert.equal(execFileSync("zbarimg", ["-q", "--raw", file]).toString().trimEnd(), text, `${length} bytes`);
    }
    assert.equal(qrRows("x".repeat(1274)), null);
  } finally {
    rmSync(folder, { recursive: true });
  }
});

test("no module reads HTML from a string", () => {
  const folder = new URL("../src/", import.meta.url);
  for (const file of readdirSync(folder)) {
    if (file.endsWith(".mjs")) assert.doesNotMatch(readFileSync(new URL(file, folder), "utf8"), /innerHTML|outerHTML|insertAdjacentHTML|document\.write|eval\(|new Function/);
  }
});

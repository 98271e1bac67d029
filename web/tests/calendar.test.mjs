// Tests of a booking's calendar entry: its instants in several time zones, and its lines.
import assert from "node:assert/strict";
import { test } from "node:test";
import { calendarText, instantOf } from "../src/calendar.mjs";

test("the instant of a club's moment, also when a clock goes forward or back", () => {
  const rows = [
    ["Europe/Berlin", "2026-05-01T18:00", "2026-05-01T16:00:00.000Z"], ["Europe/Berlin", "2026-12-01T18:00", "2026-12-01T17:00:00.000Z"],
    ["Etc/GMT", "2026-05-01T18:00", "2026-05-01T18:00:00.000Z"], ["Pacific/Auckland", "2026-05-01T08:00", "2026-04-30T20:00:00.000Z"],
    ["America/St_Johns", "2026-05-01T08:00", "2026-05-01T10:30:00.000Z"],
    ["Europe/Berlin", "2026-03-29T01:00", "2026-03-29T00:00:00.000Z"], ["Europe/Berlin", "2026-03-29T03:00", "2026-03-29T01:00:00.000Z"],
    ["Europe/Berlin", "2026-10-25T02:00", "2026-10-25T00:00:00.000Z"], ["Europe/Berlin", "2026-10-25T03:00", "2026-10-25T02:00:00.000Z"],
  ];
  for (const [zone, moment, instant] of rows) assert.equal(new Date(instantOf(zone, moment)).toISOString(), instant, `${zone} ${moment}`);
});

test("the lines of an event", () => {
  const entry = { number: 583920174, facility: "court-1", day: "2026-05-01", hour: 18 };
  const title = "Platz 1, Halle; \u00e4\\".padEnd(90, "\u00fc");
  const text = calendarText({ entry, zone: "Europe/Berlin", title, place: "TC Blau-Wei\u00df", host: "desk.example.org", now: Date.parse("2026-04-20T12:00Z") });
  const lines = text.split("\r\n");
  assert.deepEqual([lines[0], lines.at(-2), lines.at(-1)], ["BEGIN:VCALENDAR", "END:VCALENDAR", ""]);
  assert.ok(lines.every((line) => new TextEncoder().encode(line).length <= 75));
  const whole = text.replaceAll("\r\n ", "").split("\r\n");
  for (const line of ["DTSTART:20260501T160000Z", "DTEND:20260501T170000Z", "DTSTAMP:20260420T120000Z", "UID:583920174-court-1-2026-05-01@desk.example.org",
    "LOCATION:TC Blau-Wei\u00df", "TRIGGER:-PT2H", `SUMMARY:${title.replace("\\", "\\\\").replace(",", "\\,").replace(";", "\\;")}`]) assert.ok(whole.includes(line), line);
});

test("every kind of line break in a text is a line break of the calendar, and no other control character remains", () => {
  const entry = { number: 1, facility: "court-1", day: "2026-05-01", hour: 18 };
  for (const each of ["\r\n", "\n", "\r", "\u0085", "\u2028", "\u2029", "\v", "\f"]) {
    const title = `A\u0000\u0007\u009b\t${each}BEGIN:VALARM`;
    const text = calendarText({ entry, zone: "UTC", title, place: title, host: "desk.example.org", now: 0 });
    const lines = text.replaceAll("\r\n ", "").split(/\r\n|[\n\r\u0085\u2028\u2029\v\f]/);
    assert.equal(lines.filter((line) => line === "BEGIN:VALARM").length, 1, "a line that a title brought");
    assert.ok(lines.includes("SUMMARY:A\t\\nBEGIN:VALARM"), "a line that a title brought");
  }
});

// Makes a calendar entry (RFC 5545) for a booking, with a reminder. The times in the entry are in UTC, so that the calendar doesn't need the club's
// zone.
import { bytesOf } from "./bytes.mjs";
import { momentIn, startOf } from "./dates.mjs";

const LONGEST_LINE = 75; // bytes
const REMINDER = "-PT2H";

// Returns the instant, in milliseconds, when the zone's wall clock first shows a moment. If the clock skips the moment, the function uses the offset
// from before the clock change.
export function instantOf(zone, moment) {
  const wanted = Date.parse(`${moment}Z`);
  const lead = (instant) => Date.parse(`${momentIn(zone, instant)}Z`) - instant;
  const found = [wanted - lead(wanted - 86400000), wanted - lead(wanted + 86400000)].sort((a, b) => a - b);
  return found.find((instant) => momentIn(zone, instant) === moment) ?? found.at(-1);
}

function stamp(instant) {
  return new Date(instant).toISOString().replace(/[-:]|\.[0-9]{3}/g, "");
}

// Every character that ends a line in some program becomes a line break of the calendar. A calendar's
// text may have no other control character.
function escaped(text) {
  return text.replace(/[\\;,]/g, "\\$&").replace(/\r\n|[\n\v\f\r\u0085\u2028\u2029]/g, "\\n").replace(/[^\P{Cc}\t]/gu, "");
}

// Folds a line into pieces of at most 75 bytes, without splitting a character.
function folded(line) {
  const pieces = [""];
  for (const letter of line) {
    const most = LONGEST_LINE - (pieces.length > 1 ? 1 : 0);
    if (bytesOf(pieces.at(-1) + letter).length > most) pieces.push("");
    pieces.push(pieces.pop() + letter);
  }
  return pieces.join("\r\n ");
}

// `title` is the booking's title, `place` is the booking's place, and `host` is the page's host. `now` is the current time in milliseconds.
export function calendarText({ entry, zone, title, place, host, now }) {
  const begins = instantOf(zone, startOf(entry));
  return [
    "BEGIN:VCALENDAR", "VERSION:2.0", `PRODID:-//${host}//booking//EN`, "BEGIN:VEVENT", `UID:${entry.number}-${entry.facility}-${entry.day}@${host}`,
    `DTSTAMP:${stamp(now)}`, `DTSTART:${stamp(begins)}`, `DTEND:${stamp(begins + 3600000)}`, `SUMMARY:${escaped(title)}`,
    ...(place === "" ? [] : [`LOCATION:${escaped(place)}`]),
    "BEGIN:VALARM", "ACTION:DISPLAY", `TRIGGER:${REMINDER}`, `DESCRIPTION:${escaped(title)}`, "END:VALARM", "END:VEVENT", "END:VCALENDAR", "",
  ].map(folded).join("\r\n");
}

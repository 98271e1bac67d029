// The record of bookings. The record has an entry for each booking, with the requests to the desk and the desk's answers. An entry has:
//
// - key, number, facility, day, hour: the identity of the booking at the desk.
// - guests: the number of guests, or null if the browser knows only the booking's number and slot.
// - agreed: the points that the member agreed to pay, or undefined if the page showed no price. The desk charges at most
//   these points (price.mjs).
// - replaces: the number of the booking that this booking replaces. Once the desk has made this booking, the page cancels the
//   other booking.
// - book: the reply to the PUT of the booking, or null before the reply. In an entry with `listed`, `book` is an empty object.
// - cancel: the reply to the DELETE of the booking, null before the reply, or undefined without a DELETE.
// - unsure: whether the desk may have carried out a request of this entry although no reply came.
// - asked: the time when the entry was made, in milliseconds.
// - listed: the values `charge`, `left`, `refund` and `cancel` that a list claims for this entry. The desk hasn't confirmed any of these claims to
//   this browser. So the page never sends a listed entry automatically, and never counts the entry as cancelled.
// - saidCancelled: whether a list claims that a booking of this browser was cancelled.
//
// The functions of this module return new entries, and never change an entry.
import { isName, NAME } from "./caveats.mjs";
import { isDate, minutesOf, startOf } from "./dates.mjs";
import { isOfPass, NUMBER_USED } from "./replies.mjs";

const LARGEST_NUMBER = 999999999;
const LARGEST_CHARGE = 499950; // points
const FULL_REFUND_MINUTES = 1440;
export const DAYS_AHEAD = 60;
export const MOST_GUESTS = 49;

// Draws a number that no entry has. All numbers from 1 to the largest number are equally likely.
export function drawnNumber(used, random = (array) => crypto.getRandomValues(array)) {
  const limit = Math.floor(2 ** 32 / LARGEST_NUMBER) * LARGEST_NUMBER;
  for (;;) {
    const [drawn] = random(new Uint32Array(1));
    const number = drawn % LARGEST_NUMBER + 1;
    if (drawn < limit && !used.has(number)) return number;
  }
}

// `more` may have the fields `agreed` and `replaces`.
export function newBooking(key, number, slot, guests, asked, more = {}) {
  const { facility, day, hour } = slot;
  return { key, number, facility, day, hour, guests, ...more, book: null, unsure: false, asked };
}

// Returns the request to send for an entry: "book", "cancel" or null. If the PUT has no reply yet, the page repeats the PUT before it sends the
// DELETE.
export function unfinished(entry) {
  if (entry.book === null) return "book";
  return entry.cancel === null ? "cancel" : null;
}

// Returns the entry with the reply to its request. If the desk refuses the pass but may have carried out an earlier try, the request stays open.
export function answered(entry, action, reply) {
  if (reply.fault !== undefined && isOfPass(reply) && entry.unsure) return { ...entry, stopped: reply };
  const { stopped, saidCancelled, ...rest } = entry;
  if (action === "cancel" && reply.fault !== undefined) return { ...rest, unsure: false, cancel: undefined, notCancelled: reply };
  return { ...rest, unsure: false, [action]: reply };
}

export function withCancellation(entry) {
  const { notCancelled, stopped, ...rest } = entry;
  return { ...rest, cancel: null };
}

// Returns "asked", "booked", "refused", "cancelling" or "cancelled". Returns "listed" if the entry comes only from a list.
export function stateOf(entry) {
  if (entry.book === null) return "asked";
  if (entry.book.fault !== undefined) return "refused";
  if (entry.cancel === undefined) return entry.listed === undefined ? "booked" : "listed";
  return entry.cancel === null ? "cancelling" : "cancelled";
}

// Returns whether an entry has, or may have, places in its slot.
export function isLive(entry) {
  return ["asked", "booked", "cancelling"].includes(stateOf(entry)) || (stateOf(entry) === "listed" && entry.listed.refund === undefined);
}

// Returns whether the page can send a listed entry to the desk. The list must state the guests, and must not claim a charge.
export function canBeAsked(entry) {
  return stateOf(entry) === "listed" && entry.guests !== null && entry.listed.charge === undefined;
}

// Turns a listed entry into a request of this browser, with the same number. `ofList` records that the number comes from
// a list.
export function withRequest(entry, agreed) {
  const { listed, notCancelled, stopped, ...rest } = entry;
  return { ...rest, agreed, book: null, unsure: true, ofList: true };
}

// Returns whether a stored value is an entry. The page neither shows nor sends other stored values.
export function isEntry(value) {
  if (typeof value !== "object" || value === null) return false;
  const { key, number, facility, day, hour, guests, agreed, replaces, book, cancel, listed, asked } = value;
  const isReply = (reply) => typeof reply === "object" && !Array.isArray(reply);
  return [key, facility].every(isName) && isWithin(number, 1, LARGEST_NUMBER)
    && typeof day === "string" && isDate(day) && isWithin(hour, 0, 23) && (guests === null ? book !== null : isWithin(guests, 0, MOST_GUESTS))
    && isReply(book) && (cancel === undefined || isReply(cancel)) && (listed === undefined || (listed !== null && book !== null && isReply(listed)))
    && (agreed === undefined || isWithin(agreed, 0, LARGEST_CHARGE))
    && (replaces === undefined || isWithin(replaces, 1, LARGEST_NUMBER)) && typeof asked === "number";
}

function isWithin(value, least, most) {
  return Number.isInteger(value) && value >= least && value <= most;
}

// Returns the points that the desk charged for an entry and didn't refund. Returns 0 if only a list claims the charge, or if a list claims that the
// booking was cancelled.
export function costOf(entry) {
  return entry.saidCancelled || entry.book?.charge === undefined ? 0 : entry.book.charge - (entry.cancel?.refund ?? 0);
}

// Compares the points in the record with the spent points that the desk counts for the key. Returns null if no comparison is possible. Otherwise,
// `points` is the difference, `entries` has the bookings in doubt, and `is` has one of these values:
//
// - same: the record and the desk agree.
// - more: the desk counts more points, because a booking isn't in the record.
// - less: the desk counts fewer points, because a booking was cancelled elsewhere.
// - claims: the desk counts fewer points, but at least the points that it confirmed to this browser. So only the claims of lists are in doubt.
//
// If a list claims a refund greater than the charge, the refund counts as the charge.
export function compared(entries, spent, moment) {
  const counted = entries.filter((entry) => stateOf(entry) !== "refused");
  if (counted.some((entry) => unfinished(entry) !== null || amountsOf(entry).charge === undefined)) return null;
  const costsOf = (list) => list.reduce((sum, entry) => sum + Math.max(0, amountsOf(entry).charge - ((entry.cancel ?? entry.listed)?.refund ?? 0)), 0);
  const points = costsOf(counted) - spent;
  const isOfLists = costsOf(counted.filter((entry) => entry.listed === undefined)) <= spent;
  if (points === 0) return { is: "same", points, entries: [] };
  if (points < 0) return { is: "more", points: -points, entries: [] };
  const standing = counted.filter((entry) => isLive(entry) && stateOf(entry) !== "cancelling" && (!isOfLists || entry.listed !== undefined));
  const mayGiveBack = (entry) => [amountsOf(entry).charge, Math.floor(amountsOf(entry).charge / 2)].includes(points);
  const found = standing.filter(mayGiveBack);
  return { is: isOfLists ? "claims" : "less", points, entries: found.length > 0 ? found : standing.filter((entry) => !hasBegun(entry, moment)) };
}

export function personsOf(entries) {
  return entries.reduce((sum, entry) => sum + (entry.guests ?? 0) + 1, 0);
}

export function slotName({ facility, day, hour }) {
  return `${facility} ${day} ${hour}`;
}

export function isAt(entry, slot) {
  return entry.facility === slot.facility && entry.day === slot.day && entry.hour === slot.hour;
}

// Returns whether a refused booking needs another number. An entry from a list keeps its number, because the desk may have the same booking under
// this number with other guests.
export function wantsOtherNumber(entry) {
  return entry.book?.fault === NUMBER_USED && !entry.ofList;
}

export function hasBegun(slot, moment) {
  return minutesOf(startOf(slot)) <= minutesOf(moment);
}

export function isTooFarAhead(slot, moment) {
  return minutesOf(startOf(slot)) > minutesOf(moment) + DAYS_AHEAD * 1440;
}

// Returns an object with the charge of an entry, and with the number of places left. The object is the desk's reply if it has a charge, otherwise the
// claims of a list.
export function amountsOf(entry) {
  return entry.book?.charge === undefined ? entry.listed ?? {} : entry.book;
}

// Returns the refund if the member cancels an entry at a moment. The refund is the whole charge if the slot begins at least a day later, otherwise
// half of the charge, rounded down. Returns null if the slot has begun or the charge is unknown.
export function refundAt(entry, moment) {
  const { charge } = amountsOf(entry);
  if (hasBegun(entry, moment) || charge === undefined) return null;
  const isDayAhead = minutesOf(moment) + FULL_REFUND_MINUTES <= minutesOf(startOf(entry));
  return isDayAhead ? charge : Math.floor(charge / 2);
}

// ---- The record as a text. The first line is `record of KEY`, and each other line has a booking's number, facility, day and hour. Such a line
// ends with the known facts, such as `guests 2`, `charge 600`, `left 1` or `refund 300`. The word `cancel` marks a cancellation without a reply.
// deploy/record prints the same form.

const TITLE = new RegExp(`^record of (${NAME})$`);
const LINE = new RegExp(`^([1-9][0-9]{0,8}) (${NAME}) (20[0-9]{2}-[0-9]{2}-[0-9]{2}) ([01][0-9]|2[0-3])((?: [a-z]+(?: [0-9]{1,6})?)*)$`);
const DETAIL = / (guests|charge|left|refund) (0|[1-9][0-9]{0,5})(?= |$)| (cancel)(?= |$)/y;

export function recordText(key, entries) {
  return [`record of ${key}`, ...entries.filter((entry) => entry.key === key && stateOf(entry) !== "refused").map(lineOf)].join("\n") + "\n";
}

function lineOf(entry) {
  const words = [entry.number, entry.facility, entry.day, String(entry.hour).padStart(2, "0")];
  if (entry.guests !== null) words.push("guests", entry.guests);
  const { charge, left } = amountsOf(entry);
  if (charge !== undefined) words.push("charge", charge, "left", left);
  if (entry.cancel === null || entry.listed?.cancel) words.push("cancel");
  const { refund } = entry.cancel ?? entry.listed ?? {};
  if (refund !== undefined) words.push("refund", refund);
  return words.join(" ");
}

// Returns the key and entries of a text. If a line is invalid, returns the number of the first such line, counted from 1.
export function readRecord(text, asked) {
  const lines = text.replaceAll("\r", "").split("\n").map((line) => line.trim()).filter((line) => line !== "");
  const key = TITLE.exec(lines[0] ?? "")?.[1];
  if (key === undefined) return { wrong: 1 };
  const entries = lines.slice(1).map((line) => entryOfLine(key, line, asked));
  const wrong = entries.indexOf(null);
  return wrong < 0 ? { key, entries } : { wrong: wrong + 2 };
}

function entryOfLine(key, line, asked) {
  const found = LINE.exec(line);
  if (found === null || !isDate(found[3])) return null;
  const details = detailsOf(found[5]);
  if (details === null) return null;
  const { guests = null, ...listed } = details;
  if ((listed.charge === undefined) !== (listed.left === undefined) || (guests !== null && guests > MOST_GUESTS)) return null;
  return {
    key, number: Number(found[1]), facility: found[2], day: found[3], hour: Number(found[4]), guests, book: {}, listed, unsure: true, asked,
  };
}

function detailsOf(text) {
  const details = {};
  DETAIL.lastIndex = 0;
  while (DETAIL.lastIndex < text.length) {
    const found = DETAIL.exec(text);
    if (found === null) return null;
    const name = found[1] ?? found[3];
    if (name in details) return null;
    details[name] = found[1] === undefined ? true : Number(found[2]);
  }
  return details;
}

// Merges an entry with a listed entry of the same number. The merged entry keeps the desk's replies to this browser and the open requests. If the
// list claims a refund for a booking of this browser, the merged entry records the claim in `saidCancelled`. If both entries come from lists, the
// claims of the more complete entry stay.
export function merged(own, other) {
  if (own === undefined) return other;
  if (!isAt(own, other)) return own;
  if (own.listed === undefined) {
    const isNews = stateOf(own) === "booked" && other.listed.refund !== undefined && !own.saidCancelled;
    return isNews ? { ...own, saidCancelled: true } : own;
  }
  const known = ({ listed, guests }) => [listed.refund !== undefined, listed.charge !== undefined, guests !== null];
  const place = known(other).findIndex((value, index) => value !== known(own)[index]);
  return place >= 0 && known(other)[place] ? { ...own, guests: other.guests ?? own.guests, listed: other.listed } : own;
}

// Returns a record as the part of an address after #. In the address, a semicolon separates lines, and + stands for a space.
export function fragmentOfRecord(text) {
  return `record=${text.trim().slice("record of ".length).replaceAll("\n", ";").replaceAll(" ", "+")}`;
}

// Returns the record in the part of an address after #, or null if this part isn't a record. Some messengers escape characters of an address, so the
// function decodes them.
export function recordOfFragment(fragment) {
  const found = /^#?record=(.*)$/s.exec(fragment);
  const text = found === null ? null : found[1].replace(/%(?:3B|2B|20)/gi, (escape) => decodeURIComponent(escape));
  return text === null ? null : `record of ${text.replaceAll(";", "\n").replaceAll("+", " ")}\n`;
}

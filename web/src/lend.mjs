// Functions for loans. They return the lines that narrow a pass, the end of a pass, and the free spare passes.
import { MOST_POINTS, readCaveat } from "./caveats.mjs";
import { daysLater, startOf } from "./dates.mjs";
import { keyName, readPass } from "./pass.mjs";
import { Fault } from "./pass_faults.mjs";

// Returns the caveats of a pass that have this name and that the page understands.
export function caveatsOf(pass, name) {
  return pass.caveats.map(readCaveat).filter((caveat) => caveat !== null && caveat.name === name);
}

// Returns the moment at which a pass ends, or null if the pass has no end.
export function endOf(pass) {
  const ends = caveatsOf(pass, "until").map(({ date, time }) => `${date}T${time}`).sort();
  return ends[0] ?? null;
}

// Returns the end of a booking's full refund: a day before the slot, or the end of the pass if that comes first.
export function fullRefundEnd(entry, pass) {
  const dayBefore = new Date(Date.parse(`${startOf(entry)}Z`) - 86400000).toISOString().slice(0, 16);
  const end = pass === null ? null : endOf(pass);
  return end !== null && end < dayBefore ? end : dayBefore;
}

// Returns the last day on which a pass is valid, or null if the pass has no end.
export function lastDayOf(pass) {
  const end = endOf(pass);
  if (end === null) return null;
  const [day, time] = end.split("T");
  return time === "00:00" ? daysLater(day, -1) : day;
}

// Returns the most points that all bookings under the pass's key may cost together, or null if the pass has no such limit.
export function limitOf(pass) {
  const limits = caveatsOf(pass, "spend").map(({ most }) => most);
  return limits.length > 0 ? Math.min(...limits) : null;
}

// Returns whether the pass's caveats about facilities and kinds allow a facility.
export function allowsFacility(pass, { name, kind }) {
  return caveatsOf(pass, "facility").every(({ facilities }) => facilities.includes(name)) && caveatsOf(pass, "kind").every((caveat) => caveat.kind === kind);
}

// Returns the lines of a loan's caveats. A loan allows its holder only to look at slots, or also to book and cancel. It may be limited to a kind or a
// facility, and to a last day. With `first`, the holder can book only slots of the days from `first` to `last`. The limit of points is the loan's
// points plus the points that the key has already spent.
export function linesOf({ kind = "", facility = "", isToLook, first = "", last, points, spent }) {
  const lines = [];
  if (kind !== "") lines.push(`kind = ${kind}`);
  if (facility !== "") lines.push(`facility = ${facility}`);
  lines.push(`actions = ${isToLook ? "view" : "view,book,cancel"}`);
  if (first !== "" && last !== "" && !isToLook) lines.push(`days = ${first}..${last}`);
  if (last !== "") lines.push(`until < ${daysLater(last, 1)}T00:00`);
  if (points !== null && !isToLook) lines.push(`spend <= ${Math.min(spent + points, MOST_POINTS)}`);
  return lines;
}

// Returns the pass in a text, or null if the text isn't a pass.
export function passOrNull(text) {
  try {
    return readPass(text);
  } catch (fault) {
    if (!(fault instanceof Fault)) throw fault;
    return null;
  }
}

// Returns the passes that the desk refuses or that belong to another member. `accountOf(text)` asks the desk.
export async function foreignAmong(texts, member, accountOf) {
  const foreign = [];
  for (const text of texts) {
    const account = await accountOf(text);
    if (account.fault !== undefined || account.member !== member) foreign.push(text);
  }
  return foreign;
}

// Returns the texts of the spare passes that are lent at a moment. If the member ended a loan early, its spare pass is never lent again: the link
// works until the office revokes the pass.
export function sparesLent(loans, moment) {
  const goesOn = (pass) => pass !== null && (endOf(pass) ?? "9999") > moment;
  const isLent = ({ text, spare, ended }) => spare !== "" && (ended === true || goesOn(passOrNull(text)));
  return new Set(loans.filter(isLent).map(({ spare }) => spare));
}

// Returns the spare passes that aren't lent at a moment, in the order of `spares`.
export function freeSpares(spares, loans, moment) {
  const lent = sparesLent(loans, moment);
  return spares.filter((text) => !lent.has(text)).map((text) => ({ text, pass: passOrNull(text) })).filter(({ pass }) => pass !== null && keyName(pass) !== null);
}

// Facts about a loan: whether it goes on, the bookings under it, and the way to the office.
import { startOf } from "./dates.mjs";
import { endOf, limitOf, passOrNull } from "./lend.mjs";
import { keyName } from "./pass.mjs";
import { amountsOf, hasBegun, isLive, stateOf } from "./record.mjs";

// Returns "current", or "over" after the end of the loan's pass. Returns "ended" if the member ended the loan, and "revoked"
// if the desk also refuses its spare pass.
export function stateOfLoan({ text, ended }, moment, isRefused) {
  if (ended && isRefused) return "revoked";
  const pass = passOrNull(text);
  if (pass !== null && (endOf(pass) ?? "9999") <= moment) return "over";
  return ended ? "ended" : "current";
}

export function keyOfLoan({ text }) {
  const pass = passOrNull(text);
  return pass === null ? null : keyName(pass);
}

// Returns the known bookings under a loan of a spare pass. The bookings under a loan of the member's own pass are among her
// own bookings.
export function bookedUnder(loan, entries) {
  const key = loan.spare === "" ? null : keyOfLoan(loan);
  return entries.filter((entry) => entry.key === key && stateOf(entry) !== "refused")
    .sort((a, b) => startOf(a).localeCompare(startOf(b)) || a.number - b.number);
}

export function openUnder(loan, entries, moment) {
  return bookedUnder(loan, entries).filter((entry) => isLive(entry) && !hasBegun(entry, moment));
}

// Returns the points that the loan's key spent on bookings that the page doesn't know. `spent` is what the desk counts for
// the key, or undefined.
export function unknownPoints(loan, entries, spent) {
  if (spent === undefined || loan.spare === "") return 0;
  const costs = bookedUnder(loan, entries).map((entry) => {
    const { refund = 0 } = entry.cancel ?? entry.listed ?? {};
    return Math.max(0, (amountsOf(entry).charge ?? 0) - refund);
  });
  return Math.max(0, spent - loan.spent - costs.reduce((sum, cost) => sum + cost, 0));
}

// Returns the points spent under a loan and the loan's most points. Returns null if the loan has no such limit, or if the
// page doesn't know the spent points.
export function pointsOf(loan, spent) {
  const pass = passOrNull(loan.text);
  const limit = pass === null ? null : limitOf(pass);
  if (limit === null || spent === undefined) return null;
  return { spent: Math.max(0, spent - loan.spent), most: limit - loan.spent };
}

// ---- The office

const MAIL = /[A-Za-z0-9._%+-]+@[A-Za-z0-9-]+(?:\.[A-Za-z0-9-]+)*\.[A-Za-z]{2,24}/;
const PHONE = /(?:\+|\(?0)[0-9][0-9 ()/.-]{4,24}[0-9]/;

// Returns the mail address and the telephone number in the club's contact. A missing one is "".
export function waysTo(contact) {
  const mail = MAIL.exec(contact)?.[0] ?? "";
  const phone = PHONE.exec(contact.replace(mail, " "))?.[0] ?? "";
  return { mail, phone: phone.replace(/\(0\)|[^+0-9]/g, "") };
}

export function mailTo(address, subject, body) {
  return `mailto:${address}?subject=${encodeURIComponent(subject)}&body=${encodeURIComponent(body)}`;
}

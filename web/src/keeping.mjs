// Stores the page's data in the browser, except the record of bookings. The data includes passes, spare passes, loans and the language. The browser
// stores a pass permanently, for the tab, or for the page. Until the member decides to store a pass from a link, only the page's entry in the tab's
// history has the pass.

import { splitGiven } from "./pass.mjs";
import { placeName } from "./place.mjs";

const LONGEST_NAME = 40;
// The limit of stored passes, and also the limit of stored spare passes.
export const MOST_PASSES = 20;
const MOST_LOANS = 50;
const MOST_NOTED = 2000;

// Loans that the browser couldn't store. The page knows these loans until the member leaves the page.
let loansOfPage = [];

function storageOf(forGood) {
  return forGood ? globalThis.localStorage : globalThis.sessionStorage;
}

// Returns whether the browser stored the value.
function keep(forGood, name, value) {
  try {
    storageOf(forGood).setItem(placeName(name), value);
    return true;
  } catch {
    return false;
  }
}

function kept(forGood, name) {
  try {
    return storageOf(forGood).getItem(placeName(name));
  } catch {
    return null;
  }
}

function drop(forGood, name) {
  try {
    storageOf(forGood).removeItem(placeName(name));
  } catch {
    // If the browser refuses access to its storage, it has stored nothing.
  }
}

// Reads a list that is stored as JSON. Leaves out invalid items.
function keptList(name, isRight) {
  try {
    const list = JSON.parse(kept(true, name) ?? "[]");
    return Array.isArray(list) ? list.filter(isRight) : [];
  } catch {
    return [];
  }
}

// ---- Permanently stored passes. Each pass has a name, and the most recently used pass comes first

export function plainName(text) {
  return text.replace(/\s+/g, " ").trim().slice(0, LONGEST_NAME);
}

function isKeptPass(each) {
  return typeof each === "object" && each !== null && typeof each.text === "string" && typeof each.name === "string"
    && each.name !== "" && each.name === plainName(each.name);
}

export function keptPasses() {
  return keptList("passes", isKeptPass);
}

// Returns whether the browser can't store this pass because the other stored passes reach the limit.
export function isPassTooMany(text) {
  return keptPasses().filter((each) => each.text !== text).length >= MOST_PASSES;
}

// Adds a pass in front of the other passes. If the pass is already stored, renames it and moves it to the front. Never removes another pass.
export function keepPass(text, name) {
  const others = keptPasses().filter((each) => each.text !== text);
  return !isPassTooMany(text) && keep(true, "passes", JSON.stringify([{ text, name }, ...others]));
}

export function dropPass(text) {
  const others = keptPasses().filter((each) => each.text !== text);
  if (others.length > 0) keep(true, "passes", JSON.stringify(others));
  else drop(true, "passes");
  if (passOfTab() === text) drop(false, "pass");
  if (passOfPage() === text) holdPass(null);
}

// ---- The pass of a tab, and the pass of a page

export function passOfTab() {
  return kept(false, "pass");
}

export function keepForTab(text) {
  return keep(false, "pass", text);
}

export function passOfPage() {
  const { pass } = history.state ?? {};
  return typeof pass === "string" ? pass : null;
}

// Removes the pass from the page's address. The pass stays in the page's entry in the tab's history.
export function holdPass(text, end = "") {
  try {
    history.replaceState(text === null ? null : { pass: text }, "", location.pathname + end);
  } catch {
    // The browser can't change the address of a page that was opened from a folder.
  }
}

// ---- Spare passes and loans

export function keptSpares() {
  return keptList("spares", (each) => typeof each === "string");
}

function sparesWith(texts) {
  return [...new Set([...keptSpares(), ...texts])];
}

// Returns how many stored spare passes the member must remove before the browser can store these spare passes too.
export function sparesTooMany(texts) {
  return Math.max(0, sparesWith(texts).length - MOST_PASSES);
}

// Stores all of these spare passes, or none of them.
export function keepSpares(texts) {
  return sparesTooMany(texts) === 0 && keep(true, "spares", JSON.stringify(sparesWith(texts)));
}

export function dropSpare(text) {
  return keep(true, "spares", JSON.stringify(keptSpares().filter((each) => each !== text)));
}

function isLoan(each) {
  return typeof each === "object" && each !== null && [each.given, each.says, each.spare].every((text) => typeof text === "string");
}

// In a loan, `given` is the text that the member handed on, `says` is the sentence about the loan, and `spare` is the spare pass that the member
// narrowed. If the member narrowed no spare pass, `spare` is "".
export function keptLoans() {
  return [...loansOfPage, ...keptList("loans", isLoan)]
    .map(({ given, says, spare, ended }) => ({ given, says, spare, ended: ended === true, ...splitGiven(given) }));
}

// Adds a loan, and returns whether the browser stored the loan. If the browser can't store another loan, only the page knows this loan, until the
// member leaves the page.
export function keepLoan({ given, says, spare }) {
  const loan = { given, says, spare };
  const others = keptList("loans", isLoan);
  const isKept = others.length < MOST_LOANS && keep(true, "loans", JSON.stringify([loan, ...others]));
  if (!isKept) loansOfPage = [loan, ...loansOfPage];
  return isKept;
}

// Notes that the member ended a loan. Returns whether the browser stored this.
export function endLoan({ given }) {
  const ended = (each) => each.given === given ? { ...each, ended: true } : each;
  loansOfPage = loansOfPage.map(ended);
  return keep(true, "loans", JSON.stringify(keptList("loans", isLoan).map(ended)));
}

export function dropLoan({ given }) {
  loansOfPage = loansOfPage.filter((each) => each.given !== given);
  return keep(true, "loans", JSON.stringify(keptList("loans", isLoan).filter((each) => each.given !== given)));
}

// ---- The rest

// Returns the numbers of a key's bookings in the list that the member last exported.
export function takenAlong(key) {
  return new Set(keptList(`taken ${key}`, Number.isInteger));
}

export function noteTakenAlong(key, numbers) {
  keep(true, `taken ${key}`, JSON.stringify(numbers.slice(-MOST_NOTED)));
}

// keptSearch() returns the last search. lastBooked() returns the facility and hour of the last booking. Both may come from another club.
export function keptSearch() {
  const [found] = keptList("search", (each) => typeof each === "object" && each !== null && typeof each.kind === "string"
    && Number.isInteger(each.from) && Number.isInteger(each.to) && each.from >= 0 && each.from < each.to && each.to <= 24);
  return found ?? {};
}

export function keepSearch({ kind, from, to }) {
  keep(true, "search", JSON.stringify([{ kind, from, to }]));
}

export function lastBooked() {
  const [found] = keptList("last", (each) => typeof each === "object" && each !== null && typeof each.facility === "string" && Number.isInteger(each.hour));
  return found ?? null;
}

export function keepLastBooked({ facility, hour }) {
  keep(true, "last", JSON.stringify([{ facility, hour }]));
}

export function screenPass() {
  return kept(true, "screen");
}

export function keepScreenPass(text) {
  return keep(true, "screen", text);
}

export function keptLanguage() {
  return kept(true, "language");
}

export function keepLanguage(language) {
  keep(true, "language", language);
}

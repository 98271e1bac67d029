// The current state of the page, and values that all views derive from it.
import { firstDenial } from "./caveats.mjs";
import { momentIn } from "./dates.mjs";
import { serverTime } from "./desk.mjs";
import { facilityOf } from "./club.mjs";
import { costOf, isLive, personsOf, slotName, stateOf } from "./record.mjs";

export const state = {
  club: null, // read from club.json
  // The pass in use. `text` is the text to send, and `key` is the name of the pass's key.
  pass: null,
  text: "",
  // `given` is `text` together with `base`. `base` is the number of points that the pass's key had spent before a loan, or 0.
  given: "",
  base: 0,
  key: null,
  name: "", // the label of the pass, which a member chooses
  isKept: false,
  isRefused: false, // whether the desk refused the pass itself
  store: null, // null if the browser stores nothing
  sender: null,
  makeSender: null, // makes a sender for another pass; null if the browser stores nothing
  entries: [], // the record's bookings, under all keys
  // The desk's reply about the account, with the time of the reply in `at`.
  account: null,
  taken: new Map(), // the taken places of each requested slot, by the slot's name
  closed: new Set(), // the names of the slots that the office closed
};

let shownMoment = { minute: null, zone: null, text: "" };

// Returns the current moment at the club, or null if the page doesn't know the club's zone.
export function clubMoment() {
  if (state.club === null) return null;
  const minute = Math.floor(serverTime() / 60000);
  if (shownMoment.minute !== minute || shownMoment.zone !== state.club.zone) {
    shownMoment = { minute, zone: state.club.zone, text: momentIn(state.club.zone, minute * 60000) };
  }
  return shownMoment.text;
}

export function clubTime() {
  return clubMoment()?.slice(11) ?? "";
}

export function withKind(slot) {
  return { ...slot, kind: facilityOf(state.club, slot.facility)?.kind ?? null };
}

// Returns the number of the first caveat that denies a request, or 0. The first caveat has the number 1. The desk may deny a request for further
// reasons, because the page doesn't know every value.
export function denial(action, slot, more = {}) {
  const place = slot === undefined ? undefined : withKind(slot);
  const known = { action, moment: clubMoment() ?? "2000-01-01T00:00", slot: place };
  // Only a caveat about points needs the spent points.
  return firstDenial(state.pass, { ...known, get spent() { return spentOfKey(); }, ...more });
}

// Returns the points that the key has spent, as the desk reported them with the account. Without this report, the function returns `state.base` plus
// the points of the key's bookings in this browser.
export function spentOfKey() {
  return state.account?.spent ?? ownEntries().reduce((sum, entry) => sum + (isLost(entry) ? 0 : costOf(entry)), state.base);
}

// Returns whether the slot of an entry has fewer persons than this browser's bookings of that slot. If so, one of these bookings is gone or never
// existed. For an entry that the desk confirmed, the function doesn't count listed bookings.
export function isLost(entry) {
  const found = state.taken.get(slotName(entry));
  const isThere = (each) => isLive(each) && (stateOf(each) === "booked" || (stateOf(each) === "listed" && stateOf(entry) === "listed"));
  if (found === undefined || !isThere(entry)) return false;
  return found < personsOf(ownEntriesAt(entry).filter(isThere));
}

export function ownEntries() {
  return ownNow().entries.slice();
}

export function liveAt(slot) {
  return ownEntriesAt(slot).filter(isLive);
}

// The key's entries, also by slot. The page finds them once for each record and key, because the record may be long.
let own = { all: null, key: null, entries: [], bySlot: new Map() };

function ownNow() {
  if (own.all === state.entries && own.key === state.key) return own;
  const entries = state.entries.filter((entry) => entry.key === state.key);
  const bySlot = new Map();
  for (const entry of entries) {
    const name = slotName(entry);
    if (!bySlot.has(name)) bySlot.set(name, []);
    bySlot.get(name).push(entry);
  }
  own = { all: state.entries, key: state.key, entries, bySlot };
  return own;
}

function ownEntriesAt(slot) {
  return ownNow().bySlot.get(slotName(slot)) ?? [];
}

// Returns the key's live entries at a slot. Leaves out listed entries if the slot has fewer persons than all live entries need.
export function ownAt(slot, view) {
  const live = liveAt(slot);
  return view !== null && view.taken < personsOf(live) ? live.filter((entry) => stateOf(entry) !== "listed") : live;
}

// Returns whether the page can book and cancel. For this, the page needs storage for the requests, and the name of the pass's key.
export function canSend() {
  return state.sender !== null && state.key !== null;
}

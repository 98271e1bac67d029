// The list of bookings is only in this browser. The page asks the browser to keep the list permanently, and reminds the member to save a copy of the
// list elsewhere.
import { byName, put } from "./elements.mjs";
import { noteTakenAlong, takenAlong } from "./keeping.mjs";
import { isLive } from "./record.mjs";
import { ownEntries, state } from "./state.mjs";
import { say } from "./words.mjs";

const REMINDED_FROM = 3; // bookings

let persists = null; // whether the browser promised to keep the list; null if unknown

// Asks the browser to keep the list permanently. Some browsers then ask the user, and others decide by themselves.
export async function askToPersist() {
  if (persists === true) return;
  persists = await navigator.storage?.persist?.().catch(() => null) ?? null;
  showListKept();
}

export async function lookWhetherPersists() {
  persists = await navigator.storage?.persisted?.().catch(() => null) ?? null;
  showListKept();
}

export function showListKept() {
  const own = state.pass === null ? [] : ownEntries();
  put("list-kept", ...(own.length > 0 && persists !== null ? [say(persists ? "list-persists" : "list-may-go")] : []));
  const along = takenAlong(state.key);
  const missing = own.filter((entry) => isLive(entry) && entry.listed === undefined && !along.has(entry.number)).length;
  byName("list-remind").hidden = missing < REMINDED_FROM;
  put("list-remind-words", say("list-remind", { count: missing }));
}

export function noteTaken() {
  noteTakenAlong(state.key, ownEntries().map((entry) => entry.number));
  showListKept();
}

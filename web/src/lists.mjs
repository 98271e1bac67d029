// Bookings from lists: the bookings that a list adds to the record, and the bookings that only lists show.
import { startOf } from "./dates.mjs";
import { merged, stateOf } from "./record.mjs";

export const MOST_AT_ONCE = 300; // bookings that one press adds

function nameOf({ key, number }) {
  return `${key}/${number}`;
}

// Returns the entries that a list adds to the entries of the record, or changes in the record. Returns at most 300 entries:
// those with the latest slots. `more` is the number of further entries, which the same list adds the next time.
export function newsOf(entries, listed) {
  const known = new Map(entries.map((entry) => [nameOf(entry), entry]));
  const news = new Map();
  for (const entry of listed) {
    const name = nameOf(entry);
    const next = merged(known.get(name), entry);
    if (next !== known.get(name)) news.set(name, next);
    known.set(name, next);
  }
  const latestFirst = [...news.values()].sort((a, b) => startOf(b).localeCompare(startOf(a)));
  return { news: latestFirst.slice(0, MOST_AT_ONCE), more: Math.max(0, news.size - MOST_AT_ONCE) };
}

// Returns the bookings that neither this browser made nor the desk confirmed to this browser, and that this browser hasn't
// asked the desk to cancel.
export function onlyListed(entries) {
  return entries.filter((entry) => stateOf(entry) === "listed");
}

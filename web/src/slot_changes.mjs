// Tells what changed at a slot since the page showed it: the office may have set another price, or other places or hours.
import { hourText } from "./dates.mjs";
import { say } from "./words.mjs";

// `before` and `now` are the desk's replies about the slot, or null.
export function slotChanges(before, now) {
  if (before === null || now === null) return [];
  const [left, leftNow] = [before, now].map(({ places, taken }) => Math.max(0, places - taken));
  return [
    ...(before.price === now.price ? [] : [say("price-now", { count: now.price })]),
    ...(before.places === now.places ? [] : [say("places-now", { count: now.places })]),
    ...(left === leftNow || now.closed ? [] : [say("free-now", { count: leftNow })]),
  ];
}

// `before` and `now` are the facility in the club's list, or null.
export function hourChanges(before, now) {
  if (before === null || now === null) return [];
  if (before.opens === now.opens && before.shuts === now.shuts) return [];
  return [say("hours-now", { from: `${hourText(now.opens)}:00`, to: `${hourText(now.shuts)}:00` })];
}

// Several bookings by one confirmation: neighbouring hours of a slot, and the same hours of the next weeks.
import { facilityOf, whyClosed } from "./club.mjs";
import { daysLater } from "./dates.mjs";
import { agreedFor, isDenied } from "./points.mjs";
import { hasBegun, isTooFarAhead, slotName } from "./record.mjs";
import { clubMoment, liveAt, state } from "./state.mjs";
import { say } from "./words.mjs";

export const NO_ANSWER = "no answer";
const MOST_HOURS = 4;
const MOST_WEEKS = 3; // after the first

// Returns the slots of a series, day by day.
export function seriesOf(slot, hours, weeks) {
  const days = Array.from({ length: weeks + 1 }, (_, week) => daysLater(slot.day, 7 * week));
  return days.flatMap((day) => Array.from({ length: hours }, (_, place) => ({ ...slot, day, hour: slot.hour + place })));
}

// Returns the greatest number of neighbouring hours, up to the end of the facility's hours.
export function mostHours(slot) {
  const shuts = facilityOf(state.club, slot.facility)?.shuts ?? slot.hour + 1;
  return Math.max(1, Math.min(MOST_HOURS, shuts - slot.hour));
}

// Returns the greatest number of further weeks whose slot can be booked today.
export function mostWeeks(slot) {
  const moment = clubMoment();
  let most = 0;
  while (most < MOST_WEEKS && !isTooFarAhead({ ...slot, day: daysLater(slot.day, 7 * (most + 1)) }, moment)) most += 1;
  return moment === null ? 0 : most;
}

// Returns why a slot can't be booked, or null. `view` is the desk's reply about the slot, or null if the pass doesn't
// allow viewing the slot.
export function whyNot(slot, view, guests = 0) {
  const moment = clubMoment();
  if (hasBegun(slot, moment)) return say("cell-past");
  if (isTooFarAhead(slot, moment)) return say("cell-far");
  if (isDenied(slot, view, guests)) return say("cell-denied");
  if (view?.closed) return [say("cell-closed"), whyClosed(state.club, slot)].filter((each) => each !== "").join(", ");
  if (view === null || view.taken + guests < view.places) return null;
  return view.taken < view.places ? say("free-now", { count: view.places - view.taken }) : say("cell-full");
}

// Returns for each slot whether the page still waits for the desk's reply about it, why the slot isn't booked, and the
// agreed points. `views` maps the names of slots to the desk's replies, to NO_ANSWER, or to null if the pass doesn't allow
// viewing the slot.
export function planOf(slots, views, guests) {
  return slots.map((slot) => {
    const view = views.get(slotName(slot));
    if (view === undefined) return { slot, isWaiting: true, why: null, agreed: undefined };
    if (view === NO_ANSWER) return { slot, isWaiting: false, why: say("cell-failed"), agreed: undefined };
    const why = liveAt(slot).length > 0 && slots.length > 1 ? say("cell-mine-only") : whyNot(slot, view, guests);
    return { slot, isWaiting: false, why, agreed: agreedFor(view, guests) };
  });
}

// Returns what the desk will refuse of `count` bookings for `points`, as far as the page knows the account.
export function limitsOf(account, count, points) {
  if (account === null) return [];
  const left = Math.max(0, account.quota - account.open);
  return [
    ...(count > left ? [say("series-quota", { count: left, quota: account.quota })] : []),
    ...(points > account.balance ? [say("series-points", { count: account.balance })] : []),
  ];
}

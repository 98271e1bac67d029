// Calculates the cost of a booking. Checks whether the pass denies the booking, as far as the page knows.
import { denial } from "./state.mjs";

// Returns the free places of several slots. `views` has the desk's replies about the slots.
export function placesLeft(views) {
  return views.reduce((sum, { places, taken }) => sum + Math.max(0, places - taken), 0);
}

// `view` is the desk's reply about the slot, or null if the pass doesn't allow viewing the slot.
export function owedFor(view, guests) {
  return view === null ? 0 : view.price * (guests + 1);
}

// Returns the points that the member agrees to by booking, or undefined if the page shows no price.
export function agreedFor(view, guests) {
  return view === null ? undefined : owedFor(view, guests);
}

export function isDenied(slot, view, guests) {
  return denial("book", slot, { guests, owed: owedFor(view, guests) }) > 0;
}

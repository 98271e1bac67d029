// The dialogs for booking. A dialog first shows the cost. After the member presses the button, the dialog shows the result.
// The request to book is for the shown cost: the desk never charges more (price.mjs).
import { titleOf, whyClosed } from "./club.mjs";
import { offerCancellation } from "./cancel_dialog.mjs";
import { bookText, BookingChoice, costFacts } from "./choice_dialog.mjs";
import { closeDialog, openDialog } from "./dialog.mjs";
import { outcomeBox, slotText } from "./dialog_parts.mjs";
import { button, element } from "./elements.mjs";
import { agreedFor, isDenied } from "./points.mjs";
import { personsOf, stateOf } from "./record.mjs";
import { sendBooking } from "./sending.mjs";
import { denial, liveAt, ownAt, state } from "./state.mjs";
import { say } from "./words.mjs";

function closedText(slot) {
  const why = whyClosed(state.club, slot);
  return why === "" ? say("closed") : say("closed-why", { why });
}

// Makes a note for a booking whose slot is closed. The desk refuses to close a booked slot, so the office must have cancelled the booking before it
// closed the slot.
export function closedOwn(slot) {
  return element("p", "note", element("strong", "", closedText(slot)), " ", say("closed-own"));
}

// Shows the reason why a slot is closed, and the club's contact.
export function offerClosed(slot, whenDone) {
  const contact = state.club?.contact ?? "";
  openDialog(titleOf(state.club, slot.facility), [
    element("p", "slot-time", slotText(slot)), element("p", "note", closedText(slot)),
    ...(contact === "" ? [] : [element("p", "hint", say("contact", { contact }))]),
    element("div", "buttons", button("main wide-button", say("close"), closeDialog)),
  ], whenDone);
}

// ---- Booking

// `view` is the desk's reply about the slot, or null if the pass doesn't allow viewing the slot.
// `guests` is the number of guests to begin with.
export function offerBooking(slot, view, whenDone, guests = 0) {
  const own = ownAt(slot, view);
  const mine = own.length > 0 ? own : liveAt(slot);
  const title = say("book-this", { facility: titleOf(state.club, slot.facility) });
  if (mine.length > 0) offerSecond(slot, view, mine, title, whenDone);
  else new BookingChoice({ slot, view, isMeant: false, whenDone, guests, offerAgain: offerBooking }).open(title);
}

function offerSecond(slot, view, mine, title, whenDone) {
  const facility = titleOf(state.club, slot.facility);
  const isKnown = mine.every((entry) => entry.guests !== null);
  const count = personsOf(mine);
  const known = isKnown ? say("second", { facility, count }) : say("second-unknown", { facility });
  const words = mine.every((entry) => stateOf(entry) === "listed") ? say("second-listed", { facility }) : known;
  const isToCancel = mine.length === 1 && stateOf(mine[0]) === "booked" && denial("cancel", slot) === 0;
  const isFree = view === null || (!view.closed && view.taken < view.places);
  openDialog(say("second-title"), [
    element("p", "slot-time", slotText(slot)), view?.closed ? closedOwn(slot) : element("p", "", words),
    element("div", "buttons",
      button("main", say("back"), closeDialog),
      ...(isToCancel ? [button("danger", say("cancel-yes"), () => offerCancellation(mine[0], whenDone))] : []),
      ...(isFree && !isDenied(slot, view, 0) ? [button("", say("second-yes"), () => new BookingChoice({ slot, view, isMeant: true, whenDone }).open(title))] : [])),
  ], whenDone);
}

// Offers to request a booking that the browser knows only from a list, without the desk's answer. The request has the number and the guests that the
// list states.
export function offerListed(entry, view, whenDone) {
  const facts = element("dl", "cost", ...costFacts(view, entry.guests));
  const outcome = outcomeBox();
  const press = button("main wide-button", bookText(view, entry.guests), () => {
    press.disabled = true;
    const book = async () => {
      await state.sender.askFor(entry.key, entry.number, agreedFor(view, entry.guests));
      return entry;
    };
    sendBooking({ book, slot: entry, outcome, press, again: () => {}, done: () => facts.remove(), second: () => {} });
  });
  openDialog(say("book-this", { facility: titleOf(state.club, entry.facility) }), [
    element("p", "slot-time", slotText(entry)), element("p", "hint", say("persons", { count: entry.guests + 1 })), facts,
    element("p", "hint", say("listed-ask-hint")), outcome, element("div", "buttons", press),
  ], whenDone);
}

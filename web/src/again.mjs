// The actions on a booking, except the cancellation. They add the booking to a calendar, invite somebody, book the same hour a week later, or change
// the booking.
import { offerBooking } from "./booking_dialog.mjs";
import { calendarText } from "./calendar.mjs";
import { lookedUp, offerChange } from "./change_dialog.mjs";
import { titleOf } from "./club.mjs";
import { daysLater } from "./dates.mjs";
import { tell } from "./dialog.mjs";
import { slotText } from "./dialog_parts.mjs";
import { button, element } from "./elements.mjs";
import { stateOf } from "./record.mjs";
import { whyNot } from "./series.mjs";
import { canSend, denial, state } from "./state.mjs";
import { say } from "./words.mjs";

// Makes the buttons below "More" on a booking's card.
export function moreOf(entry, whenDone) {
  // The page needs the club's time zone to know when a slot begins.
  const isKnown = state.club !== null;
  const isOwn = isKnown && entry.key === state.key && state.pass !== null && canSend();
  const buttons = [];
  if (["booked", "listed"].includes(stateOf(entry))) {
    if (isKnown) buttons.push(button("", say("to-calendar"), () => saveForCalendar(entry)));
    buttons.push(button("", say("invite"), () => invite(entry)));
  }
  if (isOwn) buttons.push(button("", say("next-week"), () => offerNextWeek(entry, whenDone)));
  if (isOwn && stateOf(entry) === "booked" && entry.guests !== null && denial("cancel", entry) === 0 && denial("book", entry) === 0) {
    buttons.push(button("", say("change"), () => offerChange(entry, whenDone)));
  }
  if (buttons.length === 0) return [];
  return [element("details", "more", element("summary", "", say("more-buttons")), element("div", "buttons", ...buttons))];
}

function placeText() {
  return state.club?.name ?? "";
}

function saveForCalendar(entry) {
  const title = [titleOf(state.club, entry.facility), placeText()].filter((each) => each !== "").join(", ");
  const text = calendarText({ entry, zone: state.club.zone, title, place: placeText(), host: location.hostname, now: Date.now() });
  const link = element("a", "");
  link.href = URL.createObjectURL(new Blob([text], { type: "text/calendar" }));
  link.download = `${entry.facility}-${entry.day}.ics`;
  link.click();
  setTimeout(() => URL.revokeObjectURL(link.href), 60000);
}

// The invitation contains the day, hour and place, but neither the booking's number nor the pass.
async function invite(entry) {
  const words = placeText() === "" ? "invite-text" : "invite-text-at";
  const text = say(words, { facility: titleOf(state.club, entry.facility), time: slotText(entry), club: placeText() });
  try {
    if (navigator.share !== undefined) await navigator.share({ text });
    else await navigator.clipboard.writeText(text);
    await tell(say("invite"), say(navigator.share === undefined ? "invite-copied" : "invite-sent"));
  } catch {
    await tell(say("invite"), text);
  }
}

async function offerNextWeek(entry, whenDone) {
  const slot = { facility: entry.facility, day: daysLater(entry.day, 7), hour: entry.hour };
  const title = say("next-week");
  const found = await lookedUp(slot, title);
  if (found === null) return;
  const why = whyNot(slot, found.view);
  if (why === null) offerBooking(slot, found.view, whenDone, entry.guests ?? 0);
  else await tell(title, [slotText(slot), why].join(": "));
}

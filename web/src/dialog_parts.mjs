// Parts of the dialogs in which a member books and cancels.
import { hourText } from "./dates.mjs";
import { closeDialog, isDialogOpen } from "./dialog.mjs";
import { button, element } from "./elements.mjs";
import { noReplyText } from "./refusals.mjs";
import { dateText, say } from "./words.mjs";

const SEEN_AFTER = 1000; // milliseconds until the page says that there is no answer yet
const LONG_AFTER = 10000;

export function slotText({ day, hour }, words = dateText) {
  return say("slot-time", { day: words(day), from: `${hourText(hour)}:00`, to: `${hourText(hour + 1)}:00` });
}

export function faultBox(title, words) {
  const box = element("div", "fault", element("strong", "", title), element("span", "", words));
  box.setAttribute("role", "alert");
  return box;
}

// Makes the place of a result. A screen reader reads the result when it comes.
export function outcomeBox() {
  const made = element("div", "outcome-box");
  made.setAttribute("aria-live", "polite");
  return made;
}

// Tells the member after a second that the desk hasn't answered yet, and explains the delay after ten seconds. Returns a function that stops these
// messages.
export function waitingWords(outcome, sender) {
  const begun = Date.now();
  outcome.replaceChildren(element("p", "sending", say("sending")));
  const timer = setInterval(() => {
    const waited = Date.now() - begun;
    if (waited < SEEN_AFTER) return;
    const count = sender.tries + 1;
    const why = noReplyText(sender.status, "sending-no-answer");
    const lines = [element("p", "sending", say("sending-again", { why, count }))];
    if (waited >= LONG_AFTER) lines.push(element("p", "note", say("sending-long")));
    outcome.replaceChildren(...lines);
  }, 500);
  return () => clearInterval(timer);
}

// Replaces the pressed button with a button that closes the dialog.
export function finish(press) {
  const close = button("main wide-button", say("close"), closeDialog);
  const hadFocus = document.activeElement === press || document.activeElement === document.body;
  press.replaceWith(close);
  if (hadFocus && isDialogOpen()) close.focus();
}

export function unsavedNote(sender) {
  return sender.unsaved.size > 0 ? [element("p", "note", say("reply-not-stored"))] : [];
}

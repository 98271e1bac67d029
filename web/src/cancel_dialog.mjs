// The dialog for cancelling. The dialog first shows the refund. After the member presses the button, it shows the result.
import { titleOf } from "./club.mjs";
import { daysLater } from "./dates.mjs";
import { closeDialog, openDialog } from "./dialog.mjs";
import { faultBox, finish, outcomeBox, slotText, unsavedNote, waitingWords } from "./dialog_parts.mjs";
import { button, element } from "./elements.mjs";
import { fullRefundEnd } from "./lend.mjs";
import { refundAt, stateOf, unfinished } from "./record.mjs";
import { refusalText } from "./refusals.mjs";
import { NotStored } from "./sender.mjs";
import { senderOf } from "./senders.mjs";
import { clubMoment, state } from "./state.mjs";
import { dayText, say } from "./words.mjs";

export function offerCancellation(entry, whenDone) {
  const facility = titleOf(state.club, entry.facility);
  const moment = clubMoment();
  const back = moment === null ? null : refundAt(entry, moment);
  const outcome = outcomeBox();
  const keep = button("", say("cancel-no"), closeDialog);
  const press = button("main danger", say("cancel-yes"), async () => {
    press.disabled = true;
    keep.remove();
    await sendCancellation(entry, outcome, press);
  });
  openDialog(say("cancel-question"), [
    element("p", "slot-time", facility, element("br"), slotText(entry)),
    element("p", "", back === null ? say("gives-back-unknown") : say(stateOf(entry) === "listed" ? "listed-gives-back" : "gives-back", { count: back })),
    outcome, element("div", "buttons", press, keep),
  ], whenDone);
}

async function sendCancellation(entry, outcome, press) {
  const sender = senderOf(entry.key);
  const end = waitingWords(outcome, sender);
  try {
    await sender.cancel(entry.key, entry.number);
    sender.follow(entry, (now) => {
      if (unfinished(now) !== null && now.stopped === undefined) return;
      end();
      outcome.replaceChildren(...outcomeOfCancellation(now, sender));
      finish(press);
    });
    await sender.run();
  } catch (fault) {
    end();
    press.disabled = false;
    if (!(fault instanceof NotStored)) throw fault;
    outcome.replaceChildren(faultBox(say("not-stored-title"), say("not-stored")));
  }
}

function outcomeOfCancellation(entry, sender) {
  if (entry.notCancelled !== undefined) return [faultBox(say("not-cancelled-title"), refusalText(entry.notCancelled, "cancel"))];
  if (entry.stopped !== undefined) return [faultBox(say("not-cancelled-title"), refusalText(entry.stopped, "cancel"))];
  const words = [element("strong", "", say("cancelled")), " ", say("cancelled-detail", { count: entry.cancel?.refund ?? 0 })];
  return [element("p", "done", ...words), ...unsavedNote(sender)];
}

// Returns the last moment for a full refund as a day and a time, such as "Friday 1 May" and "18:00". The holder of a pass
// can't cancel after the pass's end.
export function fullRefundUntil(entry, pass = state.pass) {
  const until = fullRefundEnd(entry, pass);
  if (until.slice(11) !== "00:00") return { day: dayText(until.slice(0, 10)), time: until.slice(11) };
  return { day: dayText(daysLater(until.slice(0, 10), -1)), time: "24:00" };
}

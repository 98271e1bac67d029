// The dialog that changes a booking's facility, day, hour or guests. The page first makes a new booking. Once the desk has made
// it, the page cancels the old booking (sender.mjs). If the desk refuses the new booking, the old booking stays.
import { facilityOf, hoursOf, titleOf } from "./club.mjs";
import { daysLater, hourText, isDate } from "./dates.mjs";
import { ask } from "./desk.mjs";
import { closeDialog, openDialog, tell } from "./dialog.mjs";
import { outcomeBox, slotText, waitingWords } from "./dialog_parts.mjs";
import { button, element } from "./elements.mjs";
import { allowsFacility } from "./lend.mjs";
import { agreedFor, owedFor } from "./points.mjs";
import { DAYS_AHEAD, hasBegun, isAt, MOST_GUESTS, refundAt, stateOf } from "./record.mjs";
import { noReplyText, refusalText } from "./refusals.mjs";
import { NoReply } from "./replies.mjs";
import { NotStored } from "./sender.mjs";
import { decided } from "./senders.mjs";
import { whyNot } from "./series.mjs";
import { clubMoment, denial, state } from "./state.mjs";
import { say } from "./words.mjs";

// Returns the desk's reply about a slot as `view`. If the pass doesn't allow viewing the slot, `view` is null. If the request fails, the function
// tells the member why, and returns null.
export async function lookedUp(slot, title) {
  try {
    const reply = denial("view", slot) > 0 ? null : await ask(state.text, "view", slot, 2);
    if (reply?.fault === undefined) return { view: reply };
    await tell(title, refusalText(reply));
  } catch (fault) {
    if (!(fault instanceof NoReply)) throw fault;
    await tell(title, noReplyText(fault.status, "account-failed"));
  }
  return null;
}

function labelled(words, field) {
  const label = element("label", "", say(words));
  label.htmlFor = field.id;
  return element("div", "", label, field);
}

// The fields of the dialog. The hours fit the chosen facility and day.
class ChangeFields {
  constructor(entry) {
    this.entry = entry;
    const today = clubMoment().slice(0, 10);
    const allowed = state.club.facilities.filter((each) => each.name === entry.facility || allowsFacility(state.pass, each));
    this.facility = Object.assign(element("select", "", ...allowed.map(({ name, title }) => new Option(title, name, false, name === entry.facility))), { id: "change-facility" });
    this.day = Object.assign(element("input", ""), { id: "change-day", type: "date", min: today, max: daysLater(today, DAYS_AHEAD), value: entry.day });
    this.hour = Object.assign(element("select", ""), { id: "change-hour" });
    this.guests = Object.assign(element("input", ""), { id: "change-guests", type: "number", min: 0, max: MOST_GUESTS, value: entry.guests });
    for (const field of [this.facility, this.day]) field.addEventListener("change", () => this.fillHours());
    this.fillHours();
    const rows = [["lost-facility", this.facility], ["lost-day", this.day], ["lost-hour", this.hour], ["guests-label", this.guests]];
    this.parts = element("div", "pair", ...rows.map((row) => labelled(...row)));
  }

  fillHours() {
    const { facility: name, day, hour } = this.entry;
    const wanted = Number(this.hour.value || hour);
    const facility = facilityOf(state.club, this.facility.value || name);
    const its = { facility: name, day: this.day.value || day };
    const hours = facility === null ? [hour] : hoursOf(facility).filter((each) => !isDate(its.day) || !hasBegun({ ...its, hour: each }, clubMoment()));
    this.hour.replaceChildren(...hours.map((each) => new Option(`${hourText(each)}:00`, String(each), false, each === wanted)));
  }

  // Returns the chosen slot and guests, or the text about a wrong choice as `wrong`.
  chosen() {
    const guests = Number(this.guests.value);
    const slot = { facility: this.facility.value || this.entry.facility, day: this.day.value, hour: Number(this.hour.value) };
    if (!Number.isInteger(guests) || guests < 0 || guests > MOST_GUESTS) return { wrong: say("wrong-guests") };
    if (!isDate(slot.day) || this.hour.value === "") return { wrong: say("lost-wrong-day") };
    return isAt(this.entry, slot) && guests === this.entry.guests ? { wrong: say("change-same") } : { slot, guests };
  }
}

export function offerChange(entry, whenDone) {
  const fields = new ChangeFields(entry);
  const outcome = outcomeBox();
  const next = button("main wide-button", say("change-look"), async () => {
    const { wrong, slot, guests } = fields.chosen();
    if (wrong !== undefined) outcome.replaceChildren(element("p", "wrong", wrong));
    else await confirmChange(entry, slot, guests, whenDone);
  });
  openDialog(say("change-title", { facility: titleOf(state.club, entry.facility) }), [
    element("p", "slot-time", slotText(entry)), fields.parts, outcome, element("div", "buttons", next),
  ], whenDone);
}

// Shows the cost of the new booking, the refund of the old booking, and what happens if one of the two requests fails. The page sends these requests
// only after the member presses the button.
async function confirmChange(entry, slot, guests, whenDone) {
  const title = say("change-title", { facility: titleOf(state.club, entry.facility) });
  const found = await lookedUp(slot, title);
  if (found === null) return;
  const isSameSlot = isAt(entry, slot);
  const why = isSameSlot ? null : whyNot(slot, found.view, guests);
  const outcome = outcomeBox();
  const back = refundAt(entry, clubMoment());
  const press = button("main wide-button", say(found.view === null ? "change-now-unseen" : "change-now", { count: owedFor(found.view, guests) }), () => {
    press.disabled = true;
    change({ entry, slot, guests, agreed: agreedFor(found.view, guests), outcome, press });
  });
  openDialog(title, [
    element("p", "slot-time", titleOf(state.club, slot.facility), element("br"), slotText(slot)), element("p", "", say("persons", { count: guests + 1 })),
    ...(back === null ? [] : [element("p", "", say("change-back", { count: back }))]), element("p", "hint", say("change-hint")),
    ...(why === null ? [] : [element("p", "wrong", why)]), outcome, element("div", "buttons", ...(why === null ? [press] : []), button("", say("back"), closeDialog)),
  ], whenDone);
}

async function change({ entry, slot, guests, agreed, outcome, press }) {
  const stop = waitingWords(outcome, state.sender);
  const end = (className, ...words) => {
    stop();
    outcome.replaceChildren(element("p", className, ...words));
    press.replaceWith(button("main wide-button", say("close"), closeDialog));
  };
  try {
    const made = await state.sender.book(slot, guests, true, agreed, entry.number);
    if (made.key === undefined) {
      end("fault", say("change-twice"));
      return;
    }
    const answers = [made, entry].map((each) => decided(state.sender, each));
    await state.sender.run();
    const now = await answers[0];
    if (stateOf(now) !== "booked") {
      end("fault", element("strong", "", say("change-none")), " ", refusalText(now.stopped ?? now.book, "book", now));
      return;
    }
    const gone = await answers[1];
    if (stateOf(gone) === "cancelled") end("done", element("strong", "", say("changed")), " ", say("cancelled-detail", { count: gone.cancel.refund }));
    else end("fault", element("strong", "", say("change-both")), " ", refusalText(gone.notCancelled ?? gone.stopped, "cancel"));
  } catch (fault) {
    if (!(fault instanceof NotStored)) throw fault;
    end("fault", say("not-stored"));
  }
}

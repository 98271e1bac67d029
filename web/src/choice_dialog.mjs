// The dialog in which a member chooses the guests, neighbouring hours and further weeks, sees the cost, and books by one
// press. After a refusal, the dialog looks at the slots again and shows what changed.
import { facilityOf } from "./club.mjs";
import { fetchClub } from "./club_loading.mjs";
import { startOf } from "./dates.mjs";
import { ask, eachAtOnce } from "./desk.mjs";
import { openDialog } from "./dialog.mjs";
import { outcomeBox, slotText } from "./dialog_parts.mjs";
import { button, element } from "./elements.mjs";
import { endOf } from "./lend.mjs";
import { fact, untilText } from "./pass_words.mjs";
import { agreedFor, isDenied, owedFor } from "./points.mjs";
import { MOST_GUESTS, slotName } from "./record.mjs";
import { NoReply, NO_SUCH_FACILITY, NOT_BOOKABLE } from "./replies.mjs";
import { sendBooking, sendSeries } from "./sending.mjs";
import { limitsOf, mostHours, mostWeeks, NO_ANSWER, planOf, seriesOf } from "./series.mjs";
import { hourChanges, slotChanges } from "./slot_changes.mjs";
import { denial, state } from "./state.mjs";
import { say, shortDayText } from "./words.mjs";

// A number with a button to lower it and a button to raise it.
class Stepper {
  constructor(label, [fewer, more], least, change) {
    Object.assign(this, { value: least, least, most: least });
    this.number = element("output", "count");
    this.fewer = this.button("\u2212", fewer, () => change(this.value - 1));
    this.more = this.button("+", more, () => change(this.value + 1));
    this.row = element("div", "stepper", element("span", "label", label), this.fewer, this.number, this.more);
    this.row.setAttribute("role", "group");
    this.row.setAttribute("aria-label", label);
  }

  button(sign, words, press) {
    const made = button("step-button", sign, press);
    made.setAttribute("aria-label", say(words));
    return made;
  }

  show(value, most) {
    this.most = Math.max(this.least, most);
    this.value = Math.min(this.most, Math.max(this.least, value));
    this.number.textContent = String(this.value);
    this.fewer.disabled = this.value === this.least;
    this.more.disabled = this.value === this.most;
  }

  stop() {
    for (const each of [this.fewer, this.more]) each.disabled = true;
  }
}

// Returns the greatest number of guests that the free places and the pass allow.
function mostGuests(slot, view) {
  let most = view === null ? MOST_GUESTS : Math.min(MOST_GUESTS, view.places - view.taken - 1);
  while (most > 0 && isDenied(slot, view, most)) most -= 1;
  return Math.max(most, 0);
}

export class BookingChoice {
  // `offerAgain` offers the slot anew, after another tab has booked it.
  constructor({ slot, view, isMeant, whenDone, offerAgain, guests = 0 }) {
    Object.assign(this, { slot, isMeant, whenDone, offerAgain, isSent: false, views: new Map([[slotName(slot), view]]) });
    this.facts = element("dl", "cost");
    this.places = element("p", "hint");
    this.plan = element("ul", "plan");
    this.limits = element("div", "");
    this.outcome = outcomeBox();
    this.press = button("main wide-button", "", () => this.send());
    this.guests = new Stepper(say("guests-label"), ["fewer", "more"], 0, (value) => this.change({ guests: value }));
    this.hours = new Stepper(say("hours-label"), ["hour-fewer", "hour-more"], 1, (value) => this.change({ hours: value }));
    this.weeks = new Stepper(say("weeks-label"), ["week-fewer", "week-more"], 0, (value) => this.change({ weeks: value }));
    this.change({ guests, hours: 1, weeks: 0 });
  }

  get view() {
    return this.views.get(slotName(this.slot)) ?? null;
  }

  get slots() {
    return seriesOf(this.slot, this.hours.value, this.weeks.value);
  }

  open(title) {
    const about = facilityOf(state.club, this.slot.facility)?.about ?? "";
    const more = this.isMeant ? [] : [this.hours, this.weeks].filter((stepper) => stepper.most > stepper.least);
    openDialog(title, [
      element("p", "slot-time", slotText(this.slot)), ...(about === "" ? [] : [element("p", "hint", about)]), this.places, this.guests.row,
      ...more.map(({ row }) => row), this.plan, this.facts, ...endNote(this.slot), this.limits, this.outcome, element("div", "buttons", this.press),
    ], this.whenDone);
  }

  change({ guests = this.guests.value, hours = this.hours.value, weeks = this.weeks.value }) {
    this.guests.show(guests, mostGuests(this.slot, this.view));
    this.hours.show(hours, mostHours(this.slot));
    this.weeks.show(weeks, mostWeeks(this.slot));
    this.show();
    this.look();
  }

  show() {
    const plan = planOf(this.slots, this.views, this.guests.value);
    const { view } = this;
    this.places.textContent = view === null ? "" : say("places-left", { count: Math.max(0, view.places - view.taken) });
    this.plan.replaceChildren(...(plan.length > 1 ? plan.map(planLine) : []));
    const wanted = plan.length === 1 ? plan : plan.filter(({ why, isWaiting }) => why === null && !isWaiting);
    this.facts.replaceChildren(...costFacts(view, this.guests.value, wanted));
    const points = pointsOfPlan(wanted);
    this.limits.replaceChildren(...(wanted.length < 2 ? [] : limitsOf(state.account, wanted.length, points).map((words) => element("p", "note", words))));
    this.press.textContent = plan.length === 1 ? bookText(view, this.guests.value) : say("book-several", { count: wanted.length, points });
    this.press.disabled = plan.some(({ isWaiting }) => isWaiting) || wanted.length === 0;
  }

  // Asks the desk about the slots of the series that the dialog doesn't know yet.
  async look() {
    const missing = this.slots.filter((slot) => !this.views.has(slotName(slot)));
    if (missing.length === 0) return;
    await eachAtOnce(missing, async (slot) => { this.views.set(slotName(slot), await viewNow(slot, NO_ANSWER)); });
    if (!this.isSent) this.show();
  }

  send() {
    for (const each of [this.guests, this.hours, this.weeks]) each.stop();
    this.press.disabled = true;
    this.isSent = true;
    const { slot, view, outcome, press } = this;
    const guests = this.guests.value;
    const done = () => [this.places, this.guests.row, this.hours.row, this.weeks.row, this.plan, this.facts, this.limits].forEach((each) => each.remove());
    const plan = planOf(this.slots, this.views, guests);
    if (plan.length > 1) {
      const orders = plan.filter(({ why }) => why === null).map(({ slot: each, agreed }) => ({ slot: each, guests, agreed }));
      sendSeries({ orders, outcome, press, again: () => this.again(), done });
      return;
    }
    sendBooking({
      book: () => state.sender.book(slot, guests, this.isMeant, agreedFor(view, guests)), slot, outcome, press,
      again: (entry) => this.again(entry), done, second: () => this.offerAgain(slot, view, this.whenDone),
    });
  }

  // Lets the member book again. After a refusal, `entry` is the refused booking, and the dialog first looks at the slot.
  async again(entry) {
    this.isSent = false;
    const changes = entry === undefined ? [] : await this.lookAgain(entry.book.fault);
    if (changes.length > 0) this.outcome.append(element("p", "note", changes.join(" ")));
    this.change({});
    if (entry !== undefined && this.view !== null) this.press.disabled = this.view.closed || this.view.taken >= this.view.places;
  }

  async lookAgain(fault) {
    const [before, club] = [this.view, state.club];
    this.views.set(slotName(this.slot), await viewNow(this.slot, before));
    if ([NO_SUCH_FACILITY, NOT_BOOKABLE].includes(fault)) await fetchClub();
    const facilities = [club, state.club].map((each) => facilityOf(each, this.slot.facility));
    return [...slotChanges(before, this.view), ...hourChanges(...facilities)];
  }
}

function planLine({ slot, isWaiting, why, agreed }) {
  const words = isWaiting ? "\u2026" : why ?? (agreed === undefined ? say("charge-unseen") : say("charged", { count: agreed }));
  return element("li", why === null ? "" : "left-out", slotText(slot, shortDayText), ": ", words);
}

function pointsOfPlan(plan) {
  return plan.reduce((sum, { agreed }) => sum + (agreed ?? 0), 0);
}

// Returns the desk's present reply about a slot, null if the pass doesn't allow viewing it, or `before` without a reply.
async function viewNow(slot, before) {
  if (denial("view", slot) > 0) return null;
  try {
    const reply = await ask(state.text, "view", slot, 2);
    return reply.fault === undefined ? reply : before;
  } catch (fault) {
    if (!(fault instanceof NoReply)) throw fault;
    return before;
  }
}

// Makes a note if the pass ends before the slot begins. In this case, the member can cancel the booking only until the pass ends.
function endNote(slot) {
  const end = endOf(state.pass);
  if (end === null || end > startOf(slot)) return [];
  return [element("p", "note", say("ends-before"), " ", untilText(...end.split("T")))];
}

export function bookText(view, guests) {
  return owedFor(view, guests) === 0 ? say("book-free") : say("book-for", { count: owedFor(view, guests) });
}

// Makes the facts about the cost of bookings. `wanted` has the bookings of the plan, by default one at the view's price.
export function costFacts(view, guests, wanted = [{ agreed: owedFor(view, guests) }]) {
  if (view === null) return fact(say("charge"), say("charge-unseen"));
  const charge = pointsOfPlan(wanted);
  const facts = fact(say("charge"), say("charged", { count: charge }), "key");
  if (guests > 0) facts.push(...fact("", say("price-each", { count: view.price })));
  if (state.account !== null) {
    const { balance, open, quota } = state.account;
    facts.push(...fact(say("balance-after"), say("charged", { count: Math.max(0, balance - charge) })));
    facts.push(...fact(say("open-after"), say("of-quota", { open: open + wanted.length, quota })));
  }
  return facts;
}

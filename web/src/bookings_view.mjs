// The view of the member's bookings. It shows the future and past bookings that the record has for the pass's key, and the actions on each booking.
import { moreOf } from "./again.mjs";
import { closedOwn, offerListed } from "./booking_dialog.mjs";
import { fullRefundUntil, offerCancellation } from "./cancel_dialog.mjs";
import { titleOf } from "./club.mjs";
import { hourText, minutesOf, startOf } from "./dates.mjs";
import { ask, eachAtOnce } from "./desk.mjs";
import { openDialog } from "./dialog.mjs";
import { slotText } from "./dialog_parts.mjs";
import { putCardList } from "./card_list.mjs";
import { button, byName, element, put } from "./elements.mjs";
import { showListKept } from "./list_keeping.mjs";
import { onlyListed } from "./lists.mjs";
import { amountsOf, canBeAsked, compared, hasBegun, isLive, refundAt, slotName, stateOf, unfinished } from "./record.mjs";
import { noReplyText, refusalText } from "./refusals.mjs";
import { NoReply } from "./replies.mjs";
import { canCancel } from "./senders.mjs";
import { canSend, clubMoment, denial, isLost, ownEntries, state } from "./state.mjs";
import { say } from "./words.mjs";

export function showBookings(whenDone) {
  const moment = clubMoment();
  const own = state.pass === null ? [] : ownEntries().sort((a, b) => startOf(a).localeCompare(startOf(b)) || a.number - b.number);
  const isPast = (entry) => moment !== null && hasBegun(entry, moment);
  const toCome = own.filter((entry) => !isPast(entry));
  const past = own.filter(isPast).reverse();
  showComparison(own, moment);
  put("bookings-which", ...(state.key === null ? [] : [say("bookings-which", { key: state.key })]));
  byName("bookings-none").hidden = state.entries.length > 0;
  byName("to-come-title").hidden = toCome.length === 0;
  putCardList("to-come", toCome, (entry) => cardOf(entry, false, whenDone));
  byName("past-part").hidden = past.length === 0;
  putCardList("past", past, (entry) => cardOf(entry, true, whenDone));
  showOthers(moment, whenDone);
  showOnlyListed();
  showListKept();
  const count = toCome.filter(isLive).length;
  put("bookings-count", ...(count > 0 ? [String(count)] : []));
}

// The booking numbers of the bookings that may have been cancelled elsewhere. The page compares the points of the bookings in the
// list with the spent points that the desk reports. A difference shows that the list is incomplete or outdated.
let doubtful = new Set();

function showComparison(own, moment) {
  const found = state.account === null || moment === null ? null : compared(own, state.account.spent, moment);
  doubtful = new Set(["less", "claims"].includes(found?.is) ? found.entries.map((entry) => entry.number) : []);
  const words = { less: "list-less", claims: "list-claims", more: "list-more" }[found?.is];
  put("list-says", ...(words === undefined ? [] : [say(words, { count: found.points })]));
}

// Shows the bookings of other passes. The member can cancel those of a spare pass that this browser keeps.
function showOthers(moment, whenDone) {
  const isDone = (entry) => moment === null || hasBegun(entry, moment) || !canCancel(entry);
  const others = state.entries.filter((entry) => entry.key !== state.key).sort((a, b) => startOf(a).localeCompare(startOf(b)));
  byName("other-part").hidden = others.length === 0;
  putCardList("others", others, (entry) => cardOf(entry, isDone(entry), whenDone));
  const open = new Map();
  for (const entry of others) if (unfinished(entry) !== null) open.set(entry.key, (open.get(entry.key) ?? 0) + 1);
  put("needs-pass", ...[...open].map(([key, count]) => element("p", "note", say("needs-pass", { count, key }))));
}

const OFFERED_FROM = 2; // a single booking has a button of its own

function showOnlyListed() {
  const { length: count } = onlyListed(state.entries);
  byName("only-listed").hidden = count < OFFERED_FROM || state.sender === null;
  put("only-listed-words", say("only-listed", { count }));
}

function cardOf(entry, isPast, whenDone) {
  const facility = titleOf(state.club, entry.facility);
  const facts = [
    ...(entry.guests === null ? [] : [say("persons", { count: entry.guests + 1 })]),
    ...(amountsOf(entry).charge === undefined ? [] : [say("charged", { count: amountsOf(entry).charge })]),
    say("number", { number: String(entry.number) }), ...(entry.key === state.key ? [] : [entry.key]),
  ];
  const card = element("li", `card ${stateOf(entry)}`,
    element("h4", "", facility), element("p", "slot-time", slotText(entry)), element("p", "state", stateText(entry)),
    element("p", "hint", facts.join(" · ")), ...markOf(entry));
  card.dataset.name = `${entry.key}/${entry.number}`;
  if (!isPast) card.append(...whatCanBeDone(entry, whenDone), ...moreOf(entry, whenDone));
  else if (["refused", "listed"].includes(stateOf(entry))) card.append(element("div", "buttons", removal(entry, whenDone)));
  return card;
}

function stateText(entry) {
  if (entry.notCancelled !== undefined) return say("not-cancelled", { why: refusalText(entry.notCancelled, "cancel") });
  const now = stateOf(entry);
  if (entry.stopped !== undefined && now === "asked") return say("state-stopped", { why: refusalText(entry.stopped) });
  if (entry.stopped !== undefined && now === "cancelling") return say("state-stopped-cancel", { why: refusalText(entry.stopped, "cancel") });
  if (now === "asked") return say("state-asked");
  if (now === "refused") return say("state-refused", { why: refusalText(entry.book, "book", entry) });
  if (now === "cancelling") return say("state-cancelling");
  if (now === "cancelled") return say("state-cancelled", { count: entry.cancel.refund });
  return now === "listed" ? listedText(entry) : say("state-booked");
}

// Returns the text about a booking whose state the page knows only from a list.
function listedText({ guests, listed }) {
  if (listed.refund !== undefined) return say("listed-cancelled", { count: listed.refund });
  if (listed.cancel) return say("listed-cancelling");
  if (listed.charge !== undefined) return say("listed-booked");
  return say(guests === null ? "state-known" : "listed-asked");
}

function markOf(entry) {
  if (isLive(entry) && state.closed.has(slotName(entry))) return [closedOwn(entry)];
  const notes = [];
  if (isLost(entry)) notes.push(stateOf(entry) === "listed" ? ["listed-gone-title", "listed-gone"] : ["maybe-gone-title", "maybe-gone"]);
  else if (doubtful.has(entry.number) && entry.key === state.key && isLive(entry)) notes.push(["elsewhere-title", "elsewhere"]);
  else if (entry.listed?.refund !== undefined || entry.saidCancelled) notes.push(["listed-cancel-title", "listed-cancel"]);
  return notes.map(([title, words]) => element("p", "note", element("strong", "", say(title)), " ", say(words)));
}

function whatCanBeDone(entry, whenDone) {
  const buttons = [];
  const words = [];
  const isListed = stateOf(entry) === "listed";
  if (canBeAsked(entry) && entry.key === state.key && canSend() && denial("book", entry, { guests: entry.guests }) === 0) {
    buttons.push(button("", say("listed-ask"), () => askAbout(entry, whenDone)));
  }
  if ((stateOf(entry) === "booked" || isListed) && canCancel(entry)) {
    words.push(...refundWords(entry));
    buttons.push(cancelButton(entry, whenDone));
  }
  if (stateOf(entry) === "refused" || isListed) buttons.push(removal(entry, whenDone));
  return [...words, ...(buttons.length > 0 ? [element("div", "buttons", ...buttons)] : [])];
}

// Asks the desk for the slot's current price before the page offers to send the booking.
async function askAbout(entry, whenDone) {
  try {
    const reply = denial("view", entry) > 0 ? null : await ask(state.text, "view", entry, 2);
    if (reply?.fault === undefined) offerListed(entry, reply, whenDone);
    else openDialog(say("listed-ask"), [element("p", "fault", refusalText(reply))]);
  } catch (fault) {
    if (!(fault instanceof NoReply)) throw fault;
    openDialog(say("listed-ask"), [element("p", "fault", noReplyText(fault.status, "account-failed"))]);
  }
}

function refundWords(entry) {
  const moment = clubMoment();
  const back = moment === null ? null : refundAt(entry, moment);
  if (back !== null && stateOf(entry) === "listed") return [element("p", "hint", say("listed-gives-back", { count: back }))];
  if (back !== null && back > 0 && minutesOf(moment) + 1440 <= minutesOf(startOf(entry))) {
    return [element("p", "hint", say("gives-back-until", { count: back, ...fullRefundUntil(entry, entry.key === state.key ? state.pass : null) }))];
  }
  return back === null ? [] : [element("p", "hint", say("gives-back", { count: back }))];
}

function cancelButton(entry, whenDone) {
  const press = button("", say("cancel"), () => offerCancellation(entry, whenDone));
  press.setAttribute("aria-label", say("cancel-this", { facility: titleOf(state.club, entry.facility), time: slotText(entry) }));
  return press;
}

function removal(entry, whenDone) {
  const press = button("", say("remove"), async () => {
    await state.store.remove(entry.key, entry.number);
    whenDone();
  });
  press.setAttribute("aria-label", `${say("remove")}: ${titleOf(state.club, entry.facility)}, ${entry.day}, ${hourText(entry.hour)}:00`);
  return press;
}

function noteSlot(name, { taken, closed }) {
  state.taken.set(name, taken);
  if (closed) state.closed.add(name);
  else state.closed.delete(name);
}

// The greatest quota of a member. The page looks at no more slots than a member can have open bookings.
const MOST_OPEN = 99;

// Returns the future slots of the key's bookings. Bookings that the desk confirmed come before bookings from lists.
function slotsToLookAt(moment) {
  const isToSee = (entry) => !hasBegun(entry, moment) && denial("view", entry) === 0;
  const own = ["booked", "listed"].flatMap((wanted) => ownEntries().filter((entry) => stateOf(entry) === wanted && isToSee(entry)));
  return [...new Map(own.map((entry) => [slotName(entry), entry]))].slice(0, MOST_OPEN);
}

// The number of the latest check of the slots. The page drops the results of older checks.
let lookRound = 0;

// Requests the slots of the future bookings, as far as the pass allows viewing them. The number of taken places shows whether a slot has enough
// persons for the member's bookings.
export async function lookAfterBookings(whenDone) {
  const moment = clubMoment();
  if (moment === null || state.pass === null) return;
  lookRound += 1;
  const mine = lookRound;
  const slots = slotsToLookAt(moment);
  const { length } = slots;
  await eachAtOnce(slots, async ([name, entry]) => {
    try {
      const reply = await ask(state.text, "view", entry, 2);
      if (reply.fault === undefined && mine === lookRound) noteSlot(name, reply);
    } catch {
      state.taken.delete(name);
    }
  });
  if (length > 0) whenDone();
}

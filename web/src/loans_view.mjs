// What the member lent. Each loan shows what was booked under it. The member can end a loan: she cancels its bookings, and
// asks the office to revoke its pass, because only the office can make a link useless.
import { titleOf } from "./club.mjs";
import { ask } from "./desk.mjs";
import { closeDialog, openDialog } from "./dialog.mjs";
import { outcomeBox, slotText } from "./dialog_parts.mjs";
import { offerCancellation } from "./cancel_dialog.mjs";
import { button, byName, element, put } from "./elements.mjs";
import { dropLoan, endLoan, keptLoans } from "./keeping.mjs";
import { bookedUnder, keyOfLoan, mailTo, openUnder, pointsOf, stateOfLoan, unknownPoints, waysTo } from "./loans.mjs";
import { amountsOf, isLive, stateOf } from "./record.mjs";
import { KEY_REVOKED, NOT_VERIFIED } from "./replies.mjs";
import { NotStored } from "./sender.mjs";
import { canCancel, cancelled } from "./senders.mjs";
import { clubMoment, state } from "./state.mjs";
import { say, shortDayText } from "./words.mjs";

const MOST_SHOWN = 10; // bookings of a loan

const spentBy = new Map(); // the points that the desk counts for a spare pass, by the text of the pass
const refusedSpares = new Set(); // the texts of spare passes that the desk no longer accepts
let lendView = {}; // the functions of the view "Lend": showMade(), showLend() and look()

export function setUpLoans(whatViewDoes) {
  lendView = whatViewDoes;
}

export function showLoans() {
  const loans = state.club === null ? [] : keptLoans();
  byName("loans-part").hidden = loans.length === 0;
  put("loans", ...loans.map(loanCard));
}

function loanCard(loan) {
  const now = stateOfLoan(loan, clubMoment(), refusedSpares.has(loan.spare));
  const isCurrent = now === "current";
  const buttons = isCurrent
    ? [button("", say("lend-again"), () => lendView.showMade(loan.given, loan.says)), button("", say("lend-end"), () => offerEnd(loan))]
    : now === "ended" ? [button("", say("lend-end-office"), () => offerEnd(loan))]
      : [button("", say("remove"), () => { dropLoan(loan); lendView.showLend(); })];
  const booked = bookedUnder(loan, state.entries).filter((entry) => isLive(entry) || stateOf(entry) === "cancelled");
  return element("li", isCurrent ? "card booked" : "card cancelled", element("p", "", loan.says),
    element("p", "hint", factsOf(loan, now).join(" \u00b7 ")), ...bookingList(booked), element("div", "buttons", ...buttons));
}

function factsOf(loan, now) {
  const words = { over: "lend-over", ended: "lend-ended", revoked: "lend-revoked" }[now];
  const spent = spentBy.get(loan.spare);
  const points = pointsOf(loan, spent);
  const unknown = unknownPoints(loan, state.entries, spent);
  const open = openUnder(loan, state.entries, clubMoment()).length;
  return [
    ...(words === undefined ? [] : [say(words)]), ...(points === null ? [] : [say("lend-used", points)]),
    ...(open > 0 ? [say("lend-open", { count: open })] : []),
    ...(unknown > 0 ? [say("lend-unknown", { count: unknown, key: keyOfLoan(loan) })] : []),
  ];
}

function bookingList(booked) {
  if (booked.length === 0) return [];
  return [element("ul", "loan-bookings", ...booked.slice(-MOST_SHOWN).map((entry) => element("li", "", bookingText(entry))))];
}

function bookingText(entry) {
  const { charge } = amountsOf(entry);
  const words = [titleOf(state.club, entry.facility), slotText(entry, shortDayText)];
  if (charge !== undefined) words.push(say("charged", { count: charge }));
  if (!isLive(entry)) words.push(say("lend-cancelled"));
  return words.join(" \u00b7 ");
}

// ---- Ending a loan

function offerEnd(loan) {
  const outcome = outcomeBox();
  const isEnded = keptLoans().some(({ given, ended }) => given === loan.given && ended);
  const end = button("main", say("lend-end"), () => {
    const isKept = endLoan(loan);
    end.replaceWith(button("main", say("close"), closeDialog));
    outcome.replaceChildren(element("p", "done", say("lend-ended"), ". ", say("lend-ended-says")),
      ...(isKept ? [] : [element("p", "note", say("lend-not-kept"))]));
  });
  openDialog(say(isEnded ? "lend-end-office" : "lend-end-question"), [
    element("p", "", loan.says), ...bookingParts(loan), element("p", "note", say("lend-end-office-says", { key: keyOfLoan(loan) })),
    ...officeParts(loan), outcome, element("div", "buttons", isEnded ? button("", say("close"), closeDialog) : end, ...(isEnded ? [] : [button("", say("back"), closeDialog)])),
  ], lendView.look);
}

// The open bookings of the loan, each with a button, and a button that cancels all of them.
function bookingParts(loan) {
  const open = openUnder(loan, state.entries, clubMoment()).filter(canCancel);
  if (open.length === 0) return [];
  const items = open.map((entry) => element("li", "", bookingText(entry), " ",
    button("", say("cancel"), () => offerCancellation(entry, () => offerEnd(loan)))));
  const outcome = outcomeBox();
  const all = button("danger", say("lend-cancel-all", { count: open.length }), async () => {
    all.disabled = true;
    outcome.replaceChildren(element("p", "sending", say("sending")));
    outcome.replaceChildren(element("p", "note", await cancelAll(open)));
  });
  return [element("ul", "loan-bookings", ...items), element("div", "buttons", all), outcome];
}

// Cancels bookings one after the other, and says how many were cancelled.
async function cancelAll(open) {
  let [count, back] = [0, 0];
  try {
    for (const entry of open) {
      const now = await cancelled(entry);
      if (stateOf(now) === "cancelled") [count, back] = [count + 1, back + now.cancel.refund];
    }
  } catch (fault) {
    if (!(fault instanceof NotStored)) throw fault;
    return say("not-stored");
  }
  return say("lend-cancelled-all", { count, all: open.length, back });
}

function officeParts(loan) {
  const contact = state.club?.contact ?? "";
  const { mail, phone } = waysTo(contact);
  const key = keyOfLoan(loan);
  const links = [];
  if (mail !== "") {
    const words = say(loan.spare === "" ? "lend-mail-own" : "lend-mail", { key, says: loan.says });
    links.push(linkOf(mailTo(mail, say("lend-mail-subject", { key }), words), say("lend-write")));
  }
  if (phone !== "") links.push(linkOf(`tel:${phone}`, say("lend-call")));
  return [...(contact === "" ? [] : [element("p", "hint", say("contact", { contact }))]), ...(links.length > 0 ? [element("div", "buttons", ...links)] : [])];
}

function linkOf(address, words) {
  return Object.assign(element("a", "as-button", words), { href: address });
}

// ---- Looking

// Asks the desk what was spent with each lent spare pass, and whether it still accepts the pass.
export async function lookAtLoans(texts) {
  for (const text of texts) {
    const reply = await ask(text, "account", {}, 2).catch(() => null);
    if (reply?.spent !== undefined) spentBy.set(text, reply.spent);
    if ([NOT_VERIFIED, KEY_REVOKED].includes(reply?.fault)) refusedSpares.add(text);
  }
  if (texts.size > 0) showLoans();
}

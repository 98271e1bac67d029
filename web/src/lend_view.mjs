// Lends a part of a pass. The view asks the member for the facilities, the actions, the last day and the points of the loan. Then the view shows the
// link.
import { titleOf } from "./club.mjs";
import { KINDS, readCaveat } from "./caveats.mjs";
import { daysLater, isDate } from "./dates.mjs";
import { ask } from "./desk.mjs";
import { byName, element, put } from "./elements.mjs";
import { keepLoan, keptLoans, keptSpares, plainName } from "./keeping.mjs";
import { allowsFacility, caveatsOf, freeSpares, lastDayOf, limitOf, linesOf, sparesLent } from "./lend.mjs";
import { lookAtLoans, setUpLoans, showLoans } from "./loans_view.mjs";
import { canSign, narrowed, withSpent, writePass } from "./pass.mjs";
import { Fault } from "./pass_faults.mjs";
import { faultText, sentenceOf } from "./pass_words.mjs";
import { endedContent } from "./passes_view.mjs";
import { drawQr, qrWords } from "./qr_picture.mjs";
import { noReplyText, refusalText } from "./refusals.mjs";
import { NoReply } from "./replies.mjs";
import { clubMoment, denial, spentOfKey, state } from "./state.mjs";
import { dateText, dayText, listed, say, shortDayText } from "./words.mjs";

const DAYS_TO_CHOOSE = 7;
const POINTS = [200, 600, 1000];
const LONGEST_LOAN = 365; // days

const unfit = new Set(); // the texts of spare passes that the desk refuses or that belong to another member
let isMaking = false;

// Returns the spare passes that the member can lend. Returns none if the pass doesn't show the account, because then the page can't know which spare
// passes belong to the member.
function sparesToLend() {
  if (denial("account") > 0) return [];
  return freeSpares(keptSpares(), keptLoans(), clubMoment()).filter(({ text }) => !unfit.has(text));
}

// ---- The choices

function option(group, value, words, isChosen) {
  const field = Object.assign(element("input", ""), { type: "radio", name: group, value, checked: isChosen });
  return element("label", "choice", field, element("span", "", words));
}

function fill(id, options, chosen) {
  const before = byName(id).querySelector("input:checked")?.value ?? chosen;
  const wanted = options.some(([value]) => value === before) ? before : options[0]?.[0];
  put(id, ...options.map(([value, words]) => option(id, value, words, value === wanted)));
}

function fillChoices() {
  const facilities = state.club.facilities.filter((facility) => allowsFacility(state.pass, facility));
  const kinds = KINDS.filter((kind) => facilities.some((facility) => facility.kind === kind));
  fill("lend-what", [...(kinds.length > 1 ? [] : [["all", say("lend-all")]]), ...kinds.map((kind) => [`kind ${kind}`, say(`${kind}s`)]),
    ...(kinds.length > 1 ? [["all", say("lend-all")]] : []), ["one", say("lend-one")]], "");
  const field = byName("lend-facility");
  if (field.options.length !== facilities.length) field.replaceChildren(...facilities.map(({ name }) => new Option(titleOf(state.club, name), name)));
  const opens = (action) => caveatsOf(state.pass, "actions").every(({ words }) => words.includes(action));
  fill("lend-how", [["book", say("lend-book")], ["look", say("lend-look")]].filter(([how]) => opens(how === "look" ? "view" : how)), "book");
  const today = clubMoment().slice(0, 10);
  const last = [lastDayOf(state.pass) ?? "9999", daysLater(today, LONGEST_LOAN)].sort()[0];
  const days = Array.from({ length: DAYS_TO_CHOOSE }, (_, count) => daysLater(today, count)).filter((day) => day <= last);
  const names = (day, count) => count < 2 ? say(count === 0 ? "today" : "tomorrow") : shortDayText(day);
  fill("lend-until", [...days.map((day, count) => [day, names(day, count)]), ["other", say("lend-other-day")]], days[1]);
  Object.assign(byName("lend-day"), { min: today, max: last });
  const left = (limitOf(state.pass) ?? Infinity) - spentOfKey();
  fill("lend-points", [...POINTS.filter((count) => count <= left).map((count) => [String(count), say("charged", { count })]), ["other", say("lend-other-points")], ["none", say("lend-no-limit")]], "600");
}

function valueOf(id) {
  return byName(id).querySelector("input:checked")?.value ?? "";
}

// Returns the member's choices. If a choice is missing or wrong, returns its field, and the key of the text about this choice.
function chosenLoan() {
  const what = valueOf("lend-what");
  const last = valueOf("lend-until") === "other" ? byName("lend-day").value : valueOf("lend-until");
  const points = valueOf("lend-points") === "other" ? byName("lend-count").value.trim() : valueOf("lend-points");
  const isToLook = valueOf("lend-how") === "look";
  const first = byName("lend-later").checked ? "" : clubMoment().slice(0, 10);
  if (!isDate(last) || last < byName("lend-day").min || last > byName("lend-day").max) return { wrong: "lend-wrong-day", field: "lend-day" };
  if (!isToLook && points !== "none" && !/^[1-9][0-9]{0,5}$/.test(points)) return { wrong: "lend-wrong-points", field: "lend-count" };
  return {
    name: plainName(byName("lend-name").value), first, last, isToLook, points: points === "none" || isToLook ? null : Number(points),
    kind: what.startsWith("kind ") ? what.slice(5) : "", facility: what === "one" ? byName("lend-facility").value : "",
  };
}

// Describes the loan in a sentence. If the loan narrows the member's own pass and this pass has limits, a second sentence mentions these limits.
function loanText({ name, kind, facility, isToLook, first, last, points }, isOfOwn) {
  const what = kind !== "" ? say(`kinds-${kind}`) : facility !== "" ? titleOf(state.club, facility) : say("lend-everything");
  const words = isToLook ? "lend-says-look" : first === "" ? "lend-says-later" : "lend-says-book";
  const loan = say(words, {
    who: name || say("lend-somebody"), what, day: dayText(last), points: points === null ? "" : say("lend-says-points", { count: points }),
  });
  return isOfOwn && state.pass.caveats.length > 0 ? `${loan} ${say("lend-within")}` : loan;
}

function showChosen() {
  byName("lend-facility-part").hidden = valueOf("lend-what") !== "one";
  byName("lend-day-part").hidden = valueOf("lend-until") !== "other";
  byName("lend-count-part").hidden = valueOf("lend-points") !== "other";
  for (const id of ["lend-points-part", "lend-later-part"]) byName(id).hidden = valueOf("lend-how") === "look";
  const loan = chosenLoan();
  const isOfOwn = loan.isToLook || sparesToLend().length === 0;
  put("lend-says", loan.wrong === undefined ? loanText(loan, isOfOwn) : wrongText(loan));
  put("lend-which", ...(loan.isToLook || !isOfOwn ? [] : [whyOwn()]));
}

function wrongText({ wrong }) {
  return say(wrong, wrong === "lend-wrong-day" ? { day: dateText(byName("lend-day").max) } : {});
}

function whyOwn() {
  const spares = keptSpares();
  const isUnfit = spares.some((text) => unfit.has(text));
  const words = spares.length === 0 ? "lend-no-spare" : denial("account") > 0 ? "lend-spares-other" : isUnfit ? "lend-spares-unfit" : "lend-spares-lent";
  return element("p", "note", element("strong", "", say(`${words}-title`)), " ", say("lend-own"), " ", say(words));
}

// ---- Making the loan

// Returns the account of a spare pass. Returns null if the desk refuses the pass, or if the pass belongs to another member.
async function accountOfSpare(text, member) {
  const reply = await ask(text, "account", {}, 2);
  const isFit = reply.fault === undefined && reply.member === member;
  if (!isFit) unfit.add(text);
  return isFit ? reply : null;
}

// Returns the pass to narrow, and the points that its key has spent. The pass is a spare pass that the desk accepts and that isn't lent. If there is
// no such spare pass, the function returns the pass in use. If the desk refuses the pass in use, the function returns this refusal.
async function basisOf() {
  const own = denial("account") > 0 ? null : await ask(state.text, "account", {}, 2);
  if (own?.fault !== undefined) return { refusal: own };
  for (const { text, pass } of sparesToLend()) {
    const account = await accountOfSpare(text, own.member);
    if (account !== null) return { pass, spent: account.spent, spare: text };
  }
  return { pass: state.pass, spent: own?.spent ?? spentOfKey(), spare: "" };
}

async function lend(event) {
  event.preventDefault();
  if (isMaking) return;
  const loan = chosenLoan();
  if (loan.wrong !== undefined) {
    put("lend-news", element("span", "wrong", wrongText(loan)));
    byName(loan.field).focus();
    return;
  }
  isMaking = true;
  put("lend-news", say("lend-making"));
  try {
    put("lend-news", ...await makeLoan(loan));
  } catch (fault) {
    if (fault instanceof NoReply) put("lend-news", element("span", "wrong", noReplyText(fault.status, "account-failed")));
    else if (fault instanceof Fault) put("lend-news", element("span", "wrong", faultText(fault)));
    else throw fault;
  } finally {
    isMaking = false;
  }
}

// Makes a loan, shows it, and returns the text to show below it. The page may have offered to lend a spare pass that turns out to be unusable. In
// this case, the function makes no loan and asks the member to read the changed offer.
async function makeLoan(loan) {
  const wasOfOwn = sparesToLend().length === 0;
  const { pass, spent, spare, refusal } = loan.isToLook ? { pass: state.pass, spent: 0, spare: "" } : await basisOf();
  if (refusal !== undefined) return [element("span", "wrong", refusalText(refusal))];
  if (!loan.isToLook && spare === "" && !wasOfOwn) {
    showChosen();
    return [element("span", "wrong", say("lend-read-again"))];
  }
  const narrower = await narrowed({ ...pass, form: "v2" }, linesOf({ ...loan, spent }));
  const given = withSpent(writePass(narrower), loan.points === null ? 0 : spent);
  const says = loanText(loan, spare === "");
  const isKept = keepLoan({ given, says, spare });
  showMade(given, says);
  showChosen();
  showLoans();
  return isKept ? [] : [say("lend-not-kept"), " ", ...(spare === "" ? [] : [say("lend-not-kept-spare")])];
}

function addressOf(given) {
  return `${location.href.split("#")[0]}#${given}`;
}

function showMade(given, words) {
  const address = addressOf(given);
  const picture = drawQr(address, say("lend-qr-label"));
  byName("lend-made").hidden = false;
  put("lend-made-says", words);
  byName("lend-address").value = address;
  put("lend-qr", ...(picture === null ? [] : [picture]));
  put("lend-qr-words", say(qrWords(picture)));
  put("lend-made-news");
  byName("lend-share").hidden = navigator.share === undefined;
  byName("lend-made-title").focus();
  byName("lend-made").scrollIntoView({ block: "start" });
}

async function shareLoan() {
  try {
    await navigator.share({ title: state.club?.name ?? "", text: byName("lend-made-says").textContent, url: byName("lend-address").value });
    put("lend-made-news", say("lend-shared"));
  } catch {
    put("lend-made-news", say("lend-not-shared"));
  }
}

async function copyLoan() {
  const field = byName("lend-address");
  try {
    await navigator.clipboard.writeText(field.value);
    put("lend-made-news", say("lend-copied"));
  } catch {
    field.focus();
    field.select();
    put("lend-made-news", say("lend-selected"));
  }
}

// ---- What is lent

// Asks the desk for the points spent with each lent spare pass. Also asks which of the other spare passes the member can use.
async function lookAfterLoans() {
  await lookAtLoans(sparesLent(keptLoans(), clubMoment()));
  if (state.account === null) return;
  for (const { text } of sparesToLend()) await accountOfSpare(text, state.account.member).catch(() => null);
  showChosen();
}

// ---- The view

export function showLend() {
  const ended = endedContent();
  const isReady = canSign() && state.club !== null && state.pass !== null && ended.length === 0;
  byName("lend-form").hidden = !isReady;
  put("lend-trouble", ...(isReady ? [] : canSign() && ended.length > 0 ? ended : [say(canSign() ? "club-missing" : "unsigned")]));
  if (!isReady) return;
  fillChoices();
  showChosen();
  showLoans();
}

export function goToLend() {
  byName("lend-made").hidden = true;
  showLend();
  if (state.club !== null) lookAfterLoans();
}

export function setUpLend() {
  setUpLoans({ showMade, showLend, look: () => { showLend(); lookAfterLoans(); } });
  byName("lend-form").addEventListener("submit", lend);
  byName("lend-form").addEventListener("input", showChosen);
  byName("lend-copy").addEventListener("click", copyLoan);
  byName("lend-share").addEventListener("click", shareLoan);
}

// Summarizes a narrowed pass for its holder: the limits, the end, and the points that bookings have cost so far.
export function passSays(pass) {
  const parts = pass.caveats.map(shortText).filter((part) => part !== "");
  const limit = limitOf(pass);
  const words = state.account === null ? "holder-points" : "holder-points-desk";
  if (limit !== null) parts.push(say(words, { spent: Math.max(0, spentOfKey() - state.base), most: Math.max(0, limit - state.base) }));
  return parts;
}

function shortText(bytes) {
  const caveat = readCaveat(bytes);
  if (caveat === null || caveat.name === "spend") return "";
  if (caveat.name === "actions") return caveat.words.includes("book") ? "" : say("holder-looks");
  if (caveat.name === "facility") return say("limit-only", { what: listed(caveat.facilities.map((name) => titleOf(state.club, name))) });
  return sentenceOf(bytes);
}

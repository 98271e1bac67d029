// Texts about passes. The booking page and the page that narrows a pass show these texts.
import { characters, shown } from "./bytes.mjs";
import { readCaveat } from "./caveats.mjs";
import { daysLater, hourText } from "./dates.mjs";
import { element } from "./elements.mjs";
import { keyName } from "./pass.mjs";
import { dateText, listed, say } from "./words.mjs";

// The sentence for each kind of caveat.
const SENTENCES = {
  facility: ({ facilities }) => say("limit-only", { what: listed(facilities) }),
  kind: ({ kind }) => say("limit-only", { what: say(`kinds-${kind}`) }),
  hours: ({ from, to }) => say("limit-hours", { from: hourText(from), to: hourText(to) }),
  days: ({ first, last }) => first === last
    ? say("limit-day", { day: dateText(first) })
    : say("limit-days", { first: dateText(first), last: dateText(last) }),
  weekday: ({ words }) => say("limit-weekday", { days: listed(words.map((word) => say(`on-${word}`))) }),
  until: ({ date, time }) => untilText(date, time),
  guests: ({ most }) => most === 0 ? say("limit-no-guests") : say("limit-guests", { count: most }),
  spend: ({ most }) => most === 0 ? say("limit-no-points") : say("limit-points", { count: most }),
  actions: ({ words }) => say("limit-actions", { actions: listed(words.map((word) => say(`action-${word}`))) }),
};

// Shows midnight as the end of the previous day.
export function untilText(date, time) {
  return time === "00:00" ? say("limit-until-end", { day: dateText(daysLater(date, -1)) }) : say("limit-until", { day: dateText(date), time });
}

// Returns the sentence for a caveat, or null if the desk doesn't understand the caveat.
export function sentenceOf(bytes) {
  const caveat = readCaveat(bytes);
  return caveat === null ? null : SENTENCES[caveat.name](caveat);
}

export function faultText(fault) {
  return say(fault.key, fault.values);
}

// Makes the elements for a fault's title, message and advice.
export function faultContent(fault, title = say(`${fault.kind}-title`), advice = say(`${fault.kind}-advice`)) {
  return [element("strong", "", title), element("span", "", faultText(fault)), element("span", "", advice)];
}

export function keyFacts(pass) {
  const name = keyName(pass);
  return name !== null ? fact(say("key"), name, "key") : fact(say("identifier"), shown(pass.identifier) || say("empty"), "key");
}

export function fact(name, value, className = "") {
  return [element("dt", "", name), element("dd", className, value)];
}

export function keyWarning(pass) {
  if (keyName(pass) !== null) return [];
  return [element("p", "note", element("strong", "", say("no-key-title")), " ", say("no-key"))];
}

// Makes a list of a pass's limits. Marks all limits after the first `old` limits as new.
export function limitList(pass, old = pass.caveats.length) {
  const limits = element("ol", "limits", ...pass.caveats.map((caveat, index) => limitContent(caveat, index >= old)));
  limits.setAttribute("aria-label", say("limits"));
  return pass.caveats.length > 0 ? limits : element("p", "", say("no-limits"));
}

function limitContent(caveat, isNew) {
  const sentence = sentenceOf(caveat);
  const words = sentence === null ? element("span", "odd", say("limit-odd")) : element("span", "", sentence);
  const mark = isNew ? [" ", element("span", "new", say("new"))] : [];
  return element("li", "", words, ...mark, element("code", "", shown(caveat) || say("empty")));
}

// For a line that the desk understands, leavesOut() returns whether the line excludes an action. isAboutSlots() returns whether the line allows only
// requests about slots.
export function leavesOut(bytes, action) {
  const line = characters(bytes);
  return line.startsWith("actions = ") && !line.includes(action);
}

export function isAboutSlots(bytes) {
  return /^(?:facility|kind|hours|days|weekday) /.test(characters(bytes));
}

// The passes of this browser: the pass in use, the stored passes, and new passes.
import { button, byName, element, put } from "./elements.mjs";
import { readFragment } from "./fragment.mjs";
import { dropPass, holdPass, isPassTooMany, keepForTab, keepPass, keptPasses, MOST_PASSES, passOfPage, passOfTab, plainName } from "./keeping.mjs";
import { shown } from "./bytes.mjs";
import { endOf } from "./lend.mjs";
import { keyName, pastedText, readPass, sentText, splitGiven, withSpent } from "./pass.mjs";
import { Fault } from "./pass_faults.mjs";
import { faultContent, untilText } from "./pass_words.mjs";
import { refusesPass } from "./replies.mjs";
import { clubMoment, state } from "./state.mjs";
import { say } from "./words.mjs";

let isAsked = false; // whether the pass came in a link and the member hasn't decided yet whether to keep it
let isEntering = false; // whether the field for another pass is shown
// The names of the passes that this page has used, by the text of the pass.
const used = new Map();
let keepTrouble = ""; // the key of the text that says why the pass in use couldn't be kept
let page = {}; // the page's functions begin() and show()

export function isPassShown() {
  return state.pass !== null && !isEntering;
}

// Uses a pass that the member pasted, that the browser stored, or that a link contained. Throws a Fault if the text isn't a pass.
function takePass(whole) {
  const { text, spent } = splitGiven(whole);
  const pass = readPass(text);
  const sent = sentText(pass, text);
  const given = withSpent(sent, spent);
  const key = keyName(pass);
  const kept = keptPasses().find((each) => each.text === given);
  const name = kept?.name ?? used.get(given) ?? freeName(plainName(key ?? shown(pass.identifier)) || "?");
  used.set(given, name);
  Object.assign(state, { pass, text: sent, given, base: spent, key, name, isKept: kept !== undefined, isRefused: false, account: null });
  isEntering = false;
  keepTrouble = "";
}

// Returns a name that no pass of this browser has yet.
function freeName(name) {
  const taken = new Set([...keptPasses().map((each) => each.name), ...used.values()]);
  for (let count = 1; ; count += 1) {
    const free = count === 1 ? name : `${name} (${count})`;
    if (!taken.has(free)) return free;
  }
}

function showFault(fault, text) {
  put("given-fault", ...faultContent(fault));
  byName("given").value = text;
  byName("given").setAttribute("aria-invalid", "true");
}

// Uses the pass in a text. Returns whether the text contained a pass.
function wasTaken(text) {
  try {
    takePass(text);
    return true;
  } catch (fault) {
    if (!(fault instanceof Fault)) throw fault;
    return false;
  }
}

// Uses the pass in the address, and removes it from the address at once. If the address has no valid pass, uses the pass of this page or tab, or the
// pass that this browser used last. If the address contains a list or spare passes, returns the kind ("record" or "spare") and the text.
export function findPass() {
  const { kind, text } = readFragment(location.hash);
  const held = passOfPage();
  if (location.hash !== "") holdPass(held);
  let wrong = null;
  if (kind === "pass") {
    try {
      takePass(text);
      holdPass(state.given);
      isAsked = !state.isKept;
      return { kind: "none", text: "" };
    } catch (fault) {
      if (!(fault instanceof Fault)) throw fault;
      wrong = fault;
    }
  }
  if (state.pass === null) findKept(held);
  if (wrong !== null) {
    showFault(wrong, text);
    isEntering = true;
  }
  return { kind, text };
}

function findKept(held = null) {
  [held, passOfTab(), ...keptPasses().map((each) => each.text)].some((text) => text !== null && wasTaken(text));
}

// ---- Another pass

function choosePass(text) {
  if (!wasTaken(text)) return;
  isAsked = false;
  holdPass(state.isKept ? null : text);
  if (state.isKept) keepPass(text, state.name);
  page.begin();
}

export function enterAnother() {
  isEntering = true;
  put("given-fault");
  put("welcome-news");
  byName("given").value = "";
  page.show();
  byName("given").focus();
}

function useEntered(event) {
  event.preventDefault();
  put("given-fault");
  const text = pastedText(byName("given").value);
  try {
    takePass(text);
  } catch (fault) {
    if (!(fault instanceof Fault)) throw fault;
    showFault(fault, byName("given").value);
    byName("given").focus();
    return;
  }
  byName("given").value = "";
  byName("given").removeAttribute("aria-invalid");
  isAsked = false;
  holdPass(state.given);
  if (byName("keep").checked && canBeKept()) keepThis();
  else if (!state.isKept) keepForTab(state.given);
  page.begin();
}

// Stores the pass in use in addition to the other passes.
export function keepThis(name = state.name) {
  state.isKept = keepPass(state.given, name);
  if (state.isKept) {
    state.name = name;
    used.set(state.given, name);
    holdPass(null);
  }
  keepTrouble = state.isKept ? "" : isPassTooMany(state.given) ? "keep-full" : "keep-failed";
  if (!state.isKept) keepForTab(state.given);
  isAsked = false;
  return state.isKept;
}

// Describes where the browser keeps the pass, or why it can't keep the pass.
export function keptText() {
  return say(state.isKept ? "pass-kept" : keepTrouble || "pass-not-kept", { count: MOST_PASSES });
}

// Forgets the pass in use. If the browser has another pass, the page then uses that pass.
export function forgetPass() {
  used.delete(state.given);
  dropPass(state.given);
  loseState();
  findKept();
  if (state.pass !== null) {
    page.begin();
    return;
  }
  page.show();
  put("welcome-news", say("forgotten"));
  byName("given").focus();
}

function loseState() {
  Object.assign(state, { pass: null, text: "", given: "", base: 0, key: null, name: "", account: null, isKept: false, isRefused: false });
  if (state.sender !== null) Object.assign(state.sender, { pass: null, key: null });
  isAsked = false;
  isEntering = false;
}

// The page calls this function after another tab has stored or forgotten a pass.
export function keptElsewhere() {
  const isThere = keptPasses().some((each) => each.text === state.given);
  if (state.isKept && !isThere) forgetPass();
  else page.show();
}

// ---- What the member sees

export function passNotices() {
  if (!isPassShown()) return [];
  const notices = [];
  if (!state.isKept && keptPasses().length > 0) notices.push([say("other-pass-kept", { name: state.name })]);
  if (keepTrouble !== "" && !state.isKept) notices.push([keptText()]);
  if (isAsked && canBeKept()) {
    const answer = (isWanted) => () => {
      if (isWanted) keepThis();
      else keepForTab(state.given);
      isAsked = false;
      page.show();
    };
    notices.push([say("keep-question"), button("", say("keep-yes"), answer(true)), button("", say("keep-no"), answer(false))]);
  }
  return notices;
}

// Returns whether the page offers to keep the pass in use. It doesn't offer this for a pass that has ended or that the desk refuses.
export function canBeKept() {
  return !state.isRefused && endedContent().length === 0;
}

// Notes a refusal. Shows the page anew if the desk refuses every request under the pass.
export function noteRefusal(reply) {
  if (state.isRefused || !refusesPass(reply)) return;
  state.isRefused = true;
  page.show();
}

// Returns the text about a pass that has ended: its end, and what the member can do. Returns no text if the pass hasn't ended.
export function endedContent() {
  const end = state.pass === null || state.club === null ? null : endOf(state.pass);
  if (end === null || end > clubMoment()) return [];
  return [element("strong", "", say("pass-ended")), " ", untilText(...end.split("T")), " ", say("pass-ended-ask"), " ", button("", say("enter-another"), enterAnother)];
}

// Shows the choice of passes if the browser has more than one pass.
export function showChoice() {
  const names = new Map([...keptPasses().map((each) => [each.text, each.name]), ...used]);
  byName("who-part").hidden = !isPassShown() || names.size < 2;
  put("who", ...[...names].map(([text, name]) => new Option(name, text, false, text === state.given)));
  byName("enter-back").hidden = state.pass === null;
}

export function setUpPasses(whatPageDoes) {
  page = whatPageDoes;
  byName("enter").addEventListener("submit", useEntered);
  byName("enter-back").addEventListener("click", () => {
    isEntering = false;
    page.show();
  });
  byName("who").addEventListener("change", (event) => choosePass(event.target.value));
}

// Makes a field with the name of the pass in use, so that the member can change the name.
export function nameField() {
  const field = element("input", "");
  Object.assign(field, { id: "pass-name", value: state.name, maxLength: 40, autocomplete: "off" });
  const label = element("label", "", say("pass-name"));
  label.htmlFor = field.id;
  field.addEventListener("change", () => {
    const name = plainName(field.value);
    if (name !== "") keepThis(name);
    field.value = state.name;
    page.show();
  });
  return element("div", "pass-name", label, field);
}

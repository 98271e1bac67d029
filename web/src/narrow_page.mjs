// The page that narrows a pass. The page sends nothing. It loads only club.json, if the page's server has this file.
import { bytesOf, shown } from "./bytes.mjs";
import { readClub } from "./club.mjs";
import { showClub } from "./club_view.mjs";
import { button, byName, element, put, sayAll } from "./elements.mjs";
import { offerLanguages } from "./languages.mjs";
import { canSign, FORM_NAMES, keyName, narrowed, pastedText, readPass, textOfFragment, writePass } from "./pass.mjs";
import { Fault } from "./pass_faults.mjs";
import { fact, faultContent, isAboutSlots, keyFacts, keyWarning, leavesOut, limitList, sentenceOf } from "./pass_words.mjs";
import { drawQr, qrWords } from "./qr_picture.mjs";
import { say } from "./words.mjs";

// ---- The choices. For each fieldset's id, a function returns the line that the fields make, or "" if the fields are empty. The page adds the lines to
// the pass in the order of this table.

const CHOICES = {
  kind: kindLine,
  facility: facilitiesLine,
  actions: (form) => listLine("actions", form),
  days: daysLine,
  weekday: (form) => listLine("weekday", form),
  hours: hoursLine,
  until: untilLine,
  guests: (form) => numberLine("guests", form),
  spend: (form) => numberLine("spend", form),
};

function kindLine(form) {
  const kind = form.get("kind");
  return kind && `kind = ${kind}`;
}

function untilLine(form) {
  const moment = form.get("until");
  return moment && `until < ${moment}`;
}

function namesIn(text) {
  return text.split(/[\s,;]+/).filter((name) => name !== "");
}

function facilitiesLine(form) {
  const names = namesIn(form.get("facility"));
  return names.length > 0 ? `facility = ${names.join()}` : "";
}

function listLine(name, form) {
  const words = form.getAll(name);
  return words.length > 0 ? `${name} = ${words.join()}` : "";
}

function daysLine(form) {
  const first = form.get("days-first");
  const last = form.get("days-last");
  return first || last ? `days = ${first}..${last}` : "";
}

function hoursLine(form) {
  const from = form.get("hours-from");
  const to = form.get("hours-to");
  return from || to ? `hours = ${from}-${to}` : "";
}

function numberLine(name, form) {
  const number = form.get(name).trim();
  return number && `${name} <= ${number}`;
}

// ---- The page

const given = byName("given");
const choices = byName("choices");
const narrowButton = byName("narrow");
const result = byName("result");

// The pass in the entered text, or null without a valid pass.
let pass = null;
let club = null; // read from club.json, if it exists
// This number changes when the page removes its result, for example after a change of the input. If `round` changes while the page signs a pass, the
// page drops the signed pass.
let round = 0;

function addressOf(text) {
  return `${location.href.split("#")[0]}#${encodeURIComponent(text)}`;
}

function readGiven() {
  const text = pastedText(given.value);
  const isEntered = /[^ \t\r\n]/.test(text);
  pass = null;
  put("given-fault");
  put("given-pass");
  clearResult();
  try {
    if (isEntered) pass = readPass(text);
  } catch (fault) {
    if (!(fault instanceof Fault)) throw fault;
    put("given-fault", ...faultContent(fault));
  }
  given.setAttribute("aria-invalid", String(isEntered && pass === null));
  if (pass !== null) put("given-pass", ...passContent(pass, pass.caveats.length));
}

// Makes the elements that show a pass, the name of its key, and its limits. Marks all limits after the first `old` limits as new.
function passContent(shownPass, old) {
  const { location, form } = shownPass;
  const where = location.length > 0 ? say("location-hint", { location: shown(location) }) : say("none");
  const facts = element("dl", "", ...keyFacts(shownPass), ...fact(say("form"), FORM_NAMES[form]), ...fact(say("location"), where));
  return [facts, ...keyWarning(shownPass), limitList(shownPass, old)];
}

function fieldsIn(id) {
  return [...byName(id).querySelectorAll("input, select")];
}

// Returns the line of a fieldset. Returns "" if the fieldset is empty, and null if its input is wrong.
function chosenLine(id, form) {
  if (fieldsIn(id).some((field) => field.validity.badInput)) return null; // an incomplete date has no value
  const line = CHOICES[id](form);
  return line === "" || sentenceOf(bytesOf(line)) !== null ? line : null;
}

function chosenLines() {
  const form = new FormData(choices);
  return new Map(Object.keys(CHOICES).map((id) => [id, chosenLine(id, form)]));
}

// Shows the line that a fieldset adds, and removes the fieldset's fault if the input is right. The page shows a fault only when the user leaves the
// fieldset or narrows the pass, not at the first keystroke.
function showChoice(id) {
  const line = chosenLine(id, new FormData(choices));
  put(`${id}-made`, ...(line ? [sentenceOf(bytesOf(line)), element("code", "", line)] : []));
  if (line !== null) showWrong(id, false);
}

function changeChoice(event) {
  clearResult();
  showChoice(event.target.closest("fieldset").id);
  markFacilities();
}

function showWrong(id, isWrong) {
  put(`${id}-wrong`, ...(isWrong ? [say(`wrong-${id}`)] : []));
  for (const field of fieldsIn(id)) {
    if (isWrong) field.setAttribute("aria-invalid", "true");
    else field.removeAttribute("aria-invalid");
  }
}

function leaveChoice(event) {
  const fieldset = event.target.closest("fieldset");
  // A press on the button shows the faults. If a fault appeared now, the button would move away from the mouse.
  if (fieldset === null || fieldset.contains(event.relatedTarget) || event.relatedTarget === narrowButton) return;
  showWrong(fieldset.id, chosenLine(fieldset.id, new FormData(choices)) === null);
}

// Returns the message that explains why the page can't narrow the pass, and the field to correct. Returns null if the page can narrow the pass.
function obstacle(lines) {
  if (!canSign()) return { field: given, message: say("obstacle-sign") };
  if (pass === null) return { field: given, message: say("obstacle-pass") };
  const wrong = [...lines.keys()].filter((id) => lines.get(id) === null);
  for (const id of wrong) showWrong(id, true);
  if (wrong.length > 0) return { field: fieldsIn(wrong[0])[0], message: say("obstacle-wrong") };
  if ([...lines.values()].every((line) => line === "")) {
    return { field: choices.querySelector("input"), message: say("obstacle-none") };
  }
  return null;
}

async function narrowChosen(event) {
  event.preventDefault();
  clearResult();
  const lines = chosenLines();
  const found = obstacle(lines);
  if (found !== null) {
    put("narrow-fault", found.message);
    found.field.focus();
    return;
  }
  const begun = round;
  const old = pass.caveats.length;
  try {
    const narrower = await narrowed(pass, [...lines.values()].filter((line) => line !== ""));
    if (begun === round) showResult(narrower, writePass(narrower), old);
  } catch (fault) {
    if (!(fault instanceof Fault)) throw fault;
    put("narrow-fault", ...faultContent(fault, say("not-narrowed-title"), say("not-narrowed-advice")));
  }
}

function showResult(narrower, text, old) {
  put("result-pass", ...passContent(narrower, old));
  put("result-notes", ...notesOn(narrower).map(([title, words]) => element("p", "note", element("strong", "", title), " ", words)));
  byName("narrowed").value = text;
  byName("address").value = addressOf(text);
  byName("book-address").value = addressOf(text).replace(/[^/]*#/, "book.html#");
  showQr(byName("book-address").value);
  put("address-note", location.protocol === "file:" ? say("address-local") : "");
  result.hidden = false;
  put("outcome", say("narrowed", { count: narrower.caveats.length - old }));
  byName("result-title").focus();
  result.scrollIntoView();
}

// Shows the QR code of an address. A page that was opened from a folder shows no code, because its address doesn't work on another device.
function showQr(address) {
  const isHere = location.protocol === "file:";
  const picture = isHere ? null : drawQr(address, say("lend-qr-label"));
  put("book-qr", ...(picture === null ? [] : [picture]));
  put("book-qr-words", ...(isHere ? [] : [say(qrWords(picture))]));
}

function clearResult() {
  round += 1;
  result.hidden = true;
  for (const id of ["narrow-fault", "outcome", "narrowed-message", "address-message", "book-address-message"]) put(id);
}

// Returns the notes that the user should read before handing on the narrowed pass. Each note has a title and a text.
function notesOn(narrower) {
  const { caveats } = narrower;
  if (caveats.some((caveat) => sentenceOf(caveat) === null)) return [[say("note-refused-title"), say("note-refused")]];
  const key = keyName(narrower) ?? say("the-key");
  const notes = [];
  if (!caveats.some((caveat) => leavesOut(caveat, "cancel"))) notes.push([say("note-cancel-title"), say("note-cancel", { key })]);
  if (!caveats.some((caveat) => leavesOut(caveat, "account") || isAboutSlots(caveat))) {
    notes.push([say("note-account-title"), say("note-account")]);
  }
  if (caveats.some((caveat) => shown(caveat).startsWith("spend <= "))) notes.push([say("note-points-title"), say("note-points", { key })]);
  return notes;
}

// ---- Handing on

async function copyField(id, what) {
  const field = byName(id);
  try {
    await navigator.clipboard.writeText(field.value);
    put(`${id}-message`, say(`copied-${what}`));
  } catch {
    field.focus();
    field.select();
    put(`${id}-message`, say(`selected-${what}`));
  }
}

async function share() {
  try {
    await navigator.share({ text: byName("narrowed").value, url: byName("book-address").value });
    put("narrowed-message", say("shared"));
  } catch {
    put("narrowed-message", say("not-shared"));
  }
}

// ---- The club

async function loadClub() {
  if (!isSecureContext || !location.protocol.startsWith("http")) return;
  try {
    const response = await fetch("club.json", { cache: "no-cache", credentials: "omit", redirect: "error", referrerPolicy: "no-referrer" });
    club = response.ok ? readClub(await response.json()) : null;
  } catch {
    club = null; // the page works without the list
  }
  showClub(club);
  put("club-facilities", ...(club?.facilities ?? []).map(facilityLine));
  markFacilities();
}

function facilityLine({ name, title, about }) {
  const press = button("", title, () => toggleFacility(name));
  press.dataset.name = name;
  return element("li", "", press, " ", element("code", "", name), ...(about === "" ? [] : [element("p", "hint", about)]));
}

function toggleFacility(name) {
  const field = byName("facility-names");
  const names = namesIn(field.value);
  field.value = (names.includes(name) ? names.filter((each) => each !== name) : [...names, name]).join(", ");
  field.dispatchEvent(new Event("input", { bubbles: true }));
}

// Marks the chosen facilities, including facilities whose names the user typed.
function markFacilities() {
  const names = namesIn(byName("facility-names").value);
  for (const press of byName("club-facilities").querySelectorAll("button")) press.setAttribute("aria-pressed", String(names.includes(press.dataset.name)));
}

// ---- The start

function fillHours() {
  const hours = Array.from({ length: 25 }, (_, hour) => String(hour).padStart(2, "0"));
  byName("hours-from").append(...hours.slice(0, 24).map((hour) => new Option(`${hour}:00`, hour)));
  byName("hours-to").append(...hours.slice(1).map((hour) => new Option(`${hour}:00`, hour)));
}

// Adds two paragraphs to a fieldset: one for the line that the fieldset adds to the pass, and one for the fieldset's fault. A screen reader reads a
// paragraph when it changes, and reads the fault with each field.
function addMessages(id) {
  const made = element("p", "made");
  made.id = `${id}-made`;
  made.setAttribute("role", "status");
  const wrong = element("p", "wrong");
  wrong.id = `${id}-wrong`;
  wrong.setAttribute("role", "alert");
  byName(id).append(made, wrong);
  for (const field of fieldsIn(id)) {
    const others = field.getAttribute("aria-describedby") ?? "";
    field.setAttribute("aria-describedby", `${wrong.id} ${others}`.trim());
  }
}

function takeFragment() {
  if (location.hash.length < 2) return;
  given.value = textOfFragment(location.hash);
  readGiven();
}

// Shows all texts of the page in the current language. After a change of the language, the user must narrow the pass again.
function sayPage() {
  sayAll();
  if (!canSign()) put("unsigned", element("strong", "", say("unsigned-title")), say("unsigned"));
  showClub(club);
  readGiven(); // after a reload the browser may have restored the fields
  Object.keys(CHOICES).forEach(showChoice);
}

function start() {
  fillHours();
  Object.keys(CHOICES).forEach(addMessages);
  given.addEventListener("input", readGiven);
  choices.addEventListener("input", changeChoice);
  choices.addEventListener("focusout", leaveChoice);
  choices.addEventListener("submit", narrowChosen);
  byName("copy").addEventListener("click", () => copyField("narrowed", "pass"));
  byName("copy-book-address").addEventListener("click", () => copyField("book-address", "address"));
  byName("copy-address").addEventListener("click", () => copyField("address", "address"));
  byName("share").addEventListener("click", share);
  byName("share").hidden = navigator.share === undefined;
  window.addEventListener("hashchange", takeFragment);
  narrowButton.disabled = !canSign();
  offerLanguages(sayPage);
  takeFragment();
  loadClub();
}

start();

// The table of a day has a column for each facility and a row for each hour. The page sends a request for each slot, at most six at the same time. A
// narrow screen shows only one facility, and the page requests the slots of this facility first.
import { facilityOf, firstDayOf, hoursOf, titleOf, whyClosed } from "./club.mjs";
import { offerBooking, offerClosed } from "./booking_dialog.mjs";
import { firstDenial } from "./caveats.mjs";
import { daysLater, hourText, isDate } from "./dates.mjs";
import { ask, eachAtOnce } from "./desk.mjs";
import { button, byName, element, put } from "./elements.mjs";
import { showFind, setUpFind } from "./find_view.mjs";
import { lastBooked } from "./keeping.mjs";
import { endedContent, enterAnother, noteRefusal } from "./passes_view.mjs";
import { isToTry } from "./place.mjs";
import { DAYS_AHEAD, hasBegun, isTooFarAhead, personsOf, stateOf } from "./record.mjs";
import { limitText, refusalText } from "./refusals.mjs";
import { CAVEAT_DENIES, NoReply } from "./replies.mjs";
import { canSend, clubMoment, clubTime, denial, liveAt, ownAt, state, withKind } from "./state.mjs";
import { isWatched, offerWatch } from "./watch_view.mjs";
import { dateText, dayText, say } from "./words.mjs";

const SWIPE = 50; // pixels

let day = null;
// The facility that a narrow screen shows.
let chosen = null;
let isFinding = false; // whether the page shows the search over a week
let isEarlierShown = false; // whether today's past hours are shown
// For each facility and hour, the slot, its button, and the desk's last reply.
let cells = new Map();
let clubOfTable = null; // the club's list from which the page made the table
// The number of the latest load of a day. The page drops a reply if its request belongs to an older load.
let round = 0;
let lookedAt = 0;
let waiting = []; // the cells whose slots aren't requested yet

export function shownDay() {
  return day;
}

function today() {
  return clubMoment().slice(0, 10);
}

// After the day's last slot, the page begins with the next day. The trial club begins with a day on which the first facility has slots to press.
function dayToBegin() {
  const allowed = state.club.facilities.filter((facility) => denial("view", { facility: facility.name, day: today(), hour: facility.opens }) === 0);
  return firstDayOf(isToTry() ? allowed.slice(0, 1) : allowed, clubMoment());
}

function firstWithSlots(facilities) {
  const moment = clubMoment();
  return facilities.find((facility) => slotsOf(facility).some((slot) => !hasBegun(slot, moment))) ?? facilities[0];
}

function lastDay() {
  return daysLater(today(), DAYS_AHEAD);
}

function cellName(slot) {
  return `${slot.facility} ${slot.hour}`;
}

function slotsOf(facility) {
  return hoursOf(facility).map((hour) => ({ facility: facility.name, day, hour }));
}

function isOpenToPass(slot) {
  return denial("view", slot) === 0 || denial("book", slot) === 0;
}

// ---- The table

export function showDay(wanted = day) {
  if (state.club === null || state.pass === null) return;
  day = wanted ?? dayToBegin();
  const facilities = state.club.facilities.filter((facility) => slotsOf(facility).some(isOpenToPass));
  const isThere = (name) => facilities.some((facility) => facility.name === name);
  if (!isThere(chosen)) chosen = isThere(lastBooked()?.facility) ? lastBooked().facility : firstWithSlots(facilities)?.name ?? null;
  showDayBar();
  byName("find-part").hidden = !isFinding;
  byName("day-part").hidden = isFinding;
  byName("to-find").setAttribute("aria-pressed", String(isFinding));
  if (isFinding) {
    showFind(day < today() ? today() : day);
    return;
  }
  cells = new Map();
  clubOfTable = state.club;
  put("day-fault", ...dayFault(facilities));
  put("facility-choice", ...facilities.map(choiceOf));
  byName("facility-bar").hidden = facilities.length < 2;
  put("slots", ...(facilities.length > 0 ? tableParts(facilities) : []));
  foldEarlier();
  choose(chosen);
  look();
}

// Hides each past hour of today, unless the member has a booking in that hour or has asked for the past hours.
function foldEarlier() {
  const moment = clubMoment();
  let count = 0;
  for (const row of byName("slots").tBodies[0]?.rows ?? []) {
    const own = [...row.querySelectorAll("button.slot")].map((each) => each.slotCell);
    const isOver = own.length > 0 && own.every((cell) => hasBegun(cell.slot, moment) && liveAt(cell.slot).length === 0);
    row.hidden = isOver && !isEarlierShown;
    count += isOver ? 1 : 0;
  }
  byName("earlier-part").hidden = count === 0 || isEarlierShown || day !== today();
}

function dayFault(facilities) {
  if (day < today()) return [say("past-day")];
  if (day > lastDay()) return [say("outside-days", { day: dateText(lastDay()) })];
  if (facilities.length > 0) return [];
  const ended = endedContent();
  if (ended.length > 0) return ended;
  const number = limitOfDay();
  return [say("no-facilities"), ...(number > 0 ? [" ", limitText(number)] : [])];
}

// Returns the number of the pass's first limit that denies every slot of the day, or 0.
function limitOfDay() {
  const slots = state.club.facilities.flatMap(slotsOf).map(withKind);
  const denies = (caveat) => slots.every((slot) => firstDenial({ caveats: [caveat] }, { action: "view", moment: clubMoment(), slot }) > 0);
  return slots.length === 0 ? 0 : state.pass.caveats.findIndex(denies) + 1;
}

function showDayBar() {
  put("day-title", dayText(day));
  const field = byName("day-field");
  field.min = today();
  field.max = lastDay();
  field.value = day;
  byName("day-before").disabled = day <= today();
  byName("day-after").disabled = day >= lastDay();
  byName("today").disabled = day === today();
}

function choiceOf(facility) {
  const choice = element("button", "chip", facility.title);
  choice.type = "button";
  choice.dataset.facility = facility.name;
  choice.addEventListener("click", () => choose(facility.name));
  return choice;
}

function tableParts(facilities) {
  const heads = facilities.map((facility) => {
    const head = element("th", "facility", facility.title, ...(facility.about === "" ? [] : [element("small", "about", facility.about)]));
    head.scope = "col";
    head.dataset.facility = facility.name;
    return head;
  });
  const corner = element("th", "hour", say("hour"));
  corner.scope = "col";
  const first = Math.min(...facilities.map((facility) => facility.opens));
  const last = Math.max(...facilities.map((facility) => facility.shuts));
  const rows = Array.from({ length: last - first }, (_, place) => rowOf(first + place, facilities));
  byName("slots").style.setProperty("--facilities", String(facilities.length));
  return [element("thead", "", element("tr", "", corner, ...heads)), element("tbody", "", ...rows)];
}

function rowOf(hour, facilities) {
  const head = element("th", "hour", `${hourText(hour)}:00`);
  head.scope = "row";
  return element("tr", "", head, ...facilities.map((facility) => {
    const cell = element("td", "");
    cell.dataset.facility = facility.name;
    if (hour >= facility.opens && hour < facility.shuts) cell.append(slotButton({ facility: facility.name, day, hour }));
    return cell;
  }));
}

function slotButton(slot) {
  const made = element("button", "slot");
  made.type = "button";
  const cell = { slot, button: made, view: null, state: "waiting" };
  cells.set(cellName(slot), cell);
  made.slotCell = cell;
  made.addEventListener("click", () => press(cell));
  showCell(cell);
  return made;
}

// ---- Cells

// Returns the class of a cell, its text, the line below the text, and whether the member can press the cell.
function looksOf({ slot, view, state: known }) {
  const moment = clubMoment();
  const mine = ownAt(slot, view);
  const price = view === null ? "" : say("cell-price", { count: view.price });
  const isOver = hasBegun(slot, moment);
  if (mine.some((entry) => stateOf(entry) === "asked")) return { looks: "mine", words: say("cell-asked"), below: "", isFree: false };
  if (mine.length > 0) {
    const isKnown = mine.every((entry) => entry.guests !== null);
    const isFree = !isOver && view !== null; // the member can cancel here, even if the slot is full or closed
    const whose = isKnown ? say("cell-mine", { count: personsOf(mine) }) : say("cell-mine-only");
    return { looks: "mine", words: mine.every((entry) => stateOf(entry) === "listed") ? say("cell-listed") : whose, below: isOver ? say("cell-past") : view?.closed ? say("cell-closed") : "", isFree };
  }
  if (isOver) return { looks: "past", words: say("cell-past"), below: "", isFree: false };
  if (isTooFarAhead(slot, moment)) return { looks: "past", words: say("cell-far"), below: "", isFree: false };
  if (known === "failed") return { looks: "failed", words: say("cell-failed"), below: say("try-again"), isFree: true };
  if (known === "denied" || !isOpenToPass(slot)) return { looks: "past", words: say("cell-denied"), below: "", isFree: false };
  if (denial("view", slot) > 0) return { looks: "free", words: say("cell-unseen"), below: "", isFree: true };
  if (view === null) return { looks: "waiting", words: "\u00a0", below: "\u00a0", isFree: false };
  if (view.closed) {
    const why = whyClosed(state.club, slot);
    return { looks: "closed", words: say("cell-closed"), below: why, isFree: why !== "" };
  }
  const left = view.places - view.taken;
  if (left <= 0) return { looks: "full", words: say("cell-full"), below: isWatched(slot) ? say("cell-watched") : "", isFree: denial("book", slot) === 0 };
  const words = view.places === 1 ? say("cell-one-free") : say("cell-free", { left, places: view.places });
  const isTooDear = denial("book", slot) === 0 && denial("book", slot, { owed: view.price }) > 0;
  return { looks: "free", words, below: isTooDear ? say("cell-too-dear") : price, isFree: !isTooDear && denial("book", slot) === 0 };
}

function showCell(cell) {
  if (state.pass === null) return;
  const { looks, words, below, isFree } = looksOf(cell);
  const { button: press, slot } = cell;
  press.className = `slot ${looks}`;
  press.disabled = !isFree || (!["failed", "closed"].includes(looks) && !canSend());
  press.replaceChildren(element("span", "", words), ...(below === "" ? [] : [element("small", "", below)]));
  const facility = titleOf(state.club, slot.facility);
  const sentence = [words, below].map((each) => each.trim()).filter((each) => each !== "").join(", ");
  press.setAttribute("aria-label", say("cell-label", { facility, hour: `${hourText(slot.hour)}:00`, state: sentence }));
}

export function showCells() {
  for (const cell of cells.values()) showCell(cell);
}

// The page collects changes for a short time and draws them together, instead of drawing after each reply.
const DRAWN_EVERY = 80; // milliseconds
const changed = new Set();

function showSoon(cell, progress = null) {
  if (changed.size === 0) setTimeout(showChanged, DRAWN_EVERY);
  changed.add(cell);
  soonProgress = progress ?? soonProgress;
}

let soonProgress = null;

function showChanged() {
  const drawn = [...changed];
  changed.clear();
  drawn.forEach(showCell);
  if (soonProgress !== null) soonProgress();
  soonProgress = null;
}

function press(cell) {
  if (cell.state === "failed") {
    cell.state = "waiting";
    showCell(cell);
    lookAt(cell, round);
    return;
  }
  if (looksOf(cell).looks === "closed") {
    offerClosed(cell.slot, () => cell.button.focus());
    return;
  }
  if (looksOf(cell).looks === "full") {
    offerWatch(cell.slot, () => { showCells(); cell.button.focus(); });
    return;
  }
  offerBooking(cell.slot, cell.view, () => {
    if (state.club !== clubOfTable) {
      showDay();
      return;
    }
    showCells();
    lookAt(cell, round);
    cell.button.focus();
  });
}

// ---- Looking

// Requests the slots of the day that the pass allows viewing, except slots that have begun or are too far ahead.
export async function look() {
  round += 1;
  const mine = round;
  const moment = clubMoment();
  waiting = [...cells.values()].filter(({ slot }) => denial("view", slot) === 0 && !hasBegun(slot, moment) && !isTooFarAhead(slot, moment));
  chosenFirst();
  const all = waiting.length;
  let done = 0;
  if (!navigator.onLine) {
    // With this value, the page loads the day again when the network returns.
    lookedAt = 0;
    waiting = [];
    showProgress(0, 0);
    put("looked", say("looked-offline"));
    return;
  }
  lookedAt = Date.now();
  showProgress(done, all);
  await eachAtOnce(waiting, async (cell) => {
    await lookAt(cell, mine);
    done += 1;
    const count = done;
    if (mine === round) showSoon(cell, () => { if (mine === round) showProgress(count, all); });
  }, () => mine === round);
  if (mine !== round) return;
  showChanged();
  showLooked();
}

// Moves the waiting slots of the chosen facility to the front, because a narrow screen shows only this facility. The member may choose another
// facility while the page loads the day.
function chosenFirst() {
  waiting.sort((a, b) => (b.slot.facility === chosen) - (a.slot.facility === chosen));
}

function showProgress(done, all) {
  const bar = byName("progress");
  bar.hidden = done === all;
  bar.max = Math.max(all, 1);
  bar.value = done;
  bar.setAttribute("aria-label", say("looking", { done, all }));
  put("looked", say("looking", { done, all }));
}

function showLooked() {
  const failed = [...cells.values()].filter((cell) => cell.state === "failed").length;
  put("looked", say("looked", { time: clubTime() }));
  put("day-news", ...(failed > 0 ? [say("cells-failed", { count: failed })] : []));
}

async function lookAt(cell, mine) {
  if (denial("view", cell.slot) > 0) return;
  try {
    const reply = await ask(state.text, "view", cell.slot);
    if (mine !== round) return;
    if (reply.fault === undefined) Object.assign(cell, { view: reply, state: "known" });
    else refused(cell, reply);
  } catch (fault) {
    if (!(fault instanceof NoReply)) throw fault;
    if (mine === round) cell.state = "failed";
  }
  if (mine === round) showSoon(cell);
}

// A refusal that concerns one slot appears in the slot's cell. A refusal that concerns the pass appears once for the whole day.
function refused(cell, reply) {
  cell.state = "denied";
  if (reply.fault === CAVEAT_DENIES || reply.fault > CAVEAT_DENIES) return;
  round += 1;
  noteRefusal(reply);
  byName("progress").hidden = true;
  put("looked");
  put("day-fault", element("span", "", refusalText(reply)), button("", say("enter-another"), enterAnother));
}

// Loads the day again when the member returns to the page after a while.
export function lookWhenBack() {
  if (day === null || state.club === null || state.pass === null) return;
  if (isFinding) return;
  if (day < today()) showDay(today());
  else if (Date.now() - lookedAt > 15000) look();
  else showCells();
}

// ---- Moving about

function choose(name) {
  chosen = name;
  chosenFirst();
  put("facility-about", facilityOf(state.club, name)?.about ?? "");
  for (const each of byName("day").querySelectorAll("[data-facility]")) each.classList.toggle("chosen", each.dataset.facility === name);
  for (const row of byName("slots").rows) row.classList.toggle("away", row.querySelector("td.chosen:empty") !== null);
  for (const chip of byName("facility-choice").children) {
    const isChosen = chip.dataset.facility === name;
    chip.setAttribute("aria-pressed", String(isChosen));
    if (isChosen) byName("facility-choice").scrollTo({ left: chip.offsetLeft - byName("facility-choice").clientWidth / 3 });
  }
}

function chooseBeside(step) {
  const chips = [...byName("facility-choice").children];
  const place = chips.findIndex((chip) => chip.dataset.facility === chosen) + step;
  if (chips[place] !== undefined) choose(chips[place].dataset.facility);
}

// The arrow keys move the focus between slots.
const ARROWS = { ArrowLeft: [-1, 0], ArrowRight: [1, 0], ArrowUp: [0, -1], ArrowDown: [0, 1] };

function moveFocus(event) {
  const step = ARROWS[event.key];
  const cell = event.target.closest("td");
  if (step === undefined || cell === null) return;
  const rows = [...byName("slots").tBodies[0].rows];
  let [x, y] = [cell.cellIndex, rows.indexOf(cell.parentElement)];
  do {
    x += step[0];
    y += step[1];
    const next = rows[y]?.cells[x]?.querySelector("button:not(:disabled)");
    if (next && next.offsetParent !== null) {
      event.preventDefault();
      next.focus();
      return;
    }
  } while (rows[y]?.cells[x] !== undefined);
}

export function setUpDay() {
  byName("day-before").addEventListener("click", () => showDay(daysLater(day, -1)));
  byName("day-after").addEventListener("click", () => showDay(daysLater(day, 1)));
  byName("today").addEventListener("click", () => showDay(today()));
  byName("reload").addEventListener("click", () => { if (isFinding) showDay(); else look(); });
  byName("earlier").addEventListener("click", () => {
    isEarlierShown = true;
    foldEarlier();
  });
  byName("to-find").addEventListener("click", () => {
    isFinding = !isFinding;
    showDay();
  });
  setUpFind();
  byName("day-field").addEventListener("change", (event) => { if (isDate(event.target.value)) showDay(event.target.value); });
  const table = byName("slots");
  table.addEventListener("keydown", moveFocus);
  let from = null;
  table.addEventListener("touchstart", ({ touches }) => { from = touches.length === 1 ? touches[0] : null; }, { passive: true });
  table.addEventListener("touchend", ({ changedTouches: [to] }) => {
    if (from === null) return;
    const [dx, dy] = [to.clientX - from.clientX, to.clientY - from.clientY];
    if (Math.abs(dx) > SWIPE && Math.abs(dy) < Math.abs(dx) / 2) chooseBeside(dx < 0 ? 1 : -1);
  }, { passive: true });
}

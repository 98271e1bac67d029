// The search for a free time. The view shows how many facilities of a kind are free at the chosen hours of a week. It also finds the next day with a
// free facility.
import { offerBooking } from "./booking_dialog.mjs";
import { KINDS } from "./caveats.mjs";
import { hoursOf, titleOf } from "./club.mjs";
import { daysLater, hourText } from "./dates.mjs";
import { ask, eachAtOnce } from "./desk.mjs";
import { closeDialog, openDialog } from "./dialog.mjs";
import { button, byName, element, put } from "./elements.mjs";
import { keepSearch, keptSearch, lastBooked } from "./keeping.mjs";
import { endedContent } from "./passes_view.mjs";
import { isDenied, placesLeft } from "./points.mjs";
import { DAYS_AHEAD, hasBegun, isTooFarAhead, slotName, stateOf } from "./record.mjs";
import { refusalText } from "./refusals.mjs";
import { NoReply } from "./replies.mjs";
import { canSend, clubMoment, clubTime, denial, liveAt, state } from "./state.mjs";
import { dateText, say, shortDayText } from "./words.mjs";

const DAYS = 7;
const FIRST_HOUR = 18;

let firstDay = null;
let search = { kind: null, from: FIRST_HOUR, to: FIRST_HOUR + 2 };
// Maps a slot's name to the desk's reply, or to "failed" after a fault or without a reply.
let views = new Map();
// The number of the latest search. The page drops the results of older searches.
let findRound = 0;

function facilitiesOf(kind) {
  return state.club.facilities.filter((facility) => facility.kind === kind);
}

function kindsToFind() {
  return KINDS.filter((kind) => facilitiesOf(kind).some((facility) => hoursOf(facility).some((hour) => isToSee({ facility: facility.name, day: firstDay, hour }))));
}

// Returns whether the pass allows viewing a slot that hasn't begun and isn't too far ahead.
function isToSee(slot) {
  const moment = clubMoment();
  return denial("view", slot) === 0 && !hasBegun(slot, moment) && !isTooFarAhead(slot, moment);
}

function slotsAt(day, hour) {
  return facilitiesOf(search.kind).filter((facility) => facility.opens <= hour && hour < facility.shuts)
    .map((facility) => ({ facility: facility.name, day, hour })).filter(isToSee);
}

function hoursToFind() {
  return Array.from({ length: search.to - search.from }, (_, place) => search.from + place);
}

function hasRoom(slot) {
  const view = views.get(slotName(slot));
  return typeof view === "object" && !view.closed && view.taken < view.places;
}

function isToBook(slot) {
  return hasRoom(slot) && !isDenied(slot, views.get(slotName(slot)), 0);
}

// If the pass doesn't allow booking the slot, the slot counts as free if it has a free place.
function isFree(slot) {
  return isToBook(slot) || (hasRoom(slot) && denial("book", slot) > 0);
}

function hasOwn(slot) {
  return liveAt(slot).some((entry) => stateOf(entry) !== "listed");
}

// ---- What the member sees

// Shows seven days, beginning with a given day.
export function showFind(day) {
  firstDay = day;
  search = { ...search, ...hoursOfLast(), ...keptSearch() };
  const kinds = kindsToFind();
  if (!kinds.includes(search.kind)) search.kind = kinds[0] ?? null;
  put("find-kinds", ...(kinds.length < 2 ? [] : kinds.map((kind) => {
    const chip = button("chip", say(`${kind}s`), () => changeSearch({ kind }));
    chip.setAttribute("aria-pressed", String(kind === search.kind));
    return chip;
  })));
  fillHours("find-from", search.from, 0);
  fillHours("find-to", search.to, 1);
  put("find-news");
  lookWeek();
}

// If the browser has stored no search, the search begins at the hour of the last booking.
function hoursOfLast() {
  const hour = lastBooked()?.hour;
  return hour >= 0 && hour < 24 ? { from: hour, to: Math.min(hour + 2, 24) } : {};
}

function fillHours(id, chosen, first) {
  byName(id).replaceChildren(...Array.from({ length: 24 }, (_, place) => first + place)
    .map((hour) => new Option(`${hourText(hour)}:00`, String(hour), false, hour === chosen)));
}

function changeSearch(news) {
  search = { ...search, ...news };
  if (search.to <= search.from) search[news.to === undefined ? "to" : "from"] = news.to === undefined ? search.from + 1 : search.to - 1;
  keepSearch(search);
  showFind(firstDay);
}

function showGrid() {
  const days = Array.from({ length: DAYS }, (_, count) => daysLater(firstDay, count));
  const hours = hoursToFind();
  byName("find-grid").style.setProperty("--hours", String(hours.length));
  const head = element("tr", "", element("td", "corner"), ...hours.map((hour) => Object.assign(element("th", "", `${hourText(hour)}:00`), { scope: "col" })));
  const rows = days.map((day) => element("tr", "", Object.assign(element("th", "day-name", shortDayText(day)), { scope: "row" }),
    ...hours.map((hour) => element("td", "", cellFor(day, hour)))));
  put("find-grid", element("thead", "", head), element("tbody", "", ...rows));
}

function cellFor(day, hour) {
  const slots = slotsAt(day, hour);
  const free = slots.filter(isFree);
  const isMine = slots.some(hasOwn);
  const isWaiting = slots.some((slot) => !views.has(slotName(slot)));
  const isFailed = slots.some((slot) => views.get(slotName(slot)) === "failed");
  const words = isWaiting ? "\u2026" : free.length > 0 ? say("find-free", { count: placesLeft(free.map((slot) => views.get(slotName(slot)))) }) : isFailed ? say("cell-failed")
    : slots.length === 0 ? "\u2013" : say(slots.some(hasRoom) ? "cell-too-dear" : "cell-full");
  const made = button(`slot ${isMine ? "mine" : free.length > 0 ? "free" : "past"}`, words, () => offerFound(day, hour));
  if (isMine) made.replaceChildren(element("span", "", say("cell-mine-only")), element("small", "", words));
  made.disabled = !free.some(isToBook) || !canSend();
  made.setAttribute("aria-label", `${dateText(day)}, ${hourText(hour)}:00: ${isMine ? `${say("cell-mine-only")}, ` : ""}${words}`);
  return made;
}

function offerFound(day, hour) {
  const free = slotsAt(day, hour).filter(isToBook);
  const whenDone = () => lookAtSlots(free).then(showGrid);
  const offer = (slot) => offerBooking(slot, views.get(slotName(slot)), whenDone);
  if (free.length === 1) {
    offer(free[0]);
    return;
  }
  openDialog(say("slot-time", { day: dateText(day), from: `${hourText(hour)}:00`, to: `${hourText(hour + 1)}:00` }), [
    element("div", "buttons", ...free.map((slot) => {
      const view = views.get(slotName(slot));
      const words = view.places === 1 ? say("cell-one-free") : say("cell-free", { left: view.places - view.taken, places: view.places });
      const made = button("wide-button", "", () => offer(slot));
      made.append(titleOf(state.club, slot.facility), element("small", "", ` ${words}, ${say("cell-price", { count: view.price })}`));
      return made;
    }), button("", say("back"), closeDialog)),
  ]);
}

// ---- Looking

async function lookAtSlots(slots, goesOn = () => true) {
  let refusal = null;
  await eachAtOnce([...slots], async (slot) => {
    try {
      const reply = await ask(state.text, "view", slot);
      views.set(slotName(slot), reply.fault === undefined ? reply : "failed");
      if (reply.fault !== undefined) refusal = refusalText(reply);
    } catch (fault) {
      if (!(fault instanceof NoReply)) throw fault;
      views.set(slotName(slot), "failed");
    }
  }, goesOn);
  return refusal;
}

async function lookWeek() {
  findRound += 1;
  const mine = findRound;
  views = new Map();
  const ended = endedContent();
  if (ended.length > 0) {
    put("find-grid");
    put("find-looked", ...ended);
    return;
  }
  showGrid();
  if (!navigator.onLine) {
    put("find-looked", say("looked-offline"));
    return;
  }
  put("find-looked", say("find-looking"));
  const slots = Array.from({ length: DAYS }, (_, count) => daysLater(firstDay, count)).flatMap((day) => hoursToFind().flatMap((hour) => slotsAt(day, hour)));
  const refusal = await lookAtSlots(slots, () => mine === findRound);
  if (mine !== findRound) return;
  showGrid();
  put("find-looked", refusal ?? say("looked", { time: clubTime() }));
}

// Checks one day after the other until a day has a free slot. Then shows the week that begins with this day.
async function findNext() {
  if (endedContent().length > 0) {
    put("find-news", say("pass-ended"));
    return;
  }
  findRound += 1;
  const mine = findRound;
  const last = daysLater(clubMoment().slice(0, 10), DAYS_AHEAD);
  let isTooDear = false;
  for (let day = firstDay; day <= last; day = daysLater(day, 1)) {
    put("find-news", say("find-searching", { day: shortDayText(day) }));
    const slots = hoursToFind().flatMap((hour) => slotsAt(day, hour));
    await lookAtSlots(slots, () => mine === findRound);
    if (mine !== findRound) return;
    const found = slots.find(isFree);
    isTooDear ||= slots.some(hasRoom);
    if (found === undefined) continue;
    showFind(day);
    put("find-news", say("find-found", { facility: titleOf(state.club, found.facility), day: dateText(day), time: `${hourText(found.hour)}:00` }));
    return;
  }
  put("find-news", say(isTooDear ? "cell-too-dear" : "find-none"));
}

export function setUpFind() {
  byName("find-from").addEventListener("change", (event) => changeSearch({ from: Number(event.target.value) }));
  byName("find-to").addEventListener("change", (event) => changeSearch({ to: Number(event.target.value) }));
  byName("find-next").addEventListener("click", findNext);
  byName("find-before").addEventListener("click", () => {
    const today = clubMoment().slice(0, 10);
    const day = daysLater(firstDay, -DAYS);
    showFind(day < today ? today : day);
  });
  byName("find-after").addEventListener("click", () => showFind(daysLater(firstDay, DAYS)));
}

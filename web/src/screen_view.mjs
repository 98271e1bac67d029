// The hall's screen shows the slots of today and tomorrow, without buttons. The screen refreshes each minute. It requests a slot at most once a
// minute, and only before the slot begins.
import { hoursOf, whyClosed } from "./club.mjs";
import { showClub } from "./club_view.mjs";
import { daysLater, hourText } from "./dates.mjs";
import { eachAtOnce, exchange, paused } from "./desk.mjs";
import { button, byName, element, put } from "./elements.mjs";
import { readFragment } from "./fragment.mjs";
import { holdPass, keepScreenPass, passOfPage, screenPass } from "./keeping.mjs";
import { readPass } from "./pass.mjs";
import { Fault } from "./pass_faults.mjs";
import { faultText } from "./pass_words.mjs";
import { hasBegun, slotName } from "./record.mjs";
import { refusalText } from "./refusals.mjs";
import { NoReply } from "./replies.mjs";
import { clubMoment, clubTime, denial, state } from "./state.mjs";
import { dayText, say } from "./words.mjs";

const MINUTE = 60000;
const STALE = 3 * MINUTE;

const slotReplies = new Map(); // the last reply for each slot
let trouble = "";
let newsAt = null; // the moment of the last reply, by this browser's clock
let newsTime = ""; // the moment of the last reply, by the club's clock

function slotsOn(day) {
  const moment = clubMoment();
  return state.club.facilities.flatMap((facility) => hoursOf(facility).map((hour) => ({ facility: facility.name, day, hour })))
    .filter((slot) => !hasBegun(slot, moment) && denial("view", slot) === 0);
}

// Shows the screen with the pass from a link, from this page, or from this browser's storage. The browser stores the pass from a link only if
// somebody agrees.
export function startScreen(loadClub) {
  document.documentElement.classList.add("hall");
  for (const id of ["welcome", "views", "day", "bookings", "account"]) byName(id).hidden = true;
  byName("screen").hidden = false;
  const text = readFragment(location.hash).text || passOfPage() || screenPass();
  try {
    if (text !== null) Object.assign(state, { pass: readPass(text), text: text.trim() });
  } catch (fault) {
    if (!(fault instanceof Fault)) throw fault;
    trouble = faultText(fault);
  }
  holdPass(state.pass === null ? null : state.text, "#screen");
  if (state.pass !== null && state.text !== screenPass()) askToKeep();
  return runScreen(loadClub);
}

function askToKeep() {
  const answer = (isWanted) => () => {
    const isKept = isWanted && keepScreenPass(state.text);
    put("notices", ...(isWanted && !isKept ? [element("div", "notice", say("keep-failed"))] : []));
  };
  put("notices", element("div", "notice", element("span", "", say("screen-question")),
    button("", say("keep-yes"), answer(true)), button("", say("keep-no"), answer(false))));
}

// `loadClub` loads club.json. If this fails, the screen keeps the old list.
async function runScreen(loadClub) {
  for (;;) {
    await loadClub();
    put("club-name", state.club?.name || say("book-title"));
    showClub(state.club, true);
    if (state.club !== null && state.pass !== null) await renew();
    else put("screen", element("p", "screen-words", say(state.pass === null ? "screen-no-pass" : "club-missing"), " ", trouble));
    await paused(MINUTE);
  }
}

async function renew() {
  const today = clubMoment().slice(0, 10);
  const days = [today, daysLater(today, 1)];
  for (const name of slotReplies.keys()) if (!days.includes(name.split(" ")[1])) slotReplies.delete(name);
  showScreen(days);
  await eachAtOnce(days.flatMap(slotsOn), async (slot) => {
    try {
      const reply = await exchange(state.text, "view", slot);
      trouble = reply.fault === undefined ? "" : refusalText(reply);
      if (reply.fault === undefined) {
        slotReplies.set(slotName(slot), reply);
        newsAt = Date.now();
        newsTime = clubTime();
      }
    } catch (fault) {
      if (!(fault instanceof NoReply)) throw fault;
    }
  });
  showScreen(days);
}

function showScreen(days) {
  const isStale = newsAt !== null && Date.now() - newsAt > STALE;
  const stand = newsAt === null ? "" : say(isStale ? "screen-stale" : "screen-stand", { time: newsTime });
  const clock = element("p", "screen-clock", element("strong", "", clubTime()), " ", element("span", isStale ? "wrong" : "", stand));
  const tables = days.map((day, place) => tableOf(day, say(place === 0 ? "screen-today" : "screen-tomorrow", { day: dayText(day) }), place));
  put("screen", clock, ...(trouble === "" ? [] : [element("p", "fault", trouble)]), element("div", `screen-days${slotsOn(days[0]).length === 0 ? " day-over" : ""}`, ...tables));
}

// A table's letters are as large as its rows and columns allow, because they must be readable from the far wall.
function sizeTable(part, hours, facilities) {
  const hasSentences = facilities.some((facility) => facility.about !== "");
  part.style.setProperty("--rows", String(hours.length + (hasSentences ? 3 : 2)));
  part.style.setProperty("--columns", String(facilities.length + 1));
}

function tableOf(day, title, place) {
  const slots = slotsOn(day);
  const part = element("section", "screen-day", element("h2", "", title));
  if (slots.length === 0) {
    part.append(element("p", "screen-words", say(place === 0 ? "screen-over" : "no-facilities")));
    return part;
  }
  const facilities = state.club.facilities.filter((facility) => slots.some((slot) => slot.facility === facility.name));
  const hours = [...new Set(slots.map((slot) => slot.hour))].sort((a, b) => a - b);
  sizeTable(part, hours, facilities);
  const head = element("tr", "", element("th", "hour", say("hour")), ...facilities.map((facility) => headOf(facility)));
  const rows = hours.map((hour) => element("tr", "", element("th", "hour", `${hourText(hour)}:00`), ...facilities.map((facility) => {
    const isThere = slots.some((slot) => slot.facility === facility.name && slot.hour === hour);
    const slot = { facility: facility.name, day, hour };
    return isThere ? cellOf(slotReplies.get(slotName(slot)), slot) : element("td", "");
  })));
  part.append(element("table", "screen-table", element("thead", "", head), element("tbody", "", ...rows)));
  return part;
}

function headOf({ title, about }) {
  return element("th", "facility", title, ...(about === "" ? [] : [element("small", "about", about)]));
}

function cellOf(view, slot) {
  if (view === undefined) return element("td", "waiting", "\u2026");
  if (view.closed) return element("td", "closed", whyClosed(state.club, slot) || say("cell-closed"));
  const left = view.places - view.taken;
  if (left <= 0) return element("td", "full", say("cell-full"));
  return element("td", "free", view.places === 1 ? say("cell-one-free") : say("screen-free", { left }));
}

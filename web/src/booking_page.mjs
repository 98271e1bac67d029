// The page on which a member looks at slots, books and cancels.
import { lookAfterBookings, showBookings } from "./bookings_view.mjs";
import { lookAtAccount, offerRecord, setUpAccount, showAccount, showExport, showLost, showPass } from "./account_view.mjs";
import { showLoans } from "./loans_view.mjs";
import { beginCardLists } from "./card_list.mjs";
import { askToPersist, lookWhetherPersists } from "./list_keeping.mjs";
import { fetchClub } from "./club_loading.mjs";
import { linkTo, showClub } from "./club_view.mjs";
import { lookWhenBack, setUpDay, showCells, showDay } from "./day_view.mjs";
import { clockDifference, exchange, paused } from "./desk.mjs";
import { setUpDialog } from "./dialog.mjs";
import { button, byName, element, put, sayAll } from "./elements.mjs";
import { keepPage, opensOffline } from "./at_hand.mjs";
import { isScreen } from "./fragment.mjs";
import { keepLanguage, keptLanguage } from "./keeping.mjs";
import { offerLanguages } from "./languages.mjs";
import { goToLend, passSays, setUpLend, showLend } from "./lend_view.mjs";
import { isToTry, placeName } from "./place.mjs";
import { findPass, isPassShown, keptElsewhere, passNotices, setUpPasses, showChoice } from "./passes_view.mjs";
import { unfinished } from "./record.mjs";
import { startScreen } from "./screen_view.mjs";
import { Sender } from "./sender.mjs";
import { finishSpares } from "./senders.mjs";
import { offerSpares } from "./spares_view.mjs";
import { clubTime, ownEntries, spentOfKey, state } from "./state.mjs";
import { Store } from "./store.mjs";
import { setUpWatch, watchNotices } from "./watch_view.mjs";
import { say } from "./words.mjs";

const CLOCK_TOLERANCE = 2; // minutes
const VIEWS = ["day", "bookings", "lend", "account"];

let view = "day";
let clubTrouble = "";
let storageTrouble = "";
let linked = { kind: "none", text: "" }; // a list or spare passes from the page's address
let others = null; // tells the other tabs that the record changed

// ---- The display

function show() {
  const isIn = isPassShown();
  byName("welcome").hidden = isIn;
  byName("views").hidden = !isIn;
  showPassSays();
  for (const each of VIEWS) byName(each).hidden = !isIn || view !== each;
  for (const each of VIEWS) byName(`to-${each}`).setAttribute("aria-current", view === each ? "page" : "false");
  put("club-name", state.club?.name || say("book-title"));
  showClub(state.club);
  showNotices();
  showChoice();
  showBookings(refresh);
  if (!isIn) byName("bookings").hidden = state.entries.length === 0;
  if (view === "lend") showLoans();
  if (view !== "account") return;
  put("at-hand", say(opensOffline() ? "opens-offline" : "opens-not-offline"));
  showPass();
  showAccount();
  showExport();
  showLost();
}

function showPassSays() {
  put("pass-says", ...(isPassShown() ? [passSays(state.pass).join(" ")] : []));
}

function showNotices() {
  const notices = [];
  const note = (words, ...more) => notices.push(element("div", "notice", element("span", "", words), ...more));
  if (location.protocol === "file:" && !isToTry()) note(say("from-folder"), linkTo("demo.html", say("club-to-try")));
  if (!isSecureContext) note(say("not-secure"));
  if (!navigator.onLine) note(say("offline"));
  if (storageTrouble !== "") note(say(storageTrouble));
  if (clubTrouble !== "" && location.protocol !== "file:") {
    note(say(clubTrouble), button("", say("try-again"), loadClub), linkTo("demo.html", say("club-to-try")));
  }
  const minutes = Math.round(Math.abs(clockDifference() ?? 0) / 60000);
  if (minutes > CLOCK_TOLERANCE) note(say("clock-wrong", { count: minutes }), " ", say("moment", { time: clubTime() }));
  const open = openRequests();
  if (open > 0 && state.pass !== null && state.sender?.tries > 0) note(say("unanswered", { count: open }));
  for (const [words, ...more] of [...passNotices(), ...watchNotices()]) note(words, ...more);
  const texts = (list) => list.map((each) => each.textContent).join("\n");
  const place = byName("notices");
  if (texts([...place.children]) !== texts(notices)) place.replaceChildren(...notices);
}

function go(wanted) {
  view = wanted;
  beginCardLists();
  show();
  window.scrollTo(0, 0);
  if (view === "day") lookWhenBack();
  if (view === "account") lookAtAccount().then(showPassSays);
  if (view === "lend") goToLend();
  if (view === "bookings") {
    lookAfterBookings(() => showBookings(refresh));
    lookAtAccount().then(() => { showPassSays(); showBookings(refresh); });
  }
}

// The page calls this function after the record has changed in this tab or in another tab. If the desk has answered a request since the last call,
// the function also requests the account again.
async function refresh() {
  const open = openRequests();
  if (state.sender !== null) state.entries = await state.sender.entries();
  show();
  showCells();
  if (openRequests() < open) {
    state.taken.clear(); // other persons may have booked or cancelled the slots
    state.closed.clear();
    if (view === "bookings") lookAfterBookings(() => showBookings(refresh));
    lookAtAccount().then(() => { showPassSays(); showBookings(refresh); });
    askToPersist();
  }
}

function openRequests() {
  return ownEntries().filter((entry) => unfinished(entry) !== null && entry.stopped === undefined).length;
}

// ---- The pass

// Shows the view of the day. The page calls this function when the pass in use may have changed.
function begin() {
  view = "day";
  show();
  showDay();
  goOn();
}

// Loads the account, and sends unfinished requests.
function goOn() {
  showCells();
  lookAtAccount().then(() => { showPassSays(); showCells(); });
  state.sender?.usePass(state.text, state.key).catch(reportTrouble);
  finishSpares().catch(reportTrouble);
}

function reportTrouble(fault) {
  storageTrouble = "not-stored";
  show();
  throw fault;
}

// ---- Loading

async function loadClub() {
  clubTrouble = await fetchClub();
  show();
  if (state.pass !== null) showDay();
}

async function openStore() {
  try {
    if (navigator.locks === undefined) throw new Error("no locks");
    state.store = await Store.open();
    state.makeSender = () => new Sender({
      store: state.store, exchange, lock: (work) => navigator.locks.request(placeName("desk"), work), pause: pauseUntilOnline,
      changed: () => { others?.postMessage("changed"); refresh(); }, guess: spentOfKey,
    });
    state.sender = state.makeSender();
    state.entries = await state.sender.entries();
  } catch {
    storageTrouble = navigator.locks === undefined && isSecureContext ? "no-locks" : "storage-none";
    state.sender = null;
    state.makeSender = null;
  }
}

// Pauses the sender. The pause ends early if the network returns.
function pauseUntilOnline(milliseconds) {
  return Promise.race([paused(milliseconds), new Promise((done) => window.addEventListener("online", done, { once: true }))]);
}

// ---- The start

function sayPage() {
  sayAll();
  show();
  if (view === "lend") showLend();
  if (state.pass !== null && state.club !== null) showDay();
}

function setUp() {
  setUpDialog();
  setUpDay();
  setUpAccount(refresh);
  setUpLend();
  setUpPasses({ begin, show });
  setUpWatch(() => { showNotices(); showCells(); });
  for (const each of VIEWS) byName(`to-${each}`).addEventListener("click", () => go(each));
  byName("only-listed-drop").addEventListener("click", () => state.sender?.dropListed().catch(reportTrouble));
  byName("list-take").addEventListener("click", () => {
    go("account");
    byName("devices-title").scrollIntoView();
  });
  for (const name of ["online", "offline"]) window.addEventListener(name, () => { show(); if (navigator.onLine) lookWhenBack(); });
  document.addEventListener("visibilitychange", () => { if (document.visibilityState === "visible") comeBack(); });
  window.addEventListener("hashchange", () => {
    if (isScreen(location.hash)) {
      location.reload();
      return;
    }
    if (location.hash.length < 2) return;
    linked = findPass();
    if (linked.kind === "record" || linked.kind === "spare") offerLinked();
    else if (isPassShown()) begin();
    else show();
  });
  window.addEventListener("storage", ({ key }) => { if (key === placeName("passes")) keptElsewhere(); });
  setInterval(() => { if (document.visibilityState === "visible") { showNotices(); showCells(); } }, 30000);
  if (globalThis.BroadcastChannel !== undefined) {
    others = new BroadcastChannel(placeName("desk"));
    others.addEventListener("message", refresh);
  }
}

function comeBack() {
  if (view === "day") lookWhenBack();
  state.sender?.run().catch(reportTrouble);
}

function offerLinked() {
  const { kind, text } = linked;
  linked = { kind: "none", text: "" };
  if (kind === "record" && state.store !== null) offerRecord(text, refresh);
  if (kind === "spare") offerSpares(text.split(";"), showLend);
}

export async function startPage() {
  const isHall = isScreen(location.hash);
  offerLanguages(isHall ? sayAll : sayPage, keptLanguage(), keepLanguage);
  if (isHall) return startScreen(fetchClub);
  setUp();
  linked = findPass();
  if (!navigator.onLine && state.pass !== null) view = "bookings";
  show();
  if (!isToTry()) keepPage(show);
  const listed = loadClub();
  await openStore();
  lookWhetherPersists();
  await listed;
  show();
  if (state.pass !== null) goOn();
  offerLinked();
}

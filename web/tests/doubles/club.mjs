// A club for tests of the booking page's modules: its list, a small desk that answers the page's
// requests, and a member with a pass. The club's time is Monday 20 April 2026 at 12:00.
import { bytesOf } from "../../src/bytes.mjs";
import { readClub } from "../../src/club.mjs";
import { exchange, noteClock } from "../../src/desk.mjs";
import { holdPass } from "../../src/keeping.mjs";
import { keyName, readPass, writePass } from "../../src/pass.mjs";
import { Sender } from "../../src/sender.mjs";
import { chain, SmallDesk } from "../../src/small_desk.mjs";
import { spentOfKey, state } from "../../src/state.mjs";
import { useWords } from "../../src/words.mjs";
import { TABLES } from "../kit.mjs";
import { MemoryStorage, openPage, withNavigator } from "./dom.mjs";

export const MOMENT = "2026-04-20T12:00";
export const SLOT = { facility: "court-1", day: "2026-05-01", hour: 18 };
const DATE = "Mon, 20 Apr 2026 10:00:00 GMT";
const ROOT = new Uint8Array(16).fill(7);
const PATH = /^\/slots\/([a-z0-9-]+)\/([0-9-]+)\/([0-9]{2})(?:\/bookings\/([0-9]+))?$/;
const ACTIONS = { GET: "view", PUT: "book", DELETE: "cancel" };

const FACILITIES = [
  { name: "court-1", title: "Court 1", kind: "court", opens: 8, shuts: 22, about: "Clay" },
  { name: "boat-1", title: "Double scull", kind: "boat", opens: 6, shuts: 21 },
];
export const LIST = {
  name: "Our club", zone: "Europe/Berlin", contact: "Mondays at 16", facilities: FACILITIES,
  imprint: "https://club.example.org/imprint",
  closures: [{ facility: "boat-1", day: SLOT.day, from: 18, until: 19, why: "Repairs" }],
};

export async function passOf(key, ...caveats) {
  const identifier = bytesOf(`key:${key}`);
  const lines = caveats.map(bytesOf);
  const signature = await chain(ROOT, identifier, lines);
  const location = new Uint8Array();
  return writePass({ form: "v2", location, identifier, caveats: lines, signature });
}

let open = 0; // the number of requests without a reply

class MemoryStore {
  constructor() { this.rows = new Map(); }

  async all() { return structuredClone([...this.rows.values()]); }

  async get(key, number) { return structuredClone(this.rows.get(`${key}/${number}`)); }

  async put(...entries) {
    for (const each of entries) this.rows.set(`${each.key}/${each.number}`, structuredClone(each));
  }

  async remove(key, number) { this.rows.delete(`${key}/${number}`); }
}

function askedOf(path, { method = "GET", body }) {
  if (path === "/account") return { action: "account" };
  const [, facility, day, hour, number] = PATH.exec(path);
  const slot = { facility, day, hour: Number(hour) };
  const guests = body === undefined ? 0 : JSON.parse(body).guests;
  return { action: ACTIONS[method], slot, number: Number(number), guests };
}

function replyOf(status, body) {
  const headers = { "Content-Type": "application/json", Date: DATE };
  return new Response(JSON.stringify(body), { status, headers });
}

// Answers the page's requests. `asked` lists the methods and paths. A test may change `list`, the
// club's list, or set `fails` to make every request fail.
export class Club {
  constructor() {
    const key = () => ({ member: "amy", root: ROOT, revoked: false });
    const rows = [["court-1", "court", 4, 200, 8, 22], ["boat-1", "boat", 2, 150, 6, 21]];
    const facilities = rows.map(([name, kind, places, price, opens, shuts]) =>
      [name, { kind, places, price, opens, shuts }]);
    this.desk = new SmallDesk({
      members: { amy: { credited: 5000, quota: 9 } },
      facilities: Object.fromEntries(facilities),
      keys: { "amy-1": key(), "amy-lend-1": key() },
      closed: [`boat-1 ${SLOT.day} 18`],
    });
    Object.assign(this, { asked: [], list: LIST, fails: false });
  }

  async answer(path, options = {}) {
    this.asked.push(`${options.method ?? "GET"} ${path}`);
    if (this.fails) throw new TypeError("no network");
    if (path === "club.json") return replyOf(this.list === null ? 404 : 200, this.list);
    const text = (options.headers?.Authorization ?? "").replace(/^Bearer /, "");
    const { status, body } = await this.desk.answer(text, askedOf(path, options), MOMENT);
    return replyOf(status, body);
  }
}

// Opens the booking page in the double of a browser, with a member's pass that has these caveats.
// The page's own script doesn't run. Returns the club.
export async function openClub(...caveats) {
  openPage("book.html");
  withNavigator({});
  for (const name of ["localStorage", "sessionStorage"]) {
    Object.defineProperty(globalThis, name, { value: new MemoryStorage(), configurable: true });
  }
  useWords(TABLES, "en");
  const club = new Club();
  globalThis.fetch = (path, options) => {
    open += 1;
    return club.answer(path, options).finally(() => { open -= 1; });
  };
  globalThis.history = { state: null, replaceState(made) { this.state = made; } };
  noteClock({ headers: new Headers({ Date: DATE }) });
  const text = await passOf("amy-1", ...caveats);
  const pass = readPass(text);
  Object.assign(state, {
    club: readClub(LIST), pass, text, given: text, base: 0, key: keyName(pass), name: "amy-1",
    isKept: false, entries: [], account: null, taken: new Map(), closed: new Set(),
  });
  state.store = new MemoryStore();
  state.sender = new Sender({
    store: state.store, exchange, lock: (work) => work(), pause: async () => {},
    changed: () => {}, guess: spentOfKey,
  });
  Object.assign(state.sender, { pass: text, key: state.key });
  holdPass(null);
  return club;
}

// Books a slot, and returns the booking's entry.
export async function booked(slot = SLOT, guests = 1) {
  const made = await state.sender.book(slot, guests, true);
  await state.sender.run();
  state.entries = await state.sender.entries();
  return state.entries.find(({ number }) => number === made.number);
}

// A digest or signature that runs counts like an open request, because the page goes on after it.
for (const name of ["digest", "importKey", "sign"]) {
  const compute = crypto.subtle[name].bind(crypto.subtle);
  crypto.subtle[name] = async (...given) => {
    open += 1;
    try {
      return await compute(...given);
    } finally {
      open -= 1;
    }
  };
}

// Waits until the page has done what it does after a press: for a while, no request is open and no
// signature is computed.
export async function settled() {
  for (let quiet = 0; quiet < 25; quiet += 1) {
    await new Promise((done) => { setTimeout(done, 1); });
    if (open > 0) quiet = 0;
  }
}

export const shownIn = (id) => document.getElementById(id).textContent;

export function buttonIn(id, words) {
  const found = document.getElementById(id).querySelectorAll("button");
  return found.find((each) => each.textContent.includes(words)) ?? null;
}

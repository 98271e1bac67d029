// A trial club. A small desk inside the page answers the page's requests, so the page sends nothing over the network. In the browser's storage, the
// trial club's data has other names than a real club's data.
import { daysLater, hourText, momentIn } from "./dates.mjs";
import { withName } from "./place.mjs";
import { writePass } from "./pass.mjs";
import { bytesOf } from "./bytes.mjs";
import { slotName } from "./record.mjs";
import { chain, SmallDesk } from "./small_desk.mjs";

const ZONE = "Europe/Berlin";
const KEPT = "club to try";
const ROOTS = { "anna-1": 1, "anna-lend-1": 2, "anna-lend-2": 3, others: 4 };
// The number of bookings of other members.
const OTHERS_ASK = 60;
const FACILITIES = [
  ["court-1", "Court 1", "court", 4, 200, 8, 22, "Clay"], ["court-2", "Court 2", "court", 4, 200, 8, 22, "Clay"], ["court-3", "Court 3 (indoor)", "court", 4, 300, 7, 23, ""],
  ["boat-1", "Double scull", "boat", 2, 150, 6, 21, "Bring your own life jacket"], ["room-1", "Club room", "room", 1, 600, 8, 23, ""],
];

withName("demo ");

function rootOf(key) {
  return new Uint8Array(16).fill(ROOTS[key]);
}

export async function passToTry(key) {
  const identifier = bytesOf(`key:${key}`);
  return writePass({ form: "v2", location: new Uint8Array(), identifier, caveats: [], signature: await chain(rootOf(key), identifier, []) });
}

function momentNow() {
  return momentIn(ZONE, Date.now());
}

// Other members have booked some hours of today and of the next nine days. These hours depend only on the number of days from today.
function othersBookings() {
  const today = momentNow().slice(0, 10);
  return Array.from({ length: OTHERS_ASK }, (_, place) => {
    const [facility, , , places, price, opens, shuts] = FACILITIES[place * 7 % FACILITIES.length];
    const guests = place % places;
    const hour = opens + place * 5 % (shuts - opens);
    return { key: "others", number: place + 1, facility, day: daysLater(today, place % 10), hour, guests, charge: price * (guests + 1), left: 0, cancelled: false, refund: 0 };
  });
}

function keptBookings() {
  try {
    const bookings = JSON.parse(localStorage.getItem(KEPT) ?? "null");
    return Array.isArray(bookings) ? bookings : null;
  } catch {
    return null;
  }
}

function keepBookings(bookings) {
  try {
    localStorage.setItem(KEPT, JSON.stringify(bookings));
  } catch {
    // Without storage, the trial club's bookings are lost when the member closes the page.
  }
}

function deskToTry() {
  return new SmallDesk({
    members: { anna: { credited: 10000, quota: 20 }, others: { credited: 999999, quota: 99 } },
    facilities: Object.fromEntries(FACILITIES.map(([name, , kind, places, price, opens, shuts]) => [name, { kind, places, price, opens, shuts }])),
    keys: Object.fromEntries(Object.keys(ROOTS).map((key) => [key, { member: key === "others" ? key : "anna", root: rootOf(key), revoked: false }])),
    bookings: keptBookings() ?? othersBookings(),
    closed: closures().flatMap(({ facility, day, from, until }) => Array.from({ length: until - from }, (_, place) => slotName({ facility, day, hour: from + place }))),
  });
}

// The trial club's office has closed two hours of court-2 on three days.
function closures() {
  const today = momentNow().slice(0, 10);
  return [1, 3, 5].map((count) => ({ facility: "court-2", day: daysLater(today, count), from: 16, until: 18, why: "Youth training" }));
}

// The logo shows a ball.
const LOGO = "data:image/svg+xml;base64,PHN2ZyB4bWxucz0iaHR0cDovL3d3dy53My5vcmcvMjAwMC9zdmciIHZpZXdCb3g9IjAgMCAyMCAyMCI+PGNpcmNsZSBjeD0iMTAiIGN5PSIxMCIgcj0iOSIgZmlsbD0iI2M4ZDk0YSIvPjxwYXRoIGQ9Ik0zIDVhOSA5IDAgMDEwIDEwTTE3IDVhOSA5IDAgMDAwIDEwIiBmaWxsPSJub25lIiBzdHJva2U9IiNmZmYiIHN0cm9rZS13aWR0aD0iMS41Ii8+PC9zdmc+";

const CLUB = {
  name: "Club to try", zone: ZONE, contact: "Club house, Mondays from 16 to 18", logo: LOGO, closures: closures(),
  facilities: FACILITIES.map(([name, title, kind, , , opens, shuts, about]) => ({ name, title, kind, opens, shuts, about })),
};

const PATH = /^\/slots\/([a-z0-9-]+)\/([0-9-]+)\/([0-9]{2})(?:\/bookings\/([0-9]+))?$/;
const ACTIONS_OF = { GET: "view", PUT: "book", DELETE: "cancel" };

function askedOf(path, { method = "GET", body }) {
  if (path === "/account") return { action: "account" };
  const [, facility, day, hour, number] = PATH.exec(path);
  const slot = { facility, day, hour: Number(hourText(Number(hour))) };
  return { action: ACTIONS_OF[method], slot, number: Number(number), guests: body === undefined ? 0 : JSON.parse(body).guests };
}

function replyOf(status, body) {
  return new Response(JSON.stringify(body), { status, headers: { "Content-Type": "application/json", Date: new Date().toUTCString() } });
}

// Returns a replacement for fetch(), which passes the page's requests to the small desk.
function answerHere(desk) {
  return async (path, options = {}) => {
    if (path === "club.json") return replyOf(200, CLUB);
    const text = (options.headers?.Authorization ?? "").replace(/^Bearer /, "");
    const { status, body } = await desk.answer(text, askedOf(path, options), momentNow());
    if (options.method === "PUT" || options.method === "DELETE") keepBookings(desk.bookings);
    return replyOf(status, body);
  };
}

export function openClubToTry() {
  globalThis.fetch = answerHere(deskToTry());
}

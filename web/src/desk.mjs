// Sends requests to the desk, which has the same origin as the page.
import { hourText } from "./dates.mjs";
import { NoReply, readReply, refuseTooMany } from "./replies.mjs";

const TIMEOUT = 15000; // milliseconds
const FIRST_PAUSE = 200;
const LONGEST_PAUSE = 5000;
const AT_ONCE = 6;

// The method, path and body of each kind of request.
export const REQUESTS = {
  view: ({ facility, day, hour }) => ["GET", `/slots/${facility}/${day}/${hourText(hour)}`],
  book: ({ number, guests, ...slot }) => ["PUT", `${REQUESTS.view(slot)[1]}/bookings/${number}`, JSON.stringify({ guests })],
  cancel: ({ number, ...slot }) => ["DELETE", `${REQUESTS.view(slot)[1]}/bookings/${number}`],
  account: () => ["GET", "/account"],
};

// The server's time minus this browser's time, in milliseconds. The proxy puts the server's time into each reply. Before the first reply, the value
// is null.
let clockLead = null;

export function serverTime() {
  return Date.now() + (clockLead ?? 0);
}

export function clockDifference() {
  return clockLead;
}

export function noteClock(response) {
  const date = Date.parse(response.headers.get("Date") ?? "");
  // The Date field has only whole seconds, so the page assumes half a second more.
  if (!Number.isNaN(date)) clockLead = date + 500 - Date.now();
}

// Sends a request once. Throws NoReply if no reply from the desk comes.
export async function exchange(pass, action, asked) {
  const [method, path, body] = REQUESTS[action](asked);
  const stop = new AbortController();
  const timer = setTimeout(() => stop.abort(), TIMEOUT);
  try {
    const response = await fetch(path, {
      method, body, headers: { Authorization: `Bearer ${pass}` }, cache: "no-store", credentials: "omit", redirect: "error",
      referrerPolicy: "no-referrer", signal: stop.signal,
    });
    noteClock(response);
    refuseTooMany(response.status, response.headers.get("Retry-After"));
    return readReply(action, asked, response.status, await response.text());
  } catch (fault) {
    throw fault instanceof NoReply ? fault : new NoReply(String(fault));
  } finally {
    clearTimeout(timer);
  }
}

// Returns a random wait before a try, in milliseconds. The first try has the number 1. The longest possible wait doubles with each try, up to a
// limit.
export function pauseBefore(number, random = Math.random) {
  return random() * Math.min(FIRST_PAUSE * 2 ** (Math.max(1, number) - 1), LONGEST_PAUSE);
}

export function paused(milliseconds) {
  return new Promise((done) => setTimeout(done, milliseconds));
}

const MOST_WAITS = 30;

// Sends a request that changes nothing, with at most `tries` tries until a reply comes. If the proxy asks the page to wait, the function waits and
// doesn't count the try. It waits at most `waits` times. If no reply comes in the end, the function throws the last NoReply.
export async function ask(pass, action, asked, tries = 4, waits = MOST_WAITS) {
  try {
    return await exchange(pass, action, asked);
  } catch (fault) {
    if (fault.wait > 0 ? waits === 0 : tries === 1) throw fault;
    if (fault.wait > 0) {
      await paused(fault.wait * (1 + Math.random()));
      return ask(pass, action, asked, tries, waits - 1);
    }
    await paused(pauseBefore(5 - tries));
    return ask(pass, action, asked, tries - 1, waits);
  }
}

// Runs a task for each item, with a few tasks at the same time. Stops when `goesOn` returns false. The function removes items from the front of the
// list, so the caller may reorder the list while the tasks run.
export async function eachAtOnce(items, task, goesOn = () => true) {
  const work = async () => {
    while (items.length > 0 && goesOn()) await task(items.shift());
  };
  await Promise.all(Array.from({ length: AT_ONCE }, work));
}

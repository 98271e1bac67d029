// Tests of place.mjs, store.mjs, at_hand.mjs, club_loading.mjs and worker.js: what the page keeps
// in the browser, and how it opens without a network.
import assert from "node:assert/strict";
import { readFileSync } from "node:fs";
import { beforeEach, test } from "node:test";
import vm from "node:vm";
import { keepPage, opensOffline } from "../src/at_hand.mjs";
import { fetchClub } from "../src/club_loading.mjs";
import { isToTry, placeName, withName } from "../src/place.mjs";
import { state } from "../src/state.mjs";
import { Store } from "../src/store.mjs";
import { Caches, Databases } from "./doubles/browser.mjs";
import { LIST, openClub } from "./doubles/club.mjs";
import { withNavigator } from "./doubles/dom.mjs";

const ENTRY = { key: "amy-1", number: 7, facility: "court-1" };

beforeEach(() => { globalThis.indexedDB = new Databases(); });

test("a trial club's data have names of their own", () => {
  assert.deepEqual([placeName("desk"), isToTry()], ["desk", false]);
  withName("demo ");
  assert.deepEqual([placeName("desk"), isToTry()], ["demo desk", true]);
  withName("");
});

// ---- The record of bookings

test("the store keeps entries by key and number", async () => {
  const store = await Store.open();
  await store.put(ENTRY, { ...ENTRY, number: 8 }, { ...ENTRY, key: "amy-phone" });
  assert.deepEqual(await store.get("amy-1", 7), ENTRY);
  assert.equal((await store.all()).length, 3);
  await store.put({ ...ENTRY, facility: "boat-1" });
  assert.equal((await store.get("amy-1", 7)).facility, "boat-1");
  await store.remove("amy-1", 7);
  assert.equal(await store.get("amy-1", 7), undefined);
  const again = await Store.open();
  assert.equal((await again.all()).length, 2);
});

test("a full browser keeps what it had, and the page learns of it", async () => {
  const store = await Store.open();
  await store.put(ENTRY);
  store.database.isFull = true;
  await assert.rejects(store.put({ ...ENTRY, number: 8 }), /full/);
  store.database.isFull = false;
  assert.deepEqual(await store.all(), [ENTRY]);
});

test("a browser that stores nothing says so at once", async () => {
  indexedDB.refuses = true;
  await assert.rejects(Store.open(), /refused/);
});

// ---- The club's list

test("the page loads the club's list, and keeps the old list if there is no new one", async () => {
  const club = await openClub();
  club.list = { ...LIST, name: "Another name" };
  assert.equal(await fetchClub(), "");
  assert.equal(state.club.name, "Another name");
  for (const [list, words] of [[null, "club-missing"], [{ zone: 1 }, "club-odd"]]) {
    club.list = list;
    assert.equal(await fetchClub(), words);
    assert.equal(state.club.name, "Another name");
  }
  club.fails = true;
  assert.equal(await fetchClub(), "club-missing");
});

test("a page that was opened from a folder asks for no list", async () => {
  const club = await openClub();
  globalThis.location = new URL("file:///home/amy/book.html");
  assert.equal(await fetchClub(), "club-missing");
  assert.deepEqual(club.asked, []);
});

// ---- Without a network

test("the page registers its worker, and only then opens without a network", async () => {
  await openClub();
  const asked = [];
  const serviceWorker = { register: async (path) => { asked.push(path); }, ready: null };
  const fails = async () => { throw new Error("refused"); };
  withNavigator({ serviceWorker: { register: fails, ready: null } });
  await keepPage(() => assert.fail("kept"));
  assert.equal(opensOffline(), false);
  withNavigator({ serviceWorker });
  let kept = 0;
  await keepPage(() => { kept += 1; });
  assert.deepEqual([asked, kept, opensOffline()], [["worker.js"], 1, true]);
});

const SOURCE = readFileSync(new URL("../src/worker.js", import.meta.url), "utf8");

// Starts the worker. `network` returns the response to a path, or throws.
function worker(network, caches = new Caches()) {
  const listeners = new Map();
  const self = {
    addEventListener: (type, act) => listeners.set(type, act),
    location: { origin: "https://desk.example.org" },
    clients: { claim: async () => {} },
    skipWaiting: async () => {},
  };
  const pathOf = (asked) => (typeof asked === "string" ? asked : new URL(asked.url).pathname);
  const fetch = async (asked) => network(pathOf(asked));
  vm.runInNewContext(SOURCE, { self, caches, fetch, URL, Promise, setTimeout });
  const fire = async (type, more = {}) => {
    const waits = [];
    let response = null;
    listeners.get(type)({
      ...more, waitUntil: (each) => waits.push(each), respondWith: (each) => { response = each; },
    });
    const found = await response;
    await Promise.all(waits);
    return found;
  };
  const asks = (path, method = "GET") =>
    fire("fetch", { request: { method, url: `https://desk.example.org${path}` } });
  return { caches, fire, asks };
}

test("the worker keeps the pages when it is installed, except a missing list", async () => {
  const { caches, fire } = worker((path) =>
    new Response(path, { status: path === "/club.json" ? 404 : 200 }));
  await fire("install");
  const [kept] = [...caches.all.values()].map((rows) => [...rows.keys()].sort());
  assert.deepEqual(kept, ["/app.webmanifest", "/book.html", "/pass.html"]);
});

test("the worker answers from the network, and from its cache if there is no network", async () => {
  let isOnline = true;
  const { asks } = worker((path) => {
    if (!isOnline) throw new TypeError("no network");
    return new Response(`of ${path}`);
  });
  assert.equal(await (await asks("/book.html")).text(), "of /book.html");
  isOnline = false;
  assert.equal(await (await asks("/")).text(), "of /book.html");
  await assert.rejects(asks("/pass.html"), /no network/);
});

test("the worker leaves the desk's requests and other sites alone", async () => {
  const { asks } = worker(() => assert.fail("asked"));
  for (const [path, method] of [["/account", "GET"], ["/book.html", "PUT"], ["/slots/x", "GET"]]) {
    assert.equal(await asks(path, method), null);
  }
});

test("a new worker drops the caches of older versions", async () => {
  const caches = new Caches();
  await caches.open("pages old");
  await worker(() => new Response(""), caches).fire("activate");
  assert.deepEqual(await caches.keys(), []);
});

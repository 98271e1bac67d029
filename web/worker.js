// A service worker that caches the pages and club.json, so that they open without a network. If there is a network, the worker loads them from
// the server, so that the browser shows a new page immediately. The worker neither handles other requests nor caches the desk's replies. bin/pages
// makes this file from web/src/worker.js.
"use strict";
const VERSION = "83282ec82d4cb44f";
const CACHE = `pages ${VERSION}`;
const PAGES = ["/book.html", "/pass.html", "/app.webmanifest", "/club.json"];
const PATIENCE = 4000; // milliseconds that the worker waits for the network before it uses the cache

// If a file is missing, such as club.json, the worker caches the other files. The page itself tells the user about a missing list.
async function keepAll() {
  const cache = await caches.open(CACHE);
  await Promise.all(PAGES.map(async (path) => keepIn(cache, path, await fetch(path, { cache: "no-cache" }).catch(() => null))));
}

async function keepIn(cache, path, response) {
  if (response !== null && response.ok && !response.redirected) await cache.put(path, response);
}

async function dropOthers() {
  const names = await caches.keys();
  await Promise.all(names.filter((name) => name !== CACHE).map((name) => caches.delete(name)));
  await self.clients.claim();
}

async function fetched(event, path) {
  const response = await fetch(event.request);
  const copy = response.clone(); // a body can be read only once, and the page reads the body of `response`
  event.waitUntil(caches.open(CACHE).then((cache) => keepIn(cache, path, copy)).catch(() => {}));
  return response;
}

// Returns the response from the network. If the network fails or takes too long, returns the cached response if there is one.
async function answer(event, path) {
  const come = fetched(event, path);
  come.catch(() => {});
  const late = new Promise((done) => { setTimeout(done, PATIENCE, null); });
  const response = await Promise.race([come, late]).catch(() => null);
  return response ?? await caches.match(path) ?? come;
}

self.addEventListener("install", (event) => {
  event.waitUntil(keepAll().then(() => self.skipWaiting()));
});
self.addEventListener("activate", (event) => {
  event.waitUntil(dropOthers());
});
self.addEventListener("fetch", (event) => {
  const { pathname, origin } = new URL(event.request.url);
  const path = pathname === "/" ? "/book.html" : pathname;
  if (event.request.method !== "GET" || origin !== self.location.origin || !PAGES.includes(path)) return;
  event.respondWith(answer(event, path));
});

// Makes the globals that the script of a whole page needs, in addition to the document.
import { TABLES } from "../kit.mjs";
import { Databases } from "./browser.mjs";
import { MemoryStorage, openPage, withNavigator } from "./dom.mjs";

// Opens a page of web/src, so that a test can import its script.
export function openWhole(page, fragment = "") {
  openPage(page);
  globalThis.location.hash = fragment;
  withNavigator({ locks: { request: (_, work) => work() } });
  for (const name of ["localStorage", "sessionStorage"]) {
    Object.defineProperty(globalThis, name, { value: new MemoryStorage(), configurable: true });
  }
  globalThis.indexedDB = new Databases();
  globalThis.history = { state: null, replaceState(made) { this.state = made; } };
  globalThis.WORDS = TABLES;
  globalThis.window.scrollTo = () => {};
  globalThis.setInterval = () => null; // what a page does each half minute
  globalThis.BroadcastChannel = undefined; // other tabs
}

export const seen = (...ids) => ids.filter((id) => !document.getElementById(id).hidden);

export const press = (id) => document.getElementById(id).click();

// Reads the part of the page's address after #. This part is a pass, a list of bookings, spare passes, or the word `screen` for the hall's screen. A
// pass may follow the word `screen`.
import { textOfFragment } from "./pass.mjs";
import { recordOfFragment } from "./record.mjs";

const SCREEN = /^#screen(?:=|$)/;

export function isScreen(fragment) {
  return SCREEN.test(fragment);
}

// Returns the kind of this part ("none", "screen", "record", "spare" or "pass"), and its text.
export function readFragment(fragment) {
  if (fragment.length < 2) return { kind: "none", text: "" };
  if (isScreen(fragment)) return { kind: "screen", text: textOfFragment(fragment.replace(/^#screen=?/, "#")) };
  if (fragment.startsWith("#spare=")) return { kind: "spare", text: textOfFragment(`#${fragment.slice("#spare=".length)}`) };
  const record = recordOfFragment(fragment);
  return record === null ? { kind: "pass", text: textOfFragment(fragment) } : { kind: "record", text: record };
}

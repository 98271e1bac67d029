// Tells the member when a full slot gets a free place: by a notice, by a tone, and by a notification if the browser allows
// notifications.
import { offerBooking } from "./booking_dialog.mjs";
import { titleOf } from "./club.mjs";
import { exchange } from "./desk.mjs";
import { closeDialog, openDialog } from "./dialog.mjs";
import { outcomeBox, slotText } from "./dialog_parts.mjs";
import { button, element } from "./elements.mjs";
import { slotName } from "./record.mjs";
import { clubMoment, state } from "./state.mjs";
import { say, shortDayText } from "./words.mjs";
import { MOST_WATCHED, Watch } from "./watch.mjs";

const EACH_MINUTE = 60000;
const TONES = [660, 880, 660]; // hertz
const TONE = 0.25; // seconds

const free = new Map(); // the slots that got a free place, with the desk's replies, by the slot's name
let pageChanged = () => {};
let timer = null;
let tones = null; // the browser lets the page make tones only after a press

const watch = new Watch({
  look: (slot) => exchange(state.text, "view", slot), moment: clubMoment, ring, changed: watchChanged,
});

// The page looks at slots only while it watches some.
function watchChanged() {
  if (watch.slots.size === 0) {
    clearInterval(timer);
    timer = null;
  } else timer ??= setInterval(() => watch.round(), EACH_MINUTE);
  pageChanged();
}

export function setUpWatch(whenChanged) {
  pageChanged = whenChanged;
}

export function isWatched(slot) {
  return watch.has(slot);
}

function valuesOf(slot) {
  return { facility: titleOf(state.club, slot.facility), time: slotText(slot, shortDayText) };
}

// Offers to watch a full slot, or to watch it no more.
export function offerWatch(slot, whenDone) {
  const outcome = outcomeBox();
  const press = button("main wide-button", say(watch.has(slot) ? "watch-stop" : "watch"), () => {
    if (watch.has(slot)) watch.drop(slot);
    else if (!beginWatch(slot)) {
      outcome.replaceChildren(element("p", "wrong", say("watch-many", { count: MOST_WATCHED })));
      return;
    }
    closeDialog();
  });
  openDialog(titleOf(state.club, slot.facility), [
    element("p", "slot-time", slotText(slot)), element("p", "", say("watch-full")), element("p", "hint", say("watch-says")), outcome,
    element("div", "buttons", press, button("", say("back"), closeDialog)),
  ], whenDone);
}

function beginWatch(slot) {
  if (!watch.add(slot)) return false;
  globalThis.Notification?.requestPermission?.()?.catch?.(() => {});
  tones ??= globalThis.AudioContext === undefined ? null : new AudioContext();
  return true;
}

function ring(slot, view) {
  free.set(slotName(slot), { slot, view });
  pageChanged();
  ringTones();
  notify(say("watch-free", valuesOf(slot)));
}

function ringTones() {
  if (tones === null) return;
  TONES.forEach((frequency, place) => {
    const made = tones.createOscillator();
    made.frequency.value = frequency;
    made.connect(tones.destination);
    made.start(tones.currentTime + place * TONE);
    made.stop(tones.currentTime + (place + 1) * TONE);
  });
}

// Some browsers show notifications only through the page's worker.
async function notify(words) {
  if (globalThis.Notification?.permission !== "granted") return;
  try {
    const worker = await navigator.serviceWorker?.getRegistration?.();
    if (worker === undefined) new Notification(words);
    else await worker.showNotification(words);
  } catch {
    // The page shows a notice, and has rung.
  }
}

// Returns the notices about watched slots, and about slots that got a free place.
export function watchNotices() {
  const stop = (slot) => button("", say("watch-stop"), () => watch.drop(slot));
  const book = ({ slot, view }) => button("", say("view-day"), () => {
    free.delete(slotName(slot));
    offerBooking(slot, view, pageChanged);
  });
  const forget = ({ slot }) => button("", say("close"), () => {
    free.delete(slotName(slot));
    pageChanged();
  });
  return [
    ...[...free.values()].map((each) => [say("watch-free", valuesOf(each.slot)), book(each), forget(each)]),
    ...[...watch.slots.values()].map((slot) => [say("watching", valuesOf(slot)), stop(slot)]),
  ];
}

// Sends bookings from a dialog, and shows the results there.
import { faultBox, finish, slotText, unsavedNote, waitingWords } from "./dialog_parts.mjs";
import { element } from "./elements.mjs";
import { keepLastBooked } from "./keeping.mjs";
import { stateOf, unfinished } from "./record.mjs";
import { refusalText } from "./refusals.mjs";
import { NotStored } from "./sender.mjs";
import { state } from "./state.mjs";
import { say, shortDayText } from "./words.mjs";

// `book` records the request. After a refusal or an error, the function calls `again`, which may enable the button again. After
// a refusal, `again` gets the refused entry. After any other result, the function calls `done`, which removes the member's choices.
// If the slot is booked already, the function calls `second`.
export async function sendBooking({ book, slot, outcome, press, again, done, second }) {
  const end = waitingWords(outcome, state.sender);
  try {
    const entry = await book();
    if (entry.second !== undefined) {
      end();
      second();
      return;
    }
    state.sender.follow(entry, (now) => {
      if (unfinished(now) === "book" && now.stopped === undefined) return;
      end();
      outcome.replaceChildren(...outcomeOfBooking(now));
      if (stateOf(now) === "refused") {
        again(now);
        return;
      }
      keepLastBooked(slot);
      done();
      finish(press);
    });
    await state.sender.run();
  } catch (fault) {
    end();
    again();
    if (!(fault instanceof NotStored)) throw fault;
    outcome.replaceChildren(faultBox(say("not-stored-title"), say("not-stored")));
  }
}

function outcomeOfBooking(entry) {
  if (entry.stopped !== undefined) return [faultBox(say("unknown-booked"), refusalText(entry.stopped))];
  if (stateOf(entry) === "refused") return [faultBox(say("not-booked"), refusalText(entry.book, "book", entry))];
  const { charge, left } = entry.book;
  const lines = [element("strong", "", say("booked")), " ", say("booked-detail", { count: charge, number: String(entry.number) })];
  return [element("p", "done", ...lines, " ", say("booked-left", { count: left })), ...unsavedNote(state.sender)];
}

// ---- Several bookings

// Records the bookings of a series, each with a number of its own, and sends them one after the other. Shows for each slot
// whether it was booked, or why not. `again` and `done` are as above.
export async function sendSeries({ orders, outcome, press, again, done }) {
  const waiting = element("div", "");
  const end = waitingWords(waiting, state.sender);
  try {
    const made = await state.sender.bookAll(orders);
    const lines = orders.map(({ slot }, place) => element("li", "", ...seriesWords(slot, made[place])));
    outcome.replaceChildren(waiting, element("ul", "plan", ...lines));
    const results = await Promise.all(made.map((entry, place) => followed(entry, (now) => {
      lines[place].replaceChildren(...seriesWords(orders[place].slot, now));
    })));
    end();
    waiting.replaceChildren(...seriesResult(results));
    keepLastBooked(orders[0].slot);
    done();
    finish(press);
  } catch (fault) {
    end();
    again();
    if (!(fault instanceof NotStored)) throw fault;
    outcome.replaceChildren(faultBox(say("not-stored-title"), say("not-stored")));
  }
}

// Calls `show` at each change of an entry, until the desk has replied or has refused the pass.
function followed(entry, show) {
  if (entry.second !== undefined) return entry;
  return new Promise((whenDone, fail) => {
    state.sender.follow(entry, (now) => {
      show(now);
      if (unfinished(now) === null || now.stopped !== undefined) whenDone(now);
    });
    state.sender.run().catch(fail);
  });
}

function seriesWords(slot, entry) {
  const known = entry.second ?? entry;
  const now = stateOf(known);
  const why = known.stopped ?? (now === "refused" ? known.book : undefined);
  const words = why !== undefined ? `${say("not-booked")} ${refusalText(why, "book", known)}`
    : entry.second !== undefined ? say("cell-mine-only")
      : now === "asked" ? say("sending") : `${say("booked")} ${say("booked-detail", { count: known.book.charge, number: String(known.number) })}`;
  return [slotText(slot, shortDayText), ": ", words];
}

function seriesResult(results) {
  const booked = results.filter((each) => each.second === undefined && stateOf(each) === "booked");
  const points = booked.reduce((sum, entry) => sum + entry.book.charge, 0);
  const words = say("series-booked", { count: booked.length, all: results.length, points });
  return [element("p", booked.length === results.length ? "done" : "note", words), ...unsavedNote(state.sender)];
}

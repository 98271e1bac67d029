// Sends requests under the pass in use, or under a spare pass of this browser. So a member can cancel what somebody booked
// with a part of a spare pass that she lent.
import { firstDenial } from "./caveats.mjs";
import { keptSpares } from "./keeping.mjs";
import { passOrNull } from "./lend.mjs";
import { keyName } from "./pass.mjs";
import { unfinished } from "./record.mjs";
import { canSend, clubMoment, denial, state, withKind } from "./state.mjs";

const senders = new Map(); // the senders of spare passes, by the text of the pass

function spareOf(key) {
  return keptSpares().find((text) => {
    const pass = passOrNull(text);
    return pass !== null && keyName(pass) === key;
  }) ?? null;
}

// Returns the sender for a key, or null if this browser has neither the key's pass in use nor a spare pass of the key.
export function senderOf(key) {
  if (key === state.key && state.pass !== null) return state.sender;
  const text = state.makeSender === null ? null : spareOf(key);
  if (text === null) return null;
  if (!senders.has(text)) senders.set(text, Object.assign(state.makeSender(), { pass: text, key }));
  return senders.get(text);
}

// Returns whether a pass of this browser allows cancelling a booking, as far as the page knows.
export function canCancel(entry) {
  if (entry.key === state.key && state.pass !== null) return canSend() && denial("cancel", entry) === 0;
  const sender = senderOf(entry.key);
  if (sender === null || clubMoment() === null) return false;
  const ask = { action: "cancel", moment: clubMoment(), slot: withKind(entry) };
  return firstDenial(passOrNull(sender.pass), ask) === 0;
}

// Waits until the desk has replied to an entry's request or has refused the pass, then returns the entry.
export function decided(sender, entry) {
  return new Promise((done) => {
    sender.follow(entry, (now) => {
      if (now.stopped !== undefined || unfinished(now) === null) done(now);
    });
  });
}

// Cancels a booking, and returns the entry after the desk's reply.
export async function cancelled(entry) {
  const sender = senderOf(entry.key);
  await sender.cancel(entry.key, entry.number);
  const answer = decided(sender, entry);
  await sender.run();
  return answer;
}

// Goes on with the unfinished requests of spare passes.
export async function finishSpares() {
  const open = state.entries.filter((entry) => entry.key !== state.key && unfinished(entry) !== null);
  for (const key of new Set(open.map((entry) => entry.key))) await senderOf(key)?.run();
}

// The desk charges at most the price that the page showed. For one request to book, the page adds a caveat to the pass:
// `spend` at the points that the key has spent, plus the points that the member agreed to. If the price has risen, the
// desk refuses the request because of this caveat. A repeat of a booking that the desk has made owes nothing, so the
// caveat never refuses such a repeat. And a refusal because of this caveat shows that the desk hasn't made the booking.
import { firstDenial, MOST_POINTS } from "./caveats.mjs";
import { canSign, narrowed, readPass, writePass } from "./pass.mjs";
import { Fault } from "./pass_faults.mjs";
import { CAVEAT_DENIES, NoReply } from "./replies.mjs";

const FIRST_MOMENT = "2000-01-01T00:00"; // before the end of each pass

// Returns the points that the pass's key has spent, or null if the pass doesn't show the account.
async function spentUnder(exchange, text, pass) {
  if (firstDenial(pass, { action: "account", moment: FIRST_MOMENT }) > 0) return null;
  const reply = await exchange(text, "account", {});
  return reply.fault === undefined ? reply.spent : null;
}

// Returns the text of the pass with a limit for all of the key's bookings. Returns null if the page can't sign, or if
// the pass has no room for another caveat.
async function limitedTo(pass, most) {
  if (!canSign()) return null;
  try {
    const narrower = await narrowed(pass, [`spend <= ${Math.min(most, MOST_POINTS)}`]);
    return writePass({ ...narrower, form: "v2" });
  } catch (fault) {
    if (!(fault instanceof Fault)) throw fault;
    return null;
  }
}

// Returns the slot's present price for one person, or null if the pass doesn't show the slot.
async function priceNow(exchange, text, entry) {
  const reply = await exchange(text, "view", entry);
  return reply.fault === undefined ? reply.price : null;
}

function isTooDear(price, { guests, agreed }) {
  return price * (guests + 1) > agreed;
}

// Sends the request to book an entry, at most for the points `entry.agreed`. `isRepeat` is whether the desk may have
// carried out an earlier try. `guess` is the number of points that the key has spent as far as the page knows; the
// function uses it only if the pass doesn't show the account. If the price has risen, the returned refusal has the new
// price for one person as `price`, or null if the pass doesn't show the price.
export async function bookAtPrice({ exchange, text, entry, isRepeat, guess }) {
  if (entry.agreed === undefined) return exchange(text, "book", entry);
  const pass = readPass(text);
  const spent = await spentUnder(exchange, text, pass);
  const limited = await limitedTo(pass, (spent ?? guess) + entry.agreed);
  const place = pass.caveats.length + 1;
  // Without the account, the guess may be too high. So the page also looks at the price before the first try.
  if ((spent === null || limited === null) && !isRepeat) {
    const price = await priceNow(exchange, text, entry);
    if (price !== null && isTooDear(price, entry)) return { fault: CAVEAT_DENIES, caveat: place, price };
  }
  const reply = await exchange(limited ?? text, "book", entry);
  if (limited === null || reply.fault !== CAVEAT_DENIES || reply.caveat !== place) return reply;
  const price = await priceNow(exchange, text, entry);
  if (price === null || isTooDear(price, entry)) return { ...reply, price };
  // The price is as before, so the key spent points elsewhere since the page asked. The sender tries again.
  if (spent !== null) throw new NoReply("the key spent points elsewhere");
  return exchange(text, "book", entry);
}

// A small desk with the rules of the real desk (docs/DESK.md), for trying the page. The small desk keeps a club in the page, and its code isn't
// proved.
import { bytesOf, characters } from "./bytes.mjs";
import { allows, readCaveat } from "./caveats.mjs";
import { minutesOf, startOf } from "./dates.mjs";
import { keyName, readPass } from "./pass.mjs";
import { Fault, MALFORMED, THIRD_PARTY, TOO_LONG, TOO_MANY } from "./pass_faults.mjs";
import { DAYS_AHEAD, slotName } from "./record.mjs";

const DAY_MINUTES = 1440;
const DERIVATION = bytesOf("macaroons-key-generator");
const OF_TEXT = { [TOO_LONG]: 5, [MALFORMED]: 6, [THIRD_PARTY]: 7, [TOO_MANY]: 8 };
const TEXTS = {
  5: [400, "pass too long"], 6: [400, "pass malformed"], 7: [400, "third-party caveat"], 8: [400, "too many caveats"], 9: [401, "not verified"],
  10: [403, "key revoked"], 11: [403, "caveat not understood"], 12: [403, "caveat denies"], 13: [409, "number used"], 14: [404, "no such facility"],
  15: [404, "no such booking"], 16: [409, "not bookable"], 17: [409, "slot closed"], 18: [409, "no places"], 19: [409, "quota reached"],
  20: [402, "balance too low"], 21: [409, "slot has begun"],
};

async function hmac(key, data) {
  const made = await crypto.subtle.importKey("raw", key, { name: "HMAC", hash: "SHA-256" }, false, ["sign"]);
  return new Uint8Array(await crypto.subtle.sign("HMAC", made, data));
}

// Returns the signature of an identifier and caveats under a root.
export async function chain(root, identifier, caveats) {
  let signature = await hmac(await hmac(DERIVATION, root), identifier);
  for (const caveat of caveats) signature = await hmac(signature, caveat);
  return signature;
}

function refusal(fault, caveat) {
  const [status, text] = TEXTS[fault];
  return { status, body: caveat === undefined ? { fault, text } : { fault, text, caveat } };
}

function served(body) {
  return { status: 200, body };
}

// `members` maps each member's name to its credited points and its quota. `facilities` maps each facility's name to its kind, places, price, opening
// hour and closing hour. `keys` maps each key's name to its member, its root, and whether the key is revoked. `closed` has the names of the closed
// slots. `bookings` is the list of bookings, each with its key and number.
export class SmallDesk {
  constructor({ members, facilities, keys, closed = [], bookings = [] }) {
    const [memberRows, facilityRows, keyRows] = [members, facilities, keys].map((rows) => new Map(Object.entries(rows)));
    Object.assign(this, { members: memberRows, facilities: facilityRows, keys: keyRows, closed: new Set(closed), bookings });
  }

  spent(key) {
    return this.sum(this.bookings.filter((each) => each.key === key));
  }

  sum(bookings) {
    return bookings.reduce((sum, { charge, refund }) => sum + charge - refund, 0);
  }

  ofMember(member) {
    return this.bookings.filter(({ key }) => this.keys.get(key).member === member);
  }

  balance(member) {
    return this.members.get(member).credited - this.sum(this.ofMember(member));
  }

  open(member, moment) {
    return this.ofMember(member).filter((each) => !each.cancelled && startOf(each) > moment).length;
  }

  taken(slot) {
    return this.bookings.filter((each) => !each.cancelled && slotName(each) === slotName(slot)).reduce((sum, { guests }) => sum + guests + 1, 0);
  }

  find(key, number) {
    return this.bookings.find((each) => each.key === key && each.number === number);
  }

  // Returns the status and body of the reply to a request. `asked` has the request's action, slot, number and guests. The moment is on the club's
  // clock.
  async answer(text, asked, moment) {
    let pass;
    try {
      pass = readPass(text);
    } catch (fault) {
      if (!(fault instanceof Fault)) throw fault;
      return refusal(OF_TEXT[fault.kind]);
    }
    const key = keyName(pass);
    const row = this.keys.get(key);
    const signature = row === undefined ? null : await chain(row.root, pass.identifier, pass.caveats);
    if (signature === null || characters(signature) !== characters(pass.signature)) return refusal(9);
    if (row.revoked) return refusal(10);
    return this.denied(pass, key, asked, moment) ?? this[asked.action](key, asked, moment);
  }

  denied({ caveats }, key, { action, slot, number, guests = 0 }, moment) {
    const facility = slot === undefined ? undefined : this.facilities.get(slot.facility);
    const owes = action === "book" && facility !== undefined && this.find(key, number) === undefined;
    const ask = {
      action, guests, moment, slot: slot === undefined ? undefined : { ...slot, kind: facility?.kind ?? null },
      owed: owes ? facility.price * (guests + 1) : 0, spent: this.spent(key),
    };
    for (const [place, bytes] of caveats.entries()) {
      const caveat = readCaveat(bytes);
      if (caveat === null) return refusal(11, place + 1);
      if (!allows(caveat, ask)) return refusal(12, place + 1);
    }
    return null;
  }

  view(_key, { slot }) {
    const { facility, day, hour } = slot;
    const row = this.facilities.get(facility);
    if (row === undefined) return refusal(14);
    return served({ facility, day, hour, kind: row.kind, price: row.price, places: row.places, taken: this.taken(slot), closed: this.closed.has(slotName(slot)) });
  }

  account(key, _asked, moment) {
    const { member } = this.keys.get(key);
    return served({ member, balance: this.balance(member), quota: this.members.get(member).quota, open: this.open(member, moment), spent: this.spent(key) });
  }

  book(key, { slot, number, guests }, moment) {
    const before = this.find(key, number);
    if (before !== undefined) {
      const isSame = slotName(before) === slotName(slot) && before.guests === guests;
      return isSame ? served({ booking: `${key}/${number}`, charge: before.charge, left: before.left }) : refusal(13);
    }
    const row = this.facilities.get(slot.facility);
    const { member } = this.keys.get(key);
    const ahead = minutesOf(startOf(slot)) - minutesOf(moment);
    const persons = guests + 1;
    if (row === undefined) return refusal(14);
    if (slot.hour < row.opens || slot.hour >= row.shuts || ahead <= 0 || ahead > DAYS_AHEAD * DAY_MINUTES) return refusal(16);
    if (this.closed.has(slotName(slot))) return refusal(17);
    const left = row.places - this.taken(slot) - persons;
    if (left < 0) return refusal(18);
    if (this.open(member, moment) >= this.members.get(member).quota) return refusal(19);
    const charge = row.price * persons;
    if (this.balance(member) < charge) return refusal(20);
    this.bookings.push({ key, number, ...slot, guests, charge, left, cancelled: false, refund: 0 });
    return served({ booking: `${key}/${number}`, charge, left });
  }

  cancel(key, { slot, number }, moment) {
    const booking = this.find(key, number);
    if (booking === undefined) return refusal(this.facilities.has(slot.facility) ? 15 : 14);
    if (slotName(booking) !== slotName(slot)) return refusal(13);
    if (!booking.cancelled) {
      const ahead = minutesOf(startOf(booking)) - minutesOf(moment);
      if (ahead <= 0) return refusal(21);
      booking.cancelled = true;
      booking.refund = ahead >= DAY_MINUTES ? booking.charge : Math.floor(booking.charge / 2);
    }
    return served({ booking: `${key}/${number}`, refund: booking.refund });
  }
}

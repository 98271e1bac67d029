// Sends the bookings and cancellations in the record until the desk answers. The sender records each request before sending it, and records each
// reply when it arrives. Only one tab of a browser sends at a time. The tab reads the record before sending, so that two tabs never send the same
// request.
import { pauseBefore } from "./desk.mjs";
import { onlyListed } from "./lists.mjs";
import { bookAtPrice } from "./price.mjs";
import {
  answered, drawnNumber, isAt, isEntry, isLive, newBooking, stateOf, unfinished, wantsOtherNumber, withCancellation, withRequest,
} from "./record.mjs";
import { NoReply } from "./replies.mjs";

// The browser couldn't store the record, so the page sent nothing.
export class NotStored extends Error {}

export class Sender {
  // `store` keeps the entries, and `exchange(pass, action, entry)` sends one request to the desk. `lock(work)` runs `work` in at most one tab
  // at a time. `pause(milliseconds)` waits. The sender calls `changed()` after each change. `now()` returns the time in milliseconds. `guess()`
  // returns the points that the key has spent as far as the page knows.
  constructor({ store, exchange, lock, pause, changed, now = Date.now, draw = drawnNumber, guess = () => 0 }) {
    Object.assign(this, { store, exchange, lock, pause, changed, now, draw, guess });
    // `pass` is the text of the pass, and `key` is the name of the pass's key.
    this.pass = null;
    this.key = null;
    this.fresh = new Set(); // requests that this tab recorded and hasn't sent yet
    this.stopped = new Set(); // bookings that the desk refused under this pass
    this.unsaved = new Map(); // answered bookings that the browser couldn't store
    this.followers = new Map(); // the functions to call when a booking changes
    this.tries = 0; // the number of successive tries without a reply
    // The HTTP status if the last try got a response that wasn't a reply, otherwise 0.
    this.status = 0;
    this.wait = 0; // the wait that the proxy asked for, in milliseconds
    this.running = false;
  }

  usePass(pass, key) {
    this.pass = pass;
    this.key = key;
    this.stopped.clear();
    return this.run();
  }

  // Returns the stored entries. Leaves out values that aren't entries.
  async entries() {
    const stored = (await this.store.all()).filter(isEntry);
    return stored.map((entry) => this.unsaved.get(`${entry.key}/${entry.number}`) ?? entry);
  }

  // Records a booking with a new number, and returns its entry. If the key already has a booking of this slot and the member doesn't intend a second
  // booking, the function returns the existing entry as `second`. `agreed` is the shown price of the whole booking, or undefined. `replaces` is the
  // number of a booking that the sender cancels once the desk has made the new booking. If another tab already replaces it, the function returns it
  // as `second`.
  async book(slot, guests, isMeant, agreed, replaces) {
    const entry = await this.lock(async () => {
      const entries = await this.entries();
      const own = entries.filter((each) => each.key === this.key);
      const second = own.find((each) => isLive(each) && isAt(each, slot));
      if (second !== undefined && !isMeant) return { second };
      const old = own.find((each) => each.number === replaces);
      const isReplaced = own.some((each) => each.replaces === replaces && each.book === null);
      if (replaces !== undefined && (isReplaced || old === undefined || stateOf(old) !== "booked")) return { second: old };
      const made = newBooking(this.key, this.draw(new Set(own.map((each) => each.number))), slot, guests, this.now(), { agreed, replaces });
      this.fresh.add(`book ${made.key}/${made.number}`);
      await this.written(made);
      return made;
    });
    return entry;
  }

  // Records several bookings in one change of the record, each with a new number. An order has a slot, guests and the agreed points. Returns for each
  // order its entry, or the key's earlier booking of the slot as `second`.
  bookAll(orders) {
    return this.lock(async () => {
      const own = (await this.entries()).filter((each) => each.key === this.key);
      const used = new Set(own.map((each) => each.number));
      const found = orders.map(({ slot, guests, agreed }, place) => {
        const second = own.find((each) => isLive(each) && isAt(each, slot));
        if (second !== undefined) return { second };
        const made = newBooking(this.key, this.draw(used), slot, guests, this.now() + place, { agreed });
        used.add(made.number);
        return made;
      });
      const made = found.filter((each) => each.second === undefined);
      for (const { key, number } of made) this.fresh.add(`book ${key}/${number}`);
      await this.written(...made);
      return found;
    });
  }

  // Records a listed booking as a request with the same number, so that run() sends it.
  async askFor(key, number, agreed) {
    await this.lock(async () => {
      const entry = await this.store.get(key, number);
      if (isEntry(entry) && stateOf(entry) === "listed") await this.written(withRequest(entry, agreed));
    });
  }

  // Removes the bookings that only lists show.
  async dropListed() {
    await this.lock(async () => this.store.removeAll(onlyListed(await this.entries())));
    this.changed();
  }

  async cancel(key, number) {
    await this.lock(async () => {
      const entry = await this.store.get(key, number);
      if (!isEntry(entry) || entry.cancel !== undefined) return;
      this.fresh.add(`cancel ${key}/${number}`);
      await this.written(withCancellation(entry));
    });
  }

  async written(...entries) {
    try {
      await this.store.put(...entries);
    } catch (fault) {
      throw new NotStored(String(fault));
    }
    this.changed();
  }

  // Calls `call` with the current entry at each change of the entry, even after the entry gets a new number.
  follow(entry, call) {
    this.followers.set(`${entry.key}/${entry.number}`, call);
  }

  tell(entry, before = entry) {
    const name = `${before.key}/${before.number}`;
    const call = this.followers.get(name);
    if (call === undefined) return;
    this.followers.delete(name);
    this.followers.set(`${entry.key}/${entry.number}`, call);
    call(entry);
  }

  // Sends all unfinished requests of the pass's key. A second call does nothing while the first call runs.
  async run() {
    if (this.running) return;
    this.running = true;
    try {
      for (;;) {
        const open = (await this.entries()).filter((entry) => this.isToSend(entry)).sort((a, b) => a.asked - b.asked);
        if (open.length === 0) return;
        await this.round(open);
      }
    } finally {
      this.running = false;
    }
  }

  isToSend(entry) {
    return entry.key === this.key && unfinished(entry) !== null && !this.stopped.has(`${entry.key}/${entry.number}`);
  }

  async round(open) {
    let replies = 0;
    for (const entry of open) {
      if (entry.key !== this.key) return;
      replies += await this.lock(() => this.send(entry.key, entry.number)) ? 1 : 0;
    }
    this.tries = replies > 0 ? 0 : this.tries + 1;
    if (replies > 0) this.status = 0;
    this.changed();
    if (replies === 0) await this.pause(Math.max(pauseBefore(this.tries), this.wait));
    this.wait = 0;
  }

  // Sends an entry's unfinished request once. Returns whether the desk replied or the entry had no unfinished request.
  async send(key, number) {
    const name = `${key}/${number}`;
    const entry = this.unsaved.get(name) ?? await this.store.get(key, number);
    const action = isEntry(entry) ? unfinished(entry) : null;
    if (action === null || key !== this.key) {
      if (entry !== undefined) this.tell(entry);
      return true;
    }
    const isFirst = this.fresh.delete(`${action} ${name}`);
    try {
      const isRepeat = entry.unsure || !isFirst;
      const reply = await this.replyTo(action, entry, isRepeat);
      await this.keep(entry, answered({ ...entry, unsure: isRepeat }, action, reply));
      return true;
    } catch (fault) {
      if (!(fault instanceof NoReply)) throw fault;
      this.wait = fault.wait;
      this.status = fault.status;
      this.tell(entry);
      return false;
    }
  }

  replyTo(action, entry, isRepeat) {
    const { exchange, pass: text } = this;
    if (action !== "book") return exchange(text, action, entry);
    return bookAtPrice({ exchange, text, entry, isRepeat, guess: this.guess() });
  }

  // Records the desk's reply in an entry. If the key has already used the entry's number for another booking, books again with another number. If the
  // desk made a booking that replaces another, also records the cancellation of the other booking.
  async keep(entry, next) {
    const name = `${entry.key}/${entry.number}`;
    if (unfinished(next) !== null && next.stopped !== undefined) this.stopped.add(name);
    const isBooking = unfinished(entry) === "book";
    const again = isBooking && wantsOtherNumber(next) ? await this.bookedAgain(entry) : null;
    const replaced = isBooking && stateOf(next) === "booked" ? await this.replacedBy(next) : null;
    const more = [again, replaced].filter((each) => each !== null);
    try {
      await this.store.put(next, ...more);
      this.unsaved.delete(name);
    } catch (fault) {
      if (more.length > 0) throw new NotStored(String(fault));
      this.unsaved.set(name, next);
    }
    this.tell(again ?? next, entry);
    this.changed();
  }

  async bookedAgain({ key, facility, day, hour, guests, asked, agreed, replaces }) {
    const used = new Set((await this.entries()).filter((each) => each.key === key).map((each) => each.number));
    const made = newBooking(key, this.draw(used), { facility, day, hour }, guests, asked, { agreed, replaces });
    this.fresh.add(`book ${key}/${made.number}`);
    return made;
  }

  // Returns the entry that a new booking replaces, with a request to cancel it. Returns null if there is no such entry.
  async replacedBy({ key, replaces }) {
    const old = replaces === undefined ? undefined : await this.store.get(key, replaces);
    if (!isEntry(old) || stateOf(old) !== "booked") return null;
    this.fresh.add(`cancel ${key}/${replaces}`);
    return withCancellation(old);
  }
}

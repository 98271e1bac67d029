// Watches full slots while the page is open. Each minute, the page asks the desk about each watched slot once, as if the
// member looked at it.
import { hasBegun, slotName } from "./record.mjs";
import { NoReply } from "./replies.mjs";

export const MOST_WATCHED = 5;

export class Watch {
  // `look(slot)` asks the desk about a slot. `moment()` returns the moment at the club. `ring(slot, view)` tells the member
  // that a slot has a free place. The watch calls `changed()` after each change of its slots.
  constructor({ look, moment, ring, changed }) {
    Object.assign(this, { look, moment, ring, changed });
    this.slots = new Map(); // by name
    this.isLooking = false;
  }

  // Returns whether the page watches the slot from now on.
  add(slot) {
    if (this.slots.size >= MOST_WATCHED && !this.has(slot)) return false;
    this.slots.set(slotName(slot), slot);
    this.changed();
    return true;
  }

  has(slot) {
    return this.slots.has(slotName(slot));
  }

  drop(slot) {
    if (this.slots.delete(slotName(slot))) this.changed();
  }

  // Looks at each slot once. A slot that begins, or that the desk refuses to show, isn't watched any more. Without a reply,
  // the slot stays.
  async round() {
    if (this.isLooking) return;
    this.isLooking = true;
    try {
      for (const slot of [...this.slots.values()]) await this.lookAt(slot);
    } finally {
      this.isLooking = false;
    }
  }

  async lookAt(slot) {
    if (hasBegun(slot, this.moment())) {
      this.drop(slot);
      return;
    }
    try {
      const view = await this.look(slot);
      if (!this.has(slot)) return;
      const isFree = view.fault === undefined && !view.closed && view.taken < view.places;
      if (isFree || view.fault !== undefined) this.drop(slot);
      if (isFree) this.ring(slot, view);
    } catch (fault) {
      if (!(fault instanceof NoReply)) throw fault;
    }
  }
}

// Stores the record of bookings in IndexedDB. The promise of `put` resolves when the browser has written the data to the disk.
import { placeName } from "./place.mjs";

const ENTRIES = "bookings";

function finished(request) {
  return new Promise((done, fail) => {
    request.addEventListener("success", () => done(request.result));
    request.addEventListener("error", () => fail(request.error));
    request.addEventListener("blocked", () => fail(new Error("blocked")));
  });
}

export class Store {
  constructor(database) {
    this.database = database;
  }

  // Throws if the browser can't store data.
  static async open() {
    const request = indexedDB.open(placeName("desk"), 1);
    request.addEventListener("upgradeneeded", () => request.result.createObjectStore(ENTRIES, { keyPath: ["key", "number"] }));
    const database = await finished(request);
    database.addEventListener("versionchange", () => database.close());
    return new Store(database);
  }

  all() {
    return finished(this.database.transaction(ENTRIES).objectStore(ENTRIES).getAll());
  }

  get(key, number) {
    return finished(this.database.transaction(ENTRIES).objectStore(ENTRIES).get([key, number]));
  }

  // Writes all of these entries, or none of them.
  put(...entries) {
    return this.change((entriesOf) => entries.forEach((entry) => entriesOf.put(entry)));
  }

  remove(key, number) {
    return this.change((entriesOf) => entriesOf.delete([key, number]));
  }

  // Removes all of these entries, or none of them.
  removeAll(entries) {
    return this.change((entriesOf) => entries.forEach(({ key, number }) => entriesOf.delete([key, number])));
  }

  change(work) {
    return new Promise((done, fail) => {
      const transaction = this.database.transaction(ENTRIES, "readwrite", { durability: "strict" });
      transaction.addEventListener("complete", () => done());
      transaction.addEventListener("abort", () => fail(transaction.error ?? new Error("aborted")));
      work(transaction.objectStore(ENTRIES));
    });
  }
}

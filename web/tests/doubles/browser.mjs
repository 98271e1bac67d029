// Doubles of a browser's IndexedDB and of a worker's caches.

// Calls the listeners of a request or a transaction later, as a browser does.
class Later {
  constructor() { this.listeners = new Map(); }

  addEventListener(type, act) { this.listeners.set(type, act); }

  fire(type) { setImmediate(() => this.listeners.get(type)?.()); }
}

function answered(result) {
  const made = Object.assign(new Later(), { result });
  made.fire("success");
  return made;
}

const nameOf = (key) => JSON.stringify(key);

class Rows {
  constructor(rows, path) { Object.assign(this, { rows, path }); }

  getAll() { return answered(structuredClone([...this.rows.values()])); }

  get(key) { return answered(structuredClone(this.rows.get(nameOf(key)))); }

  put(row) { this.rows.set(nameOf(this.path.map((name) => row[name])), structuredClone(row)); }

  delete(key) { this.rows.delete(nameOf(key)); }
}

// A database with one table. If `isFull` is true, each transaction that writes fails.
export class MemoryDatabase {
  constructor() { Object.assign(this, { rows: new Map(), isFull: false, isClosed: false }); }

  createObjectStore(name, { keyPath }) { Object.assign(this, { name, keyPath }); }

  addEventListener() {}

  close() { this.isClosed = true; }

  transaction(name, mode = "readonly") {
    if (name !== this.name) throw new Error(`no table ${name}`);
    const before = new Map(this.rows);
    const made = Object.assign(new Later(), { error: null });
    made.objectStore = () => new Rows(this.rows, this.keyPath);
    if (mode === "readwrite" && this.isFull) {
      this.rows = before;
      made.objectStore = () => new Rows(new Map(), this.keyPath);
      made.error = new Error("full");
      made.fire("abort");
    } else if (mode === "readwrite") made.fire("complete");
    return made;
  }
}

// Opens databases by their names. If `refuses` is true, the browser stores nothing.
export class Databases {
  constructor() { Object.assign(this, { all: new Map(), refuses: false }); }

  open(name) {
    const request = new Later();
    if (this.refuses) {
      request.error = new Error("refused");
      request.fire("error");
      return request;
    }
    const isNew = !this.all.has(name);
    if (isNew) this.all.set(name, new MemoryDatabase());
    request.result = this.all.get(name);
    if (isNew) request.fire("upgradeneeded");
    request.fire("success");
    return request;
  }
}

// The caches of a service worker: the responses by the name of the cache and the path.
export class Caches {
  constructor() { this.all = new Map(); }

  async open(name) {
    if (!this.all.has(name)) this.all.set(name, new Map());
    const rows = this.all.get(name);
    return { put: async (path, response) => { rows.set(path, response); } };
  }

  async keys() { return [...this.all.keys()]; }

  async delete(name) { return this.all.delete(name); }

  async match(path) {
    return [...this.all.values()].map((rows) => rows.get(path)).find((each) => each !== undefined);
  }
}

"use strict";
// Reads, writes, narrows and verifies passes with the library libclubpass. This command builds
// `clubpass.node` from clubpass.c, next to this file:
//   gcc -shared -fPIC -o clubpass.node clubpass.c $(pkg-config --cflags --libs clubpass) \
//     -I/usr/include/node

const library = require(process.env.CLUBPASS_NODE || "./clubpass.node");
const { isUint8Array } = require("util").types;

const FORMS = { v1: 1, v2: 2, json: 3 };
const FAULTS = {
  1: "too long", 2: "malformed", 3: "third-party caveat", 4: "too many caveats",
  5: "out of memory", 7: "no such caveat", 8: "no such form", 9: "no such ask",
};
const ACTIONS = { view: 1, book: 2, cancel: 3, account: 4 };
const KINDS = { court: 1, boat: 2, room: 3 };
const DENIED = 11;
// No text, part or caveat of a pass has more bytes.
const LONGEST = 8192;
const MOMENT = { unit: 60_000, length: 16, rest: "Z" };
const DAY = { unit: 86_400_000, length: 10, rest: "T00:00Z" };

class PassError extends Error {
  constructor(fault) {
    super(FAULTS[fault] || `fault ${fault}`);
    this.name = "PassError";
    this.fault = fault;
  }
}

const check = (fault) => {
  if (fault !== 0) throw new PassError(fault);
};
const told = (answer) => {
  if (typeof answer === "number") throw new PassError(answer);
  return answer;
};
const valueOf = (table, name) => (Object.hasOwn(table, name) ? table[name] : 0);

// Returns the minutes since 1970 for a moment such as "2026-05-01T18:00", or the days since 1970
// for a date such as "2026-05-01". Returns NaN for any other value.
const since1970 = (text, { unit, length, rest }) => {
  if (typeof text !== "string" || text.length !== length) return NaN;
  const at = new Date(`${text}${rest}`);
  const isSame = !Number.isNaN(at.getTime()) && at.toISOString().slice(0, length) === text;
  return isSame ? at / unit : NaN;
};

// Returns a text as bytes. Buffer.from would also take an object that only states a length, and
// would spend seconds on it. A string that is too long isn't encoded whole: the library gives its
// first bytes the same answer, because they are too many as well.
const bytesOf = (text) => {
  if (typeof text === "string") return Buffer.from(text.slice(0, LONGEST + 1));
  if (isUint8Array(text)) return text;
  throw new TypeError("a text must be a string or a Buffer");
};
// Returns an object in its own ArrayBuffer. The object is at the beginning of the ArrayBuffer, so
// that it is aligned.
const object = () => Buffer.from(new ArrayBuffer(library.size));

// No method changes a pass. A text is a string or a Buffer, and a root is a Buffer.
class Pass {
  #object = object();

  static parse(text) {
    const given = bytesOf(text);
    const made = new Pass();
    check(library.read(given, made.#object));
    return made;
  }

  static mint(root, identifier, location = "") {
    const made = new Pass();
    check(library.mint(root, bytesOf(location), bytesOf(identifier), made.#object));
    return made;
  }

  narrow(...caveats) {
    const made = new Pass();
    this.#object.copy(made.#object);
    for (const caveat of caveats) check(library.narrow(made.#object, bytesOf(caveat)));
    return made;
  }

  verify(root) {
    return library.isSigned(this.#object, root);
  }

  to(form) {
    return told(library.write(this.#object, valueOf(FORMS, form))).toString();
  }

  // Returns the first caveat that isn't understood or that denies a request, as
  // { number, understood }. Returns null if there is no such caveat. This method doesn't test the
  // signature. A request is { action, moment }. If the request has a slot, add
  // { facility, day, hour }. The values { kind, guests, owed, spent } are optional. Moment and day
  // are the club's local time, as "2026-05-01T18:00" and "2026-05-01".
  firstFault({ action, moment, facility = "", day, hour = 0, kind, ...points }) {
    const { guests = 0, owed = 0, spent = 0 } = points;
    const [fault, number] = library.firstFault(
      this.#object, bytesOf(facility), valueOf(ACTIONS, action),
      kind === undefined ? 0 : valueOf(KINDS, kind) || -1, since1970(moment, MOMENT),
      day === undefined ? 0 : since1970(day, DAY), hour, guests, owed, spent);
    if (fault === 0) return null;
    if (number === 0) throw new PassError(fault);
    return { number, understood: fault === DENIED };
  }

  get form() {
    return Object.keys(FORMS).find((name) => FORMS[name] === library.form(this.#object));
  }

  get location() {
    return told(library.part(this.#object, 0));
  }

  get identifier() {
    return told(library.part(this.#object, 1));
  }

  get signature() {
    return told(library.part(this.#object, 2));
  }

  get caveats() {
    return Array.from({ length: library.caveatCount(this.#object) }, (_, place) =>
      told(library.part(this.#object, place + 3)));
  }

  toString() {
    return this.to(this.form);
  }
}

const isCaveat = (text) => library.isCaveat(bytesOf(text));

module.exports = { Pass, PassError, isCaveat };

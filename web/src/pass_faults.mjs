// The reasons why the desk refuses a text as a pass, in the order of the desk's checks. A fault has a kind,
// the key of a sentence in the table of words, and values for this sentence. A value may itself be such a key with values.

export const LONGEST_TEXT = 8192; // bytes
export const MOST_CAVEATS = 64;

export const TOO_LONG = "too-long";
export const MALFORMED = "malformed";
export const THIRD_PARTY = "third-party";
export const TOO_MANY = "too-many";

export class Fault extends Error {
  constructor(kind, key, values = {}) {
    super(key);
    this.kind = kind;
    this.key = key;
    this.values = values;
  }
}

export function malformed(key, values) {
  throw new Fault(MALFORMED, key, values);
}

// The subject of a sentence about a fault: the pass, a name in its JSON, a caveat, or a name in the caveat's JSON.
export const IT = { key: "subject-it" };

export function itsName(name) {
  return { key: "subject-its", values: { name } };
}

export function caveatNumber(number) {
  return { key: "subject-caveat", values: { number } };
}

export function caveatName(number, name) {
  return { key: "subject-caveats", values: { number, name } };
}

// Returns a value for a sentence about a fault: the name of a part of the pass.
export function part(name) {
  return { key: `part-${name}` };
}

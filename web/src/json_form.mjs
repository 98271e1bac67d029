// Passes in JSON. JSON.parse accepts texts that the desk refuses, such as texts with lone surrogates, with 2.0 for 2, with huge numbers or with
// deeply nested values. So this module parses JSON itself. A JSON string becomes a string, an array becomes an array, and an object becomes a Map. A
// number becomes a JsonNumber, which keeps the number's text. If an object has a name several times, the last value counts.
import { base64Of, bytesOfBase64 } from "./base64.mjs";
import { bytesOf, quoted, shown, textOf } from "./bytes.mjs";
import { checkedSignature } from "./forms.mjs";
import { caveatName, caveatNumber, IT, itsName, malformed } from "./pass_faults.mjs";

class JsonNumber {
  constructor(spelling) {
    this.spelling = spelling;
  }
}

const DEEPEST_JSON = 127; // the greatest depth of nested arrays and objects

class JsonReader {
  constructor(text) {
    this.text = text;
    this.place = 0;
  }

  whole() {
    const value = this.value(0);
    this.skipSpace();
    if (this.place < this.text.length) this.refuse("json-more");
    return value;
  }

  value(depth) {
    this.skipSpace();
    const first = this.text[this.place];
    if (first === "{") return this.object(depth + 1);
    if (first === "[") return this.array(depth + 1);
    if (first === '"') return this.string();
    return this.number() ?? this.word();
  }

  object(depth) {
    const members = new Map();
    this.items("}", depth, () => {
      this.skipSpace();
      const name = this.string();
      this.skipSpace();
      if (!this.skip(":")) this.refuse("json-colon");
      members.set(name, this.value(depth));
    });
    return members;
  }

  array(depth) {
    const values = [];
    this.items("]", depth, () => values.push(this.value(depth)));
    return values;
  }

  // Reads the items between two brackets, with commas between the items.
  items(close, depth, readItem) {
    if (depth > DEEPEST_JSON) this.refuse("json-depth", { most: DEEPEST_JSON });
    this.place += 1;
    this.skipSpace();
    if (this.skip(close)) return;
    do {
      readItem();
      this.skipSpace();
    } while (this.skip(","));
    if (!this.skip(close)) this.refuse("json-comma", { close });
  }

  string() {
    const spelling = this.match(/"(?:[^"\\\u0000-\u001f]|\\(?:["\\/bfnrt]|u[0-9a-fA-F]{4}))*"/y);
    if (spelling === null) this.refuse("json-text");
    const text = JSON.parse(spelling);
    if (/\p{Surrogate}/u.test(text)) this.refuse("json-half");
    return text;
  }

  number() {
    const spelling = this.match(/-?(?:0|[1-9][0-9]*)(?:\.[0-9]+)?(?:[eE][+-]?[0-9]+)?/y);
    if (spelling === null) return null;
    if (!Number.isFinite(Number(spelling))) this.refuse("json-large");
    return new JsonNumber(spelling);
  }

  // No valid pass has the value true, false or null. But an object may have such a value if a later value with the same name replaces it.
  word() {
    const word = this.match(/true|false|null/y);
    if (word === null) this.refuse("json-none");
    return JSON.parse(word);
  }

  skipSpace() {
    this.match(/[ \t\n\r]*/y);
  }

  skip(character) {
    if (this.text[this.place] !== character) return false;
    this.place += 1;
    return true;
  }

  match(pattern) {
    pattern.lastIndex = this.place;
    const found = pattern.exec(this.text);
    if (found === null) return null;
    this.place += found[0].length;
    return found[0];
  }

  refuse(key, values) {
    if (this.place >= this.text.length) malformed("json-breaks-off");
    malformed("json-refused", { place: this.place + 1, what: { key, values } });
  }
}

const PASS_NAMES = ["v", "l", "l64", "i", "i64", "c", "s", "s64"];
const CAVEAT_NAMES = ["i", "i64", "l", "l64", "v", "v64"];

export function readJson(bytes) {
  const text = textOf(bytes);
  if (text === null) malformed("json-no-text");
  const object = new JsonReader(text).whole();
  refuseOtherNames(object, PASS_NAMES, IT);
  const version = object.get("v");
  if (version !== undefined && version?.spelling !== "2") malformed("json-version");
  return {
    location: optionalMember(object, "l", itsName) ?? new Uint8Array(),
    identifier: member(object, "i", itsName),
    caveats: listedCaveats(object.has("c") ? object.get("c") : []),
    signature: checkedSignature(member(object, "s", itsName)),
  };
}

function listedCaveats(list) {
  if (!Array.isArray(list)) malformed("json-no-list");
  return list.map((value, index) => caveatOfJson(value, index + 1));
}

function caveatOfJson(value, number) {
  if (!(value instanceof Map)) malformed("json-no-object", { subject: caveatNumber(number) });
  refuseOtherNames(value, CAVEAT_NAMES, caveatNumber(number));
  const named = (name) => caveatName(number, name);
  const identifier = member(value, "i", named);
  const location = optionalMember(value, "l", named);
  const verifierId = optionalMember(value, "v", named);
  return { identifier, thirdParty: location !== null || verifierId !== null };
}

function refuseOtherNames(object, names, subject) {
  for (const name of object.keys()) {
    if (!names.includes(name)) malformed("json-other-name", { subject, name: quoted(shown(bytesOf(name))) });
  }
}

function member(object, name, named) {
  return optionalMember(object, name, named) ?? malformed("json-missing", { subject: named(name) });
}

// Returns the bytes of the text under the plain name, or of the base64 under the name that ends with `64`. Returns null if the object has neither
// name.
function optionalMember(object, name, named) {
  const name64 = `${name}64`;
  if (object.has(name) && object.has(name64)) malformed("json-both", { subject: named(name), other: name64 });
  if (object.has(name)) return bytesOf(checkedText(object.get(name), named(name)));
  if (object.has(name64)) return bytesOfBase64(checkedText(object.get(name64), named(name64)), named(name64));
  return null;
}

function checkedText(value, subject) {
  return typeof value === "string" ? value : malformed("json-not-text", { subject });
}

// Writes the object's names in the order of their bytes. JSON.stringify writes strings in the same way as the desk.
export function writeJson(pass) {
  return JSON.stringify(Object.fromEntries([
    ["c", pass.caveats.map((caveat) => Object.fromEntries([namedBytes("i", caveat)]))],
    namedBytes("i", pass.identifier),
    ...(pass.location.length > 0 ? [namedBytes("l", pass.location)] : []),
    ["s64", base64Of(pass.signature)],
    ["v", 2],
  ]));
}

function namedBytes(name, bytes) {
  const text = textOf(bytes);
  return text === null ? [`${name}64`, base64Of(bytes)] : [name, text];
}

// Plays rows of table.txt with the module for Node.js. Reads lines `PLACE|VALUE`, prints answers.
"use strict";

const { Pass, PassError, isCaveat } = require(process.env.CLUBPASS_JS);

const ROOT = Buffer.from("root");
const NAME = Buffer.from("key:a-1");
const CAVEAT = Buffer.from("kind = court");
const LONGEST_SECONDS = 1;
const PASS = Pass.mint(ROOT, NAME);

const lengthy = { length: 50_000_000 };
const stating = (plain, properties) => Object.defineProperties(Buffer.from(plain), properties);
const shared = (plain) => {
  const made = Buffer.from(new SharedArrayBuffer(plain.length));
  plain.copy(made);
  return made;
};
const VALUES = {
  "nothing": () => null,
  "true": () => true,
  "a number": () => 5,
  "a fraction": () => 18.5,
  "a number below 0": () => -1,
  "a number above all": () => 2 ** 70,
  "a list of numbers": (plain) => [...plain],
  "an object that states a length of 50,000,000": () => lengthy,
  "bytes that state a greater length": (plain) =>
    stating(plain, { length: { value: 100_000 }, byteLength: { value: 100_000 } }),
  "bytes that state a smaller length": (plain) =>
    stating(plain, { length: { value: 1 }, byteLength: { value: 1 } }),
  "bytes that state another value": (plain) =>
    stating(plain, { valueOf: { value: () => "other" }, buffer: { value: new ArrayBuffer(8) } }),
  "a text that states another value": (plain) =>
    Object.assign(new String(plain.toString()), { valueOf: () => "other" }),
  "a string": (plain) => plain.toString(),
  "an empty string": () => "",
  "a mutable array of bytes": (plain) => new Uint8Array(plain),
  "a class of mutable arrays of bytes": (plain) => new (class extends Uint8Array {})(plain),
  "a view of bytes": (plain) => new DataView(new Uint8Array(plain).buffer),
  "an array of wider numbers": (plain) => new Uint16Array(plain),
  "memory that threads share": shared,
  "an object of the class of bytes, without bytes": (plain) =>
    Object.create(Buffer.prototype, { length: { value: plain.length } }),
  "50,000,000 letters": () => "a".repeat(50_000_000),
  "a text with half a character": (plain) => `${plain}\ud800`,
  "the first moment of the language": () => new Date(-8.64e15).toISOString(),
};

const ask = (changed) => PASS.narrow("facility = court-1").firstFault({
  action: "view", moment: "2026-05-01T00:00", facility: "court-1", day: "2026-05-01", hour: 18,
  ...changed,
});
// The bytes of each place's plain value, the call that gets a value in this place, and the plain
// value if it isn't these bytes.
const PLACES = {
  text: [Buffer.from(`${PASS}`), (value) => Pass.parse(value)],
  root: [ROOT, (value) => Pass.mint(value, NAME)],
  signer: [ROOT, (value) => PASS.verify(value)],
  caveat: [CAVEAT, (value) => PASS.narrow(value)],
  identifier: [NAME, (value) => Pass.mint(ROOT, value)],
  location: [Buffer.from("here"), (value) => Pass.mint(ROOT, NAME, value).location],
  line: [CAVEAT, isCaveat],
  facility: [Buffer.from("court-1"), (facility) => ask({ facility })],
  hour: [Buffer.from("18"), (hour) => ask({ hour }), 18],
  moment: [Buffer.from("2026"), (moment) => ask({ moment }), "2026-05-01T00:00"],
  ask: [
    Buffer.from("ask"), (value) => PASS.firstFault(value),
    { action: "view", moment: "2026-05-01T00:00" },
  ],
};

const shown = (found) => (found instanceof Pass ? `${found}` : JSON.stringify(found));
const told = (place, name) => {
  const [plain, call, usual = plain] = PLACES[place];
  const value = VALUES[name](plain), wanted = shown(call(usual));
  const begun = process.cpuUsage();
  let answer;
  try {
    const found = call(value);
    answer = found === false ? "no" : shown(found) === wanted ? "ok" : "differs";
  } catch (error) {
    if (error instanceof PassError) answer = `${error.fault}`;
    else if (error instanceof TypeError) answer = "type";
    else throw error;
  }
  const { user, system } = process.cpuUsage(begun);
  const seconds = (user + system) / 1e6;
  return seconds < LONGEST_SECONDS ? answer : `${answer} after ${seconds.toFixed(1)} s`;
};

const lines = require("fs").readFileSync(0, "utf8").split("\n").slice(0, -1);
for (const line of lines) console.log(told(...line.split("|")));

// Compares how the page reads passes and caveats with docs/vectors.json.
import assert from "node:assert/strict";
import { test } from "node:test";
import { bytesOf } from "../src/bytes.mjs";
import { ACTIONS, allows, firstDenial, readCaveat } from "../src/caveats.mjs";
import { keyName, narrowed, pastedText, readPass, writePass } from "../src/pass.mjs";
import { Fault, MALFORMED, THIRD_PARTY, TOO_LONG, TOO_MANY } from "../src/pass_faults.mjs";
import { faultText, sentenceOf } from "../src/pass_words.mjs";
import { speak, TABLES, VECTORS } from "./kit.mjs";

const NUMBERS = { [TOO_LONG]: 1, [MALFORMED]: 2, [THIRD_PARTY]: 3, [TOO_MANY]: 4 };

function bytesIn(value) {
  return typeof value === "string" ? bytesOf(value) : Uint8Array.from(Buffer.from(value.hex, "hex"));
}

function hex(bytes) {
  return Buffer.from(bytes).toString("hex");
}

for (const vector of VECTORS.passes) {
  for (const form of ["v1", "v2", "json"]) {
    test(`${vector.what}, in ${form}`, async () => {
      const pass = readPass(vector[form]);
      assert.equal(pass.form, form);
      assert.equal(hex(pass.signature), vector.signature);
      assert.equal(hex(pass.identifier), vector.identifier_hex ?? hex(bytesOf(vector.identifier)));
      assert.equal(hex(pass.location), hex(bytesOf(vector.location)));
      assert.deepEqual(pass.caveats.map(hex), vector.caveats.map((caveat) => hex(bytesIn(caveat))));
      assert.equal(writePass(pass), vector[form]);
    });
  }
}

test("narrowing signs each caveat under the signature before it", async () => {
  const [wide, narrow] = [VECTORS.passes[3], VECTORS.passes[4]];
  for (const form of ["v1", "v2", "json"]) assert.equal(writePass(await narrowed(readPass(wide[form]), narrow.caveats)), narrow[form]);
});

for (const { what, text, form } of VECTORS["also read as the third pass"]) {
  test(`also a pass: ${what}`, () => {
    const pass = readPass(text);
    assert.equal(pass.form, form);
    assert.equal(hex(pass.signature), VECTORS.passes[2].signature);
  });
}

for (const { what, text, fault } of VECTORS["not passes"]) {
  test(`not a pass: ${what}`, () => {
    if (text !== text.trim()) return; // The page ignores spaces from copying.
    assert.throws(() => readPass(text), (thrown) => {
      assert.ok(thrown instanceof Fault);
      assert.equal(NUMBERS[thrown.kind], Number(fault[6]));
      for (const language of Object.keys(TABLES)) {
        speak(language);
        assert.doesNotMatch(faultText(thrown), /undefined|\{|\}\}/);
      }
      return true;
    });
  });
}

test("a pasted pass", () => {
  assert.equal(pastedText("AgE\n"), "AgE");
  assert.equal(pastedText("https://desk.example.org/book.html#AgE"), "AgE");
  assert.equal(pastedText('https://desk.example.org/book.html#%7B%22a%22%7D'), '{"a"}');
  assert.equal(keyName(readPass(VECTORS.passes[3].v2)), "amy-1");
  assert.equal(keyName(readPass(VECTORS.passes[2].v2)), null);
});

// The requests of the vectors, with the values that a caveat tests.
const KINDS = { "court-1": "court", "room-1": "room" };
const PRICES = { "court-1": 200, "room-1": 601 };
const ASKS = Object.fromEntries(Object.entries(VECTORS.asks).map(([name, { at, method, path, guests }]) => {
  const slot = /^\/slots\/([^/]+)\/([^/]+)\/([0-9]+)/.exec(path);
  const action = slot === null ? "account" : { GET: "view", PUT: "book", DELETE: "cancel" }[method];
  const place = slot && { facility: slot[1], kind: KINDS[slot[1]] ?? null, day: slot[2], hour: Number(slot[3]) };
  return [name, { action, moment: at, slot: place ?? undefined, guests, owed: action === "book" ? PRICES[slot[1]] * (guests + 1) : 0, spent: 0 }];
}));

for (const { caveat, ...verdicts } of VECTORS.caveats) {
  test(`caveat ${caveat}`, () => {
    for (const [name, verdict] of Object.entries(verdicts)) {
      if (typeof verdict !== "string") continue;
      assert.equal(allows(readCaveat(bytesOf(caveat)), ASKS[name]), verdict === "allows", name);
    }
  });
}

for (const text of VECTORS["not understood"]) {
  test(`not a caveat: ${JSON.stringify(text).slice(0, 60)}`, () => {
    assert.equal(readCaveat(bytesOf(text)), null);
    assert.equal(firstDenial({ caveats: [bytesOf("guests <= 1"), bytesOf(text)] }, { action: "view", moment: "2026-05-01T10:00" }), 2);
  });
}

test("every caveat has a sentence in each language", () => {
  const lines = ["facility = a", "facility = a,b,c", "kind = court", "kind = boat", "kind = room", "hours = 08-10", "days = 2026-05-01..2026-05-01",
    "days = 2026-05-01..2026-05-02", "weekday = mon,tue,wed,thu,fri,sat,sun", "until < 2026-05-01T18:00", "guests <= 0", "guests <= 1", "guests <= 2",
    "spend <= 0", "spend <= 1", "spend <= 1000", `actions = ${ACTIONS.join()}`];
  for (const language of Object.keys(TABLES)) {
    speak(language);
    for (const line of lines) assert.match(sentenceOf(bytesOf(line)), /^[A-Z].*\.$/, line);
  }
  speak("en");
  assert.equal(sentenceOf(bytesOf("spend <= 1000")), "At most 1,000 points in all. Every booking ever made with this pass, or with a pass narrowed from it, counts towards this limit.");
  speak("de");
  assert.equal(sentenceOf(bytesOf("days = 2026-05-01..2026-05-01")), "Nur am Freitag, 1. Mai 2026.");
});

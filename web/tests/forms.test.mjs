// Tests of base64.mjs, forms.mjs and json_form.mjs: each form of a pass is read and written, and
// each text that isn't a pass has the fault of its place.
import assert from "node:assert/strict";
import { test } from "node:test";
import { base64Of, bytesOfBase64 } from "../src/base64.mjs";
import { bytesOf, characters } from "../src/bytes.mjs";
import { checkedSignature, readV1, readV2, writeV1, writeV2 } from "../src/forms.mjs";
import { readJson, writeJson } from "../src/json_form.mjs";
import { Fault, IT } from "../src/pass_faults.mjs";

const SIGNATURE = new Uint8Array(32).fill(9);
const PASS = {
  location: bytesOf("club"), identifier: bytesOf("key:amy-1"), signature: SIGNATURE,
  caveats: [bytesOf("kind = court"), Uint8Array.of(255, 0)],
};
const READ = {
  location: PASS.location, identifier: PASS.identifier,
  caveats: PASS.caveats.map((identifier) => ({ identifier, thirdParty: false })),
  signature: SIGNATURE,
};
const faultOf = (call) => {
  try {
    call();
  } catch (fault) {
    assert.ok(fault instanceof Fault, String(fault));
    return fault.key;
  }
  return "none";
};
// Buffers and Uint8Arrays compare as different values, so the tests compare their bytes.
const bytesAsNumbers = (_, value) => (ArrayBuffer.isView(value) ? [...value] : value);
const plain = (pass) => JSON.stringify(pass, bytesAsNumbers);

test("base64 is read in both alphabets, and written in the one for addresses", () => {
  const bytes = Uint8Array.of(251, 255, 254, 1);
  assert.equal(base64Of(bytes), "-__-AQ");
  for (const text of ["-__-AQ", "+//+AQ", "+//+AQ=="]) {
    assert.deepEqual([...bytesOfBase64(text, IT)], [...bytes]);
  }
});

test("base64 with a stray character, a mixture or a wrong end is refused", () => {
  const rows = [
    ["AA A", "base64-stray"], ["A\u00e4==", "base64-stray"], ["AA=A", "base64-stray"],
    ["-+AA", "base64-mixed"], ["AAAAA", "base64-no-bytes"], ["AA=", "base64-padding"],
    ["AAAA=", "base64-padding"], ["AB", "base64-end"],
  ];
  for (const [text, key] of rows) assert.equal(faultOf(() => bytesOfBase64(text, IT)), key, text);
});

test("V1 and V2 read what they write", () => {
  for (const [write, read] of [[writeV1, readV1], [writeV2, readV2]]) {
    assert.equal(plain(read(bytesOfBase64(write(PASS), IT))), plain(READ));
  }
});

test("a pass without a location and with a caveat of 300 bytes keeps its bytes", () => {
  const pass = { ...PASS, location: new Uint8Array(), caveats: [new Uint8Array(300).fill(65)] };
  const [caveat] = pass.caveats;
  for (const [write, read] of [[writeV1, readV1], [writeV2, readV2]]) {
    const found = read(bytesOfBase64(write(pass), IT));
    assert.equal(found.location.length, 0);
    assert.equal(characters(found.caveats[0].identifier), characters(caveat));
  }
});

const v1 = (...packets) => bytesOf(packets.map((each) =>
  `${(each.length + 5).toString(16).padStart(4, "0")}${each}\n`).join(""));

test("V1 names the part that is wrong", () => {
  const whole = characters(bytesOfBase64(writeV1(PASS), IT));
  const rows = [
    [bytesOf(whole.slice(0, 3)), "breaks-off"], [bytesOf(`zzzz${whole.slice(4)}`), "other-length"],
    [bytesOf("0003"), "short-length"], [bytesOf("000alocation"), "wrong-length"],
    [v1("place x"), "other-key"], [v1("location x", "name y"), "other-key"],
    [v1("location x", "identifier y", "signature z"), "signature-length"],
    [v1("location x", "identifier y", "other z"), "other-key"],
  ];
  for (const [bytes, key] of rows) assert.equal(faultOf(() => readV1(bytes)), key);
});

test("V2 names the part that is wrong", () => {
  const rows = [
    [[2, 1, 5, 65], "breaks-off"], [[2, 2, 1, 65, 1], "no-end"], [[2, 3, 1, 65], "something-else"],
    [[2, 2, 0x81, 0], "long-length"], [[2, 2, 0xff, 0xff, 0xff], "large-length"],
    [[2, 2, 0xff], "breaks-off-length"], [[2, 2, 1, 65, 0, 0, 6, 1, 9], "signature-length"],
    [[2, 2, 1, 65, 0, 0, 6, 32, ...SIGNATURE, 1], "goes-on"],
  ];
  for (const [bytes, key] of rows) assert.equal(faultOf(() => readV2(Uint8Array.from(bytes))), key);
});

test("a third party's caveat is known in each form", () => {
  const rest = [0, 0, 6, 32, ...SIGNATURE];
  const inV2 = readV2(Uint8Array.from([2, 2, 1, 65, 0, 2, 1, 66, 4, 1, 67, ...rest]));
  const inJson = readJson(bytesOf(JSON.stringify({
    v: 2, i: "a", c: [{ i: "b", v: "c" }, { i: "d" }], s64: base64Of(SIGNATURE),
  })));
  assert.deepEqual(inV2.caveats.map((each) => each.thirdParty), [true]);
  assert.deepEqual(inJson.caveats.map((each) => each.thirdParty), [true, false]);
});

test("a signature has 32 bytes", () => {
  assert.equal(checkedSignature(SIGNATURE), SIGNATURE);
  assert.equal(faultOf(() => checkedSignature(new Uint8Array(31))), "signature-length");
});

// ---- JSON

test("JSON is read as it is written, with base64 where the bytes aren't a text", () => {
  const written = writeJson(PASS);
  const caveats = '"c":[{"i":"kind = court"},{"i64":"_wA"}]';
  const end = `"s64":"${base64Of(SIGNATURE)}","v":2}`;
  assert.equal(written, `{${caveats},"i":"key:amy-1","l":"club",${end}`);
  assert.equal(plain(readJson(bytesOf(written))), plain(READ));
});

test("the last value of a name counts, and spaces don't", () => {
  const text = `{ "v" : 2, "i": null, "i":"a",\n"c":[ ],"s64":"${base64Of(SIGNATURE)}"}\t`;
  assert.equal(characters(readJson(bytesOf(text)).identifier), "a");
});

test("JSON that the desk refuses is refused at its place", () => {
  const sign = `"s64":"${base64Of(SIGNATURE)}"`;
  const deep = `{"v":2,"i":${"[".repeat(128)}`;
  const rows = [
    [`{"v":2,"i":"a",${sign}`, "json-breaks-off"],
    [`{"v":2.0,"i":"a",${sign}}`, "json-version"],
    [`{"v":1,"i":"a",${sign}}`, "json-version"],
    [`{"v":2,${sign}}`, "json-missing"],
    [`{"v":2,"i":"a","i64":"YQ",${sign}}`, "json-both"],
    [`{"v":2,"i":1,${sign}}`, "json-not-text"],
    [`{"v":2,"i":"a","x":1,${sign}}`, "json-other-name"],
    [`{"v":2,"i":"a","c":1,${sign}}`, "json-no-list"],
    [`{"v":2,"i":"a","c":[1],${sign}}`, "json-no-object"],
    [`{"v":2,"i":"\\ud800",${sign}}`, "json-refused"],
    [`{"v":1e999,"i":"a",${sign}}`, "json-refused"],
    [deep, "json-refused"],
    [`{"v":2,"i":"a",${sign}} x`, "json-refused"],
    ["{v:2}", "json-refused"],
    [`{"v":2,"i":"a" ${sign}}`, "json-refused"],
    [`{"v" 2}`, "json-refused"],
    ["tru", "json-refused"],
  ];
  for (const [text, key] of rows) assert.equal(faultOf(() => readJson(bytesOf(text))), key, text);
  assert.equal(faultOf(() => readJson(Uint8Array.of(123, 255))), "json-no-text");
});

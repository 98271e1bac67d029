// The two binary forms of a pass. V1 consists of packets: a length, a key, a space, the data and a line feed. V2 consists of fields with a type, a
// length and the data. Each section of V2 ends with a zero byte.
import { base64Of } from "./base64.mjs";
import { bytesOf, characters, joined, quoted, shown } from "./bytes.mjs";
import { malformed, part } from "./pass_faults.mjs";

const SIGNATURE_LENGTH = 32; // bytes

// Reads bytes from the front of an array.
class Reader {
  constructor(bytes) {
    this.bytes = bytes;
    this.place = 0;
  }

  // Returns the next byte without moving past it, or undefined at the end.
  peek() {
    return this.bytes[this.place];
  }

  // Returns the next `count` bytes. If the bytes end too early, throws a fault about `what`, the missing part of the pass.
  take(count, what, fault = "breaks-off") {
    if (count > this.bytes.length - this.place) malformed(fault, { part: what });
    this.place += count;
    return this.bytes.subarray(this.place - count, this.place);
  }

  end() {
    if (this.place < this.bytes.length) malformed("goes-on");
  }
}

export function checkedSignature(bytes) {
  if (bytes.length !== SIGNATURE_LENGTH) malformed("signature-length", { count: bytes.length, wanted: SIGNATURE_LENGTH });
  return bytes;
}

// ---- V1

export function readV1(bytes) {
  const reader = new Reader(bytes);
  const location = expectedPacket(reader, "location");
  const identifier = expectedPacket(reader, "identifier");
  const caveats = [];
  let packet = nextPacket(reader, part("caveat-or-signature"));
  while (packet.key === "cid") {
    const caveat = { identifier: packet.data, thirdParty: false };
    packet = nextPacket(reader, part("behind-caveat"));
    for (const key of ["vid", "cl"]) {
      if (packet.key !== key) continue;
      caveat.thirdParty = true;
      packet = nextPacket(reader, part("behind-caveat"));
    }
    caveats.push(caveat);
  }
  if (packet.key !== "signature") malformed("other-key", { found: quoted(packet.key), part: part("caveat-or-signature") });
  const signature = checkedSignature(packet.data);
  reader.end();
  return { location, identifier, caveats, signature };
}

function expectedPacket(reader, key) {
  const packet = nextPacket(reader, part(key));
  if (packet.key !== key) malformed("other-key", { found: quoted(packet.key), part: part(key) });
  return packet.data;
}

// The length alone decides where the data ends, so the data may contain any bytes.
function nextPacket(reader, what) {
  const digits = reader.take(4, what);
  if (!/^[0-9a-f]{4}$/.test(characters(digits))) malformed("other-length", { found: quoted(shown(digits)), part: what });
  const length = parseInt(characters(digits), 16);
  if (length < 4) malformed("short-length", { part: what, count: length });
  const rest = reader.take(length - 4, what);
  const space = rest.indexOf(0x20);
  if (space < 0 || rest.at(-1) !== 0x0a) malformed("wrong-length", { part: what });
  return { key: shown(rest.subarray(0, space)), data: rest.subarray(space + 1, -1) };
}

function packetBytes(key, data) {
  const length = 4 + key.length + 1 + data.length + 1;
  return joined([bytesOf(`${length.toString(16).padStart(4, "0")}${key} `), data, [0x0a]]);
}

export function writeV1(pass) {
  return base64Of(joined([
    packetBytes("location", pass.location),
    packetBytes("identifier", pass.identifier),
    ...pass.caveats.map((caveat) => packetBytes("cid", caveat)),
    packetBytes("signature", pass.signature),
  ]));
}

// ---- V2

const VERSION_2 = 2;
const LOCATION = 1;
const IDENTIFIER = 2;
const VERIFIER_ID = 4;
const SIGNATURE = 6;
const END_OF_SECTION = 0;

export function readV2(bytes) {
  const reader = new Reader(bytes);
  // The first byte only identifies the form.
  reader.take(1, part("first-byte"));
  const location = optionalField(reader, LOCATION, part("location")) ?? new Uint8Array();
  const identifier = field(reader, IDENTIFIER, part("identifier"));
  endSection(reader, part("identifier"));
  const caveats = [];
  while (reader.peek() !== END_OF_SECTION) caveats.push(caveatSection(reader));
  endSection(reader, part("caveats"));
  const signature = checkedSignature(field(reader, SIGNATURE, part("signature")));
  reader.end();
  return { location, identifier, caveats, signature };
}

function caveatSection(reader) {
  const location = optionalField(reader, LOCATION, part("caveat-location"));
  const identifier = field(reader, IDENTIFIER, part("caveat-or-signature"));
  const verifierId = optionalField(reader, VERIFIER_ID, part("caveat-verifier"));
  endSection(reader, part("caveat"));
  return { identifier, thirdParty: location !== null || verifierId !== null };
}

function field(reader, type, what) {
  const data = optionalField(reader, type, what);
  if (data !== null) return data;
  if (reader.peek() === undefined) malformed("breaks-off", { part: what });
  return malformed("something-else", { part: what });
}

// Returns the data of the next field, or null if the field has another type.
function optionalField(reader, type, what) {
  if (reader.peek() !== type) return null;
  reader.take(1, what);
  return reader.take(fieldLength(reader, what), what);
}

function endSection(reader, what) {
  const [byte] = reader.take(1, what);
  if (byte !== END_OF_SECTION) malformed("no-end", { part: what });
}

// Reads a number with seven bits in each byte, the lowest bits first. The top bit is set in all bytes except the last. Accepts only the shortest
// encoding of a number.
function fieldLength(reader, what) {
  let length = 0;
  for (let shift = 0; shift <= 14; shift += 7) {
    const [byte] = reader.take(1, what, "breaks-off-length");
    if (byte === 0 && shift > 0) malformed("long-length", { part: what });
    length += (byte & 0x7f) << shift;
    if (byte < 0x80) return length;
  }
  return malformed("large-length", { part: what });
}

function lengthBytes(length) {
  return length < 0x80 ? [length] : [length & 0x7f | 0x80, ...lengthBytes(length >> 7)];
}

function fieldBytes(type, data) {
  return joined([[type], lengthBytes(data.length), data]);
}

export function writeV2(pass) {
  return base64Of(joined([
    [VERSION_2],
    pass.location.length > 0 ? fieldBytes(LOCATION, pass.location) : [],
    fieldBytes(IDENTIFIER, pass.identifier), [END_OF_SECTION],
    ...pass.caveats.flatMap((caveat) => [fieldBytes(IDENTIFIER, caveat), [END_OF_SECTION]]),
    [END_OF_SECTION],
    fieldBytes(SIGNATURE, pass.signature),
  ]));
}

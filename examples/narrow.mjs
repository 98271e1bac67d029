// Narrows passes in V2 with Web Crypto: node narrow.mjs CAVEAT.. < passes
//
// Reads one pass per line, and prints each pass with the new caveats after the old caveats. The
// program needs no secret: the signature of a pass is the key that signs the next caveat. A browser
// can run the functions unchanged if the imports are removed.
import { readFileSync } from "node:fs";
import { webcrypto } from "node:crypto";

const { subtle } = globalThis.crypto ?? webcrypto;

// The bytes before the signature of a V2 pass: the end of the caveats, then the type and length of
// the signature's field.
const END = [0x00, 0x06, 0x20];

const unbase64 = (text) =>
  Uint8Array.from(atob(text.replaceAll("-", "+").replaceAll("_", "/")), (c) => c.charCodeAt(0));
const base64 = (bytes) =>
  btoa(String.fromCharCode(...bytes))
    .replaceAll("+", "-").replaceAll("/", "_").replaceAll("=", "");

// Encodes a number with seven bits per byte, lowest bits first. Each byte except the last byte has
// its top bit set.
const varint = (number) =>
  number < 128 ? [number] : [(number % 128) + 128, ...varint(Math.floor(number / 128))];

async function hmac(key, data) {
  const algorithm = { name: "HMAC", hash: "SHA-256" };
  const signer = await subtle.importKey("raw", key, algorithm, false, ["sign"]);
  return new Uint8Array(await subtle.sign("HMAC", signer, data));
}

// Returns the pass with the new caveats. The key that signs a caveat is the signature that the pass
// had before the caveat was added.
export async function narrow(text, caveats) {
  const raw = unbase64(text);
  if (raw[0] !== 0x02 || String(raw.subarray(-35, -32)) !== String(END)) {
    throw new Error("not a pass in V2");
  }
  const body = [...raw.subarray(0, -35)];
  let signature = raw.subarray(-32);
  for (const caveat of caveats) {
    const data = new TextEncoder().encode(caveat);
    body.push(0x02, ...varint(data.length), ...data, 0x00);
    signature = await hmac(signature, data);
  }
  return base64([...body, ...END, ...signature]);
}

for (const line of readFileSync(0, "utf8").split("\n").filter(Boolean)) {
  console.log(await narrow(line, process.argv.slice(2)));
}

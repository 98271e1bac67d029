// A pass has a location, an identifier, caveats and a signature, which are all bytes. A pass also has the form of its text: v1, v2 or json. A caveat
// is a line that narrows the pass. The pass's signature is the key that signs the next caveat. So any holder of a pass can add a caveat without
// another secret. Removing one requires forging an HMAC.
import { bytesOfBase64 } from "./base64.mjs";
import { bytesOf, characters } from "./bytes.mjs";
import { NAME } from "./caveats.mjs";
import { readV1, readV2, writeV1, writeV2 } from "./forms.mjs";
import { readJson, writeJson } from "./json_form.mjs";
import { Fault, IT, LONGEST_TEXT, malformed, MOST_CAVEATS, THIRD_PARTY, TOO_LONG, TOO_MANY } from "./pass_faults.mjs";

const READERS = { v1: readV1, v2: readV2, json: readJson };
const WRITERS = { v1: writeV1, v2: writeV2, json: writeJson };
export const FORM_NAMES = { v1: "V1", v2: "V2", json: "JSON" };

export function readPass(text) {
  refuseLongText(text, "too-long-has");
  const { form, bytes } = unwrapped(text);
  const { location, identifier, caveats, signature } = READERS[form](bytes);
  const foreign = caveats.findIndex((caveat) => caveat.thirdParty);
  if (foreign >= 0) throw new Fault(THIRD_PARTY, "third-party-caveat", { number: foreign + 1 });
  refuseManyCaveats(caveats.length, "too-many-has");
  return { form, location, identifier, caveats: caveats.map((caveat) => caveat.identifier), signature };
}

// Determines a text's form from its first byte. Drops the spaces around the text, because copying may add spaces.
function unwrapped(spaced) {
  const text = spaced.replace(/^[ \t\r\n]+|[ \t\r\n]+$/g, "");
  if (text.startsWith("{")) return { form: "json", bytes: bytesOf(text) };
  const bytes = bytesOfBase64(text, IT);
  const first = characters(bytes.subarray(0, 1));
  if (first === "\x02") return { form: "v2", bytes };
  if (first === "{") return { form: "json", bytes };
  if (/^[0-9a-f]$/.test(first)) return { form: "v1", bytes };
  return malformed("no-form");
}

export function writePass(pass) {
  const text = WRITERS[pass.form](pass);
  refuseLongText(text, "too-long-would");
  return text;
}

function refuseLongText(text, key) {
  const count = bytesOf(text).length;
  if (count > LONGEST_TEXT) throw new Fault(TOO_LONG, key, { count, most: LONGEST_TEXT });
}

function refuseManyCaveats(count, key) {
  if (count > MOST_CAVEATS) throw new Fault(TOO_MANY, key, { count, most: MOST_CAVEATS });
}

// Returns the text of a pass for a request's Authorization field. A pass in JSON may have line breaks and letters outside ASCII. So the page sends
// such a pass in V2 if possible, otherwise as JSON in ASCII on one line.
export function sentText(pass, text) {
  if (pass.form !== "json" || !text.trim().startsWith("{")) return text.trim();
  try {
    return writePass({ ...pass, form: "v2" });
  } catch {
    return JSON.stringify(JSON.parse(text)).replace(/[\u007f-\uffff]/g, (unit) => `\\u${unit.charCodeAt(0).toString(16).padStart(4, "0")}`);
  }
}

// Returns the name of a pass's key, or null if the identifier doesn't name a key.
export function keyName(pass) {
  const found = new RegExp(`^key:(${NAME})$`).exec(characters(pass.identifier));
  return found === null ? null : found[1];
}

// Returns the text of the pass in a pasted text. The pasted text may end with a line feed, or be an address with the pass after #.
export function pastedText(pasted) {
  const text = pasted.replace(/\n$/, "");
  return /^\s*(?:https?|file):\/\/[^#]*#/.test(text) ? textOfFragment(text.slice(text.indexOf("#"))) : text;
}

// After #, the address of a loan may have the form `PASS;spent=N`. N is the number of points that the key had spent before the loan. The page uses
// N only for what it shows and offers. The desk decides without N.
export function withSpent(text, spent) {
  return spent > 0 ? `${text};spent=${spent}` : text;
}

export function splitGiven(given) {
  const found = /^(.*);spent=([0-9]{1,9})\s*$/s.exec(given);
  return found === null ? { text: given, spent: 0 } : { text: found[1], spent: Number(found[2]) };
}

// Decodes the part of an address after #, because an address contains a pass in JSON only in escaped form.
export function textOfFragment(fragment) {
  try {
    return decodeURIComponent(fragment.slice(1));
  } catch {
    return fragment.slice(1);
  }
}

// ---- Narrowing

export function canSign() {
  return globalThis.crypto?.subtle !== undefined;
}

// The new signature is the HMAC of the caveat, with the old signature as the key.
async function extended(signature, caveat) {
  const key = await crypto.subtle.importKey("raw", signature, { name: "HMAC", hash: "SHA-256" }, false, ["sign"]);
  return new Uint8Array(await crypto.subtle.sign("HMAC", key, caveat));
}

// Returns the pass with these lines added in their order.
export async function narrowed(pass, lines) {
  refuseManyCaveats(pass.caveats.length + lines.length, "too-many-would");
  const added = lines.map(bytesOf);
  let signature = pass.signature;
  for (const caveat of added) signature = await extended(signature, caveat);
  return { ...pass, caveats: [...pass.caveats, ...added], signature };
}

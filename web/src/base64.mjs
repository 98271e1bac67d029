// Reads and writes base64. The reader accepts both alphabets of base64, but refuses a text that mixes them. The writer makes URL-safe text without
// padding.
import { characters, quoted } from "./bytes.mjs";
import { malformed } from "./pass_faults.mjs";

export function base64Of(bytes) {
  return btoa(characters(bytes)).replaceAll("+", "-").replaceAll("/", "_").replaceAll("=", "");
}

// A fault's message refers to the text as `subject`.
export function bytesOfBase64(text, subject) {
  refuseStrayCharacters(text, subject);
  const letters = text.replace(/=+$/, "");
  const padding = text.length - letters.length;
  const over = letters.length % 4;
  if (over === 1) malformed("base64-no-bytes", { subject, count: letters.length });
  if (padding > 0 && padding !== (4 - over) % 4) malformed("base64-padding", { subject, count: padding });
  const urlSafe = letters.replaceAll("+", "-").replaceAll("/", "_");
  const bytes = Uint8Array.from(atob(urlSafe.replaceAll("-", "+").replaceAll("_", "/")), (character) => character.charCodeAt(0));
  if (base64Of(bytes) !== urlSafe) malformed("base64-end", { subject });
  return bytes;
}

function refuseStrayCharacters(text, subject) {
  const place = text.search(/[^A-Za-z0-9+/_=-]|=(?!=*$)/);
  if (place >= 0) {
    const stray = /\s/.test(text[place]) ? { key: "stray-space" } : quoted(String.fromCodePoint(text.codePointAt(place)));
    malformed("base64-stray", { subject, stray, place: place + 1 });
  }
  if (/[-_]/.test(text) && /[+/]/.test(text)) malformed("base64-mixed", { subject });
}

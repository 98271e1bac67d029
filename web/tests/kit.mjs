// Data for several tests: the texts of docs/vectors.json, and the tables of words.
import { readFileSync } from "node:fs";
import { useWords } from "../src/words.mjs";

export const VECTORS = JSON.parse(readFileSync(new URL("../../docs/vectors.json", import.meta.url)));

export const TABLES = Object.fromEntries(["en", "de"].map((language) =>
  [language, JSON.parse(readFileSync(new URL(`../src/words/${language}.json`, import.meta.url)))]));

export function speak(language) {
  useWords(TABLES, language);
}

// Returns the bytes of a vector's value. The value is in hexadecimal if its name ends with "hex",
// otherwise a text.
export function bytesIn(vector, name) {
  return vector[`${name} hex`] !== undefined ? Uint8Array.from(Buffer.from(vector[`${name} hex`], "hex")) : new TextEncoder().encode(vector[name]);
}

// Bytes and texts.

export function bytesOf(text) {
  return new TextEncoder().encode(text);
}

// Decodes bytes as UTF-8. Returns null if the bytes aren't valid UTF-8.
export function textOf(bytes) {
  try {
    return new TextDecoder("utf-8", { fatal: true, ignoreBOM: true }).decode(bytes);
  } catch {
    return null;
  }
}

// Returns a text with one character for each byte, so that patterns can match arbitrary bytes.
export function characters(bytes) {
  return Array.from(bytes, (byte) => String.fromCharCode(byte)).join("");
}

export function joined(pieces) {
  return Uint8Array.from(pieces.flatMap((piece) => [...piece]));
}

// Formats bytes on one line, as `passtool show` does.
export function shown(bytes) {
  return characters(bytes).replace(/[^ -~]|\\/g, (character) =>
    character === "\\" ? "\\\\" : "\\x" + character.charCodeAt(0).toString(16).padStart(2, "0"));
}

export function quoted(text) {
  return "\u201c" + (text.length > 40 ? text.slice(0, 40) + "\u2026" : text) + "\u201d";
}

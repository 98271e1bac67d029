// Draws a QR code, dark on light in both colour schemes, with the margin that QR readers need.
import { qrRows } from "./qr.mjs";

const SPACE = "http://www.w3.org/2000/svg";
const MARGIN = 4; // modules
const DENSE = 90; // modules: a camera must come close to a code of this size

// Returns an SVG element, or null if the text is too long.
export function drawQr(text, label) {
  const rows = qrRows(text);
  if (rows === null) return null;
  const size = rows.length + 2 * MARGIN;
  const picture = document.createElementNS(SPACE, "svg");
  picture.setAttribute("viewBox", `0 0 ${size} ${size}`);
  picture.setAttribute("class", "qr");
  picture.setAttribute("role", "img");
  picture.setAttribute("aria-label", label);
  const dark = document.createElementNS(SPACE, "path");
  dark.setAttribute("d", rows.flatMap((row, y) => row.map((isDark, x) => isDark ? `M${x + MARGIN} ${y + MARGIN}h1v1h-1z` : "")).join(""));
  dark.setAttribute("shape-rendering", "crispEdges");
  picture.append(dark);
  return picture;
}

// Returns the key of the text below the picture of a link. The picture is null if the link is too long.
export function qrWords(picture) {
  if (picture === null) return "lend-qr-none";
  return picture.viewBox.baseVal.width > DENSE ? "lend-qr-dense" : "lend-qr";
}

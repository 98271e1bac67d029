// Loads the club's list, club.json.
import { readClub } from "./club.mjs";
import { noteClock } from "./desk.mjs";
import { isToTry } from "./place.mjs";
import { state } from "./state.mjs";

// Loads club.json. If this fails, the page keeps the old list, and the function returns the key of the text that explains the failure.
// Otherwise, the function returns "".
export async function fetchClub() {
  if (location.protocol === "file:" && !isToTry()) return "club-missing";
  try {
    const response = await fetch("club.json", { cache: "no-cache", credentials: "omit", redirect: "error" });
    noteClock(response);
    if (!response.ok) return "club-missing";
    const club = readClub(await response.json().catch(() => null));
    state.club = club ?? state.club;
    return club === null ? "club-odd" : "";
  } catch {
    return "club-missing";
  }
}

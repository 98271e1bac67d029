// Shows the club on all pages: its logo, its contact, and the links to its imprint and privacy page.
import { byName, element, put } from "./elements.mjs";
import { say } from "./words.mjs";

export function linkTo(address, words) {
  return Object.assign(element("a", "", words), { href: address, rel: "noopener noreferrer", target: "_blank" });
}

// `club` may be null. If `isOnWall` is true, each link also shows its address, because nobody can press a link on a wall screen.
export function showClub(club, isOnWall = false) {
  const { logo = "", contact = "", imprint = "", privacy = "" } = club ?? {};
  byName("club-logo").hidden = logo === "";
  if (logo !== "" && byName("club-logo").getAttribute("src") !== logo) byName("club-logo").src = logo;
  put("club-contact", ...(contact === "" ? [] : [say("contact", { contact })]));
  const links = [["imprint", imprint], ["privacy", privacy]].filter(([, address]) => address !== "")
    .map(([key, address]) => linkTo(address, isOnWall ? `${say(key)}: ${address.replace("https://", "")}` : say(key)));
  put("club-links", ...links.flatMap((link, place) => [...(place > 0 ? [" \u00b7 "] : []), link]));
}

// The club's list is the file club.json, which deploy/club_json makes. The page needs the list because the desk's replies contain neither the club's
// time zone nor the opening hours.
import { isName, KINDS } from "./caveats.mjs";
import { daysLater, hourText, isDate, isZone } from "./dates.mjs";

function isWhole(value, least, most) {
  return Number.isInteger(value) && value >= least && value <= most;
}

function isFacility(each) {
  return typeof each === "object" && each !== null
    && isName(each.name)
    && (each.title === undefined || (typeof each.title === "string" && each.title.length > 0 && each.title.length <= 80))
    && KINDS.includes(each.kind) && isWhole(each.opens, 0, 23) && isWhole(each.shuts, each.opens + 1, 24);
}

function isClosure(each) {
  return typeof each === "object" && each !== null && isName(each.facility) && isDate(each.day)
    && isWhole(each.from, 0, 23) && isWhole(each.until, each.from + 1, 24) && sentenceOr(each.why) !== "";
}

const LONGEST_SENTENCE = 200;
const LONGEST_LOGO = 40000;

function sentenceOr(value, otherwise = "") {
  return typeof value === "string" && value.length <= LONGEST_SENTENCE ? value : otherwise;
}

// Returns the web address if the page can safely link to it, otherwise "".
function addressOr(value) {
  return typeof value === "string" && /^https:\/\/[^\s"'<>\\]{1,300}$/.test(value) ? value : "";
}

function pictureOr(value) {
  return typeof value === "string" && value.length <= LONGEST_LOGO && /^data:image\/(?:png|jpeg|webp|svg\+xml);base64,[A-Za-z0-9+/=]+$/.test(value) ? value : "";
}

// Reads a club from JSON. Returns null unless the value has a time zone and valid facilities, each with a different name. The other parts are the
// club's name, a sentence about each facility, reasons for closed slots, the contact, links to an imprint and a privacy page, and a logo. An invalid
// part counts as missing.
export function readClub(value) {
  if (typeof value !== "object" || value === null || !isZone(value.zone) || !Array.isArray(value.facilities)) return null;
  if (!value.facilities.every(isFacility)) return null;
  if (new Set(value.facilities.map((each) => each.name)).size < value.facilities.length) return null;
  const facilities = value.facilities.map(({ name, title = name, kind, opens, shuts, about }) => ({ name, title, kind, opens, shuts, about: sentenceOr(about) }));
  return {
    name: sentenceOr(value.name), zone: value.zone, facilities, contact: sentenceOr(value.contact), imprint: addressOr(value.imprint),
    privacy: addressOr(value.privacy), logo: pictureOr(value.logo),
    closures: Array.isArray(value.closures) ? value.closures.filter(isClosure) : [],
  };
}

export function facilityOf(club, name) {
  return club?.facilities.find((each) => each.name === name) ?? null;
}

export function titleOf(club, name) {
  return facilityOf(club, name)?.title ?? name;
}

// Returns the office's reason for closing a slot, or "". Only the desk knows whether the slot is still closed.
export function whyClosed(club, { facility, day, hour }) {
  return club?.closures.find((each) => each.facility === facility && each.day === day && each.from <= hour && hour < each.until)?.why ?? "";
}

// Returns the first day on which a facility has a slot that hasn't begun: the day of a moment, or the next day.
export function firstDayOf(facilities, moment) {
  const [today, time] = moment.split("T");
  return facilities.some(({ shuts }) => `${hourText(shuts - 1)}:00` > time) ? today : daysLater(today, 1);
}

// Returns the hours at which a facility's slots begin.
export function hoursOf(facility) {
  return Array.from({ length: facility.shuts - facility.opens }, (_, place) => facility.opens + place);
}

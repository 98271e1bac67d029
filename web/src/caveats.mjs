// The caveats that the desk understands. Each caveat is a line of text. The module reads the values of a line, and decides which requests the
// line allows. Every line that the module accepts is shorter than the desk's limit of 256 bytes.
import { characters } from "./bytes.mjs";
import { isDate, WEEKDAYS, weekdayOf } from "./dates.mjs";

export const NAME = "[a-z0-9][a-z0-9-]{0,23}";
const NAME_ONLY = new RegExp(`^${NAME}$`);
const DATE = "20[0-9]{2}-[0-9]{2}-[0-9]{2}";
export const KINDS = ["court", "boat", "room"];
export const ACTIONS = ["view", "book", "cancel", "account"];
export const MOST_POINTS = 999999999; // in a caveat `spend`

// Each kind of line has a pattern, and a function that returns the line's values. The function returns null if the values are wrong.
const LINES = {
  facility: [`facility = (${NAME}(?:,${NAME}){0,7})`, (names) => ({ facilities: [...new Set(names.split(","))] })],
  kind: [`kind = (${KINDS.join("|")})`, (kind) => ({ kind })],
  hours: ["hours = ([0-9]{2})-([0-9]{2})", (from, to) => from < to && to <= "24" ? { from: Number(from), to: Number(to) } : null],
  days: [`days = (${DATE})\\.\\.(${DATE})`, (first, last) => isDate(first) && isDate(last) && first <= last ? { first, last } : null],
  weekday: ["weekday = ([a-z,]+)", (words) => chosenWords(words, WEEKDAYS)],
  until: [`until < (${DATE})T((?:[01][0-9]|2[0-3]):[0-5][0-9])`, (date, time) => isDate(date) ? { date, time } : null],
  guests: ["guests <= (0|[1-9]|[1-4][0-9])", (most) => ({ most: Number(most) })],
  spend: ["spend <= (0|[1-9][0-9]{0,8})", (most) => ({ most: Number(most) })],
  actions: ["actions = ([a-z,]+)", (words) => chosenWords(words, ACTIONS)],
};
const PATTERNS = Object.entries(LINES).map(([name, [pattern, values]]) => ({ name, pattern: new RegExp(`^${pattern}$`), values }));

// Reads a list of known words with commas between them. Returns null if the list has another word, or if the words aren't in the order of `known`.
function chosenWords(text, known) {
  const words = text.split(",");
  const inOrder = known.filter((word) => words.includes(word));
  return inOrder.join() === text ? { words } : null;
}

export function isName(value) {
  return typeof value === "string" && NAME_ONLY.test(value);
}

// Returns the caveat's name and values, or null if the desk doesn't understand the caveat.
export function readCaveat(bytes) {
  const text = characters(bytes);
  for (const { name, pattern, values } of PATTERNS) {
    const found = pattern.exec(text);
    if (found === null) continue;
    const read = values(...found.slice(1));
    return read === null ? null : { name, ...read };
  }
  return null;
}

// The test for each kind of caveat returns whether the caveat allows a request. Each request has an action and a moment. A request for a slot also
// has a facility, its kind, a day and an hour. The kind is null if the club doesn't have the facility. A request to book also has the number of
// guests, the cost (`owed`), and the points that the key has spent. If the page doesn't know one of these three numbers, the test uses 0, because the
// desk decides.
const TESTS = {
  facility: (caveat, { slot }) => slot !== undefined && caveat.facilities.includes(slot.facility),
  kind: (caveat, { slot }) => slot !== undefined && slot.kind === caveat.kind,
  hours: (caveat, { slot }) => slot !== undefined && caveat.from <= slot.hour && slot.hour < caveat.to,
  days: (caveat, { slot }) => slot !== undefined && caveat.first <= slot.day && slot.day <= caveat.last,
  weekday: (caveat, { slot }) => slot !== undefined && caveat.words.includes(WEEKDAYS[weekdayOf(slot.day)]),
  until: (caveat, { moment }) => moment < `${caveat.date}T${caveat.time}`,
  guests: (caveat, { action, guests = 0 }) => action !== "book" || guests <= caveat.most,
  spend: (caveat, { owed = 0, spent = 0 }) => owed === 0 || owed + spent <= caveat.most,
  actions: (caveat, { action }) => caveat.words.includes(action),
};

export function allows(caveat, ask) {
  return TESTS[caveat.name](caveat, ask);
}

// Returns the number of the first caveat in the pass that denies the request, or 0. The first caveat of a pass has number 1. A caveat that the page
// doesn't understand denies every request.
export function firstDenial(pass, ask) {
  const place = pass.caveats.findIndex((bytes) => {
    const caveat = readCaveat(bytes);
    return caveat === null || !allows(caveat, ask);
  });
  return place + 1;
}

// The texts of the page, in the reader's language. Each language has a table. The table maps keys to sentences, and a sentence may have values in
// braces. An entry may have two sentences: one for a `count` of 1, and one for every other `count`. bin/pages puts the tables into the page.

let tables = {};
let table = {};
let spoken = "en";

export function useWords(allTables, language) {
  tables = allTables;
  spoken = language in tables ? language : "en";
  table = tables[spoken];
}

export function language() {
  return spoken;
}

export function languages() {
  return Object.keys(tables);
}

// Returns the first language in the list that has a table, otherwise English.
export function languageFor(wanted) {
  return wanted.map((tag) => tag.slice(0, 2).toLowerCase()).find((tag) => tag in tables) ?? "en";
}

// Returns the sentence of a key, with the values in place of the braces. A number gets marks between groups of digits. A value that is itself a key
// with values becomes the sentence of that key.
export function say(key, values = {}) {
  const entry = table[key];
  if (entry === undefined) throw new Error(`no words for ${key}`);
  const sentence = Array.isArray(entry) ? entry[values.count === 1 ? 0 : 1] : entry;
  return sentence.replace(/\{([a-z]+)\}/g, (_, name) => valueText(values[name]));
}

function valueText(value) {
  if (typeof value === "number") return grouped(value);
  return typeof value === "object" && value !== null ? say(value.key, value.values) : String(value ?? "");
}

export function grouped(number) {
  return String(number).replace(/\B(?=(?:[0-9]{3})+$)/g, table["group-mark"]);
}

// Returns the words with commas between them, and `or` before the last word.
export function listed(words) {
  return words.length === 1 ? words[0] : say("list-or", { others: words.slice(0, -1).join(", "), last: words.at(-1) });
}

// ---- Dates. These functions format the club's dates. They use no time zone, and use UTC only to count days.

function dateValues(day) {
  const date = new Date(`${day}T00:00Z`);
  return {
    weekday: table.weekdays.split(",")[date.getUTCDay()], month: table.months.split(",")[date.getUTCMonth()],
    day: String(date.getUTCDate()), year: String(date.getUTCFullYear()),
  };
}

// Formats a day as "Friday 1 May 2026".
export function dateText(day) {
  return say("date", dateValues(day));
}

// Formats a day as "Friday 1 May".
export function dayText(day) {
  return say("date-of-year", dateValues(day));
}

// Formats a day as "Fri 1 May".
export function shortDayText(day) {
  const { weekday, month, day: number } = dateValues(day);
  return say("date-short", { weekday: weekday.slice(0, Number(table["weekday-letters"])), month: month.slice(0, 3), day: number });
}

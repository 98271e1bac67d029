// Days, hours and minutes on the club's wall clock. A day is a text YYYY-MM-DD, and a moment is a text YYYY-MM-DDTHH:MM. The functions use UTC only
// to count days and minutes. Only `momentIn` converts a time to a time zone.

export const WEEKDAYS = ["mon", "tue", "wed", "thu", "fri", "sat", "sun"];

export function isDate(text) {
  const date = new Date(/^[0-9]{4}-[0-9]{2}-[0-9]{2}$/.test(text) ? `${text}T00:00Z` : NaN);
  return !Number.isNaN(date.getTime()) && date.toISOString().startsWith(text);
}

// 0 is Monday.
export function weekdayOf(day) {
  return (new Date(`${day}T00:00Z`).getUTCDay() + 6) % 7;
}

export function daysLater(day, count) {
  const date = new Date(`${day}T00:00Z`);
  date.setUTCDate(date.getUTCDate() + count);
  return date.toISOString().slice(0, 10);
}

export function hourText(hour) {
  return String(hour).padStart(2, "0");
}

export function minutesOf(moment) {
  return Date.parse(`${moment}Z`) / 60000;
}

export function startOf(slot) {
  return `${slot.day}T${hourText(slot.hour)}:00`;
}

// There is one formatter for each zone, because making a formatter is slow.
const clocks = new Map();

function clockOf(zone) {
  if (!clocks.has(zone)) {
    clocks.set(zone, new Intl.DateTimeFormat("en-u-ca-gregory-nu-latn", {
      timeZone: zone, hourCycle: "h23", year: "numeric", month: "2-digit", day: "2-digit", hour: "2-digit", minute: "2-digit",
    }));
  }
  return clocks.get(zone);
}

// Returns the moment that the zone's wall clock shows at an instant. The instant is in milliseconds.
export function momentIn(zone, instant) {
  const parts = clockOf(zone).formatToParts(instant);
  const value = Object.fromEntries(parts.map((each) => [each.type, each.value]));
  return `${value.year.padStart(4, "0")}-${value.month}-${value.day}T${value.hour}:${value.minute}`;
}

export function isZone(name) {
  try {
    return typeof name === "string" && new Intl.DateTimeFormat("en", { timeZone: name }) !== null;
  } catch {
    return false;
  }
}

// The names of the data that the page stores in the browser. In a trial club, these names have a prefix.

let beginning = "";

export function withName(first) {
  beginning = first;
}

export function placeName(name) {
  return beginning + name;
}

export function isToTry() {
  return beginning !== "";
}

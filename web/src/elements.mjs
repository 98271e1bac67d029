// Makes and changes elements of the page. The page never parses a text as HTML.
import { say } from "./words.mjs";

export function byName(id) {
  return document.getElementById(id);
}

// Makes an element that contains texts and other elements.
export function element(name, className, ...content) {
  const made = document.createElement(name);
  if (className) made.className = className;
  made.append(...content);
  return made;
}

export function put(id, ...content) {
  byName(id).replaceChildren(...content);
}

// Puts named cards into a list. If the list has the same names as before, a card that hasn't changed stays and keeps the focus, and open parts stay
// open.
export function putCards(id, cards) {
  const before = [...byName(id).children];
  const isSameList = before.length === cards.length && before.every((card, place) => card.dataset.name === cards[place].dataset.name);
  if (!isSameList) byName(id).replaceChildren(...cards);
  else before.forEach((card, place) => replaceCard(card, cards[place]));
}

function replaceCard(old, card) {
  const [was, now] = [old, card].map((each) => each.querySelector("details"));
  if (was !== null && now !== null) now.open = was.open;
  if (!old.isEqualNode(card)) old.replaceWith(card);
}

export function button(className, words, press) {
  const made = element("button", className, words);
  made.type = "button";
  made.addEventListener("click", press);
  return made;
}

// Sets the texts and labels of all elements that the page's source marks with `data-say` or `data-label`.
export function sayAll(root = document) {
  for (const each of root.querySelectorAll("[data-say]")) each.textContent = say(each.dataset.say);
  for (const each of root.querySelectorAll("[data-label]")) each.setAttribute("aria-label", say(each.dataset.label));
}

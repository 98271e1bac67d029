// Long lists of cards. A list draws its first cards at once, and further cards when the reader scrolls to the end of the
// drawn cards or presses a button there.
import { button, byName, element, putCards } from "./elements.mjs";
import { say } from "./words.mjs";

const CARDS_AT_ONCE = 40;
const NEAR = "800px"; // from the bottom of the window

// For each list's id: its items, the function that makes an item's card, and the number of drawn cards.
const lists = new Map();
let watcher = null; // draws further cards when the end of a list comes near

function isNear(found) {
  for (const { isIntersecting, target } of found) {
    if (isIntersecting) drawMore(target.parentElement?.id);
  }
}

// Shows a list's cards. The list keeps its number of drawn cards, and a card that hasn't changed stays.
export function putCardList(id, items, cardOf) {
  const count = lists.get(id)?.count ?? CARDS_AT_ONCE;
  lists.set(id, { items, cardOf, count });
  const rest = items.length - count;
  putCards(id, [...items.slice(0, count).map(cardOf), ...(rest > 0 ? [endCard(id, rest)] : [])]);
  watchEnd(id);
}

// Lets each list begin with its first cards again.
export function beginCardLists() {
  for (const list of lists.values()) list.count = CARDS_AT_ONCE;
}

function endCard(id, rest) {
  const made = element("li", "end-card", button("", say("more-cards", { count: rest }), () => drawMore(id)));
  made.dataset.name = `end ${rest}`;
  return made;
}

function watchEnd(id) {
  const end = byName(id).querySelector(":scope > .end-card");
  if (end === null || globalThis.IntersectionObserver === undefined) return;
  watcher ??= new IntersectionObserver(isNear, { rootMargin: `0px 0px ${NEAR}` });
  watcher.observe(end);
}

// Adds the next cards. If the button for more cards had the focus, the first new card gets it.
function drawMore(id) {
  const list = lists.get(id);
  const end = byName(id)?.querySelector(":scope > .end-card") ?? null;
  if (list === undefined || end === null) return;
  const hadFocus = end.contains(document.activeElement);
  const cards = list.items.slice(list.count, list.count + CARDS_AT_ONCE).map(list.cardOf);
  list.count += cards.length;
  const rest = list.items.length - list.count;
  end.replaceWith(...cards, ...(rest > 0 ? [endCard(id, rest)] : []));
  if (hadFocus) Object.assign(cards[0], { tabIndex: -1 }).focus();
  watchEnd(id);
}

// Explains a refusal of the desk, and gives advice.
import { sentenceOf } from "./pass_words.mjs";
import { whyClosed } from "./club.mjs";
import { CAVEAT_DENIES, CAVEAT_NOT_UNDERSTOOD, isOfPrice, NUMBER_USED, SLOT_CLOSED } from "./replies.mjs";
import { state } from "./state.mjs";
import { say } from "./words.mjs";

// `slot` is the requested slot or the entry of the request, or null.
export function refusalText(reply, action = "book", slot = null) {
  if (reply.fault === NUMBER_USED) return say(action === "cancel" ? "fault-13-cancel" : slot?.ofList ? "fault-13-listed" : "fault-13-book");
  if (isOfPrice(reply)) return priceText(reply, slot);
  if (reply.fault === CAVEAT_DENIES) return say("fault-12", { limit: limitText(reply.caveat) });
  if (reply.fault === CAVEAT_NOT_UNDERSTOOD) return say("fault-11", { caveat: reply.caveat ?? "" });
  const reason = reply.fault === SLOT_CLOSED && slot !== null ? whyClosed(state.club, slot) : "";
  return reason === "" ? say(`fault-${reply.fault}`) : say("fault-17-why", { reason });
}

function priceText({ price }, { guests, agreed }) {
  return price === null ? say("price-unseen") : say("price-rose", { count: price * (guests + 1), was: agreed });
}

// Explains why no reply came. The text depends on the HTTP status of the response. Status 502 means that the proxy reached no desk, and status 504
// means that the desk took too long.
export function noReplyText(status, otherwise) {
  const texts = { 502: "no-reply-502", 503: "fault-22", 504: "no-reply-504" };
  return say(texts[status] ?? otherwise);
}

// Returns the sentence for a limit of the pass. `number` is the number of the limit, counted from 1.
export function limitText(number) {
  const caveat = state.pass?.caveats[number - 1];
  return caveat === undefined ? "" : sentenceOf(caveat) ?? say("limit-odd");
}

// Spare passes from a link. The browser keeps them only if the member agrees, and only if they belong to the member.
import { ask } from "./desk.mjs";
import { question, tell } from "./dialog.mjs";
import { button, element, put } from "./elements.mjs";
import { dropSpare, keepSpares, keptLoans, keptSpares, MOST_PASSES, sparesTooMany } from "./keeping.mjs";
import { foreignAmong, freeSpares, passOrNull } from "./lend.mjs";
import { keyName } from "./pass.mjs";
import { NoReply } from "./replies.mjs";
import { clubMoment, denial, state } from "./state.mjs";
import { say } from "./words.mjs";

// Returns why the browser can't keep these spare passes, or "".
function whyNotKept(texts, passes) {
  if (passes.includes(null) || passes.some((pass) => keyName(pass) === null)) return say("spares-wrong");
  if (texts.length > MOST_PASSES) return say("spares-many", { count: texts.length, most: MOST_PASSES });
  return "";
}

// Returns the texts that don't belong to the member of the pass in use. Returns null if the page can't find this out,
// because there is no pass, the pass doesn't show the account, or the desk doesn't answer.
async function foreignTexts(texts) {
  if (state.pass === null || denial("account") > 0) return null;
  const accountOf = (text) => ask(text, "account", {}, 2);
  try {
    const own = await accountOf(state.text);
    return own.fault === undefined ? await foreignAmong(texts, own.member, accountOf) : null;
  } catch (fault) {
    if (!(fault instanceof NoReply)) throw fault;
    return null;
  }
}

function namesOf(texts) {
  return texts.map((text) => keyName(passOrNull(text))).join(", ");
}

// Stores the spare passes from a link, and calls `whenKept`.
export async function offerSpares(given, whenKept) {
  const texts = [...new Set(given)];
  const why = whyNotKept(texts, texts.map(passOrNull));
  const foreign = why === "" ? await foreignTexts(texts) : [];
  if (why !== "" || foreign?.length > 0) {
    await tell(say("spares-title"), why || say("spares-foreign", { keys: namesOf(foreign) }));
    return;
  }
  const names = element("p", "key", namesOf(texts));
  if (sparesTooMany(texts) > 0) await makeRoom(texts, names);
  if (sparesTooMany(texts) > 0) return;
  const hints = [say("spares-hint"), ...(foreign === null ? [say("spares-unchecked")] : [])];
  if (!await question(say("spares-question"), [names, ...hints], say("keep-yes"), say("keep-no"))) return;
  const isKept = keepSpares(texts);
  await tell(say("spares-title"), say(isKept ? "spares-kept" : "spares-not-kept"));
  whenKept();
}

// Lets the member remove stored spare passes to make room for the spare passes from a link. The member can't remove a lent spare pass.
function makeRoom(texts, names) {
  const free = freeSpares(keptSpares(), keptLoans(), clubMoment() ?? "").filter(({ text }) => !texts.includes(text));
  const items = free.map(({ text, pass }) => {
    const item = Object.assign(element("li", ""), { tabIndex: -1 });
    const remove = button("", say("spares-remove", { key: keyName(pass) }), () => {
      if (!dropSpare(text)) {
        put("spares-news", say("spares-not-kept"));
        return;
      }
      put("spares-news", sparesTooMany(texts) > 0 ? "" : say("spares-room"));
      item.replaceChildren(element("p", "", say("spares-removed", { key: keyName(pass) })));
      item.focus();
    });
    item.append(element("div", "buttons", remove));
    return item;
  });
  const news = Object.assign(element("p", "note", items.length > 0 ? "" : say("lend-spares-lent-title")), { id: "spares-news", role: "status" });
  return question(say("spares-title"), [names, say("spares-full", { count: sparesTooMany(texts), most: MOST_PASSES }), element("ul", "cards", ...items), news], say("go-on"), null);
}

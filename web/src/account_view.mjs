// The view of the account and of the pass in use. The view also transfers the record of bookings between devices.
import { titleOf } from "./club.mjs";
import { hourText, isDate } from "./dates.mjs";
import { ask } from "./desk.mjs";
import { question, tell } from "./dialog.mjs";
import { button, byName, element, put } from "./elements.mjs";
import { noteTaken } from "./list_keeping.mjs";
import { MOST_AT_ONCE, newsOf } from "./lists.mjs";
import { canBeKept, enterAnother, forgetPass, keepThis, keptText, nameField, noteRefusal } from "./passes_view.mjs";
import { fact, keyWarning, limitList } from "./pass_words.mjs";
import { drawQr } from "./qr_picture.mjs";
import { fragmentOfRecord, hasBegun, isLive, readRecord, recordText } from "./record.mjs";
import { limitText, noReplyText, refusalText } from "./refusals.mjs";
import { NO_SUCH_BOOKING, NoReply, NUMBER_USED } from "./replies.mjs";
import { canSend, clubMoment, clubTime, denial, ownEntries, state } from "./state.mjs";
import { say } from "./words.mjs";

// ---- The account

export async function lookAtAccount() {
  if (state.pass === null) return;
  const number = denial("account");
  if (number > 0) {
    state.account = null;
    put("account-facts", element("p", "", say("account-denied"), " ", limitText(number)));
    return;
  }
  try {
    const reply = await ask(state.text, "account", {});
    state.account = reply.fault === undefined ? { ...reply, at: clubTime() } : null;
    showAccount(reply.fault === undefined ? "" : refusalText(reply));
    noteRefusal(reply);
  } catch (fault) {
    if (!(fault instanceof NoReply)) throw fault;
    showAccount(noReplyText(fault.status, "account-failed"));
  }
}

export function showAccount(trouble = "") {
  const parts = [];
  if (state.account !== null) {
    const { member, balance, open, quota, spent, at } = state.account;
    parts.push(element("dl", "figures",
      ...fact(say("account-balance"), say("charged", { count: balance }), "key"), ...fact(say("account-open"), say("of-quota", { open, quota }), "key"),
      ...fact(say("account-spent"), say("charged", { count: spent }), "key"), ...fact(say("account-member"), member)));
    parts.push(element("p", "hint", say("account-own"), " ", say("looked", { time: at })));
  }
  if (trouble !== "") {
    const box = element("div", "fault", element("span", "", trouble));
    parts.push(box, element("div", "buttons", button("", say("try-again"), lookAtAccount)));
  }
  put("account-facts", ...parts);
}

// ---- The pass

export function showPass() {
  if (state.pass === null) return;
  const name = state.isKept ? [nameField()] : [];
  put("pass-facts", ...name, element("dl", "", ...fact(say("key"), state.key ?? say("none"), "key")), ...keyWarning(state.pass));
  put("pass-limits", limitList(state.pass));
  put("pass-place", say(state.isKept ? "pass-kept" : "pass-not-kept"));
  const keep = button("", say("keep-pass"), () => {
    keepThis();
    showPass();
    put("pass-news", keptText());
  });
  const copy = button("", say("copy-pass"), () => copyText(state.text, "pass-news", "copied-pass", "selected-pass"));
  const drop = button("danger", say("forget-pass"), async () => {
    if (!await question(say("forget-pass"), [say("forget-question", { name: state.name })], say("forget-pass"), say("back"))) return;
    forgetPass();
  });
  put("pass-buttons", ...(state.isKept || !canBeKept() ? [] : [keep]), copy, button("", say("enter-another"), enterAnother), drop);
  put("trap-device", say("trap-device", { key: state.account?.member ?? state.key?.replace(/-[0-9]+$/, "") ?? "" }));
}

async function copyText(text, place, copied, failed, field = null) {
  try {
    await navigator.clipboard.writeText(text);
    put(place, say(copied));
  } catch {
    field?.focus();
    field?.select();
    put(place, field === null ? text : say(failed));
  }
}

// ---- Sending the record to another device

export function showExport() {
  if (state.pass === null || state.key === null) return;
  const own = ownEntries();
  byName("export-part").hidden = own.length === 0;
  const text = recordText(state.key, own);
  byName("export-text").value = text;
  const page = location.href.split("#")[0];
  const moment = clubMoment();
  const toCome = own.filter((entry) => isLive(entry) && (moment === null || !hasBegun(entry, moment)));
  const pictures = [["export-qr", text], ["export-qr-part", recordText(state.key, toCome)]];
  for (const [words, record] of pictures) {
    const picture = drawQr(`${page}#${fragmentOfRecord(record)}`, say("qr-label"));
    if (picture === null) continue;
    put("export-qr", picture);
    put("export-qr-words", say("export-qr"), ...(words === "export-qr-part" ? [" ", say("export-qr-part")] : []));
    return;
  }
  put("export-qr");
  put("export-qr-words", say("export-qr-none"));
}

// ---- Receiving the record from another device

async function importText(text, place) {
  const read = readRecord(text, Date.now());
  if (read.wrong !== undefined) {
    put(place, element("span", "wrong", say("import-wrong", { line: read.wrong })));
    return;
  }
  const { news, more } = newsOf(state.entries, read.entries);
  await state.store.put(...news);
  const words = news.length > 0 ? say("import-done", { count: news.length, key: read.key }) : say("import-nothing", { key: read.key });
  const rest = more > 0 ? [" ", say("import-more", { count: more })] : [];
  put(place, words, ...rest, ...(read.key === state.key ? [] : [" ", say("import-other-key", { key: read.key })]));
}

// Adds the bookings from a link to this browser's record, but only after the member agrees.
export async function offerRecord(text, whenDone) {
  const read = readRecord(text, Date.now());
  if (state.store === null) return;
  if (read.wrong !== undefined) {
    await tell(say("import-title"), say("import-wrong", { line: read.wrong }));
    return;
  }
  const count = say("import-count", { count: read.entries.length, key: read.key });
  const part = read.entries.length > MOST_AT_ONCE ? [say("import-part", { count: MOST_AT_ONCE })] : [];
  if (!await question(say("import-question"), [element("p", "key", count), ...part], say("import-button"), say("back"))) return;
  await importText(text, "import-news");
  whenDone();
}

// ---- Adding a booking whose number and slot the member knows

function fillFacilities() {
  const field = byName("lost-facility");
  if (state.club === null || field.options.length === state.club.facilities.length) return;
  field.replaceChildren(...state.club.facilities.map(({ name }) => new Option(titleOf(state.club, name), name)));
}

export function showLost() {
  fillFacilities();
  if (state.club !== null && byName("lost-day").value === "") byName("lost-day").value = clubMoment().slice(0, 10);
}

function lostFault(number, day) {
  if (!/^[1-9][0-9]{0,8}$/.test(number)) return say("lost-wrong-number");
  if (!isDate(day)) return say("lost-wrong-day");
  if (ownEntries().some((entry) => entry.number === Number(number))) return say("lost-here");
  return null;
}

// Returns whether the key has used a number, or true if the page can't find out. The function asks the desk to cancel a booking with this number at a
// slot that can't exist. The desk's reply shows whether the key has used the number, and no booking changes.
async function isUsed(number) {
  const nowhere = { facility: "none-such", day: "2000-01-01", hour: 0 };
  // If the pass doesn't allow this request, the page can't find out.
  if (denial("cancel", nowhere) > 0) return true;
  try {
    const reply = await ask(state.text, "cancel", { ...nowhere, key: state.key, number });
    return reply.fault === undefined || reply.fault === NUMBER_USED || reply.fault === NO_SUCH_BOOKING || reply.fault < NUMBER_USED;
  } catch (fault) {
    if (!(fault instanceof NoReply)) throw fault;
    return true;
  }
}

async function noteLost(event, whenDone) {
  event.preventDefault();
  const number = byName("lost-number").value.trim();
  const day = byName("lost-day").value;
  const wrong = lostFault(number, day);
  put("lost-news", ...(wrong === null ? [] : [element("span", "wrong", wrong)]));
  if (wrong !== null) return;
  if (!await isUsed(Number(number))) {
    put("lost-news", element("span", "wrong", say("lost-unknown", { key: state.key })));
    return;
  }
  const slot = { facility: byName("lost-facility").value, day, hour: Number(byName("lost-hour").value) };
  await state.store.put({ key: state.key, number: Number(number), ...slot, guests: null, book: {}, listed: {}, unsure: true, asked: Date.now() });
  put("lost-news", say("lost-done"));
  byName("lost-number").value = "";
  whenDone();
}

export function setUpAccount(whenDone) {
  byName("lost-hour").append(...Array.from({ length: 24 }, (_, hour) => new Option(`${hourText(hour)}:00`, String(hour))));
  byName("lost").addEventListener("submit", (event) => noteLost(event, whenDone));
  byName("export-copy").addEventListener("click", () => {
    noteTaken();
    return copyText(byName("export-text").value, "export-news", "export-copied", "export-selected", byName("export-text"));
  });
  byName("import").addEventListener("submit", async (event) => {
    event.preventDefault();
    if (!canSend()) return;
    await importText(byName("import-text").value, "import-news");
    whenDone();
  });
}

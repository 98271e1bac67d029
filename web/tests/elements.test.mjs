// Tests of elements.mjs, card_list.mjs, dialog.mjs, dialog_parts.mjs, club_view.mjs, languages.mjs,
// list_keeping.mjs and qr_picture.mjs, with a double of the document.
import assert from "node:assert/strict";
import { beforeEach, test } from "node:test";
import { beginCardLists, putCardList } from "../src/card_list.mjs";
import { linkTo, showClub } from "../src/club_view.mjs";
import {
  closeDialog, isDialogOpen, openDialog, question, setUpDialog, tell,
} from "../src/dialog.mjs";
import { faultBox, finish, outcomeBox, slotText, unsavedNote } from "../src/dialog_parts.mjs";
import { button, byName, element, put, putCards, sayAll } from "../src/elements.mjs";
import { offerLanguages } from "../src/languages.mjs";
import {
  askToPersist, lookWhetherPersists, noteTaken, showListKept,
} from "../src/list_keeping.mjs";
import { drawQr, qrWords } from "../src/qr_picture.mjs";
import { state } from "../src/state.mjs";
import { say } from "../src/words.mjs";
import { booked, buttonIn, openClub, shownIn, SLOT } from "./doubles/club.mjs";
import { withNavigator } from "./doubles/dom.mjs";
import { TABLES } from "./kit.mjs";

beforeEach(() => openClub());

test("an element shows texts as texts, not as HTML", () => {
  const made = element("p", "note", "<b>", element("em", "", "now"));
  assert.deepEqual([made.className, made.textContent, made.children.length], ["note", "<b>now", 1]);
});

test("put replaces what a place shows", () => {
  put("notices", "one", element("b", "", "two"));
  put("notices", "three");
  assert.equal(shownIn("notices"), "three");
});

test("a card that hasn't changed stays, and an open part stays open", () => {
  const card = (name, words) => {
    const made = element("li", "", words, element("details", ""));
    made.dataset.name = name;
    return made;
  };
  putCards("to-come", [card("a", "A"), card("b", "B")]);
  const [first, second] = byName("to-come").children;
  second.querySelector("details").open = true;
  putCards("to-come", [card("a", "A"), card("b", "changed")]);
  const [same, changed] = byName("to-come").children;
  assert.ok(same === first && changed !== second);
  assert.ok(changed.querySelector("details").open);
  putCards("to-come", [card("b", "B")]);
  assert.equal(shownIn("to-come"), "B");
});

test("a long list draws its first cards, and more at a press", async () => {
  const items = Array.from({ length: 100 }, (_, place) => `card ${place}`);
  const card = (words) => {
    const made = element("li", "", words);
    made.dataset.name = words;
    return made;
  };
  beginCardLists();
  putCardList("past", items, card);
  assert.equal(byName("past").children.length, 41);
  await buttonIn("past", say("more-cards", { count: 60 })).click();
  assert.equal(byName("past").children.length, 81);
  await buttonIn("past", say("more-cards", { count: 20 })).click();
  assert.deepEqual(byName("past").children.map((each) => each.textContent), items);
});

test("the marked texts and labels of the page are in the chosen language", () => {
  const words = element("span", "", "?");
  words.dataset.say = "reload";
  words.dataset.label = "close";
  put("notices", words);
  sayAll();
  assert.equal(words.textContent, say("reload"));
  assert.equal(words.getAttribute("aria-label"), say("close"));
});

test("a press on a button calls its function", async () => {
  let count = 0;
  await button("", "Press", () => { count += 1; }).click();
  assert.equal(count, 1);
});

// ---- The dialog

test("a dialog opens with its title, and tells when it closes", () => {
  let closed = 0;
  openDialog("Title", [element("p", "", "words")], () => { closed += 1; });
  assert.ok(isDialogOpen());
  assert.match(shownIn("dialog"), /^Title\u00d7words$/);
  assert.equal(document.activeElement.id, "dialog-title");
  closeDialog();
  assert.deepEqual([isDialogOpen(), closed, shownIn("dialog")], [false, 1, ""]);
});

test("a second dialog closes the first one", () => {
  let closed = 0;
  openDialog("One", [], () => { closed += 1; });
  openDialog("Two", []);
  assert.equal(closed, 1);
  assert.match(shownIn("dialog"), /^Two/);
});

test("Escape and a press next to the dialog close it", async () => {
  setUpDialog();
  openDialog("Title", []);
  await byName("dialog").emit("cancel");
  assert.ok(!isDialogOpen());
  openDialog("Title", [element("p", "", "words")]);
  await byName("dialog").children[1].click();
  assert.ok(isDialogOpen());
  await byName("dialog").click();
  assert.ok(!isDialogOpen());
});

test("a question returns the answer that was pressed", async () => {
  for (const [words, wanted] of [["Yes", true], ["No", false]]) {
    const answer = question("Sure?", ["Think."], "Yes", "No");
    await buttonIn("dialog", words).click();
    assert.equal(await answer, wanted);
  }
  const answer = question("Sure?", ["Think."], "Yes", "No");
  closeDialog();
  assert.equal(await answer, false);
});

test("a message has one button, which closes it", async () => {
  const told = tell("Title", "words");
  assert.equal(byName("dialog").querySelector(".buttons").children.length, 1);
  await buttonIn("dialog", say("close")).click();
  assert.equal(await told, true);
});

test("the parts of a dialog: the slot, a fault, and the place of a result", () => {
  assert.equal(slotText(SLOT).replace(/\s/g, " "), "Friday 1 May 2026, 18:00 to 19:00");
  const box = faultBox("Not booked.", "why");
  assert.deepEqual([box.getAttribute("role"), box.textContent], ["alert", "Not booked.why"]);
  assert.equal(outcomeBox().getAttribute("aria-live"), "polite");
});

test("after a result the pressed button becomes one that closes the dialog", async () => {
  const press = button("main", "Book", () => {});
  openDialog("Title", [press]);
  press.focus();
  finish(press);
  assert.equal(document.activeElement.textContent, say("close"));
  await document.activeElement.click();
  assert.ok(!isDialogOpen());
});

test("a reply that the browser couldn't save has a note", () => {
  assert.deepEqual(unsavedNote(state.sender), []);
  state.sender.unsaved.set("amy-1/7", {});
  assert.equal(unsavedNote(state.sender)[0].textContent, say("reply-not-stored"));
});

// ---- The club, the language, the list, the QR code

test("the page shows the club's contact and links, and no logo if the club has none", () => {
  showClub(state.club);
  assert.match(shownIn("club-contact"), /Mondays at 16/);
  const [link] = byName("club-links").children;
  assert.equal(link.href, "https://club.example.org/imprint");
  assert.equal(link.rel, "noopener noreferrer");
  const logo = byName("club-logo");
  assert.ok(logo.hidden);
  showClub({ ...state.club, logo: "data:image/png;base64,AA==" });
  assert.deepEqual([logo.hidden, logo.src], [false, "data:image/png;base64,AA=="]);
  showClub(null);
  assert.equal(shownIn("club-contact") + shownIn("club-links"), "");
});

test("on a wall screen a link shows its address", () => {
  showClub(state.club, true);
  assert.match(shownIn("club-links"), /: club\.example\.org\/imprint$/);
  assert.equal(linkTo("demo.html", "Try").target, "_blank");
});

test("the page speaks the browser's language, until the member chooses another", async () => {
  globalThis.WORDS = TABLES;
  withNavigator({ languages: ["fr", "de-AT"] });
  const kept = [];
  let shown = 0;
  offerLanguages(() => { shown += 1; }, null, (chosen) => kept.push(chosen));
  const field = byName("language");
  assert.deepEqual([document.documentElement.lang, field.value], ["de", "de"]);
  assert.deepEqual(field.options.map((each) => each.textContent), ["English", "Deutsch"]);
  field.value = "en";
  await field.emit("change");
  assert.deepEqual([document.documentElement.lang, kept, shown], ["en", ["en"], 2]);
  offerLanguages(() => {}, "de");
  assert.equal(document.documentElement.lang, "de");
});

test("the page asks the browser to keep the list, and says what the browser promised", async () => {
  await booked();
  for (const [persisted, words] of [[false, "list-may-go"], [true, "list-persists"]]) {
    withNavigator({ storage: { persisted: async () => persisted } });
    await lookWhetherPersists();
    assert.equal(shownIn("list-kept"), say(words));
  }
  withNavigator({ storage: { persist: () => assert.fail("asked again") } });
  await askToPersist();
});

test("the page reminds of a copy from the third booking on", async () => {
  for (const hour of [9, 10]) await booked({ ...SLOT, hour });
  showListKept();
  assert.ok(byName("list-remind").hidden);
  await booked({ ...SLOT, hour: 11 });
  showListKept();
  assert.ok(!byName("list-remind").hidden);
  noteTaken();
  assert.ok(byName("list-remind").hidden);
});

test("a QR code is drawn with its margin, and a text that is too long has none", () => {
  const picture = drawQr("https://desk.example.org/", "label");
  const [path] = picture.children;
  assert.equal(picture.getAttribute("viewBox"), `0 0 ${25 + 8} ${25 + 8}`);
  assert.equal(picture.getAttribute("aria-label"), "label");
  assert.match(path.getAttribute("d"), /^M4 4h1v1h-1z/);
  assert.equal(qrWords(picture), "lend-qr");
  assert.equal(qrWords(drawQr("a".repeat(900), "label")), "lend-qr-dense");
  assert.equal(drawQr("a".repeat(5000), "label"), null);
  assert.equal(qrWords(null), "lend-qr-none");
});

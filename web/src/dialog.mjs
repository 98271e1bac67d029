// The page's only dialog. The dialog opens in front of the page. When the dialog closes, the focus returns to the element that opened it.
import { button, byName, element } from "./elements.mjs";
import { say } from "./words.mjs";

let closed = null; // the function to call when the dialog closes; null if no dialog is open

export function openDialog(title, content, whenClosed = () => {}) {
  if (isDialogOpen()) closeDialog();
  closed = whenClosed;
  const heading = element("h2", "", title);
  heading.id = "dialog-title";
  heading.tabIndex = -1;
  const close = button("close", "\u00d7", closeDialog);
  close.setAttribute("aria-label", say("close"));
  const dialog = byName("dialog");
  dialog.replaceChildren(element("div", "dialog-head", heading, close), ...content);
  dialog.showModal();
  heading.focus();
}

// The browser reports later that the dialog has closed. Another dialog may be open by then, so this function itself does all the work of closing.
export function closeDialog() {
  const whenClosed = closed;
  closed = null;
  byName("dialog").close();
  byName("dialog").replaceChildren();
  whenClosed?.();
}

export function isDialogOpen() {
  return byName("dialog").open;
}

export function setUpDialog() {
  const dialog = byName("dialog");
  dialog.addEventListener("cancel", (event) => {
    event.preventDefault();
    closeDialog();
  });
  // When the user presses Escape a second time, the browser closes the dialog without asking the page.
  dialog.addEventListener("close", () => { if (!dialog.open && closed !== null) closeDialog(); });
  // A press outside the dialog also closes the dialog.
  dialog.addEventListener("click", (event) => { if (event.target === dialog) closeDialog(); });
}

// Shows a message with a button that closes it.
export function tell(title, words) {
  return question(title, [words], say("close"), null);
}

// Asks a question with one or two answers. Returns whether the user chose the first answer.
export function question(title, words, yes, no) {
  return new Promise((done) => {
    let answer = false;
    const decide = (value) => () => {
      answer = value;
      closeDialog();
    };
    openDialog(title, [
      ...words.map((each) => each instanceof Node ? each : element("p", "", each)),
      element("div", "buttons", button("main", yes, decide(true)), ...(no === null ? [] : [button("", no, decide(false))])),
    ], () => done(answer));
  });
}

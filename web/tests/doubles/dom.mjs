// A small double of the browser's document, for tests of the pages' modules in Node. It has the
// elements of a page's source, and as much of the DOM as the modules use. It lays nothing out.
import { readFileSync } from "node:fs";

const VOID = new Set(["br", "hr", "img", "input", "link", "meta"]);
const ENTITIES = { amp: "&", lt: "<", gt: ">", quot: '"', nbsp: "\u00a0" };

class DomEvent {
  constructor(type, more = {}) {
    Object.assign(this, { type, isStopped: false, defaultPrevented: false, bubbles: true }, more);
  }

  preventDefault() { this.defaultPrevented = true; }
}

export class DomNode {
  constructor() {
    this.parent = null;
    this.childNodes = [];
  }

  get children() { return this.childNodes.filter((each) => each instanceof DomElement); }

  get textContent() { return this.childNodes.map((each) => each.textContent).join(""); }

  set textContent(text) { this.replaceChildren(...(text === "" ? [] : [text])); }

  append(...nodes) {
    for (const node of nodes) {
      const made = node instanceof DomNode ? node : new DomText(String(node));
      made.remove();
      made.parent = this;
      this.childNodes.push(made);
    }
  }

  replaceChildren(...nodes) {
    for (const each of this.childNodes) each.parent = null;
    this.childNodes.length = 0;
    this.append(...nodes);
  }

  remove() {
    if (this.parent === null) return;
    this.parent.childNodes = this.parent.childNodes.filter((each) => each !== this);
    this.parent = null;
  }

  get parentElement() { return this.parent instanceof DomElement ? this.parent : null; }

  replaceWith(...nodes) {
    const { parent } = this;
    const place = parent.childNodes.indexOf(this);
    const after = parent.childNodes.splice(place).slice(1);
    this.parent = null;
    parent.append(...nodes);
    parent.append(...after.map((each) => Object.assign(each, { parent: null })));
  }

  // Returns the node and all nodes below it.
  * all() {
    yield this;
    for (const each of this.childNodes) yield* each.all();
  }

  contains(node) { return [...this.all()].includes(node); }

  querySelectorAll(selector) {
    const isOwn = selector.startsWith(":scope > ");
    const parts = selector.replace(":scope > ", "").split(",").map((each) => each.trim());
    const isFound = (each) => each !== this && parts.some((part) => matches(each, part));
    return isOwn ? this.children.filter(isFound) : [...this.all()].filter(isFound);
  }

  querySelector(selector) { return this.querySelectorAll(selector)[0] ?? null; }
}

class DomText extends DomNode {
  constructor(text) {
    super();
    this.text = text;
  }

  get textContent() { return this.text; }
}

const SELECTOR = /^([a-z0-9]*)((?:\.[\w-]+|#[\w-]+|\[[\w-]+\]|:checked)*)$/;
const PARTS = /\.[\w-]+|#[\w-]+|\[[\w-]+\]|:checked/g;

function matches(node, selector) {
  const found = SELECTOR.exec(selector);
  if (found === null) throw new Error(`the double knows no selector ${selector}`);
  if (!(node instanceof DomElement)) return false;
  if (found[1] !== "" && node.localName !== found[1]) return false;
  return (found[2].match(PARTS) ?? []).every((part) => {
    if (part === ":checked") return node.checked === true;
    const name = part.replace(/^[.#[]|\]$/g, "");
    if (part.startsWith("#")) return node.id === name;
    return part.startsWith(".") ? node.classes().includes(name) : node.getAttribute(name) !== null;
  });
}

const kebab = (name) => name.replace(/[A-Z]/g, (letter) => `-${letter.toLowerCase()}`);

export class DomElement extends DomNode {
  constructor(localName) {
    super();
    Object.assign(this, {
      localName, attributes: new Map(), listeners: new Map(), hidden: false, disabled: false,
      checked: false, open: false, selected: false, validity: { badInput: false },
    });
    const properties = {};
    this.style = { properties, setProperty: (name, value) => { properties[name] = value; } };
    this.dataset = new Proxy({}, {
      get: (_, name) => this.getAttribute(`data-${kebab(name)}`) ?? undefined,
      set: (_, name, value) => {
        this.setAttribute(`data-${kebab(name)}`, value);
        return true;
      },
    });
    this.classList = {
      add: (name) => this.classList.toggle(name, true),
      toggle: (name, isOn) => {
        const others = this.classes().filter((each) => each !== name);
        this.className = [...others, ...(isOn ? [name] : [])].join(" ");
      },
    };
  }

  classes() { return this.className.split(" ").filter((each) => each !== ""); }

  get id() { return this.getAttribute("id") ?? ""; }

  set id(value) { this.setAttribute("id", value); }

  get className() { return this.getAttribute("class") ?? ""; }

  set className(value) { this.setAttribute("class", value); }

  get src() { return this.getAttribute("src") ?? ""; }

  set src(value) { this.setAttribute("src", value); }

  getAttribute(name) { return this.attributes.get(name) ?? null; }

  setAttribute(name, value) { this.attributes.set(name, String(value)); }

  removeAttribute(name) { this.attributes.delete(name); }

  get options() { return this.children.filter((each) => each.localName === "option"); }

  get tBodies() { return this.children.filter((each) => each.localName === "tbody"); }

  get rows() { return this.children.filter((each) => each.localName === "tr"); }

  get value() {
    if (this.localName === "select") {
      return (this.options.find((each) => each.selected) ?? this.options[0])?.value ?? "";
    }
    return this.given ?? (this.localName === "option" ? this.textContent : "");
  }

  set value(value) {
    this.given = String(value);
    for (const each of this.options) each.selected = each.value === this.given;
  }

  get viewBox() {
    return { baseVal: { width: Number(this.getAttribute("viewBox").split(" ")[2]) } };
  }

  isEqualNode(other) {
    return this.localName === other.localName && this.textContent === other.textContent
      && JSON.stringify([...this.attributes]) === JSON.stringify([...other.attributes]);
  }

  addEventListener(type, act) {
    this.listeners.set(type, [...(this.listeners.get(type) ?? []), act]);
  }

  // Returns a promise of the results of all listeners, so that a test can wait for them.
  dispatchEvent(event) {
    event.target ??= this;
    const { parent } = this;
    const results = (this.listeners.get(event.type) ?? []).map((act) => act(event));
    if (event.bubbles && parent instanceof DomElement) results.push(parent.dispatchEvent(event));
    return Promise.all(results);
  }

  emit(type, more) { return this.dispatchEvent(new DomEvent(type, more)); }

  click() { return this.disabled ? Promise.resolve() : this.emit("click"); }

  focus() { document.activeElement = this; }

  select() { document.selected = this; }

  scrollIntoView() { document.scrolledTo = this; }

  scrollTo() { document.scrolledTo = this; }

  showModal() { this.open = true; }

  close() { this.open = false; }

  closest(selector) {
    if (matches(this, selector)) return this;
    return this.parent instanceof DomElement ? this.parent.closest(selector) : null;
  }
}

// ---- The page's source

function readText(text) {
  return text.replace(/&([a-z]+);/g, (whole, name) => ENTITIES[name] ?? whole);
}

const SWITCHES = new Set(["hidden", "disabled", "checked", "open"]);
const VALUES = new Set(["value", "type", "min", "max", "name"]);

function elementOf(name, written) {
  const made = new DomElement(name);
  for (const [, attribute, value = ""] of written.matchAll(/([a-z-]+)(?:="([^"]*)")?/g)) {
    made.setAttribute(attribute, readText(value));
    if (SWITCHES.has(attribute)) made[attribute] = true;
    if (VALUES.has(attribute)) made[attribute] = readText(value);
  }
  return made;
}

// Returns the elements of a page's source.
function parsed(source) {
  const root = new DomElement("html");
  let place = root;
  const body = source.replace(/<!--[^]*?-->/g, "").split("<body>")[1].split("</body>")[0];
  for (const [whole, close, name, written] of body.matchAll(/<(\/?)([a-z0-9]+)([^>]*)>|[^<]+/g)) {
    if (name === undefined) place.append(readText(whole));
    else if (close === "/") place = place.parent;
    else {
      const made = elementOf(name, written);
      place.append(made);
      if (!VOID.has(name)) place = made;
    }
  }
  return root;
}

class DomOption extends DomElement {
  constructor(text, value, _, isSelected = false) {
    super("option");
    this.append(text);
    this.value = value;
    this.selected = isSelected;
  }
}

// The values of a form's fields.
class DomForm {
  constructor(form) {
    const isGiven = ({ type, checked }) => !["radio", "checkbox"].includes(type) || checked;
    this.fields = form.querySelectorAll("input, select, textarea").filter(isGiven);
  }

  getAll(name) {
    return this.fields.filter((each) => each.name === name).map((each) => each.value);
  }

  get(name) { return this.getAll(name)[0] ?? null; }
}

// Makes the globals of a browser that shows a page of web/src. Returns the document.
export function openPage(page, address = "https://desk.example.org/") {
  const source = readFileSync(new URL(`../../src/${page}`, import.meta.url), "utf8");
  const root = parsed(source);
  const made = {
    documentElement: root, body: root, activeElement: null, visibilityState: "visible",
    createElement: (name) => new DomElement(name),
    createElementNS: (_, name) => new DomElement(name),
    getElementById: (id) => root.querySelector(`#${id}`),
    querySelectorAll: (selector) => root.querySelectorAll(selector),
    addEventListener: (...words) => root.addEventListener(...words),
  };
  const globals = {
    document: made, location: new URL(`${address}${page}`), Node: DomNode, Option: DomOption,
    isSecureContext: true, window: new DomElement("window"), FormData: DomForm, Event: DomEvent,
  };
  for (const [name, value] of Object.entries(globals)) {
    Object.defineProperty(globalThis, name, { value, configurable: true, writable: true });
  }
  return made;
}

// Replaces properties of the browser's `navigator`.
export function withNavigator(properties) {
  const value = { onLine: true, languages: ["en"], ...properties };
  Object.defineProperty(globalThis, "navigator", { value, configurable: true, writable: true });
}

export class MemoryStorage {
  constructor() { this.rows = new Map(); }

  getItem(name) { return this.rows.get(name) ?? null; }

  setItem(name, value) { this.rows.set(name, String(value)); }

  removeItem(name) { this.rows.delete(name); }
}

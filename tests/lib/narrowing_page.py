"""Opens the page pass.html in a browser, asks passtool for the right answers, and draws random
passes and caveats. The parts of page_narrows.py share this module."""

import base64
import json
import pathlib
import random
import re
import sys
import tempfile
from datetime import date, timedelta

import desk
from page_browser import Browser, check
from reference import passes
from reference.caveats import ACTIONS, WEEKDAYS
from reference.passes import Pass

PAGE = desk.ROOT / "web" / "pass.html"
VECTORS = json.loads((desk.ROOT / "docs" / "vectors.json").read_text(encoding="utf-8"))
TOOL = desk.program("passtool")
ROOM = tempfile.TemporaryDirectory()
PICTURES = sys.argv[1] if sys.argv[1:] else ROOM.name
PASSES, SPOILED, CAVEATS = 1000, 2000, 2000
FORMS = list(passes.FORMS)
FAULTS = {
    "This text is too long for a pass.": 1,
    "This text isn't a complete pass.": 2,
    "This pass has a third-party caveat.": 3,
    "This pass has too many limits.": 4,
}
# The names of the page's choices. The page adds their caveats in this order.
CHOICES = ["kind", "facility", "actions", "days", "weekday", "hours", "until", "guests", "spend"]
AMY = "AgEJY2x1Yi1kZXNrAglrZXk6YW15LTEAAAYgDsU-vMVpq3Ex5_BQk6D5VX6TimC0IfCk7Dn6nv7TIJk"
draw = random.Random(20260501)


# ---- The formats


def unpadded(data):
    return passes.to_base64(data).decode()


def written(form, it):
    return passes.text_of(it, form).decode()


def amys(form, *caveats):
    """Returns the text of a pass for Amy's key with these caveats. The pass has 32 zero bytes as
    its signature."""
    return written(
        form,
        Pass(
            b"",
            b"key:amy-1",
            [it if isinstance(it, bytes) else it.encode() for it in caveats],
            bytes(32),
        ),
    )


# ---- What passtool answers


def tool(*words, given):
    """Runs passtool. Returns the status and the output. If passtool fails, returns its line on
    standard error in place of the output."""
    status, printed, fault = desk.command(TOOL, *words, text=given)
    return status, fault if status else printed


def narrowed_by_tool(text, lines):
    """Returns the narrowed pass, or passtool's fault line."""
    status, output = tool("narrow", *lines, given=text)
    check(status in (0, 3), "passtool narrow", text, lines, output)
    return output.removesuffix("\n")


def reading_by_tool(text):
    """Returns what the page must show for a text: the number of the fault, or the pass's facts and
    caveats."""
    status, output = tool("show", given=text.strip(" \t\r\n"))
    if status == 3:
        return int(output[len("fault ")])
    check(status == 0, "passtool show", text, output)
    values = [line.partition(" ")[2] for line in output.splitlines()]
    key = re.fullmatch("key:([a-z0-9][a-z0-9-]{0,23})", values[2])
    facts = {"Name": key[1]} if key else {"Identifier": values[2] or "(empty)"}
    facts |= {
        "Form": values[0].upper(),
        "Location": f"{values[1]} (a hint that nobody checks)" if values[1] else "none",
    }
    return facts, [value.partition(" ")[2] or "(empty)" for value in values[3:-1]]


def is_understood_by_tool(caveat):
    status, output = tool("narrow", "--", caveat, given=AMY)
    check(status in (0, 5), "passtool narrow", caveat, output)
    return status == 0


# ---- The browser

# JavaScript functions for the calls below. The functions fill in the page's fields and read the
# visible texts, as a person does.
HELPERS = """
const byId = (id) => document.getElementById(id);
const changed = (field) => field.dispatchEvent(new Event("input", { bubbles: true }));
const textsOf = (root, selector) => [...root.querySelectorAll(selector)].map((each) => each.textContent);
const enter = (text) => { byId("given").value = text; changed(byId("given")); };
const limitsOf = (root) => [...root.querySelectorAll("li")].map((limit) => ({
  text: limit.querySelector("code").textContent, words: limit.firstChild.textContent,
  understood: limit.querySelector(".odd") === null, isNew: limit.querySelector(".new") !== null }));
const factsOf = (root) => Object.fromEntries(textsOf(root, "dt").map((name, place) => [name, textsOf(root, "dd")[place]]));
const choose = (name, value) => {
  for (const field of document.querySelectorAll(`[name="${name}"]`)) {
    if (field.type === "checkbox" || field.type === "radio") field.checked = value.includes(field.value);
    else field.value = value;
  }
  changed(document.querySelector(`[name="${name}"]`));
};
const shownOf = (choice) => [byId(choice + "-made").innerText, byId(choice + "-wrong").textContent,
  byId(choice).querySelector("[aria-invalid=true]") !== null];
const outcome = async () => {
  while (byId("result").hidden && byId("narrow-fault").textContent === "") await new Promise((next) => setTimeout(next));
  return byId("result").hidden
    ? { fault: byId("narrow-fault").textContent }
    : { text: byId("narrowed").value, address: byId("address").value, limits: limitsOf(byId("result-pass")),
        notes: textsOf(byId("result-notes"), "strong") };
};
const narrow = async ([text, fields]) => {
  byId("choices").reset();
  enter(text);
  for (const [name, value] of fields) choose(name, value);
  byId("choices").requestSubmit();
  return outcome();
};
const read = (text) => {
  enter(text);
  const fault = [...byId("given-fault").children].map((each) => each.textContent);
  return { fault, facts: factsOf(byId("given-pass")), limits: limitsOf(byId("given-pass")), shown: byId("given-pass").textContent };
};
"""


class NarrowingPage(Browser):
    helpers = HELPERS

    def narrow(self, text, *fields):
        """Enters the text of a pass, and makes a choice for each (name, value) in `fields`. Returns
        the page's answer."""
        return self.each("narrow", [(text, fields)])[0]

    def visit(self, text=""):
        self.open(f"{PAGE.as_uri()}#{text}" if text else PAGE.as_uri())

    def pause(self):
        self.run("return new Promise((done) => setTimeout(done, 200))")


# ---- Drawn passes and caveats


def drawn_bytes(most):
    size = draw.choice([0, 1, 5, draw.randint(0, most)])
    kind = draw.randrange(4)
    if kind == 0:
        return draw.randbytes(size)
    if kind == 1:
        mark = draw.choice(
            ["", "", "", "\ufeff"]
        )  # the page must treat a byte order mark as an ordinary character
        return (mark + "".join(draw.choices('é"\\/\n\t\x00\x1f\x7f\u2028😀 aä€', k=size))).encode()
    return "".join(draw.choices("abcdefgh :/-=<0123456789", k=size)).encode()


def drawn_name():
    first = draw.choice("abcxyz0123456789")
    return first + "".join(draw.choices("abcxyz-0123456789", k=draw.choice([0, 3, 6, 23])))


def drawn_day():
    return f"{date(2000, 1, 1) + timedelta(days=draw.choice([0, 36524, draw.randint(0, 36524)]))}"


def some_of(words):
    return ",".join([word for word in words if draw.random() < 0.5] or [draw.choice(words)])


def drawn_line(choice):
    hours, days = sorted(draw.sample(range(25), 2)), sorted([drawn_day(), drawn_day()])
    return {
        "kind": "kind = " + draw.choice(["court", "boat", "room"]),
        "facility": "facility = "
        + ",".join(drawn_name() for _ in range(draw.choice([1, 1, 2, 3, 8]))),
        "actions": "actions = " + some_of(ACTIONS),
        "weekday": "weekday = " + some_of(WEEKDAYS),
        "days": f"days = {days[0]}..{days[1]}",
        "hours": f"hours = {hours[0]:02}-{hours[1]:02}",
        "until": f"until < {drawn_day()}T{draw.randrange(24):02}:{draw.randrange(60):02}",
        "guests": f"guests <= {draw.choice([0, 1, 9, 10, 49, draw.randrange(50)])}",
        "spend": f"spend <= {draw.choice([0, 7, 600, 10**9 - 1, draw.randrange(10**9)])}",
    }[choice]


def fields_of(*lines):
    """Returns (name, value) for each field of the page that must be filled in to add these
    caveats."""
    found = []
    for line in lines:
        name, _, value = re.split(" (=|<=|<) ", line)
        if name in ("kind", "actions", "weekday"):
            found.append((name, value.split(",")))
        elif name in ("days", "hours"):
            ends, cut = (("first", "last"), "..") if name == "days" else (("from", "to"), "-")
            found += [(f"{name}-{end}", part) for end, part in zip(ends, value.split(cut))]
        else:
            found.append((name, value.replace(",", draw.choice([",", ", ", " "]))))
    return found


def drawn_pass():
    identifier = f"key:{drawn_name()}".encode() if draw.random() < 0.6 else drawn_bytes(300)
    known = [drawn_line(draw.choice(CHOICES)).encode() for _ in range(draw.choice([0, 0, 1, 2, 5]))]
    odd = [drawn_bytes(200) for _ in range(draw.choice([0, 0, 0, 1, 3]))]
    caveats = known + odd
    draw.shuffle(caveats)
    location = draw.choice([b"", b"club-desk", drawn_bytes(200)])
    return Pass(location, identifier, caveats, draw.randbytes(32))


def drawn_spelling(form, drawn):
    """Draws a text that readers accept as this pass. Many of the drawn texts differ from the text
    that our programs write."""
    text = written(form, drawn)
    if form == "json":
        names = json.loads(text)
        if draw.random() < 0.3:
            del names["v"]
        if draw.random() < 0.3:
            names["i64"] = unpadded(drawn.identifier)
            names.pop("i", None)
        shuffled = dict(draw.sample([*names.items()], len(names)))
        text = json.dumps(
            shuffled, ensure_ascii=draw.random() < 0.5, indent=draw.choice([None, None, 1])
        )
        return draw.choice([text, text, re.sub("=", "", base64.b64encode(text.encode()).decode())])
    if draw.random() < 0.3:
        text += "=" * (-len(text) % 4)
    return text.replace("-", "+").replace("_", "/") if draw.random() < 0.3 else text


def keep(name, picture):
    pathlib.Path(PICTURES, name).write_bytes(base64.b64decode(picture))

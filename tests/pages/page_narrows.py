#!/usr/bin/env -S /usr/bin/python3 -B
"""`web/pass.html` narrows 1,000 passes and reads 4,000 texts in a browser in the same way as `passtool`, and sends nothing.

The test runs in Debian's chromium. The test's main parts also run in Firefox and WebKitGTK. The page narrows 1,000 passes in three forms to the same
bytes as `passtool narrow`. The page reads 2,000 randomly changed passes and 2,000 texts of caveats in the same way as `passtool`, and explains each
fault. The page works by keyboard alone, fits a phone, and sends nothing. The page loads only the club's list, if the server has one.

The test covers:
- texts that aren't passes: the page must report the same fault as passtool
- each choice with its sentence and its caveat, addresses, copying and sharing, and a browser that can't sign
- names for screen readers, contrasts, and the page's content security policy, under which no foreign script runs
- in each browser: a pass that the page reads, narrows and shows as a link and a QR code, the page's texts, and the club's data

  tests/pages/page_narrows.py            runs the test
  tests/pages/page_narrows.py FOLDER     also saves pictures of the page in FOLDER
"""
# pytestmark = [mark.browser, mark.needs("passtool"),
#     mark.wants("chromium chromium-driver python3-selenium firefox-esr webkit2gtk-driver xvfb zbar-tools")]

import base64
import contextlib
import functools
import http.server
import itertools
import json
import pathlib
import re
import shutil
import sys
import threading
from collections import Counter
from pathlib import Path

from selenium.webdriver.common.action_chains import ActionChains
from selenium.webdriver.common.keys import Keys

sys.path[:0] = [str(Path(__file__).resolve().parents[1] / it) for it in ("lib", "")]
import page_engines
from narrowing_page import (
    AMY,
    CHOICES,
    FORMS,
    HELPERS,
    NarrowingPage,
    PAGE,
    ROOM,
    amys,
    draw,
    drawn_line,
    drawn_pass,
    drawn_spelling,
    fields_of,
    keep,
    narrowed_by_tool,
    written,
)
from narrows_texts import (
    README_PASS,
    SHORT,
    answers_faulty_texts,
    compare_reading,
    faulty_texts,
    narrows_as_passtool,
    reads_spoiled_texts,
    refuses_to_write_as_passtool,
    understands_as_passtool,
)
from page_browser import check, policy_holds
from reference.caveats import ACTIONS, WEEKDAYS
from reference.passes import Pass

SENTENCES = {
    "kind = court": "Only courts.",
    "kind = boat": "Only boats.",
    "facility = court-1": "Only court-1.",
    "facility = court-1,court-1": "Only court-1.",
    "facility = court-1,court-2,room-1": "Only court-1, court-2 or room-1.",
    "hours = 18-20": "Only slots that begin at 18:00 or later, but before 20:00.",
    "days = 2026-05-01..2026-05-31": "Only from Friday 1 May 2026 to Sunday 31 May 2026, including both days.",
    "days = 2024-02-29..2024-02-29": "Only on Thursday 29 February 2024.",
    "until < 2026-05-01T18:00": "Until Friday 1 May 2026, 18:00.",
    "until < 2000-01-01T00:00": "Until the end of Friday 31 December 1999.",
    "until < 2099-12-31T23:59": "Until Thursday 31 December 2099, 23:59.",
    "weekday = sat,sun": "Only on Saturdays or Sundays.",
    "weekday = mon": "Only on Mondays.",
    "guests <= 0": "Only bookings with no guests.",
    "guests <= 1": "Only bookings with at most 1 guest.",
    "guests <= 12": "Only bookings with at most 12 guests.",
    "spend <= 0": "No bookings that cost points.",
    "spend <= 1": "At most 1 point in all. Every booking ever made with this pass, or with a pass narrowed from it, counts towards this limit.",
    "spend <= 123456789": "At most 123,456,789 points in all. Every booking ever made with this pass, or with a pass narrowed from it, counts towards this limit.",
    "actions = view,book": "The holder may only look at slots or book.",
    "actions = view,cancel,account": "The holder may only look at slots, cancel bookings or look at the account.",
    "shoe = red": "The desk doesn't understand this limit, so it refuses the pass.",
}
# Each row has a caveat, and the inputs that must give this caveat.
CHOSEN = [
    ("facility = court-1,court-2,room-1", [("facility", " court-1 , court-2;room-1 ")]),
    ("weekday = sat,sun", [("weekday", ["sun", "sat"])]),
    ("actions = view,book,account", [("actions", ["account", "view", "book"])]),
    ("guests <= 49", [("guests", " 49 ")]),
    *(
        (line, fields_of(line))
        for line in (
            "kind = boat",
            "facility = court-1",
            "actions = view",
            "actions = view,book,cancel,account",
            "days = 2026-05-01..2026-05-31",
            "days = 2026-05-01..2026-05-01",
            "weekday = mon,tue,wed,thu,fri,sat,sun",
            "hours = 18-20",
            "hours = 00-24",
            "until < 2026-05-01T18:00",
            "guests <= 0",
            "spend <= 600",
            "spend <= 999999999",
        )
    ),
]
# For these inputs the page explains the required form, and adds no caveat.
WRONG = {
    "facility": ["Court-1", "court 1 -", "a b c d e f g h i", "é"],
    "until": ["1999-12-31T23:59", "2026-05-01T18:00:30"],
    "guests": ["50", "-1", "two", "01", "1.5"],
    "spend": ["1000000000", "1,000", "1e3", "-5"],
    "days-first": ["2026-05-01"],
    "days-last": ["2026-05-01"],
    "days-first days-last": [
        "2026-05-02 2026-05-01",
        "1999-12-31 2026-05-01",
        "2026-05-01 2100-01-01",
    ],
    "hours-from": ["18"],
    "hours-to": ["18"],
    "hours-from hours-to": ["20 18", "18 18"],
}


def choices_say_what_they_add(page):
    for line, sentence in SENTENCES.items():
        limits = page.each("read", [amys("v2", line)])[0]["limits"]
        check(
            limits[0]["words"] == sentence and limits[0]["text"] == line,
            "a sentence",
            line,
            sentence,
            limits,
        )
    for line, fields in CHOSEN:
        answer = page.narrow(AMY, *fields)
        made, wrong, marked = page.run("return shownOf(arguments[0])", line.split()[0])
        check(
            not wrong and not marked and made.split("\n")[-1] == line,
            "the caveat that a choice shows",
            fields,
            made,
            wrong,
        )
        sentence = page.run("return sentenceOf(bytesOf(arguments[0]))", line)
        check(made.split("\n")[0] == sentence, "the sentence of a choice", fields, made)
        check(
            answer.get("text") == narrowed_by_tool(AMY, [line]),
            "the caveat that a choice adds",
            fields,
            answer,
        )
    for names, value in ((names.split(), it) for names, its in WRONG.items() for it in its):
        fields, choice = (
            list(zip(names, value.split() if names[1:] else [value])),
            names[0].partition("-")[0],
        )
        answer = page.narrow(AMY, *fields)
        made, wrong, marked = page.run("return shownOf(arguments[0])", choice)
        check(
            "One of your choices is wrong" in answer.get("fault", ""),
            "a wrong choice",
            fields,
            answer,
        )
        check(
            wrong and marked and not made,
            "the explanation of a wrong choice",
            fields,
            made,
            wrong,
            marked,
        )
        # The message disappears as soon as the field is empty again.
        page.run("for (const name of arguments[0]) choose(name, '');", names)
        _, wrong, marked = page.run("return shownOf(arguments[0])", choice)
        check(not wrong and not marked, "an emptied choice", fields, wrong)
    nothing = page.narrow(AMY)
    check(nothing.get("fault") == "Choose at least one limit.", "no choice", nothing)
    nothing = page.narrow("", ("guests", "1"))
    check("First enter a pass in the field above" in nothing.get("fault", ""), "no pass", nothing)
    print(
        f"{len(SENTENCES)} sentences, and {len(CHOSEN) + sum(map(len, WRONG.values()))} choices that add their caveats or explain the required form"
    )


def half_a_date_is_no_date(page):
    """The value of an incomplete date field is empty, but the page doesn't treat the field as empty."""
    page.visit(AMY)
    page.run("byId('days-first').focus()")
    page.press("05", Keys.TAB)
    page.run("byId('choices').requestSubmit()")
    check(
        page.run("return byId('days-wrong').textContent") != ""
        and page.run("return byId('result').hidden"),
        "half a date",
    )


NOTES = [
    ([], ["The new pass can cancel.", "The new pass shows the account."]),
    (["actions = view,book"], []),
    (["actions = view,book,account"], ["The new pass shows the account."]),
    (["actions = view,book,account", "kind = court"], []),
    (["kind = court"], ["The new pass can cancel."]),
    (["weekday = sat", "spend <= 600"], ["The new pass can cancel.", "Points count together."]),
    (
        ["until < 2026-05-01T18:00", "guests <= 1"],
        ["The new pass can cancel.", "The new pass shows the account."],
    ),
    (["shoe = red", "spend <= 600"], ["The desk refuses the pass."]),
    (["actions = view,view"], ["The desk refuses the pass."]),
]


def notes_say_what_matters(page):
    for lines, titles in NOTES:
        answer = page.narrow(amys("v2", *lines), ("guests", "3"))
        check(answer["notes"] == titles, "the notes about a pass", lines, titles, answer["notes"])
    stranger = page.each("read", [written("v2", README_PASS)])[0]
    check("name that the desk can look up" in stranger["shown"], "a stranger's pass", stranger)
    check(
        stranger["facts"]["Identifier"] == "we used our secret key",
        "the identifier of a stranger's pass",
        stranger,
    )
    text = page.run("return document.body.innerText")
    for words in [
        "Every booking ever made with your pass, or with a pass narrowed from it",
        "narrow a spare pass or another pass from the office",
        "can also cancel bookings made with your pass",
        "Days and times are in the club's time zone",
    ]:
        check(words in re.sub(r"\s+", " ", text), "the page doesn't say", words)
    print(f"{len(NOTES)} passes come with the right notes")


# One line for each choice.
NINE_LINES = [
    "kind = court",
    "facility = court-1,court-2",
    "actions = view,book",
    "days = 2026-05-01..2026-05-31",
    "weekday = sat,sun",
    "hours = 18-20",
    "until < 2026-05-01T18:00",
    "guests <= 2",
    "spend <= 600",
]


def goes_by_keyboard(page):
    """Narrows a pass and copies it to the clipboard without a mouse. At each step the user can see which element has the focus."""
    page.visit()

    def tab(*keys):
        page.press(Keys.TAB)
        page.focus_is_seen()
        page.press(*keys)

    def enter(stop, *keys):
        """Checks that the field `stop` has the focus, and types the keys. Then presses Tab until the focus leaves the field."""
        check(page.focused() == stop, "the focused field", stop, page.focused())
        page.press(*keys, Keys.TAB)
        while page.focused() == stop:
            page.press(Keys.TAB)

    tab(AMY)
    tab(Keys.ARROW_RIGHT)
    tab("court-1, court-2")
    for action in ACTIONS:
        tab(*([" "] if action in ("view", "book") else []))
    page.press(Keys.TAB)
    enter("days-first", "05012026")
    enter("days-last", "05312026")
    for day in WEEKDAYS:
        enter(day, *([" "] if day in ("sat", "sun") else []))
    page.press("18", Keys.TAB, "20", Keys.TAB)
    enter("until-moment", "050120260600PM")
    page.press("2", Keys.TAB, "600", Keys.TAB)
    check(page.focused() == "narrow", "the button", page.focused())
    page.press(Keys.ENTER)
    page.run("return outcome()")
    check(page.focused() == "result-title", "the focus at the result", page.focused())
    wanted = narrowed_by_tool(AMY, NINE_LINES)
    got = page.run("return byId('narrowed').value")
    check(got == wanted, "a pass narrowed by keyboard", got, wanted)
    check("9 limits added" in page.run("return byId('outcome').textContent"), "the outcome")
    page.press(Keys.TAB, Keys.TAB)
    check(page.focused() == "copy", "the button that copies", page.focused())
    page.press(Keys.ENTER)
    page.pause()
    check(
        page.run("return byId('narrowed-message').textContent") == "The pass is copied.",
        "copying by keyboard",
    )
    pasted(page, wanted)
    print("all steps by keyboard, with nine choices, up to a copied pass")


def pasted(page, wanted):
    """Pastes the clipboard's text as the pass."""
    page.run("byId('given').value = ''; byId('given').focus();")
    ActionChains(page.driver).key_down(Keys.CONTROL).send_keys("v").key_up(Keys.CONTROL).perform()
    value = page.run("return byId('given').value")
    check(value == wanted, "the copied text", value, wanted)


def hands_on(page):
    """The addresses of a narrowed pass work. The page removes an outdated result."""
    for form in FORMS:
        text = written(
            form, Pass(b"club %23#", b"key:amy-1", [b"kind = court", b"100% & <\xff>"], bytes(32))
        )
        answer = page.narrow(text, ("guests", "1"))
        wanted = narrowed_by_tool(text, ["guests <= 1"])
        address = answer["address"]
        check(address.startswith(PAGE.as_uri() + "#"), "an address", address)
        # A click copies the address. The user can paste the address into the field for the pass. If the user opens the address, the field has the pass.
        page.click("copy-address")
        page.pause()
        pasted(page, address)
        check(
            page.run("return byId('given-pass').textContent") != "",
            "an address that is entered",
            address,
        )
        page.open(address)
        check(
            page.run("return byId('given').value") == wanted, "an address that is opened", address
        )
        check(
            len(page.run("return limitsOf(byId('given-pass'))")) == 3,
            "limits of an address",
            address,
        )
    # If the fragment of the address changes, the page reads the new pass.
    page.run("location.hash = '#' + arguments[0]", AMY)
    page.pause()
    check(page.run("return byId('given').value") == AMY, "another pass after #")
    # If the user changes a choice or the pass, the page removes the old result.
    for then, word in (("choose('guests', arguments[0])", "2"), ("enter(arguments[0])", AMY[:-1])):
        page.narrow(AMY, ("guests", "1"))
        page.run(then, word)
        check(
            page.run("return byId('result').hidden"),
            "a result for other choices, or for another pass",
            then,
        )
    page.run(
        """enter(arguments[0]); byId("choices").requestSubmit(); enter(arguments[0].slice(1));
        return new Promise((done) => setTimeout(done, 300));""",
        AMY,
    )
    check(
        page.run("return byId('result').hidden"),
        "a result for a pass that was replaced during signing",
    )
    check(page.run("return byId('share').hidden"), "a browser that doesn't share")


def shares():
    """The page can share a pass, and can copy it even if the browser refuses access to the clipboard."""
    with NarrowingPage(
        before="""navigator.share = async (what) => { globalThis.shared = what; };
            navigator.clipboard.writeText = async () => { throw new Error(); };"""
    ) as page:
        page.visit()
        text = page.narrow(AMY, ("kind", ["court"]))["text"]
        page.click("share")
        check(
            page.run("return globalThis.shared")
            == {"text": text, "url": page.run("return byId('book-address').value")},
            "the shared pass",
        )
        check(
            page.run("return byId('book-address').value").endswith(f"/book.html#{text}"),
            "the address to book with",
        )
        page.click("copy")
        check(
            "is selected" in page.run("return byId('narrowed-message').textContent"),
            "a clipboard that refuses",
        )
        check(page.run("return String(getSelection())") == text, "the selected text")
    print("addresses, copying and sharing give the narrowed pass")


class Folder(http.server.SimpleHTTPRequestHandler):
    asked = []

    def log_message(self, form, *words):
        self.asked.append(self.requestline)


@contextlib.contextmanager
def served(folder):
    """Starts a server with the files of a folder. Yields the server's port."""
    Folder.asked.clear()
    server = http.server.ThreadingHTTPServer(
        ("127.0.0.1", 0), functools.partial(Folder, directory=folder)
    )
    threading.Thread(target=server.serve_forever, daemon=True).start()
    try:
        yield server.server_port
    finally:
        server.shutdown()


CLUB = {
    "name": "Rowing & tennis",
    "zone": "Europe/Berlin",
    "contact": "Tel. 030 1234",
    "imprint": "https://club.example/imprint",
    "privacy": "javascript:alert(1)",
    "logo": "data:image/svg+xml;base64,PHN2ZyB4bWxucz0iaHR0cDovL3d3dy53My5vcmcvMjAwMC9zdmciLz4=",
    "facilities": [
        {
            "name": "court-1",
            "title": "Court 1",
            "about": "Clay. Flat soles, please.",
            "kind": "court",
            "opens": 8,
            "shuts": 22,
        },
        {"name": "room-1", "kind": "room", "opens": 8, "shuts": 22},
    ],
}


def of_a_club(engine, address):
    """The page shows the club's logo, contact and links, and its facilities with their sentences. A press chooses a facility."""
    engine.open(f"{address}#{AMY}")
    engine.when("byId('club-contact').innerText !== ''", "the club")
    text = engine.run("return document.body.innerText")
    check(
        "Questions? Tel. 030 1234" in text and "Clay. Flat soles, please." in text,
        engine.name,
        "the club",
        text,
    )
    links = engine.run(
        "return [...document.querySelectorAll('#club-links a')].map((each) => [each.href, each.innerText])"
    )
    check(links == [[CLUB["imprint"], "Imprint"]], engine.name, "its links", links)
    check(
        engine.run(
            "const logo = document.getElementById('club-logo'); return [logo.hidden, logo.src]"
        )
        == [False, CLUB["logo"]],
        engine.name,
        "its logo",
    )
    engine.press("Court 1", "club-facilities")
    engine.press("room-1", "club-facilities")
    engine.press("Court 1", "club-facilities")
    found = engine.get("return [byId('facility-names').value, byId('facility-made').textContent]")
    check(
        found == ["room-1", "Only room-1.facility = room-1"],
        engine.name,
        "a pressed facility",
        found,
    )
    pressed = engine.run(
        "return [...document.querySelectorAll('#club-facilities button')].map((each) => each.getAttribute('aria-pressed'))"
    )
    check(pressed == ["false", "true"], engine.name, "the pressed button", pressed)


def narrows_and_hands_on(engine, address):
    """Reads and narrows passes in the same way as passtool. Checks the addresses of the result, its QR code, and the page's words."""
    base = address.rsplit("/", 1)[0]
    engine.open(address)
    for text, fault, words in faulty_texts()[::7]:
        check(
            compare_reading(text, answer := engine.get("return read(arguments[0])", text)) == fault
            and words in answer["fault"][1],
            engine.name,
            "a faulty text",
            text,
            answer,
        )
    for place in range(30):
        form, it, lines = (
            FORMS[place % 3],
            drawn_pass(),
            [drawn_line(choice) for choice in sorted(draw.sample(CHOICES, 3), key=CHOICES.index)],
        )
        text = drawn_spelling(form, it)
        engine.get(
            "byId('choices').reset(); enter(arguments[0]); for (const [name, value] of arguments[1]) choose(name, value); byId('choices').requestSubmit()",
            text,
            fields_of(*lines),
        )
        engine.when(
            "!byId('result').hidden || byId('narrow-fault').textContent !== ''",
            "a result",
            text,
            lines,
        )
        found = engine.get("return byId('narrowed').value")
        check(
            found == narrowed_by_tool(text, lines),
            engine.name,
            "the page narrows differently",
            text,
            lines,
            found,
        )
    # Enters a pass, makes one choice, and presses the button.
    engine.open(f"{address}#{AMY}")
    engine.tap("//button[@id='narrow']")
    engine.when("byId('narrow-fault').textContent === 'Choose at least one limit.'", "no choice")
    engine.tap("//input[@name='kind'][@value='court']")
    engine.type("//input[@id='spend-most']", "600")
    engine.tap("//button[@id='narrow']")
    engine.when("!byId('result').hidden", "a narrowed pass")
    wanted = narrowed_by_tool(AMY, ["kind = court", "spend <= 600"])
    found = engine.get("return ['narrowed', 'address', 'book-address'].map((id) => byId(id).value)")
    check(
        found == [wanted, f"{address}#{wanted}", f"{base}/book.html#{wanted}"],
        engine.name,
        "the narrowed pass and its addresses",
        found,
    )
    read = engine.code("book-qr")
    check(read == found[2], engine.name, "its QR code", read)
    keep(f"{engine.name}-pass.png", base64.b64encode(engine.picture()))
    check(
        "scan this code" in engine.get("return byId('book-qr-words').innerText"),
        engine.name,
        "the words of the QR code",
    )
    engine.tap("//button[@id='copy-book-address']")
    engine.when(
        "/^The link is (copied|selected)/.test(byId('book-address-message').textContent)",
        "the message after copying",
    )
    engine.get("byId('language').value = 'de'; byId('language').dispatchEvent(new Event('change'))")
    engine.when(
        "document.documentElement.lang === 'de' && document.querySelector('h1').innerText !== 'Narrow a pass'",
        "German",
    )


def other_engines():
    """Runs the main tasks in each browser, with a club's list next to the page. The browser requests only the page and this list from the server."""
    folder = pathlib.Path(ROOM.name, "club")
    folder.mkdir()
    shutil.copy(PAGE, folder)
    (folder / "club.json").write_text(json.dumps(CLUB), encoding="utf-8")
    for engine_of in (page_engines.Chromium, page_engines.Firefox, page_engines.WebKit):
        with served(folder) as port, engine_of() as engine:
            engine.helpers = HELPERS
            address = f"http://localhost:{port}/pass.html"
            of_a_club(engine, address)
            narrows_and_hands_on(engine, address)
            asked = {line.split()[1].split("?")[0] for line in Folder.asked}
            check(
                asked == {"/pass.html", "/club.json"},
                engine.name,
                "the requests to the server",
                Folder.asked,
            )
            print(
                f"{engine.name} {engine.version} reads and narrows passes as passtool does, makes a link and a QR code, explains a missing choice, and shows the club"
            )


def only_shows_where_it_cannot_sign():
    """Over http, browsers allow signatures only on localhost. On another host, the page can't narrow a pass, but still shows it. The browser requests
    only the page from the server."""
    with served(PAGE.parent) as port, NarrowingPage(
        rules="MAP club.example 127.0.0.1, MAP * ~NOTFOUND"
    ) as page:
        address = f"http://club.example:{port}/pass.html"
        page.open(f"{address}#{AMY}")
        check(
            page.run("return window.isSecureContext") is False,
            "a page over http isn't a secure context",
        )
        check(
            "can't sign a pass" in page.run("return byId('unsigned').textContent"),
            "a page that can't sign says so",
        )
        check(page.run("return byId('narrow').disabled"), "a page that can't sign doesn't narrow")
        check(
            page.run("return factsOf(byId('given-pass')).Name") == "amy-1",
            "a page that can't sign shows a pass",
        )
        answer = page.narrow(AMY, ("guests", "1"))
        check(
            "can't sign a pass" in answer.get("fault", ""),
            "a page that can't sign doesn't narrow, even if the form is submitted",
            answer,
        )
        page.sent_nothing(address)
    check(Folder.asked == ["GET /pass.html HTTP/1.1"], "the requests to the server", Folder.asked)
    print(
        "a page that can't sign shows a pass and narrows none; the browser requested only the page"
    )


def named_for_screen_readers(page):
    live = {
        "given-pass",
        "given-fault",
        "narrow-fault",
        "outcome",
        "narrowed-message",
        "address-message",
        "unsigned",
    }
    roles = Counter(node["role"]["value"] for node in page.is_named(("region", "group"), live))
    check(
        roles["banner"] == roles["main"] == roles["contentinfo"] == 1 and roles["region"] == 3,
        "landmarks",
        roles,
    )
    check(
        roles["RootWebArea"] == 1
        and page.run("return document.querySelectorAll('h1').length") == 1,
        "one heading of the page",
    )
    check(page.run("return document.documentElement.lang") == "en", "the language")


def looks_right(page):
    """Takes pictures of the full page. On a phone, the page doesn't scroll sideways. Checks contrasts, and names for screen readers."""
    everything = Pass(
        b"club-desk",
        b"key:amy-1",
        [b"shoe = red" + b"x" * 300, b"facility = " + b",".join([b"a" * 24] * 8)],
        bytes(range(32)),
    )
    page.visit()
    choices = fields_of("kind = court", "facility = " + ",".join(["b" * 24] * 8), *NINE_LINES[2:])
    texts = 0
    for state in (
        lambda: None,
        lambda: page.narrow(written("json", everything), *choices),
        lambda: page.narrow(AMY, ("guests", "x"), ("facility", "É"), ("until", "1999-01-01T00:00")),
        lambda: page.run("enter(arguments[0])", "{" + '"x' * 200 + '":1,' + SHORT),
    ):
        state()
        for scheme in ("light", "dark"):
            for width in (360, 390, 1200):
                page.fits(width, scheme)
            texts += page.is_legible(scheme)
        if not page.run("return byId('result').hidden"):
            named_for_screen_readers(page)
    page.visit(AMY)
    page.narrow(
        AMY,
        ("kind", ["court"]),
        ("actions", ["view", "book"]),
        ("until", "2026-05-01T18:00"),
        ("spend", "600"),
    )
    for width, scheme in itertools.product((390, 1200), ("light", "dark")):
        page.sees(width, scheme)
        keep(f"pass-{width}-{scheme}.png", page.picture())
    # Takes the picture for README, which shows the choices and the result next to each other.
    page.sees(390, "light")
    page.run("document.activeElement.blur()")
    tops = page.run(
        "return ['kind', 'result'].map((id) => byId(id).getBoundingClientRect().top + scrollY - 12)"
    )
    keep("pass-page.png", page.side_by_side([page.picture(top, 820) for top in tops], 800, 820))
    print(
        f"{texts} texts with a contrast of at least 4.5, names for screen readers, no sideways scrolling from 360 pixels on"
    )


def large_letters():
    """Checks the page with doubled letter size at a width of 360 pixels, in both languages: empty, with a narrowed pass, and with faults."""
    for language in ("en-US", "de-DE"):
        with NarrowingPage(letters=32, language=language) as page:
            page.sees(360, "light", 740)
            for name, show in {
                "empty": page.visit,
                "narrowed": lambda: (page.visit(AMY), page.narrow(AMY, *fields_of(*NINE_LINES))),
                "faulty": lambda: (
                    page.narrow(
                        AMY, ("guests", "x"), ("facility", "É"), ("until", "1999-01-01T00:00")
                    ),
                    page.run("enter('{')"),
                ),
            }.items():
                show()
                page.cuts_nothing_off(360, name, language)
                page.breaks_no_word(name, language)
                page.is_audited(name, language)
                keep(f"pass-large-{name}-{language[:2]}.png", page.picture())
    print("with doubled letter size at 360 pixels, nothing is cut off; an audit finds nothing")


def main():
    policy_holds(PAGE, {"connect-src": "'self'"}, "localStorage|sendBeacon")
    asks = re.findall(r"fetch\(([^,)]*)", PAGE.read_text(encoding="utf-8"))
    check(asks == ['"club.json"'], "the page requests only the club's list", asks)
    with NarrowingPage() as page:
        page.visit()
        check(
            page.run("return window.isSecureContext && crypto.subtle !== undefined"),
            "a browser that signs in a page from a folder",
        )
        for holds in (
            narrows_as_passtool,
            refuses_to_write_as_passtool,
            answers_faulty_texts,
            reads_spoiled_texts,
            understands_as_passtool,
            choices_say_what_they_add,
            notes_say_what_matters,
            half_a_date_is_no_date,
            hands_on,
            goes_by_keyboard,
        ):
            holds(page)
        page.sent_nothing(PAGE.as_uri())
        looks_right(page)
    large_letters()
    shares()
    only_shows_where_it_cannot_sign()
    other_engines()
    print("the page narrows")


main()

#!/usr/bin/env -S /usr/bin/python3 -B
"""The pictures in docs/ show the words that the booking page and the office's menu show now.

The booking page is web/demo.html, with a club of another name, at a fixed moment and with fixed booking numbers. The menu is printed as `office` prints
it, on a fixed day. docs/pictures.sums has a digest of the words in each picture.

  tests/pages/pictures.py            takes the pictures in docs/, and writes docs/pictures.sums
  tests/pages/pictures.py --check    fails if a picture shows other words than the pages now
"""

# pytestmark = [mark.quick("--check"), mark.wants("chromium chromium-driver python3-selenium")]

import argparse
import base64
import datetime
import hashlib
import html
import re
import sys
import tempfile
import time
from pathlib import Path

ROOT = Path(__file__).resolve().parents[2]
sys.path[:0] = [str(ROOT / it) for it in ("tests/lib", "deploy")]
from club_office import menu, texts
from page_browser import Browser, check

DOCS = ROOT / "docs"
SUMS = DOCS / "pictures.sums"
CLUB, DAY = "Lakeside Club", datetime.date(2027, 5, 8)
# The page's clock always shows 12:02 in Berlin on DAY, and the page draws the same booking numbers each time.
FIXED = """
(() => {
  const fixed = Date.parse("2027-05-08T10:02:00Z"), Real = Date;
  globalThis.Date = class extends Real {
    constructor(...words) { super(...(words.length > 0 ? words : [fixed])); }
    static now() { return fixed; }
  };
  let drawn = 7;
  crypto.getRandomValues = (array) => {
    for (let place = 0; place < array.length; place++) array[place] = drawn = (drawn * 69069 + 1) >>> 0;
    return array;
  };
})();
"""
PRESSED = """
const [words] = arguments;
const button = [...document.querySelectorAll("button, summary")].find((it) => it.offsetParent
  && [it.innerText.trim(), it.getAttribute("aria-label") ?? ""].some((each) => each.startsWith(words)));
button?.click();
return button !== undefined;
"""
WORDS = "return (document.querySelector('dialog[open]') ?? document.body).innerText"
TERMINAL = "body { margin: 0; padding: 16px 20px; background: #1d2420; color: #e6ebe7; font: 15px/1.35 'DejaVu Sans Mono', monospace; white-space: pre; }"


class Shown:
    """The booking page of the example club, with the words and the pictures that it showed."""

    def __init__(self, page, folder):
        self.page, self.words, self.pictures = page, [], []
        text = (ROOT / "web" / "demo.html").read_text(encoding="utf-8")
        check("Club to try" in text, "web/demo.html has another club")
        # The page's policy names the digest of its script, which has another club's name here.
        text = re.sub(r'<meta http-equiv="Content-Security-Policy"[^>]*>\n?', "", text)
        file = Path(folder, "demo.html")
        file.write_text(text.replace("Club to try", CLUB), encoding="utf-8")
        page.sees(360, "light", 740)
        page.open(file.as_uri())
        self.sees_no_note()

    def sees_no_note(self):
        self.until("4 of 4 free")
        self.page.run("document.querySelector('[data-say=demo-note]').remove()")

    def until(self, words):
        """Waits until the page shows the words."""
        for _ in range(100):
            if words in self.page.run("return document.body.innerText"):
                return
            time.sleep(0.1)
        check(
            False, "the page doesn't show", words, self.page.run("return document.body.innerText")
        )

    def press(self, words):
        for _ in range(50):
            if self.page.run(PRESSED, words):
                return
            time.sleep(0.1)
        check(False, "no button", words)

    def take(self):
        self.page.run("document.activeElement.blur(); window.scrollTo(0, 0)")
        time.sleep(0.5)
        self.words.append(self.page.run(WORDS))
        self.pictures.append(self.page.command("Page.captureScreenshot")["data"])


def booking_page(page, folder):
    """A phone: a day's slots, a booking, and the member's bookings."""
    shown = Shown(page, folder)
    shown.press("The day after")
    shown.until("Sunday 9 May")
    shown.press("Court 1, 10:00")
    shown.press("One guest more")
    shown.press("Book for")
    shown.until("Booked")
    shown.press("Close")
    shown.until("Yours, 2 ")
    shown.take()
    shown.press("Court 1, 11:00")
    shown.press("One guest more")
    shown.take()
    shown.press("Close")
    shown.press("Bookings")
    shown.until("My bookings")
    shown.take()
    return shown, (1120, 740)


def booking_widths(page, folder):
    """The same day on a phone, a tablet and a computer."""
    shown = Shown(page, folder)
    shown.press("The day after")
    shown.until("Sunday 9 May")
    for width, height in ((360, 740), (768, 900), (1280, 900)):
        page.sees(width, "light", height)
        shown.take()
    return shown, (1283, 450)


def menu_text():
    """Returns the menu that `office` prints, with the question for a task."""
    title = texts.say("menu", club="lakeside", day=texts.day_text(DAY))
    lines = ["$ office lakeside", "", title, *menu.menu_lines(), texts.say("menu ends")]
    return "\n".join([*lines, texts.say("task")])


def office_menu(page):
    page.open(
        "data:text/html;charset=utf-8;base64,"
        + base64.b64encode(
            f"<style>{TERMINAL}</style><body>{html.escape(menu_text())}</body>".encode()
        ).decode()
    )
    page.sees(860, "light", 620)
    height = page.run("return document.documentElement.scrollHeight")
    page.sees(860, "light", height)
    return page.command("Page.captureScreenshot")["data"]


def taken(is_check):
    """Returns the words of each picture. Writes the pictures, unless the words are only checked."""
    words = {}
    with tempfile.TemporaryDirectory() as folder:
        for name, take in (("booking-page", booking_page), ("booking-widths", booking_widths)):
            with Browser(before=FIXED) as page:
                shown, size = take(page, folder)
                words[name] = "\n".join(shown.words)
                if not is_check:
                    keep(name, page.side_by_side(shown.pictures, *size))
        with Browser() as page:
            words["office-menu"] = menu_text()
            if not is_check:
                keep("office-menu", office_menu(page))
    return words


def keep(name, picture):
    (DOCS / f"{name}.png").write_bytes(base64.b64decode(picture))


def main():
    parser = argparse.ArgumentParser(usage="tests/pages/pictures.py [--check]")
    parser.add_argument("--check", action="store_true")
    given = parser.parse_args()
    words = taken(given.check)
    sums = "".join(
        f"{hashlib.sha256(' '.join(text.split()).encode()).hexdigest()}  {name}.png\n"
        for name, text in sorted(words.items())
    )
    if given.check:
        for line in set(sums.splitlines()) - set(SUMS.read_text(encoding="ascii").splitlines()):
            name = line.split()[1]
            check(
                False,
                f"docs/{name} shows other words: run tests/pages/pictures.py",
                words[name[:-4]],
            )
    else:
        SUMS.write_text(sums, encoding="ascii")
    print(f"{len(words)} pictures")


if __name__ == "__main__":
    main()

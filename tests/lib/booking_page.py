"""Makes a club, runs the club's desk behind nginx, and drives book.html in a browser. The parts of
page_books.py share this module."""

import atexit
import base64
import contextlib
import json
import os
import pathlib
import random
import re
import socket
import sqlite3
import subprocess
import sys
import tempfile
import time
from collections import Counter
from datetime import datetime, timedelta, timezone

import desk
from page_browser import Browser, check

TOP, DESK, TOOL, ROOM = (
    desk.ROOT,
    desk.program("clubdesk"),
    desk.program("passtool"),
    tempfile.TemporaryDirectory(),
)
PICTURES = os.path.abspath(sys.argv[1]) if sys.argv[1:] else ROOM.name
KILLS, BOOKINGS = int(os.environ.get("KILLS", "30")), int(os.environ.get("BOOKINGS", "200"))
os.environ["PATH"] = f"/usr/sbin:/sbin:{os.environ['PATH']}"
os.chdir(ROOM.name)
ROOT = "00112233445566778899aabbccddeeff"
draw = random.Random(20260501)
# The club's zone is chosen so that the club's clock shows about noon now, because the tests need
# past and future hours today. The names of Etc zones and POSIX rules state the offset with the
# opposite sign.
AHEAD = 12 - datetime.now(timezone.utc).hour
ZONE = f"Etc/GMT{-AHEAD:+d}" if AHEAD else "Etc/GMT"
RULE = f"<{AHEAD:+03d}>{-AHEAD}" if AHEAD else "GMT0"
FACILITIES = [
    ("court-1", "Court 1", "court", 4, 200, 8, 22),
    ("court-2", "Court 2", "court", 4, 200, 8, 22),
    ("court-3", "Court 3 (indoor)", "court", 2, 300, 8, 22),
    ("boat-1", "Double scull", "boat", 2, 150, 6, 22),
    ("boat-2", "Coxed four", "boat", 4, 250, 6, 22),
    ("room-1", None, "room", 1, 601, 8, 22),
]
CELLS = sum(shuts - opens for *_, opens, shuts in FACILITIES)


def now():
    return datetime.now(timezone.utc) + timedelta(hours=AHEAD)


def day(count=0):
    return f"{(now() + timedelta(days=count)).date()}"


# ---- The desk, and nginx as its proxy


class Server(desk.Server):
    """A server of clubdesk for the file `club`. A test can kill this server and start it again at
    the same port."""

    start = desk.Server.__enter__

    def asked(self):
        """Returns the number of requests with each method and path, from the server's log."""
        return Counter(
            tuple(line.split()[1:3]) for line in self.log.read_text(encoding="utf-8").splitlines()
        )


def start_proxy(upstream, rate=5000, burst=5000):
    """Runs nginx with the repository's configuration, but with a free port and with the desk at the
    port `upstream`. nginx serves the pages from the folder `www`. `rate` and `burst` replace
    nginx's request limits, because the test sends in a minute as many requests as a club sends in
    an hour."""
    front = desk.free_port()
    site = pathlib.Path(TOP, "deploy/nginx.conf").read_text()
    here = os.getcwd()
    for old, new in [
        ("/etc/ssl/clubdesk/", f"{here}/"),
        (":8080", f":{upstream}"),
        ("/usr/share/clubdesk/web", f"{here}/www"),
        ("/var/www/club;", f"{here}/www;"),
        *([("rate=400r/s", f"rate={rate}r/s"), ("burst=2000", f"burst={burst}")] if rate else []),
        ("    listen [::]:443 ssl http2;\n", ""),
        ("listen 443", f"listen 127.0.0.1:{front}"),
    ]:
        check(old in site, "the repository's configuration has no", old)
        site = site.replace(old, new)
    name = f"{here}/nginx-{front}"
    pathlib.Path(f"{name}.site").write_text(site)
    pathlib.Path(f"{name}.conf").write_text(
        f"user root;\npid {name}.pid;\nerror_log {here}/error.log;\nevents {{}}\n"
        f"http {{ include {name}.site; }}\n"
    )
    run_proxy(front)
    return front


PROXIES = {}  # by port


def run_proxy(front):
    PROXIES[front] = subprocess.Popen(
        ["nginx", "-c", os.path.abspath(f"nginx-{front}.conf"), "-g", "daemon off;"]
    )
    atexit.register(PROXIES[front].terminate)
    for _ in range(100):
        with contextlib.suppress(OSError), socket.create_connection(("127.0.0.1", front)):
            return
        time.sleep(0.1)
    sys.exit("nginx doesn't listen")


def stop_proxy(front):
    PROXIES[front].terminate()
    PROXIES[front].wait()


def printed(*words, given=None):
    """Returns the output of a command that must succeed."""
    status, text, fault = desk.command(*words, text=given)
    check(status == 0, words, fault)
    return text


def refused(fault, *words, given=None, **variables):
    """Checks that a command ends with status 1, prints no output, and writes a line on standard
    error that matches `fault`."""
    found = desk.command(*words, text=given, env={**os.environ, **variables})
    check(
        found[:2] == (1, "") and re.search(fault, found[2]),
        "a refusal",
        words,
        given,
        variables,
        found,
    )


def office(command, *words):
    return printed(DESK, command, "club", *words).strip()


def narrowed(text, *lines):
    return printed(TOOL, "narrow", *lines, given=text).strip()


def fetched(front, path, *words):
    """Returns curl's output for a path behind the proxy."""
    return printed(
        "curl",
        "-sS",
        "--noproxy",
        "*",
        "--cacert",
        "certificate.pem",
        "--resolve",
        f"desk.example.org:{front}:127.0.0.1",
        *words,
        f"https://desk.example.org:{front}{path}",
    )


def rows(question, *values):
    """Runs an SQL query on a copy of the club that deploy/back_up makes, and returns the rows."""
    pathlib.Path("copy").unlink(missing_ok=True)
    printed(f"{TOP}/deploy/back_up", "club", "copy")
    with desk.opened("copy") as club:
        return club.execute(question, values).fetchall()


def make_club():
    """Makes the club for all tests. Returns the pass of each key."""
    passes = {}
    for name, quota in [("amy", 99), ("bob", 2), ("carol", 5), ("hall", 0)]:
        office("add-member", name, quota)
    office("credit", "amy", 999999)
    office("credit", "bob", 700)
    office("credit", "carol", 9000)
    for name, _, *rest in FACILITIES:
        office("add-facility", name, *rest)
    for place, (key, member) in enumerate(
        [
            ("amy-1", "amy"),
            ("amy-phone", "amy"),
            ("bob-1", "bob"),
            ("bob-2", "bob"),
            ("hall-screen", "hall"),
            ("kill-1", "amy"),
            ("amy-son", "amy"),
            ("other", "amy"),
            ("carol-1", "carol"),
            ("fails-1", "amy"),
            ("ends-1", "amy"),
            ("tabs-1", "amy"),
            ("browser-1", "amy"),
            ("full-1", "amy"),
            ("lists-1", "amy"),
            ("amy-lend-1", "amy"),
            ("amy-lend-2", "amy"),
            ("hand-1", "amy"),
            ("counts-1", "amy"),
            ("engine-1", "amy"),
            ("engine-2", "amy"),
            ("more-1", "amy"),
            *(
                (f"{key}{place}", "amy")
                for place in range(3)
                for key in ("minute-", "minute-lend-")
            ),
            ("engine-lend-1", "amy"),
            ("engine-lend-2", "amy"),
        ]
    ):
        passes[key] = office("add-key", key, member, f"{place:02x}" + ROOT)
    return passes


def club_list(titles):
    """Returns the club's list of facilities, which deploy/club_json makes with these titles."""
    pathlib.Path("titles").write_text(titles)
    return printed(
        "env",
        f"RULE={RULE}",
        "CLUB=Rowing & tennis",
        "TITLES=titles",
        f"{TOP}/deploy/club_json",
        "club",
        ZONE,
    )


# ---- The browser

HELPERS = """
const shownText = (id) => byName(id).innerText.trim();
const isShown = (id) => byName(id).offsetParent !== null;
const cellAt = (facility, hour) => cells.get(`${facility} ${hour}`);
const dialogText = () => byName("dialog").open ? byName("dialog").innerText : "";
const settled = async (holds, limit = 20000) => {
  const end = Date.now() + limit;
  while (!holds()) {
    if (Date.now() > end) return false;
    await new Promise((next) => setTimeout(next, 20));
  }
  return true;
};
const allAnswered = (count = 0) => state.entries.length >= count && state.entries.every((each) => unfinished(each) === null);
const dayIsThere = () => byName("progress").hidden && byName("looked").textContent.includes(":");
const pressIn = (root, words) => {
  const found = [...root.querySelectorAll("button")].find((each) => each.offsetParent !== null && !each.disabled
    && (each.textContent.trim() === words || each.getAttribute("aria-label") === words));
  if (found === undefined) throw new Error(`no button ${words} in ${root.innerText}`);
  found.click();
};
"""


class BookingPage(Browser):
    helpers = HELPERS

    def __init__(
        self, front, before="", language="en-US", words=(), zone="America/New_York", letters=16
    ):
        self.front, self.address = front, f"https://desk.example.org:{front}/book.html"
        super().__init__(
            rules="MAP desk.example.org 127.0.0.1, MAP * ~NOTFOUND",
            before=before,
            language=language,
            words=["ignore-certificate-errors", *words],
            letters=letters,
        )
        self.driver.set_script_timeout(120)
        self.command("Emulation.setTimezoneOverride", timezoneId=zone)

    def when(self, condition, *what, limit=90):
        found = self.driver.execute_async_script(
            self.helpers
            + f"""
            const done = arguments[0];
            settled(() => {condition}, {limit * 1000}).then(done);"""
        )
        check(
            found,
            *what,
            condition,
            self.run("return document.body.innerText"),
            self.driver.get_log("browser"),
        )

    def visit(self, end, condition, *what):
        """Opens the page's address with `end` appended, and waits until the condition holds."""
        self.open(self.address + end)
        self.when(condition, *what)

    def enter(self, text, ahead=None, keeps=None):
        """Enters a pass. If `keeps` is given, presses the button with the text `keeps`. If `ahead`
        is given, opens the day that is `ahead` days after today."""
        self.visit(f"#{text}", "isShown('day') && dayIsThere()", "the day of a pass")
        if keeps:
            self.press(keeps, "notices")
        if ahead is not None:
            self.go(day(ahead))

    def go(self, wanted):
        self.run("showDay(arguments[0])", wanted)
        self.when(f"shownDay() === '{wanted}' && dayIsThere()", "a day")

    def offer(self, facility, hour):
        """Presses a slot's button as soon as the page has enabled it."""
        self.when(
            f"!cellAt('{facility}', {hour}).button.disabled",
            "a slot that can be pressed",
            facility,
            hour,
        )
        self.run("cellAt(...arguments).button.click()", facility, hour)

    def press(self, words, root="dialog"):
        self.run("pressIn(byName(arguments[0]), arguments[1])", root, words)

    def keys(self, *keys):
        super().press(*keys)

    def book(self, facility, hour, guests=0):
        """Books a slot with the page's dialog, and doesn't wait for the result."""
        self.offer(facility, hour)
        for _ in range(guests):
            self.press("One guest more")
        self.run("byName('dialog').querySelector('.main').click()")

    def comes(self, words, *what):
        """Waits until the dialog shows these words, then closes it."""
        self.when(f"dialogText().includes({json.dumps(words)})", *what)
        self.press("Close")

    def booked(self, facility, hour, guests=0):
        self.book(facility, hour, guests)
        self.comes("Booked.", "a booking", facility, hour)
        return self.entries()[-1]

    def cancelled(self, number, *what):
        self.run(
            (
                "offerCancellation(ownEntries().find((each) => each.number === arguments[0]), ()"
                " => {})"
            ),
            number,
        )
        self.press("Cancel the booking")
        self.comes("came back", "a cancellation", *what)

    def booked_at(self, ahead, *what):
        """Books on another day, from any view of the page."""
        self.view("day")
        self.go(day(ahead))
        return self.booked(*what)

    def cancelled_at(self, entry, facility):
        """Cancels a booking with a request to the desk, as another browser with the same pass
        would."""
        text = self.run("return state.text")
        fetched(
            self.front,
            f"/slots/{facility}/{entry['day']}/{entry['hour']:02}/bookings/{entry['number']}",
            "-X",
            "DELETE",
            "-H",
            f"Authorization: Bearer {text}",
        )

    def cancelled_in_the_list(self, *what, asked="", words="came back"):
        """Cancels the first future booking in the page's list. The dialog's question must contain
        `asked`, and its answer must contain `words`."""
        self.view("bookings")
        self.run(
            "[...byName('to-come').querySelectorAll('.booked button, .listed button')].find((each)"
            " => each.textContent === 'Cancel').click()"
        )
        check(asked in self.run("return dialogText()"), *what, self.run("return dialogText()"))
        self.press("Cancel the booking")
        self.comes(words, *what)

    def entries(self):
        return self.driver.execute_async_script(
            """
            const done = arguments[0];
            state.store.all().then((entries) => done(entries.sort((a, b) => a.asked - b.asked)));"""
        )

    def view(self, name):
        self.run("byName(`to-${arguments[0]}`).click()", name)

    def requests(self):
        """Returns the methods and addresses of the network requests since the last call."""
        messages = [
            json.loads(entry["message"])["message"] for entry in self.driver.get_log("performance")
        ]
        sent = [
            each["params"]["request"]
            for each in messages
            if each["method"] == "Network.requestWillBeSent"
        ]
        return [(each["method"], each["url"]) for each in sent]

    def complaints(self):
        """Returns the lines of the browser's console, except those about refused requests and lost
        connections."""
        return [
            each["message"]
            for each in self.driver.get_log("browser")
            if "the server responded with a status" not in each["message"]
            and "net::ERR_" not in each["message"]
        ]


def amounts(key):
    """Returns the bookings of a key in the file, by number. Each booking is a tuple of its
    facility, day, hour, guests, charge, places left, cancellation and refund."""
    found = rows(
        (
            "SELECT number, facility, date(day * 86400, 'unixepoch'), hour, guests, charge,"
            " remains, cancelled, refund FROM bookings WHERE pass_key = ?"
        ),
        key,
    )
    return {number: tuple(rest) for number, *rest in found}


def recorded(entries, key):
    """Returns the bookings of a key in the page's record, in the form of `amounts`. The page got
    these bookings from the desk's replies or from a list of the office."""
    found = {}
    for each in entries:
        if each["key"] != key or "fault" in (each["book"] or {}):
            continue
        listed = each.get("listed", {})
        said, gone = (
            each["book"] if "charge" in each["book"] else listed,
            each.get("cancel") or listed,
        )
        found[each["number"]] = (
            each["facility"],
            each["day"],
            each["hour"],
            each["guests"],
            said["charge"],
            said["left"],
            int("cancel" in each or "refund" in listed),
            gone.get("refund", 0),
        )
    return found


def same_record(page, key):
    found, wanted = recorded(page.entries(), key), amounts(key)
    check(
        found == wanted,
        "the record and the file differ",
        sorted(set(found.items()) ^ set(wanted.items())),
    )
    return len(found)


def has(text, what, *words):
    text = text.replace("\u00a0", " ")
    check(all(it in text for it in words), what, [it for it in words if it not in text], text)


def totals_are_sums():
    check(not rows(desk.SUMS), "totals that aren't the sums", rows(desk.SUMS))


def curl(page, method, path, text, body=None):
    return fetched(
        page.front,
        path,
        "-w",
        " %{http_code}",
        "-X",
        method,
        "-H",
        f"Authorization: Bearer {text}",
        *(["-d", body] if body else []),
    )


def unasked(server, before):
    """Returns how often the desk got each request after the count `before`. Omits GET requests."""
    return {each: count for each, count in (server.asked() - before).items() if each[0] != "GET"}


def cancel_by_office(server, entry, key, member):
    """Cancels a booking in the file and refunds the whole charge, as deploy/office does."""
    server.kill()
    with contextlib.closing(sqlite3.connect("club")) as club:
        club.executescript(
            f"""
            BEGIN IMMEDIATE;
            UPDATE members SET used = used - {entry['book']['charge']} WHERE name = '{member}';
            UPDATE slots SET taken = taken - {entry['guests'] + 1} WHERE facility = '{entry['facility']}' AND day = strftime('%s', '{entry['day']}') / 86400
                AND hour = {entry['hour']};
            UPDATE bookings SET cancelled = 1, refund = charge WHERE pass_key = '{key}' AND number = {entry['number']};
            COMMIT;"""
        )
    server.start()


def keep(name, picture):
    pathlib.Path(PICTURES, name).write_bytes(base64.b64decode(picture))


def page_date(text, year=False):
    """Formats a day in English as the page does."""
    its_day = datetime.strptime(text, "%Y-%m-%d")
    return f"{its_day:%A} {its_day.day} {its_day:%B}" + (f" {its_day.year}" if year else "")


DAY_THERE = "document.getElementById('progress').hidden && shown('looked').includes(':')"


def slot_path(title, hour):
    return f"//table[@id='slots']//button[starts-with(@aria-label, '{title}, {hour:02}:00')]"


def goes_to(engine, wanted):
    engine.run(
        (
            "const field = document.getElementById('day-field'); field.value = arguments[0];"
            " field.dispatchEvent(new Event('change'))"
        ),
        wanted,
    )
    engine.when(
        f"document.getElementById('day-field').value === '{wanted}' && {DAY_THERE}",
        "another day",
        wanted,
    )


def engines():
    """Starts Firefox and then WebKitGTK. Yields the number of each browser, and the browser with
    the functions that the tests call in the page."""
    import page_engines

    for place, engine_of in enumerate((page_engines.Firefox, page_engines.WebKit)):
        with engine_of() as engine:
            engine.helpers = "const shown = (id) => document.getElementById(id).innerText.trim();"
            yield place + 1, engine

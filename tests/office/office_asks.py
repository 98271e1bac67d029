#!/usr/bin/env -S /usr/bin/python3 -B
"""The menu of the command `office` has the tasks of a club's week and of a season's start, in English and German.

The test runs the office at a terminal, and checks what each task changes. The test needs root, because it covers the machine's
folders with temporary overlays (tests/lib/office_room.sh).

The menu and the commands accept names, days and hours as people write them. If two members match a name, the office asks which one is meant. If an
input is unusual, the office asks for confirmation. The office can also print its refusals, lists and usage text in German. Ctrl-C at any question
changes nothing. Commands without a terminal accept only whole names.
"""
# pytestmark = [mark.package, mark.root, mark.needs("clubdesk passtool"),
#     mark.wants("sudo sqlite3 openssl util-linux bsdutils iproute2 systemd qrencode python3-psutil python3-pexpect")]

import datetime
import fcntl
import subprocess
import sys
import time
from pathlib import Path

import pexpect

sys.path[:0] = [str(Path(__file__).resolve().parents[1] / it) for it in ("lib", "")]
from office_room import (
    HOME,
    ROOM,
    Service,
    configure,
    done,
    everything,
    leave,
    office,
    rows,
    run_as,
    same,
    whole,
)

TODAY = datetime.date.today()
LINES = {
    "SITE": "https://desk.example.org",
    "PAGES": ROOM / "pages",
    "ZONE_NAME": "Etc/UTC",
    "TITLE": '"Our club"',
}
ENTER = ""


class Terminal:
    """Runs the office at a terminal of 80 columns, in one language."""

    def __init__(self, *words, language="C.UTF-8"):
        line = ["-u", "anna", "--", "env", f"LANG={language}", "TERM=dumb", "office", *words]
        self.it = pexpect.spawn(
            "runuser", line, cwd="/home/anna", encoding="utf-8", timeout=90, dimensions=(50, 80)
        )
        self.shown = ""

    def answers(self, *pairs):
        """Waits for each question and sends its answer. Each pair has the question's pattern and the answer. If the answer is None, this method
        sends Ctrl-C."""
        for question, answer in pairs:
            try:
                self.it.expect(question)
            except (pexpect.TIMEOUT, pexpect.EOF):
                same(f"the question {question!r}", self.it.before[-1500:], question)
                raise
            self.shown += self.it.before + self.it.after
            if answer is None:
                time.sleep(
                    0.5
                )  # so that the office has printed the whole question and waits for the answer
                self.it.sendintr()
            else:
                self.it.sendline(answer)

    def ends(self):
        self.it.expect(pexpect.EOF)
        self.shown += self.it.before
        self.it.close()
        return self.it.exitstatus

    def has(self, what, *texts):
        same(
            f"{what}: the shown text",
            [text for text in texts if text not in self.shown.replace("\r", "")],
            [],
        )


def task(called, *pairs, language="C.UTF-8", begin="Task: ", end="Enter for"):
    """Chooses a task by name in the menu, runs the task, and leaves the menu."""
    terminal = Terminal("club", language=language)
    terminal.answers((begin, called), *pairs, (end, ENTER), (begin, ENTER))
    same(f"{called}: the status of the menu", terminal.ends(), 0)
    return terminal


def make_club():
    subprocess.run(["install", "-d", "-o", "clubdesk", ROOM / "pages"], check=True)
    configure(**LINES)
    done("new")
    for words in (
        "add-facility court-1 court 4 200 8 22",
        "add-facility court-2 court 4 200 8 22",
        "add-facility boat-1 boat 2 50 6 20",
        "add-member baecker-karin 5",
        "add-member baecker-karl 5",
        "add-member mueller-bob 2",
        "credit baecker-karin 5000",
        "credit baecker-karl 5000",
        "credit mueller-bob 5000",
        "add-key mueller-bob-1 mueller-bob",
    ):
        done(*words.split())


def week():
    """The tasks of a week."""
    shown = task(
        "a new member",
        ("Full name", "Özdemir, Ayşe"),
        ("Open bookings", "5"),
        ("Points", "3000"),
        ("Do it", ENTER),
    )
    shown.has(
        "a new member",
        "-> oezdemir-ayse",
        "office club add-member oezdemir-ayse 5",
        "office club person oezdemir-ayse",
        "office club credit oezdemir-ayse 3000",
        "the pass is in the file passes/oezdemir-ayse-1",
        "office club letters oezdemir-ayse-1 --to letter-oezdemir-ayse-1.html",
        "1 sheets for 1 members are in letter-oezdemir-ayse-1.html",
    )
    same(
        "her letter",
        run_as(
            "anna",
            "sh",
            "-c",
            'grep -c "book.html#$(cat passes/oezdemir-ayse-1)" letter-oezdemir-ayse-1.html',
        )[1],
        "1\n",
    )
    same(
        "her full name",
        (
            run_as(
                "anna",
                "grep",
                "-c",
                '<p class="to">Özdemir, Ayşe</p>',
                "letter-oezdemir-ayse-1.html",
            )[1],
            done("members", "--csv").splitlines()[-1],
        ),
        ("1\n", 'oezdemir-ayse,3000,5,0,1,"Özdemir, Ayşe"'),
    )
    same(
        "a new member",
        rows("SELECT name, credited, quota FROM members WHERE name = 'oezdemir-ayse'"),
        [("oezdemir-ayse", 3000, 5)],
    )
    root = rows("SELECT hex(root) FROM keys WHERE name = 'oezdemir-ayse-1'")[0][0]
    same(
        "her pass",
        run_as("anna", "sh", "-c", f"passtool verify --root {root} <passes/oezdemir-ayse-1")[1],
        "signed\n",
    )
    shown = task(
        "credit points",
        ("Member", "bäck kar"),
        ("Number", "2"),
        ("Points", "1.000"),
        ("Do it", "y"),
    )
    shown.has(
        "a credit",
        "bäck kar may be",
        " 1 baecker-karin",
        " 2 baecker-karl",
        "office club credit baecker-karl 1000",
        "done",
    )
    same("a credit", rows("SELECT credited FROM members WHERE name = 'baecker-karl'"), [(6000,)])
    shown = task("a lost pass", ("Member", "muller"), ("Do it", ENTER))
    shown.has(
        "a lost pass",
        "office club lost-pass mueller-bob-1 --to passes/mueller-bob-1",
        "the pass is in the file passes/mueller-bob-1",
    )
    lost = run_as("anna", "cat", "passes/mueller-bob-1")[1]
    task("a lost pass", ("Member", "muller"), ("Do it", ENTER)).has(
        "a pass that is lost a second time", f"are in letter-mueller-bob-1-{TODAY}-2.html"
    )
    root, text = (
        rows("SELECT hex(root) FROM keys WHERE name = 'mueller-bob-1'")[0][0],
        run_as("anna", "cat", "passes/mueller-bob-1")[1],
    )
    same(
        "the new and the lost pass",
        [run_as("anna", "passtool", "verify", "--root", root, given=it)[1] for it in (text, lost)],
        ["signed\n", "not signed\n"],
    )
    letter = run_as("anna", "cat", f"letter-mueller-bob-1-{TODAY}-2.html")[1]
    same(
        "the letter has only the new pass",
        [f"book.html#{it.strip()}" in letter for it in (text, lost)],
        [True, False],
    )
    task("take points back", ("Member", "karin"), ("Points", "250"), ("Shall", "y"))
    same(
        "points taken back",
        rows("SELECT credited FROM members WHERE name = 'baecker-karin'"),
        [(4750,)],
    )
    day = TODAY + datetime.timedelta(3)
    shown = task(
        "close for", ("Day", "+3"), ("Hours", "10-12"), ("Which", "all courts"), ("Shall", "y")
    )
    shown.has(
        "a tournament",
        f"-> {day:%A} {day.day} {day:%B} {day.year}",
        f"office club close {day} 10-12 court-1 court-2",
        "in all: 4 slots closed",
    )
    same("closed slots", len(rows("SELECT * FROM slots WHERE closed = 1")), 4)
    task("open again", ("Number", "1"), ("Number", "2"), ("Hours", "10-12"), ("Shall", "y"))
    same(
        "opened slots",
        rows("SELECT facility, count(*) FROM slots WHERE closed = 1 GROUP BY facility"),
        [("court-1", 2)],
    )
    task(
        "price, places",
        ("Court", "court 2"),
        ("price", "250"),
        ("places", ENTER),
        ("opening", "7 bis 22"),
        ("Shall", "y"),
    )
    same(
        "a price",
        rows("SELECT price, opens, places FROM facilities WHERE name = 'court-2'"),
        [(250, 7, 4)],
    )
    task("quota of", ("Member", "bob"), ("Open", "7"), ("Shall", "y"))
    same("a quota", rows("SELECT quota FROM members WHERE name = 'mueller-bob'"), [(7,)])
    for called, pairs, text in (
        ("what a member has", [("Member", "karl")], "office club money baecker-karl"),
        ("everyone's balances", [], "mueller-bob"),
        ("what is closed", [], str(day)),
        ("are the sums", [], "the stored totals match the sums"),
        ("who comes", [], "day  hour"),
        ("what was done", [("A word", "bob")], "set-quota mueller-bob 7"),
        ("the copies", [], "before a correction"),
    ):
        task(called, *pairs).has(called, text)


def in_german():
    shown = task(
        "gutschreiben",
        ("Mitglied", "Ayşe"),
        ("Punkte", "500"),
        ("Ausführen", "j"),
        language="de_DE.UTF-8",
        begin="Aufgabe: ",
        end="Enter für",
    )
    shown.has(
        "a credit in German",
        "Das Büro von club",
        "office club credit oezdemir-ayse 500",
        "EIN MITGLIED",
    )
    day = TODAY + datetime.timedelta((5 - TODAY.weekday()) % 7)
    shown = task(
        "Turnier",
        ("Tag", "sa"),
        ("Stunden", "15"),
        ("Welche", "Boote"),
        ("Soll", "n"),
        language="de_DE.UTF-8",
        begin="Aufgabe: ",
        end="Enter für",
    )
    shown.has(
        "a tournament in German",
        f"-> Samstag, {day.day}. ",
        f"sperrt boat-1 {day} 15:00",
        "nicht bestätigt; nichts geändert",
    )
    same(
        "every line fits in 80 columns",
        [it for it in shown.shown.replace("\r", "").split("\n") if len(it) > 80],
        [],
    )


def refused_in_german():
    """The office prints refusals in the clerk's language."""

    def german(*words):
        return run_as("anna", "env", "LANG=de_DE.UTF-8", "office", "club", *words)

    for words, status, line in (
        (["set-quota", "nobody", "3", "--yes"], 1, "abgelehnt: es gibt kein Mitglied nobody\n"),
        (["debit", "mueller-bob", "99999", "--yes"], 1, "abgelehnt: mueller-bob hat 5000 Punkte\n"),
        (
            ["close", "2026-13-01", "9", "court-1", "--yes"],
            3,
            "falscher Wert: '2026-13-01' ist kein Tag JJJJ-MM-TT von 2000 bis 2099\n",
        ),
        (["credit", "nobody", "5"], 1, "abgelehnt: gibt es nicht\n"),
        (["credit", "mueller-bob", "x"], 3, "falscher Wert\n"),
        (
            ["restore", "2001-01-01T000000Z", "--yes"],
            1,
            "abgelehnt: es gibt keine Kopie 2001-01-01T000000Z; `office club copies` zeigt sie\n",
        ),
        (["record", "nobody-1"], 1, "abgelehnt: es gibt keinen Schlüssel nobody-1\n"),
        (["import", "nothing.csv"], 7, "nothing.csv lässt sich nicht lesen: "),
        (
            ["book", "mueller-bob", "court-1", "+1", "23"],
            1,
            "abgelehnt: der Server sagt: nicht zu buchen",
        ),
    ):
        found, _, errors = german(*words)
        same(
            f"{words} in German",
            (found, errors if line.endswith("\n") else errors[: len(line)]),
            (status, line),
        )
    status, _, errors = german("credit")
    same(
        "usage in German",
        (status, "Aufruf: " in errors, "es fehlen: MEMBER, POINTS" in errors),
        (2, True, True),
    )
    same(
        "done, in German",
        german("set-quota", "mueller-bob", "7", "--yes")[1].splitlines()[-1],
        "erledigt",
    )
    same(
        "a list's heads",
        german("members")[1].split()[:6],
        ["Mitglied", "Punkte", "max.", "offen", "offen", "Schlüssel"],
    )
    same(
        "comma-separated values aren't translated",
        german("members", "--csv"),
        office("members", "--csv"),
    )
    status, _, errors = run_as("anna", "env", "LANG=de_DE.UTF-8", "office", "other", "members")
    same(
        "no such club",
        (status, errors),
        (
            1,
            "abgelehnt: kein Verein other ist eingerichtet: es gibt kein /etc/clubdesk/other.conf\n",
        ),
    )


def calls():
    """With the menu, a clerk books and cancels for members who telephone, and does other tasks of the office."""
    day = TODAY + datetime.timedelta(2)
    shown = task(
        "book for",
        ("Member", "bob"),
        ("Court", "court 2"),
        ("Day", "+2"),
        ("Hours", "15-17"),
        ("How many", "1"),
        ("Do it", ENTER),
    )
    shown.has(
        "a booking for a caller",
        f"office club book mueller-bob court-2 {day} 15-17 1",
        f"booked court-2 {day} 16:00 for mueller-bob, 2 persons",
        "slots booked in all: 2, for 1000 points",
    )
    task("cancel for", ("Member", "bob"), ("Number", "1"), ("Do it", ENTER)).has(
        "a cancellation for a caller", f"cancelled court-2 {day} 15:00 of mueller-bob"
    )
    task("cancel, all", ("Member", "bob"), ("Number", "1"), ("Shall", "y")).has(
        "all points back", "office club cancel mueller-bob-office 2", "done"
    )
    same("nothing is booked", rows("SELECT count(*) FROM bookings WHERE cancelled = 0"), [(0,)])
    task(
        "book for",
        ("Member", "bob"),
        ("Court", "court 2"),
        ("Day", "+2"),
        ("Hours", "15"),
        ("How many", "0"),
        ("Do it", ENTER),
    )
    task("rain", ("Day", "+2"), ("Which", "courts"), ("Hours", "15"), ("Shall", "y")).has(
        "rain", "1 person", "done"
    )
    task("undo the last", ("Shall", "y")).has(
        "undone", "undoes what was done on", "puts back the booking", "in all: 3 changes"
    )
    same("the booking again", rows("SELECT count(*) FROM bookings WHERE cancelled = 0"), [(1,)])
    task(
        "name, mail",
        ("Member", "bob"),
        ("Full name", "Bob Müller"),
        ("Mail", "bob@example.org"),
        ("Telephone", "+49 1"),
    ).has("a person", "done")
    task("what a member has", ("Member", "müller bob")).has("a member by full name", "Bob Müller")
    task("a lost list", ("Member", "bob"), ("none: ", "2")).has(
        "a lost list", "record of mueller-bob-office"
    )
    task("another key", ("Member", "bob"), ("Do it", ENTER)).has(
        "one more key",
        "the pass is in the file passes/mueller-bob-2",
        "are in letter-mueller-bob-2.html",
    )
    task("the sheet", ("Day", "+2")).has("a sheet", "Day sheet", "mueller-bob-office")
    task("a day's bookings", ("Day", "+2")).has("a day", "mueller-bob-office")
    task("who has booked a facility", ("Court", "court-2")).has("a court", "mueller-bob-office")
    task("a member leaves", ("Member", "karl"), ("Shall", "y")).has(
        "a member leaves", "renames member baecker-karl to 1"
    )


def season_start():
    """The menu has the tasks of a season's start, such as importing members, printing letters and crediting points."""
    run_as(
        "anna",
        "sh",
        "-c",
        "printf 'Name;Buchungen;Punkte\\nIda Lund;3;500\\nÖzil, Can;3;500\\n' >members.csv",
    )
    task("members from a list", ("File", "members.csv"), ("Shall", "y")).has(
        "a list", "read as UTF-8 with ;", "ida-lund: done", "2 of 2 rows done"
    )
    run_as("anna", "sh", "-c", "printf 'Vorname;Nachname\nBea;Noll\n' >names.csv")
    task(
        "members from a list",
        ("File", "nothing.csv"),
        ("file doesn't exist", "names.csv"),
        ("Open bookings", "3"),
        ("Points", "500"),
        ("Shall", "n"),
    ).has(
        "a list of names",
        "office club import names.csv --quota=3 --points=500",
        "noll-bea",
        "in all: 1 of 1 rows left to do, 500 points",
    )
    wide = "Zu Guttenberg und Tannenberg, Karl-Theodor Maria Nikolaus"
    run_as("anna", "sh", "-c", f"printf 'name;quota;points\n{wide};3;500\n' >wide.csv")
    shown = (
        task("members from a list", ("File", "wide.csv"), ("Shall", "n"))
        .shown.replace("\r", "")
        .split("\n")
    )
    same("a preview that is too wide", [it for it in shown if len(it) > 80], [])
    task("letters with").has(
        "letters", f"office club letters --to letters-{TODAY}.html", "sheets for 4 members"
    )
    task("the season's points", ("Points", "300"), ("A name", "season 2027"), ("Shall", "y")).has(
        "points for all",
        "office club credit-all 300 --as season-2027",
        "members credited with 300 points",
    )
    same(
        "the members have the season's points",
        rows("SELECT credited FROM members WHERE name = 'ida-lund'"),
        [(800,)],
    )
    task("the season's points", ("Points", "300"), ("A name", "season 2027")).has(
        "once", "season-2027 was already given"
    )
    first = TODAY + datetime.timedelta(7)
    task(
        "close slots each week",
        ("First", "+7"),
        ("Last", "+28"),
        ("Hours", "18-20"),
        ("The reason", "Training"),
        ("Which", "court-1"),
        ("Shall", "y"),
    ).has(
        "training",
        f"office club close {first}..{TODAY + datetime.timedelta(28)} 18-20 court-1 --weekday {first:%A} --why Training".lower().replace(
            "training", "Training"
        ),
        "in all: 8 slots closed",
    )
    task(
        "a new facility",
        ("Short", "court-3"),
        ("Kind", "court"),
        ("Places", "2"),
        ("Points", "100"),
        ("Opening", "8-22"),
        ("Do it", ENTER),
    ).has("a new court", "office club add-facility court-3 court 2 100 8 22")
    task("the booking page's list").has("the page's list", "club.json: done")
    task("a report for the board").has("the board's page", f"report-{TODAY.year}.html")
    done("close", str(TODAY - datetime.timedelta(3)), "10", "court-3", "--yes")
    task("a new year", ("Shall", "n")).has("a new year that isn't confirmed", "not confirmed")
    task("a new year", ("Shall", "y")).has(
        "a new year", "office club new-year", "copies the whole file to", "done"
    )
    task("restore the club", ("Number", "1"), ("Shall", "n")).has(
        "a restore that isn't confirmed", "not confirmed"
    )
    task("all facilities").has("all courts", "court-3")


def what_is_odd():
    """Commands ask for confirmation if a day is past or far ahead, or if the points are more than ten times the usual number."""
    before = everything()
    for words, text in (
        (["close", "-1", "10", "court-1"], "is past"),
        (["close", "+100", "10", "court-1"], "100 days ahead"),
        (
            ["close", f"{TODAY - datetime.timedelta(7)}..{TODAY}", "10", "court-1", "--why", "x"],
            "is past",
        ),
        (["credit-all", "--as", "7", "90000"], "more than ten times the usual"),
        (["credit", "mueller-bob", "90000"], "more than ten times the usual"),
    ):
        terminal = Terminal("club", *words)
        terminal.answers(("Go on", "n"))
        same(f"{words}: the status", terminal.ends(), 1)
        terminal.has(f"{words}", text, "not confirmed")
    same("the club is unchanged", everything(), before)


def words_of_commands():
    """Commands at a terminal accept the same input as the menu. Commands without a terminal accept only whole names."""
    terminal = Terminal("club", "credit", "bäck kar", "10")
    terminal.answers(("Number", "1"), ("Go on", "y"))
    same(
        "two matching names",
        (terminal.ends(), rows("SELECT credited FROM members WHERE name = 'baecker-karin'")),
        (0, [(4760,)]),
    )
    terminal.has("two matching names", "bäck kar may be", "office club credit baecker-karin 10")
    terminal = Terminal("club", "credit", "bäck kar", "10")
    terminal.answers(("Number", None))
    same(
        "neither of two matching names",
        (terminal.ends(), rows("SELECT credited FROM members WHERE name = 'baecker-karin'")),
        (1, [(4760,)]),
    )
    terminal = Terminal("club", "credit", "muller", "10")
    terminal.answers(("Go on", ENTER))
    same(
        "the office asks about a part of a name",
        (terminal.ends(), rows("SELECT credited FROM members WHERE name = 'mueller-bob'")),
        (1, [(5000,)]),
    )
    same("without a terminal", office("credit", "muller", "10"), (1, "", "refused: unknown\n"))
    same("a correction without a terminal", office("debit", "muller", "10", "--yes")[0], 1)
    day = TODAY + datetime.timedelta(3)
    for near, word in ((0, "today"), (0, "heute"), (1, "tomorrow"), (1, "morgen"), (-1, "gestern")):
        same(
            f"the day {word!r}",
            office("sheet", word)[1].splitlines()[0],
            f"Day sheet {TODAY + datetime.timedelta(near)}",
        )
    for word in (
        "+3",
        f"{day:%A}",
        f"{day:%a}".lower(),
        f"{day.day}.{day.month}.",
        f"{day.day} {day:%B}",
        str(day),
    ):
        same(f"the day {word!r}", office("sheet", word), (0, done("sheet", str(day)), ""))
    same("an hour", office("show-slot", "court-1", "+3", "10:00")[1].splitlines()[2], "hour 10")
    same(
        "each of several hours",
        office("show-slot", "court-1", "+3", "10-12"),
        (0, "".join(done("show-slot", "court-1", str(day), it) for it in ("10", "11")), ""),
    )
    shown = office("close", str(day), "16", "all", "courts", given="n\n")[1].splitlines()
    same(
        "all courts in two words",
        shown[:3],
        [
            *(f"closes {court} {day} 16:00" for court in ("court-1", "court-2")),
            "in all: 2 slots closed",
        ],
    )
    done("add-member", "muller-eva", "1")
    terminal = Terminal("club", "credit", "muller", "10")
    terminal.answers(("Number", None))
    same("a name with an umlaut, and one without", terminal.ends(), 1)
    terminal.has("both match", "muller may be", " 1 muller-eva", " 2 mueller-bob")
    terminal = Terminal("club", "bookings", "karl")
    same("a list for a part of a name", terminal.ends(), 0)
    terminal.has("a list for a part of a name", "karl: baecker-karl")


def interrupted():
    """Ctrl-C at any question of a task returns to the menu, and changes nothing."""
    before = everything()
    questions = {
        "a new member": [("Full name", "Zoë"), ("Open", "5"), ("Points", "100"), ("Do it", None)],
        "credit points": [("Member", "bob"), ("Points", "7"), ("Do it", None)],
        "close for": [("Day", "+3"), ("Hours", "15"), ("Which", "courts"), ("Shall", None)],
        "a member leaves": [("Member", "bob"), ("Shall", None)],
    }
    for called, pairs in questions.items():
        for at in range(len(pairs)):
            task(called, *pairs[:at], (pairs[at][0], None))
    with open(HOME / "club-orders", "r+", encoding="ascii") as turn:
        fcntl.flock(turn, fcntl.LOCK_EX)
        shown = task(
            "a new member",
            ("Full name", "Zoë"),
            ("Open", "5"),
            ("Points", "100"),
            ("Do it", ENTER),
            ("waiting for another command", None),
        )
        shown.has(
            "Ctrl-C at a command",
            "interrupted: `office club log` shows what was already done",
            "not done: office club person zoe; office club credit zoe 100; office club add-key zoe-1 zoe --to passes/zoe-1; office club letters zoe-1",
        )
        terminal = Terminal("club", "debit", "mueller-bob", "1")
        terminal.answers(("Shall", "y"), ("waiting for another command", None))
        same(
            "Ctrl-C at a correction",
            (terminal.ends(), "storage failed" in terminal.shown),
            (130, False),
        )
    terminal = Terminal("club")
    terminal.answers(("Task: ", None))
    same("Ctrl-C at the menu ends it", terminal.ends(), 0)
    same("the club is unchanged", everything(), before)
    status, _, errors = office()
    same("no menu without a terminal", (status, "COMMAND" in errors), (2, True))


def previews():
    """No line of a preview is longer than 80 columns, even with the longest names."""
    long = "a" * 20 + "-xyz"
    for words in (
        f"add-member {long} 9",
        f"credit {long} 1000000",
        f"add-facility {long} court 50 9999 0 24",
    ):
        done(*words.split())
    text = done("add-key", long, long).strip()
    server = Service(at=f"{TODAY}T00:00")
    day = TODAY + datetime.timedelta(1)
    for hour in (10, 11):
        server.answer(
            text, "PUT", f"/slots/{long}/{day}/{hour}/bookings/99999999{hour - 10}", '{"guests":9}'
        )
    terminal = Terminal("club", "close", str(day), "10-12", long)
    terminal.answers(("Shall", "y"))
    shown = (terminal.ends(), terminal.shown.replace("\r", "").split("\n"))[1]
    same("lines that are too long", [it for it in shown if len(it) > 80], [])
    summary = [f"in all: 2 bookings cancelled, 199980 points back to {long}, 2", "    slots closed"]
    same("a summary, in two lines", [it for it in shown if it in summary], summary)
    server.stop()


make_club()
week()
in_german()
what_is_odd()
words_of_commands()
interrupted()
previews()
server = Service(at=f"{TODAY}T00:00")
configure(**LINES, PORT=server.port)
refused_in_german()
calls()
season_start()
server.stop()
whole("all tasks")
leave()

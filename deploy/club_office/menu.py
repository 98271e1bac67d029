"""The menu of the office: a list of tasks, in the order in which clerks need them. Each task asks questions. An answer may be a part of a name, a
day such as `sa`, or hours such as `15-17`. Each task runs a command of the office. The menu shows the command first, so that a clerk can learn to
type it."""

import collections
import contextlib
import csv
import datetime
import importlib
import io
import json
import os
import re
import shlex
import shutil
import signal
import sys

from club_office.asking import (
    Back,
    ask,
    ask_day,
    ask_facilities,
    ask_hours,
    ask_name,
    ask_number,
    chosen,
    until_read,
)
from club_office.clubs import SELF, ended_by_itself
from club_office.counter import as_desk, free_names
from club_office.member_list import lacking
from club_office.reading import fitted, found as found_names, found_members, plain, read_hours
from club_office.spares import PASSES, spare_keys
from club_office.texts import WEEKDAYS, day_text, language, means, say
from club_office.values import NAME

Task = collections.namedtuple("Task", "group called words is_asked")


class Office:
    """A club, with the names that the club had when the task began."""

    def __init__(self, club, names):
        self.club = club
        self.read = names
        self.names = None
        self.today = datetime.date.today()
        # Maps the name of a new member to the full name that the clerk typed.
        self.written = {}

    def begin(self):
        self.today, self.written = datetime.date.today(), {}
        self.names = self.read(self.club)

    def rows(self, *words):
        """The rows of a list."""
        status, text = as_desk(self.club, [*words, "--csv"])
        if status:
            raise Back
        return list(csv.DictReader(io.StringIO(text.decode())))

    def about(self, name):
        it, written = self.names.members[name], self.names.written.get(name)
        return (f"{written}: " if written else "") + say(
            "member has", balance=it.balance, quota=it.quota
        )

    def member(self):
        return ask_name(
            say("ask member"),
            self.names.members,
            self.about,
            lambda typed, _: found_members(typed, self.names),
        )

    def facility(self):
        return ask_name(say("ask facility"), self.names.facilities)

    def facilities(self):
        return ask_facilities(say("ask facilities"), self.names.facilities)

    def day(self, text="ask day"):
        return str(ask_day(say(text), self.today))

    def points(self, most):
        return str(ask_number(say("ask points"), 1, most))


# ---- The tasks: the questions of each task, and the commands that it makes from the answers.


def key_of(office):
    """Returns a member's key that isn't revoked. Asks only if the member has several keys that aren't revoked."""
    member = office.member()
    keys = [it for it, key in office.names.keys.items() if key.member == member and not key.revoked]
    if not keys:
        print("   " + say("none yet"))
        raise Back
    return keys[0] if len(keys) == 1 else chosen(say("ask key"), keys)


def free_key(office, member):
    """Returns the next unused name for a member's key, such as amy-1 or amy-2."""
    stem = member[:20].strip("-")
    return next(
        it
        for it in (f"{stem}-{number}" for number in range(1, 1000))
        if it not in office.names.keys
    )


def member_words(office):
    member = office.member()
    return [["money", member], ["keys", member], ["bookings", member]]


def new_member_words(office):
    def read(typed):
        name = fitted(typed, 22)
        if name in office.names.members:
            print("   " + say("taken name", name=name))
        return (name, typed) if NAME.fullmatch(name) and name not in office.names.members else None

    name, written = until_read(say("ask new name"), read, say("no name"))
    print(f"   -> {name}")
    office.written = {name: written} if written != name else {}
    quota = ask_number(say("ask quota"), 0, 99)
    points = office.points(1_000_000)
    person = [["person", name]] if office.written else []
    return [
        ["add-member", name, str(quota)],
        *person,
        ["credit", name, points],
        *key_words(office, name, spare_keys(office.club, name)),
    ]


def key_words(office, member, spares=()):
    """Returns the commands for a member's new key. The first command writes the key's pass to the file where the command `letters` looks for it. If
    letters are possible, a second command writes a letter that also has the spare passes."""
    key = free_key(office, member)
    return [
        ["add-key", key, member, "--to", f"{PASSES}/{key}"],
        *letter_words(office, [key, *spares], f"letter-{key}"),
    ]


def letter_words(office, keys, stem):
    """Returns the command for a letter in a new file. Returns no command if the club has no site or the machine has no qrencode."""
    if not office.club.site or not shutil.which("qrencode"):
        return []
    return [["letters", *keys, "--to", free_name(f"{stem}.html")]]


def free_name(path):
    return next(it for it in free_names(path) if not os.path.lexists(it))


def new_key_words(office):
    return key_words(office, office.member())


def lost_words(office):
    """Returns the commands that make a new pass and a letter with this pass. The pass goes to the file where the command `letters` looks for it."""
    key = key_of(office)
    return [
        ["lost-pass", key, "--to", f"{PASSES}/{key}"],
        *letter_words(office, [key], f"letter-{key}-{office.today}"),
    ]


def letters_words(_office):
    return [["letters", "--to", free_name(f"letters-{datetime.date.today()}.html")]]


def book_words(office):
    member, facility, day = office.member(), office.facility(), office.day()
    begin, end = until_read(say("ask hour"), read_hours, say("no hours"))
    guests = ask_number(say("ask guests"), 0, 49)
    price = office.names.facilities[facility].price
    persons = say("persons", count=guests + 1) if guests else say("person")
    points = price * (guests + 1) * (end - begin)
    print("   " + say("costs", persons=persons, hours=end - begin, points=points))
    hours = str(begin) if end == begin + 1 else f"{begin}-{end}"
    return [["book", member, facility, day, hours, str(guests), "--price", str(price)]]


def booking_of(office, member):
    """Lets the clerk choose one of a member's future bookings."""
    rows = office.rows("bookings", member)
    if not rows:
        print("   " + say("none yet"))
        raise Back
    texts = {
        f"{day_text(datetime.date.fromisoformat(it['day']))} {int(it['hour']):02d}:00 {it['facility']} {it['key']} {it['number']}": it
        for it in rows
    }
    return texts[chosen(say("ask booking"), list(texts))]


def call_off_words(office):
    member = office.member()
    row = booking_of(office, member)
    return [
        ["cancel-for", member, row["facility"], row["day"], row["hour"], "--number", row["number"]]
    ]


def credit_all_words(office):
    points, year = office.points(1_000_000), office.today.year
    label = until_read(
        say("ask label", example=f"season-{year}"),
        lambda typed: fitted(typed, 24) or None,
        say("no name"),
    )
    return [["credit-all", points, "--as", label]]


def training_words(office):
    first, last = office.day("ask first day"), office.day("ask last day")
    hours = ask_hours(say("ask hours"))
    why = until_read(
        say("ask why"), lambda typed: typed if len(typed) <= 60 else None, say("no name")
    )
    weekday = WEEKDAYS[language()][datetime.date.fromisoformat(first).weekday()].lower()
    return [
        [
            "close",
            f"{first}..{last}",
            hours,
            *office.facilities(),
            "--weekday",
            weekday,
            "--why",
            why,
        ]
    ]


def cancel_words(office):
    row = booking_of(office, office.member())
    return [["cancel", row["key"], row["number"]]]


def new_facility_words(office):
    def read(typed):
        name = fitted(typed, 24)
        return name if NAME.fullmatch(name) and name not in office.names.facilities else None

    name = until_read(say("ask facility name"), read, say("no name"))
    kind = until_read(
        say("ask kind"),
        lambda typed: found_names(plain(typed), ["court", "boat", "room"])[:1] or None,
        say("no name"),
    )[0]
    places, price = ask_number(say("ask places"), 1, 50), ask_number(say("ask price"), 0, 9999)
    begin, end = until_read(say("ask opening"), read_hours, say("no hours"))
    return [["add-facility", name, kind, str(places), str(price), str(begin), str(end)]]


def import_words(_office):
    """Asks for a list of members, and for values that the list's columns don't give, such as the quota."""
    file = until_read(
        say("ask file"), lambda typed: typed if os.path.isfile(typed) else None, say("no such file")
    )
    most = {"quota": 99, "points": 1_000_000}
    return [
        [
            "import",
            file,
            *(f"--{it}={ask_number(say(f'ask {it}'), 0, most[it])}" for it in lacking(file)),
        ]
    ]


def set_facility_words(office):
    name = office.facility()
    it = office.names.facilities[name]
    words = []
    for option, text, now in (
        ("--price", "ask new price", it.price),
        ("--places", "ask new places", it.places),
    ):
        answer = ask(say(text, now=now) + ": ")
        words += [f"{option}={answer}"] if answer else []
    answer = ask(say("ask new opening", now=f"{it.opens}-{it.shuts}") + ": ")
    hours = read_hours(answer)
    words += [f"--hours={hours[0]}-{hours[1]}"] if hours else []
    if not words:
        raise Back
    return [["set-facility", name, *words]]


def close_words(office):
    day, hours = office.day(), ask_hours(say("ask hours"))
    return [["close", day, hours, *office.facilities()]]


def rain_words(office):
    day = office.day()
    facilities = office.facilities()
    return [["rain", day, ",".join(facilities), ask_hours(say("ask hours"))]]


def reopen_words(office):
    """Lets the clerk choose one of the closed slots."""
    rows = office.rows("closed")
    if not rows:
        print("   " + say("none yet"))
        raise Back
    days = sorted({it["day"] for it in rows})
    day = chosen(say("ask day"), days, lambda it: day_text(datetime.date.fromisoformat(it)))
    facility = chosen(
        say("ask facility"), sorted({it["facility"] for it in rows if it["day"] == day})
    )
    print(
        "   "
        + ", ".join(
            f"{int(it['hour']):02d}:00"
            for it in rows
            if (it["day"], it["facility"]) == (day, facility)
        )
    )
    return [["reopen-slot", facility, day, ask_hours(say("ask hours"))]]


def restore_words(office):
    rows = office.rows("copies")
    if not rows:
        print("   " + say("none yet"))
        raise Back
    return [["restore", chosen(say("ask copy"), [it["copy"] for it in rows][::-1])]]


def log_words(office):
    """Asks for a word, and returns the command that prints the book's lines with this word. An empty answer stands for all lines. If the word is a
    part of just one member's name, the word stands for that member."""
    word = ask(say("ask word") + ": ")
    fits = found_members(word, office.names)
    return [["log", *(fits if len(fits) == 1 else [word] if word else [])]]


def one(*words):
    """A task with no question."""
    return lambda _office: [list(words)]


def of_member(command, *more):
    return lambda office: [[command, office.member(), *more]]


def with_points(command, most):
    return lambda office: [[command, office.member(), office.points(most)]]


# The number of lines above and below the menu: an empty line, the heading, a hint and the prompt.
LINES_AROUND = 4
# The statuses of a command that Ctrl-C interrupted.
BROKEN_OFF = (130, -signal.SIGINT)
# The tasks, in a clerk's usual order. The last part of each entry is True if the menu asks before it runs the command. The menu asks if
# the command changes something and doesn't ask by itself.
TASKS = [
    Task("group today", "task today", lambda office: [["bookings", str(office.today)]], False),
    Task("group today", "task sheet", lambda office: [["sheet", office.day()]], False),
    Task("group today", "task day", lambda office: [["bookings", office.day()]], False),
    Task("group member", "task member", member_words, False),
    Task("group member", "task new member", new_member_words, True),
    Task("group member", "task person", of_member("person"), False),
    Task("group member", "task key", new_key_words, True),
    Task("group member", "task lost", lost_words, True),
    Task("group member", "task letters", letters_words, False),
    Task(
        "group member",
        "task quota",
        lambda office: [["set-quota", office.member(), str(ask_number(say("ask quota"), 0, 99))]],
        False,
    ),
    Task("group member", "task leave", of_member("leave"), False),
    Task("group bookings", "task bookings", of_member("bookings"), False),
    Task("group bookings", "task book", book_words, True),
    Task("group bookings", "task call off", call_off_words, True),
    Task("group bookings", "task cancel", cancel_words, False),
    Task("group bookings", "task record", lambda office: [["record", key_of(office)]], False),
    Task("group points", "task credit", with_points("credit", 1_000_000), True),
    Task(
        "group points",
        "task debit",
        lambda office: [["debit", office.member(), office.points(999_999_999)]],
        False,
    ),
    Task("group points", "task balances", one("members"), False),
    Task("group points", "task money", of_member("money"), False),
    Task("group courts", "task facilities", one("facilities"), False),
    Task("group courts", "task facility", lambda office: [["bookings", office.facility()]], False),
    Task("group courts", "task new facility", new_facility_words, True),
    Task("group courts", "task set facility", set_facility_words, False),
    Task("group tournament", "task close", close_words, False),
    Task("group tournament", "task rain", rain_words, False),
    Task("group tournament", "task closed", one("closed"), False),
    Task("group tournament", "task reopen", reopen_words, False),
    Task("group season", "task credit all", credit_all_words, False),
    Task("group season", "task training", training_words, False),
    Task("group season", "task import", import_words, False),
    Task("group season", "task new year", one("new-year"), False),
    Task("group season", "task report", one("report"), False),
    Task("group season", "task page", one("page"), False),
    Task("group copies", "task copies", one("copies"), False),
    Task("group copies", "task restore", restore_words, False),
    Task("group copies", "task undo", one("undo"), False),
    Task("group copies", "task log", log_words, False),
    Task("group copies", "task check", one("check"), False),
]


def menu_lines():
    """Returns the lines of the menu, with the tasks side by side in two columns. Each group is below its heading."""
    blocks = []
    for number, task in enumerate(TASKS, 1):
        if not blocks or blocks[-1][0] != say(task.group):
            blocks.append([say(task.group)])
        blocks[-1].append(f"{number:2} {say(task.called)}")
    total = sum(map(len, blocks))
    left = []
    while blocks and len(left) + len(blocks[0]) <= (total + 1) // 2 + 1:
        left += blocks.pop(0)
    right = [line for block in blocks for line in block]
    width = max(len(it) for it in left) + 4
    right += [""] * (len(left) - len(right))
    left += [""] * (len(right) - len(left))
    return [f"{one.ljust(width)}{other}".rstrip() for one, other in zip(left, right)]


def is_small():
    """Returns whether the terminal has too few lines for the whole menu, with the lines above and below it."""
    return shutil.get_terminal_size((80, 24)).lines < len(menu_lines()) + LINES_AROUND


def small_menu_lines():
    """Returns a menu for a small terminal: today's tasks, and a line with the numbers of the tasks for each other group."""
    numbers = {}
    for number, task in enumerate(TASKS, 1):
        numbers.setdefault(task.group, []).append(number)
    lines = []
    for group, its in numbers.items():
        if group == TASKS[0].group:
            lines += [say(group), *(f"{it:2} {say(TASKS[it - 1].called)}" for it in its), ""]
        else:
            lines.append(f"{f'{its[0]}-{its[-1]}':>5} {say(group)}")
    return [*lines, say("small menu")]


def tasks_of_group(answer):
    """Returns the tasks of the group whose heading begins with the typed text."""
    typed = plain(answer)
    return [it for it in TASKS if typed and plain(say(it.group)).startswith(typed)]


def tasks_named(answer):
    """Returns the task with the typed number, or the tasks whose title matches the typed text. The text may be the whole title, its beginning, one of
    its words, or any other part of the title."""
    if answer.isdigit():
        return [TASKS[int(answer) - 1]] if 0 < int(answer) <= len(TASKS) else []
    typed = plain(answer)
    called = {task: plain(say(task.called)) for task in TASKS}
    for fits in (
        typed.__eq__,
        lambda text: text.startswith(typed),
        lambda text: typed in re.findall("[a-z0-9]+", text),
        lambda text: typed in text,
    ):
        found = [task for task, text in called.items() if fits(text)]
        if found:
            return found
    return []


def task_named(answer):
    """Returns the task that the clerk means, or None. Lets the clerk choose if several tasks match."""
    of_group = tasks_of_group(answer)
    tasks = of_group if of_group and is_small() else tasks_named(answer) or of_group
    if len(tasks) < 2:
        return tasks[0] if tasks else None
    texts = {say(task.called): task for task in tasks}
    return texts[chosen(answer, list(texts))]


def carry_out(office, task):
    office.begin()
    commands = task.words(office)
    for words in commands:
        print("\n   " + shlex.join(["office", office.club.name, *words]))
    if task.is_asked and means("no", ask(say("do it"))):
        raise Back
    for place, words in enumerate(commands, 1):
        makes_pass = "--to" in words and words[0] != "letters"
        file = words[words.index("--to") + 1] if makes_pass else ""
        if os.path.dirname(file):
            os.makedirs(os.path.dirname(file), 0o700, exist_ok=True)
        if words[0] == "person" and words[1] in office.written:  # the name is in no argument
            status, _ = as_desk(
                office.club,
                ["set-person", words[1]],
                json.dumps({"name": office.written[words[1]]}).encode(),
            )
        else:
            status, _ = ended_by_itself([sys.executable, "-I", SELF, office.club.name, *words])
        if status:
            left = [shlex.join(["office", office.club.name, *it]) for it in commands[place:]]
            lines = [say("broken off", club=office.club.name)] if status in BROKEN_OFF else []
            print(*lines, *([say("not done", lines="; ".join(left))] if left else []), sep="\n")
            return
        if makes_pass:
            print("   " + say("pass is in", file=file))


def menu(club, names):
    """Asks for tasks until the clerk leaves the menu. Returns the status."""
    with contextlib.suppress(ImportError):
        importlib.import_module("readline")  # so that a line can be edited
    office = Office(club, names)
    while True:
        print(
            "\n" + say("menu", club=club.name, day=day_text(datetime.date.today())),
            *(small_menu_lines() if is_small() else menu_lines()),
            say("menu ends"),
            sep="\n",
        )
        try:
            answer = ask(say("task"))
            if not answer:
                return 0
        except Back:
            return 0
        try:
            task = task_named(answer)
            if not task:
                print(say("no task"))
                continue
            carry_out(office, task)
        except (Back, KeyboardInterrupt):
            print(say("back"))
        try:
            ask(say("enter"))
        except Back:
            return 0

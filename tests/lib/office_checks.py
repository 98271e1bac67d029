"""Functions for the parts of office_holds.py. The functions check refused commands, send requests
to the desk, and read the office's log, which is called the book."""

import json

from office_room import HOME, NOON, begun, done, everything, office, same

DAY = "2026-05-01"
# A line of the book, which records one command of the office.
LINE = r"20\d\d-\d\d-\d\dT\d\d:\d\d:\d\d [a-z]+ [0-9] [ -~]+"
AT = ["--at", NOON]
YES = ["--yes", *AT]
COPIES, BOOK, TURN = HOME / "back-ups", HOME / "club-book", HOME / "club-orders"


def refused(words, status, line, by="anna", given="", keeps=True):
    """Checks that the office refuses the command with this status and this text on standard error.
    Unless `keeps` is false, also checks that the rows of the club don't change. Returns the
    output."""
    before = everything() if keeps else None
    found, out, errors = office(*words, by=by, given=given)
    same(f"office {' '.join(words)}: refused", (found, line in errors), (status, True))
    if line not in errors:
        print(f"  it says {errors!r}, {out!r}")
    if keeps:
        same(f"office {' '.join(words)}: the rows", everything(), before)
    return out


def lines(*words):
    return done(*words).splitlines()


def asked(server, text, method, path, body=None):
    return json.loads(server.answer(text, method, path, body)[1])


def book(server, text, facility, hour, number, guests=0, on=DAY):
    return asked(
        server,
        text,
        "PUT",
        f"/slots/{facility}/{on}/{hour:02d}/bookings/{number}",
        f'{{"guests":{guests}}}',
    )


def slot(server, text, facility, hour):
    return asked(server, text, "GET", f"/slots/{facility}/{DAY}/{hour:02d}")


def account(server, text):
    return asked(server, text, "GET", "/account")


def book_lines(*words):
    """Returns the lines of the office's book, without the moment at the beginning of each line."""
    return [line.split(" ", 1)[1] for line in lines("log", *words)]


def changed_meanwhile(words, shown, change):
    """Checks that a command is refused if the club changes after the office has asked the clerk and
    before the clerk answers."""
    with begun(*words, *AT) as command:
        same("the shown line", command.stdout.readline(), f"{shown}\n")
        change()
        _, errors = command.communicate("y\n")
    same(
        f"a change before the answer: {words}",
        (command.returncode, "has changed since" in errors),
        (1, True),
    )

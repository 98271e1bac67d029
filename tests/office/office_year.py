#!/usr/bin/env -S /usr/bin/python3 -B
"""`office CLUB new-year` keeps balances, keys and future slots. A killed `new-year` leaves either the old club or the new club.

Before the command `new-year`, the test fills a year with 1,500 requests. The server gives the same replies before and after this command. The test
needs root, because it covers the machine's folders with temporary overlays (tests/lib/office_room.sh).

Some of the club's past and future bookings are cancelled. The command keeps the old file, with the same bytes, under another name. The test compares
the balances, the points that each key has spent, the keys, the facilities, and the future bookings and slots. After the new year, the other commands
of a season work, and the service copies the old year's file to another disk.
"""
# pytestmark = [mark.package, mark.root, mark.needs("clubdesk passtool"),
#     mark.wants("sudo sqlite3 openssl util-linux bsdutils iproute2 systemd python3-psutil")]

import argparse
import hashlib
import random
import subprocess
import sys
from pathlib import Path

sys.path[:0] = [str(Path(__file__).resolve().parents[1] / it) for it in ("lib", "")]
from desk import opened
from office_room import (
    CLUB,
    HOME,
    ROOM,
    Service,
    configure,
    desk,
    done,
    killed_after,
    leave,
    mode,
    office,
    rows,
    run_as,
    same,
    whole,
)

parser = argparse.ArgumentParser()
parser.add_argument(
    "requests", type=int, nargs="?", default=1500, choices=range(10, 100_001), metavar="REQUESTS"
)
count = parser.parse_args().requests
chance = random.Random(count)
NOW = "2025-12-31T20:00"
YES = ["--yes", "--at", NOW]
FACILITIES = ("court-1", "boat-1", "room-1")


def make_club():
    """Makes four members with two keys each, a court, a boat and a room. Returns the texts of the passes."""
    configure()
    done("new")
    for words in (
        "add-facility court-1 court 4 200 8 22",
        "add-facility boat-1 boat 2 50 6 20",
        "add-facility room-1 room 50 9999 0 24",
    ):
        done(*words.split())
    texts = {}
    for member in ("amy", "bob", "eve", "zoe"):
        done("add-member", member, "99")
        for _ in range(30 if member == "eve" else 1):
            done("credit", member, "1000000")
        texts |= {
            key: done("add-key", key, member).strip() for key in (f"{member}-1", f"{member}-2")
        }
    return texts


def days():
    """Returns moments of the year, each with the day of the slots that members book at this moment. Some of these days are still in the future
    when the year ends."""
    return [
        (f"2025-{month:02d}-{day:02d}T07:30", f"2025-{month:02d}-{day + 3:02d}")
        for month in range(1, 13)
        for day in (2, 12, 22)
    ] + [
        ("2025-12-31T10:00", "2025-12-31"),
        ("2025-12-31T10:00", "2026-01-04"),
        ("2025-12-31T10:01", "2026-02-20"),
    ]


def live_a_year(texts):
    """Books random slots with random keys, cancels some of these bookings, and closes a slot of each day. Ignores refusals."""
    asked, numbers, made = days(), dict.fromkeys(texts, 0), 0
    for place, (moment, on) in enumerate(asked):
        server = Service(at=moment)
        while made < count * (place + 1) // len(asked):
            key = chance.choice(list(texts))
            numbers[key] += 1
            path = f"/slots/{chance.choice(FACILITIES)}/{on}/{chance.randrange(24):02d}/bookings/{numbers[key]}"
            reply = server.answer(
                texts[key], "PUT", path, f'{{"guests":{chance.choice([0, 0, 1, 3, 40])}}}'
            )
            made += 1
            if reply[0] == 200 and chance.random() < 0.3:
                server.answer(texts[key], "DELETE", path)
        server.stop()
        office("close-slot", "court-1", on, "21")
    done("rotate-key", "amy-2", "2026-06-01T00:00", "--to", "amy-2-new")
    done("revoke-key", "zoe-2")


def requests(texts):
    """Returns requests of every kind. Their slots are on the last day of the year or later. Some requests repeat a booking or a cancellation. The
    last request uses a narrowed pass."""
    asked = [(text, "GET", "/account") for text in texts.values()]
    for on in ("2025-12-31", "2026-01-04", "2026-02-20"):
        asked += [
            (texts["amy-1"], "GET", f"/slots/{facility}/{on}/{hour:02d}")
            for facility in FACILITIES
            for hour in range(24)
        ]
    for key, number, facility, on, hour, guests in rows(
        "SELECT pass_key, number, facility, date(day * 86400, 'unixepoch'), hour, guests FROM bookings WHERE day >= 20453 ORDER BY pass_key, number"
    ):
        path, text = f"/slots/{facility}/{on}/{hour:02d}/bookings/{number}", texts[key]
        asked += [
            (text, "PUT", path, f'{{"guests":{guests}}}'),
            (text, "PUT", path, f'{{"guests":{(guests + 1) % 50}}}'),
        ]
        asked += [(text, "DELETE", path)] * 2 + [(text, "GET", "/account")]
    asked += [
        (text, "PUT", f"/slots/court-1/2026-01-05/{8 + place:02d}/bookings/888888", '{"guests":1}')
        for place, text in enumerate(texts.values())
    ]
    limited = subprocess.run(
        ["passtool", "narrow", "spend <= 600"],
        input=texts["bob-1"],
        capture_output=True,
        text=True,
        check=True,
    ).stdout.strip()
    return [
        *asked,
        (limited, "PUT", "/slots/court-1/2026-01-06/10/bookings/777777", '{"guests":0}'),
    ]


def replies(asked):
    server = Service(at=NOW)
    found = [server.answer(*it) for it in asked]
    server.stop()
    return found


SUMS = {
    "balances": "SELECT name, credited, used, quota FROM members ORDER BY rowid",
    "keys": "SELECT name, member, hex(root), revoked FROM keys ORDER BY rowid",
    "older roots": "SELECT pass_key, hex(root), until FROM old_roots ORDER BY rowid",
    "facilities": "SELECT * FROM facilities ORDER BY rowid",
    "points spent by keys": "SELECT pass_key, sum(charge - refund) FROM bookings GROUP BY pass_key HAVING sum(charge - refund) > 0 ORDER BY pass_key",
    "future bookings": "SELECT * FROM bookings WHERE day >= 20453 ORDER BY rowid",
    "future slots": "SELECT * FROM slots WHERE day >= 20453 ORDER BY rowid",
    "future sheets": "SELECT day, count(*), sum(guests + 1), sum(charge) FROM bookings WHERE cancelled = 0 AND day >= 20453 GROUP BY day",
    "all spent points": "SELECT sum(charge - refund) FROM bookings",
}


def same_sums(when, *names):
    for name in names or SUMS:
        same(f"{name}{when}", rows(SUMS[name]), before[name])


def sum_of(path):
    return hashlib.sha256(path.read_bytes()).hexdigest()


def put_back():
    """Restores the club's file from before the new year."""
    for it in (CLUB, HOME / "club-wal"):
        it.unlink(missing_ok=True)
    subprocess.run(["cp", "-p", original, CLUB], check=True)


def kept_files():
    return sorted(it for it in HOME.glob("club-until-*") if it.suffix != ".new")


def goes_on():
    """After a new year, the commands of a season work. The command `undo` can't undo a new year. The service copies the old year's file to another
    disk."""
    place, pages = ROOM / "away", ROOM / "pages"
    for folder in (place, pages):
        subprocess.run(["install", "-d", "-o", "clubdesk", folder], check=True)
    subprocess.run(["mount", "-t", "tmpfs", "-o", "mode=777", "tmpfs", place], check=True)
    ROOM.chmod(0o755)
    server = Service(at=NOW)
    configure(
        PORT=server.port,
        PAGES=pages,
        ZONE_NAME="Etc/UTC",
        SITE="https://desk.example.org",
        OFFSITE=place,
    )
    same(
        "a new year can't be undone",
        office("undo", "--yes")[::2],
        (
            1,
            "refused: there is no correction to undo; `office club copies` lists the copies from before corrections\n",
        ),
    )
    same(
        "the copy from before the new year",
        "-new-year,before a correction," in done("copies", "--csv"),
        True,
    )
    credited = dict(rows("SELECT name, credited FROM members WHERE quota > 0"))
    done("credit-all", "70", "--as", "season-2026", "--yes")
    same(
        "points for all",
        dict(rows("SELECT name, credited FROM members WHERE quota > 0")),
        {name: points + 70 for name, points in credited.items()},
    )
    same("the points only once", office("credit-all", "70", "--as", "season-2026", "--yes")[0], 1)
    same(
        "a booking for a caller",
        done("book", "eve", "court-1", "2026-01-07", "9").split(",")[0],
        "booked court-1 2026-01-07 09:00 for eve",
    )
    same(
        "its cancellation",
        done("cancel-for", "eve", "court-1", "2026-01-07", "9").split(",")[0],
        "cancelled court-1 2026-01-07 09:00 of eve",
    )
    same(
        "a weekly closure",
        done(
            "close",
            "2026-01-12..2026-01-26",
            "20-22",
            "court-1",
            "--weekday",
            "mon",
            "--why",
            "League",
            "--yes",
        ).splitlines()[-1],
        "done",
    )
    same(
        "three Mondays",
        rows("SELECT count(*) FROM slots WHERE closed = 1 AND day >= 20465"),
        [(6,)],
    )
    done("undo", "--yes")
    same("undone", rows("SELECT count(*) FROM slots WHERE closed = 1 AND day >= 20465"), [(0,)])
    same("the page's list", done("page"), f"{pages / 'club.json'}: done\n")
    same(
        "a record has future bookings and what was carried forward",
        done("record", "amy-1").count("\n"),
        1 + rows("SELECT count(*) FROM bookings WHERE pass_key = 'amy-1'")[0][0],
    )
    done("lost-pass", "bob-1", "--to", "bob-1")
    same(
        "letters",
        done("letters", "bob-1", "--passes", "."),
        "1 sheet for 1 member is in letters.html\n",
    )
    same(
        "the old year's bookings",
        len(office("bookings", "amy", "--all", "--csv", club="club@2025")[1].splitlines()) > 10,
        True,
    )
    same(
        "the board's page of the old year",
        done("report", "2025").split(",")[0].strip(),
        "the report is in report-2025.html",
    )
    (sent,) = kept_files()
    same(
        "copied elsewhere",
        run_as("clubdesk", "/usr/lib/clubdesk/copy_offsite", "club", "--once", folder="/")[0],
        0,
    )
    same(
        "the old year's file is copied too",
        sum_of(place / sent.name.removeprefix("club-")),
        sum_of(sent),
    )
    same("the copy is listed", ",off-site," in done("copies", "--csv"), True)
    same("the totals", done("check"), "the stored totals match the sums of the bookings\n")
    server.stop()
    subprocess.run(["umount", place], check=True)
    configure()


texts = make_club()
live_a_year(texts)
whole("a year")
before = {what: rows(sql) for what, sql in SUMS.items()}
asked = requests(texts)
desk("sheet", "2025-12-31")
original = ROOM / "original"
subprocess.run(["cp", "-p", CLUB, original], check=True)
bookings = rows(
    "SELECT count(*), sum(day < 20453), sum(day < 20453 AND cancelled = 0) FROM bookings"
)[0]
print(f"{bookings[0]} bookings, {bookings[1]} of them past")
wanted = replies(asked)
put_back()

status, _, errors = office("new-year", "--before", "2026-01-01", *YES)
same("a future day", (status, errors), (1, "refused: 2026-01-01 is in the future\n"))
status, out, _ = office("new-year", "--at", NOW, given="no\n")
same("not confirmed", (status, sum_of(CLUB), kept_files()), (1, sum_of(original), []))
shown = done("new-year", *YES).splitlines()
old_file = HOME / "club-until-2025-12-30"
same("the preview", shown[0], f"copies the whole file to {old_file}")
same(
    "the old file is kept unchanged",
    (kept_files(), sum_of(old_file)),
    ([old_file], sum_of(original)),
)
same("its owner and mode", mode(old_file), "clubdesk 100600")
same_sums("")
whole("a new year")
carried = rows(
    "SELECT count(*), sum(cancelled), sum(refund), max(day) FROM bookings WHERE day < 20453"
)[0]
with opened(original) as database:
    costs = database.execute(
        "SELECT sum(charge - refund) FROM bookings WHERE day < 20453 GROUP BY pass_key HAVING sum(charge - refund) > 0"
    ).fetchall()
parts = sum(-(-cost // 499950) for (cost,) in costs)
same("the carried points", carried, (parts, parts, 0, 20452))
same("a key that needs several rows", parts > len(costs), True)
same("the file is smaller", CLUB.stat().st_size < original.stat().st_size, True)
for request, old, new in zip(asked, wanted, replies(asked), strict=True):
    same(f"{request}", new, old)
same("sheets", (0, done("sheet", "2026-01-04")), desk("sheet", "2026-01-04"))
same("a second new-year", office("new-year", *YES)[0], 1)
same_sums(", after a second new-year", "keys", "older roots", "facilities")

goes_on()

# Kills `new-year`. Afterwards the club is either the old club or the new club, and the same command can complete the new year.
outcomes = {"old": 0, "new": 0}
for attempt in range(min(count // 60, 25)):
    put_back()
    for file in kept_files():
        file.unlink()
    killed_after(chance.uniform(0.2, 1.6), ["new-year", *YES])
    was_done = rows("SELECT count(*) FROM bookings")[0][0] != bookings[0]
    outcomes["new" if was_done else "old"] += 1
    same_sums(", killed")
    whole("a killed new year")
    if was_done:
        same("the old file after a killed new-year", sum_of(kept_files()[0]), sum_of(original))
    elif attempt % 5 == 0:
        done("new-year", *YES)
        same("the old file after a repeat", sum_of(original) in map(sum_of, kept_files()), True)
        same_sums(", after a repeat")
print(f"killed {sum(outcomes.values())} times: {outcomes}")
leave()

#!/usr/bin/env -S /usr/bin/python3 -B
"""Corrections that run clubdesk's commands don't stop the server. A correction that is killed and repeated takes effect once.

The test kills each correction before and after each program that the correction runs. The test also kills a correction whose output no program reads.
Then the test runs the same correction again. The club must be the same as after a single run. If a correction is killed but its clubdesk command
still runs, the next correction waits for that command. The test also checks the copy that the office makes before a correction, and the rows that
`undo` restores. The test needs root, because it covers the machine's folders with temporary overlays (tests/lib/office_room.sh).

  tests/office/office_by_commands.py [debit|times]    debit: tests only debits; times: measures a tournament, and a client's waits during it
"""
# pytestmark = [mark.package, mark.faults, mark.speed("times"), mark.root, mark.alone, mark.needs("clubdesk passtool"),
#     mark.wants("sudo sqlite3 openssl util-linux bsdutils iproute2 systemd python3-psutil")]

import contextlib
import datetime
import json
import os
import shutil
import sqlite3
import subprocess
import sys
import threading
import time
from pathlib import Path

import psutil

sys.path[:0] = [str(Path(__file__).resolve().parents[1] / it) for it in ("lib", "")]
from office_checks import book_lines, lines, refused
from office_room import (
    HOME,
    ROOM,
    Service,
    begun,
    configure,
    done,
    kill,
    leave,
    office,
    rows,
    same,
    whole,
)

# The server's clock shows today's date, because the office uses the machine's clock.
TODAY = datetime.date.today()
PASSES = {}
PROGRAMS = {
    "clubdesk": Path("/usr/bin/clubdesk"),
    "back_up": Path("/usr/lib/clubdesk/back_up"),
    "systemctl": Path("/usr/bin/systemctl"),
}
STOPPER = f"""#!/bin/sh
# This script replaces a program that the office calls. At the Nth call, the script waits before or after the real program, so that the test can kill
# the office.
number=$(($(cat {ROOM}/calls) + 1))
[ "$1" != serve ] || exec {ROOM}/NAME "$@"
echo $number >{ROOM}/calls
read -r at how <{ROOM}/stop
[ "$number $how" != "$at before" ] || {{ echo >{ROOM}/stopped; sleep 60; }}
[ "$number $how" != "$at late" ] || {{ echo >{ROOM}/stopped; sleep 3; }}
{ROOM}/NAME "$@" || exit
[ "$number $how" != "$at after" ] || {{ echo >{ROOM}/stopped; sleep 60; }}
"""


def put_stoppers():
    """Replaces each program with a script that counts the calls of all these programs. The script can wait at a chosen call."""
    ROOM.chmod(0o777)
    stop_at("0 never")
    for name, path in PROGRAMS.items():
        shutil.copy(path, ROOM / name)
        (ROOM / "stopper").write_text(STOPPER.replace("NAME", name), encoding="ascii")
        subprocess.run(["install", "-m", "755", ROOM / "stopper", path], check=True)


def stop_at(point):
    """Sets the call at which the script waits, and resets the counter of calls."""
    for file, text in (("calls", "0"), ("stop", point)):
        (ROOM / file).write_text(f"{text}\n", encoding="ascii")
        (ROOM / file).chmod(0o666)
    (ROOM / "stopped").unlink(missing_ok=True)


def calls():
    """Returns the number of calls since the last reset."""
    return int((ROOM / "calls").read_text(encoding="ascii"))


def stopped(point, words):
    """Starts a command, and returns when the command waits at this point."""
    stop_at(point)
    command = begun(*words)
    while command.poll() is None and not (ROOM / "stopped").exists():
        time.sleep(0.005)
    same(f"{words} stops {point}", command.poll(), None)
    return command


def killed(point, words):
    kill(stopped(point, words))
    stop_at("0 never")


def killed_at_its_output(words):
    """Runs a command whose output no program reads. Kills the command when the log has the command's line."""
    stop_at("0 never")
    reader, writer = os.pipe()
    os.set_blocking(writer, False)
    with contextlib.suppress(BlockingIOError):
        while True:
            os.write(writer, b" ")
    os.set_blocking(writer, True)
    line = ["runuser", "-u", "anna", "--", "office", "club", *words]
    before = len(lines("log"))
    with subprocess.Popen(
        line,
        stdin=subprocess.DEVNULL,
        stdout=writer,
        stderr=subprocess.PIPE,
        text=True,
        cwd="/home/anna",
        start_new_session=True,
    ) as command:
        while command.poll() is None and len(lines("log")) == before:
            time.sleep(0.01)
        time.sleep(0.3)
        same(f"{words} waits for its output", command.poll(), None)
        kill(command)
    os.close(reader)
    os.close(writer)


class Correction:
    """A kind of correction. Each call of `next` returns the arguments of a new correction, and the rows that the query `sql` must find afterwards."""

    def __init__(self):
        self.number = 0

    def next(self):
        self.number += 1
        return self.made()


class Quota(Correction):
    sql = "SELECT quota FROM members WHERE name = 'zoe'"

    def made(self):
        return ["set-quota", "zoe", str(self.number)], [(self.number,)]


class Undoing(Correction):
    """Undoes the change of a quota."""

    sql = "SELECT quota FROM members WHERE name = 'amy'"

    def made(self):
        before = rows(self.sql)
        done("set-quota", "amy", str(20 + self.number), "--yes")
        return ["undo"], before


class Reopening(Correction):
    """Reopens three hours of a day. The second hour is already open."""

    def made(self):
        day = str(TODAY + datetime.timedelta(self.number))
        self.sql = (
            f"SELECT hour FROM slots WHERE date(day * 86400, 'unixepoch') = '{day}' AND closed = 1"
        )
        for hour in ("10", "12"):
            done("close-slot", "court-1", day, hour)
        return ["reopen-slot", "court-1", day, "10-13"], []


class Prices(Correction):
    """Sets a new price and new hours, and keeps the facility's places."""

    sql = "SELECT * FROM facilities WHERE name = 'court-1'"

    def made(self):
        return [
            "set-facility",
            "court-1",
            f"--price={self.number}",
            f"--hours=7-{10 + self.number}",
        ], [("court-1", "court", 4, self.number, 7, 10 + self.number)]


class Debit(Correction):
    """Debits so many points that the office needs two debit commands."""

    sql = "SELECT credited FROM members WHERE name = 'zoe'"

    def made(self):
        points = 1_000_000 + self.number
        return ["debit", "zoe", str(points)], [(rows(self.sql)[0][0] - points,)]


class OfBookings(Correction):
    """A correction of a day on which zoe has booked ten o'clock and, if `bookings` is 2, eleven o'clock with a guest."""

    bookings = 2

    def made(self):
        self.day = str(TODAY + datetime.timedelta(self.number))
        for hour, guests in ((10, 0), (11, 1))[: self.bookings]:
            self.booked += 1
            path = f"/slots/{self.court}/{self.day}/{hour}/bookings/{self.booked}"
            same(path, server.answer(PASSES["zoe"], "PUT", path, f'{{"guests":{guests}}}')[0], 200)
        is_day = f"date(day * 86400, 'unixepoch') = '{self.day}' AND facility = '{self.court}'"
        self.sql = f"""SELECT hour, cancelled, refund - charge, 0 FROM bookings WHERE {is_day} AND pass_key = 'zoe-1'
            UNION ALL SELECT hour, closed, taken, 1 FROM slots WHERE {is_day} ORDER BY 4, 1"""
        return self.words()

    booked = 0


class Cancelling(OfBookings):
    court, bookings, booked = "court-2", 1, 1000

    def words(self):
        return ["cancel", "zoe-1", str(self.booked)], [(10, 1, 0, 0), (10, 0, 0, 1)]


class Raining(OfBookings):
    court, booked = "court-3", 2000

    def words(self):
        return ["rain", self.day, "court-3", "9-12"], [
            (10, 1, 0, 0),
            (11, 1, 0, 0),
            (10, 0, 0, 1),
            (11, 0, 0, 1),
        ]


class Closing(OfBookings):
    """Closes the two hours that zoe has booked, and a free hour. The office stores the reason only once, even if the correction is killed and
    repeated."""

    court, booked = "court-4", 3000

    def words(self):
        wanted = [(10, 1, 0, 0), (11, 1, 0, 0), (10, 1, 0, 1), (11, 1, 0, 1), (12, 1, 0, 1)]
        return ["close", self.day, "10-13", "court-4", "--why", f"cup-{self.number}"], wanted

    def hold_reasons(self):
        same(
            "the reasons of closed slots, each once",
            [it["why"] for it in json.loads((HOME / "club-reasons").read_text(encoding="utf-8"))],
            [f"cup-{number}" for number in range(1, self.number + 1)],
        )


class Leaving(Correction):
    """A member with two keys leaves. One key is already revoked, and each key has a future booking."""

    def made(self):
        member = f"m{self.number}"
        day, hour = str(TODAY + datetime.timedelta(1 + self.number // 14)), 8 + self.number % 14
        done("add-member", member, "9")
        done("credit", member, "1000")
        for key in (1, 2):
            text = done("add-key", f"{member}-{key}", member).strip()
            path = f"/slots/court-5/{day}/{hour:02d}/bookings/1"
            same(path, server.answer(text, "PUT", path, '{"guests":0}')[0], 200)
        done("revoke-key", f"{member}-2")
        done("person", member, given=f"{member}\n\n\n")
        new = f"'{self.number}'"
        self.sql = f"""SELECT name, quota, credited, used FROM members WHERE name IN ('{member}', {new})
            UNION ALL SELECT name, revoked, (SELECT count(*) FROM bookings WHERE pass_key = name), (SELECT sum(refund) FROM bookings WHERE pass_key = name)
            FROM keys WHERE member IN ('{member}', {new}) ORDER BY 1"""
        return ["leave", member], [
            (str(self.number), 0, 1000, 0),
            (f"{self.number}-1", 1, 1, 200),
            (f"{self.number}-2", 1, 1, 200),
        ]


def killed_and_given_again(correction, programs):
    """Runs a correction without killing it. Then kills a new correction of this kind at each point, and runs the killed correction again."""
    words, wanted = correction.next()
    command, before = words[0], rows(correction.sql)
    stop_at("0 never")
    same(f"{words} is done", lines(*words, "--yes")[-1], "done")
    same(f"{command} runs programs", calls(), programs)
    same(f"{words} is done: the club", rows(correction.sql), wanted)
    same(f"{words}: the copy from before", rows_of_copy(command, correction.sql), before)
    for point in [
        f"{number} {how}" for number in range(1, programs + 1) for how in ("before", "after")
    ] + ["output"]:
        words, wanted = correction.next()
        if point == "output":
            killed_at_its_output([*words, "--yes"])
        else:
            killed(point, [*words, "--yes"])
        what = f"{words}, killed {point} and repeated"
        same(what, office(*words, "--yes")[::2], (0, ""))
        same(f"{what}: the club", rows(correction.sql), wanted)
        same(
            f"{what}: the book",
            [line for line in book_lines() if line.endswith(" ".join(words))][-1:],
            [f"anna 0 {' '.join(words)}"],
        )
    whole(f"{command}, killed")


def rows_of_copy(command, sql):
    """Returns the rows that an SQL statement finds in the newest copy that the office made before a command of this kind."""
    newest = max((HOME / "club-before").glob(f"*-{command}*"), key=lambda it: it.stat().st_mtime_ns)
    with contextlib.closing(sqlite3.connect(f"file:{newest}?immutable=1", uri=True)) as db:
        return db.execute(sql).fetchall()


def outlives_its_order(correction, programs):
    """If the test kills a correction, but not the clubdesk process that the correction started, this process continues. The next correction waits
    until the clubdesk process ends."""
    words, wanted = correction.next()
    order = stopped(f"{programs} late", [*words, "--yes"])
    for it in psutil.Process(order.pid).children(recursive=True):
        if it.name() not in ("clubdesk", "sleep"):
            it.kill()
    order.kill()
    order.wait()
    stop_at("0 never")
    with begun(*words, "--yes") as again:
        same(
            f"{words} waits for its command",
            again.stderr.readline(),
            "waiting for another command\n",
        )
        again.communicate()
    same(
        f"{words}, after its command has ended",
        (again.returncode, rows(correction.sql)),
        (0, wanted),
    )


def credited_meanwhile(correction):
    """If the member's credit has changed since an interrupted debit, the office refuses to continue the debit. When the clerk runs the command
    once more, the office starts a new debit."""
    words, _ = correction.next()
    killed("3 before", [*words, "--yes"])
    done("credit", "zoe", "7")
    refused(
        [*words, "--yes"],
        1,
        "refused: the credits of zoe have changed since this `debit` was interrupted",
    )
    before = rows(correction.sql)[0][0]
    done(*words, "--yes")
    same(f"{words} starts over", rows(correction.sql), [(before - int(words[-1]),)])


def late(point, words, path):
    """Runs a command that waits at this point until amy has booked. Returns the command's status and output."""
    order = stopped(f"{point} late", words)
    same(path, server.answer(PASSES["amy"], "PUT", path, '{"guests":0}')[0], 200)
    out, errors = order.communicate()
    return order.returncode, out.splitlines(), errors


def booked_meanwhile(closing):
    """If a member books a slot just before the office closes this slot, the office prints the slot. With --yes, the office also cancels the new
    booking. One undo reverts all these changes."""
    words, wanted = closing.next()
    before = rows(closing.sql)
    path = f"/slots/court-4/{closing.day}/10/bookings/1"
    slot = f"court-4 {closing.day} 10:00"
    status, out, errors = late(3, [*words, "--yes"], path)
    same(
        "a booking before a slot is closed",
        (status, errors, out[-5:]),
        (
            0,
            "",
            [
                f"booked meanwhile: {slot}",
                f"cancels {slot}, 1 person, 200 points back: amy-1 1, amy",
                f"closes {slot}",
                "in all: 1 booking cancelled, 200 points back to amy, 1 slot closed",
                "done",
            ],
        ),
    )
    same("its slots", rows(closing.sql), wanted)
    sql = "SELECT cancelled, refund - charge FROM bookings WHERE pass_key = 'amy-1' AND number = 1"
    same("its booking", rows(sql), [(1, 0)])
    whole("a booking before a slot is closed")
    undone(
        words,
        closing.sql,
        [
            (hour, closed, taken + 1 if (hour, kind) == (10, 1) else taken, kind)
            for hour, closed, taken, kind in before
        ],
    )
    same("the cancelled booking is back", rows(sql), [(0, -200)])


def booked_out_of_hours(prices):
    """A member books an hour just before the office removes the hour from the opening hours. The booking stays, and the office shows the booking."""
    words, wanted = prices.next()
    words[-1] = "--hours=10-20"
    day = str(TODAY + datetime.timedelta(50))
    status, out, errors = late(2, [*words, "--yes"], f"/slots/court-1/{day}/09/bookings/2")
    same(
        "a booking before the opening hours change",
        (status, out[-1], errors),
        (0, "done", f"booked meanwhile: the booking amy-1 2 is on {day} at 09:00\n"),
    )
    same("the facility's numbers afterwards", rows(prices.sql), [(*wanted[0][:4], 10, 20)])


def undone(words, sql, before):
    same(f"{words} is undone", lines("undo", "--yes")[-1], "done")
    same(f"{words} is undone: the club", rows(sql), before)
    refused(["undo", "--yes"], 1, "there is no correction to undo")
    whole(f"an undo of {words}")


def make_club():
    configure()
    done("new")
    for number in range(1, 6):
        done("add-facility", f"court-{number}", "court", "4", "200", "8", "22")
    for words in ("add-member zoe 99", "add-member amy 5", "credit amy 10000"):
        done(*words.split())
    for member in ("zoe", "amy"):
        PASSES[member] = done("add-key", f"{member}-1", member).strip()
    for _ in range(30):
        done("credit", "zoe", "1000000")


def tournament():
    """Closes four courts for a day with 60 bookings, while a client uses the desk. Prints the total time, and the longest wait for a reply."""
    day, taken = str(TODAY + datetime.timedelta(30)), 0
    for court in range(1, 5):
        for hour in range(8, 22):
            for _ in range(2 if hour == 8 else 1):
                taken += 1
                path = f"/slots/court-{court}/{day}/{hour:02d}/bookings/{taken}"
                same(path, server.answer(PASSES["zoe"], "PUT", path, '{"guests":0}')[0], 200)
    same("bookings of the day", taken, 60)
    is_over, waits = threading.Event(), []

    def asks():
        while not is_over.is_set():
            begun_at = time.monotonic()
            server.answer(PASSES["amy"], "GET", "/account")
            waits.append(time.monotonic() - begun_at)
            time.sleep(0.005)

    client = threading.Thread(target=asks)
    client.start()
    begun_at = time.monotonic()
    shown = lines("close", day, "8-22", "court-1", "court-2", "court-3", "court-4", "--yes")
    whole_time = time.monotonic() - begun_at
    is_over.set()
    client.join()
    same(
        "a tournament",
        shown[-2:],
        ["in all: 60 bookings cancelled, 12000 points back to zoe, 56 slots closed", "done"],
    )
    print(
        f"a tournament of 60 bookings and 56 slots took {whole_time:.2f} s; the slowest of {len(waits)} replies came after {max(waits) * 1000:.1f} ms"
    )
    same(
        "the tournament takes at most 3 s, and each reply at most 20 ms",
        (whole_time < 3, max(waits) < 0.02),
        (True, True),
    )
    same("the server keeps running", server.starts, 1)
    whole("a tournament")


make_club()
if sys.argv[1:] == ["times"]:
    server = Service(at=f"{TODAY}T00:00")
    tournament()
    server.stop()
    leave()
put_stoppers()
server = Service(at=f"{TODAY}T00:00")
quota, debit, prices, closing = Quota(), Debit(), Prices(), Closing()
if sys.argv[1:] == ["debit"]:
    killed_and_given_again(debit, 3)
    outlives_its_order(debit, 3)
    server.stop()
    leave()
corrections = [
    (quota, 2),
    (Undoing(), 2),
    (Reopening(), 3),
    (debit, 3),
    (prices, 3),
    (Cancelling(), 2),
    (Raining(), 3),
    (closing, 6),
]
for correction, programs in corrections:
    killed_and_given_again(correction, programs)
closing.hold_reasons()
outlives_its_order(debit, 3)
credited_meanwhile(debit)
booked_out_of_hours(prices)
same("the server keeps running", server.starts, 1)
killed_and_given_again(Leaving(), 6)
same(
    "no personal data is left",
    [
        it
        for it in (HOME / "club-people.csv").read_text(encoding="utf-8").splitlines()
        if it.startswith("m")
    ],
    ["member,name,mail,telephone"],
)
same(
    "copies that are left",
    [it for folder in (Path("/dev/shm"), HOME) for it in folder.glob(".office-*")],
    [],
)
for correction in (quota, debit, prices, closing):
    words, _ = correction.next()
    before = rows(correction.sql)
    killed("2 after", [*words, "--yes"])
    done(*words, "--yes")
    undone(words, correction.sql, before)
booked_meanwhile(closing)
server.stop()
leave()

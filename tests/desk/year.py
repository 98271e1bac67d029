#!/usr/bin/env python3
"""During a simulated year with kills and both changes of summer time, `clubdesk` answers as the
rules in Python do.

`tests/reference` has these rules. The test compares each reply, each command's answer and each day
sheet. Every 30 days the test compares all rows and totals. With `--self-test`, the test checks that
it finds faults planted in the rules.

Members use narrowed passes, and the office uses each of its commands. tests/lib/set_clock.c sets
the clock of each server. The server converts the clock's time to the club's civil time with the
zone's POSIX rule. The test converts the clock's time with Python's zoneinfo. After a kill, the test
sends the request or command again. The second answer must match the rules, whether or not the
killed program carried out the first try. A repeated command may also report that its key exists
already.

    tests/desk/year.py [--seed N] [--days N] [--requests N] [--self-test]
"""
# pytestmark = [mark.programs, mark.quick("--days", "20"), mark.programs("--self-test"), mark.needs("clubdesk")]

import argparse
import os
import random
import socket
import subprocess
import sys
import tempfile
import time
from datetime import datetime, timedelta, timezone
from pathlib import Path
from zoneinfo import ZoneInfo

sys.dont_write_bytecode = True
sys.path[:0] = [str(Path(__file__).resolve().parents[1] / it) for it in ("lib", "")]
import desk as programs
from both import Both, expect, finds_each_plant, spelled_day, spelled_moment
from reference import caveats, passes

RULE, ZONE = "CET-1CEST,M3.5.0,M10.5.0/3", ZoneInfo("Europe/Berlin")
NEW_YEAR = datetime(2026, 1, 1, 6, tzinfo=timezone.utc)
MEMBERS = [f"member-{it}" for it in range(24)]
FACILITIES = [
    ("court-1", "court", 4, 200, 8, 22),
    ("court-2", "court", 4, 200, 8, 22),
    ("court-3", "court", 2, 151, 7, 23),
    ("boat-1", "boat", 8, 75, 6, 20),
    ("room-1", "room", 1, 601, 9, 24),
    ("room-2", "room", 30, 5, 0, 24),
]
KILLS_ONE_IN = 9  # servers
DAYS_OF_SUMMER_TIME = (86, 87, 88, 296, 297, 298)  # about the ends of March and October


def civil_minute(instant):
    """Returns what the club's clock shows at an instant, as minutes since 1970-01-01T00:00 on that
    clock."""
    shown = instant.astimezone(ZONE)
    return (shown.date() - caveats.EPOCH).days * 1440 + shown.hour * 60 + shown.minute


class Year(Both):
    def __init__(self, seed, desk, folder, plant=None):
        super().__init__(desk, Path(folder) / "club", plant)
        self.draw = random.Random(seed)
        self.clock = programs.library("set_clock", folder)
        self.passes = {}  # the passes in use, by key
        self.booked = []  # booking requests that may be repeated or cancelled later
        self.next_key = self.kills = self.commands = 0

    # ---- the office

    def give(self, command):
        self.commands += 1
        super().give(command)

    def add_key(self, member):
        key = f"k{self.next_key}"
        self.next_key += 1
        self.give(("add-key", key, member, self.draw.randbytes(32)))
        self.hand_out(key)

    def hand_out(self, key):
        """Adds the key's full pass and two narrowed passes to the passes in use, each in a random
        form."""
        whole = passes.minted(self.roots[key][-1], b"key:" + key.encode())
        held = [whole, *(self.narrowed(whole) for _ in range(2))]
        self.passes.setdefault(key, []).extend(
            passes.text_of(it, self.draw.choice(("v1", "v2", "json"))) for it in held
        )

    def narrowed(self, held):
        draw = self.draw
        for _ in range(draw.choice((1, 1, 2))):
            day = draw.randrange(365)
            first, last = (NEW_YEAR.date() + timedelta(days=it) for it in (day, day + 30))
            held = held.narrowed(
                draw.choice(
                    (
                        "kind = court",
                        "facility = court-1,court-2",
                        "weekday = sat,sun",
                        "hours = 17-22",
                        f"days = {first}..{last}",
                        f"until < {last}T18:00",
                        "guests <= 1",
                        f"spend <= {draw.choice((600, 2000, 9000))}",
                        "actions = view,book",
                        "actions = view",
                    )
                ).encode()
            )
        return held

    def begin(self):
        for facility in FACILITIES:
            self.give(("add-facility", *facility))
        for member in MEMBERS:
            self.give(("add-member", member, self.draw.choice((2, 5, 5, 20))))
            self.give(("credit", member, 20_000))
            for _ in range(self.draw.choice((1, 1, 2))):
                self.add_key(member)

    def work_of_office(self, day, moment):
        """Draws the office's commands of a day, and runs them."""
        draw = self.draw
        if day % 30 == 0:
            for member in MEMBERS:
                self.give(("credit", member, draw.choice((500, 5000, 12_000))))
        if draw.random() < 0.15:
            self.add_key(draw.choice(MEMBERS))
        if draw.random() < 0.1:
            key = draw.choice(list(self.passes))
            self.give(
                ("rotate-key", key, draw.randbytes(32), moment + draw.choice((-5, 600, 4000)))
            )
            self.hand_out(key)
        if draw.random() < 0.04:
            self.give(("revoke-key", draw.choice(list(self.passes))))
        if draw.random() < 0.2:
            self.give(
                (
                    "close-slot",
                    draw.choice(FACILITIES)[0],
                    moment // 1440 + draw.randrange(20),
                    draw.randrange(24),
                )
            )
        if draw.random() < 0.1 and self.club.closed:
            self.give(("open-slot", *draw.choice(sorted(self.club.closed))))
        if draw.random() < 0.05:
            member = draw.choice(MEMBERS)
            balance = self.club.balance(member)
            self.give(("debit", member, draw.choice((1, 500, balance // 2, balance, balance + 1))))
        if draw.random() < 0.05:
            name, _, places, price, opens, shuts = draw.choice(FACILITIES)
            self.give(
                (
                    "set-facility",
                    name,
                    draw.choice((1, places, places, places + 2)),
                    draw.choice((price, price // 2, price + 30)),
                    opens + draw.choice((0, 0, 2)),
                    shuts - draw.choice((0, 0, 2)),
                )
            )
        if draw.random() < 0.2:
            key = draw.choice(
                [it for it, rows in self.club.bookings.items() if rows] or list(self.passes)
            )
            self.give(("cancel-booking", key, draw.choice([*self.club.bookings[key]][-20:] or [1])))
        if draw.random() < 0.05:
            self.give(("set-quota", draw.choice(MEMBERS), draw.choice((0, 3, 5, 99, 100))))
        if draw.random() < 0.1:
            self.give_and_kill(
                ("add-key", f"k{self.next_key}", draw.choice(MEMBERS), draw.randbytes(16))
            )

    def give_and_kill(self, command):
        """Runs a command that adds a key, and kills it after a random delay of at most 30 ms. Then
        runs the command again. The second try must succeed, or report that the key exists
        already."""
        self.next_key += 1
        process = subprocess.Popen(
            [self.desk, *map(str, self.words_of(command))],
            stdout=subprocess.DEVNULL,
            stderr=subprocess.DEVNULL,
        )
        time.sleep(self.draw.random() * 0.03)
        process.kill()
        process.wait()
        wanted = self.answer_of(command)
        found = programs.command(self.desk, *self.words_of(command))
        if found != (1, "", "refused: exists\n"):
            expect(f"command {command} again", found, wanted)
        self.hand_out(command[1])
        self.kills += 1

    # ---- members

    def request(self, moment):
        draw = self.draw
        if self.booked and draw.random() < 0.3:
            method, key, path, body = draw.choice(self.booked[-400:])
            method = draw.choice((method, method, "DELETE"))
            return self.bytes_of(moment, method, key, path, body if method == "PUT" else b"")
        key = draw.choice(list(self.passes))
        kind = draw.choice(("book", "book", "book", "book", "view", "account"))
        if kind == "account":
            return self.bytes_of(moment, "GET", key, "/account")
        facility, _, _, _, opens, shuts = draw.choice(FACILITIES)
        day = moment // 1440 + min(
            draw.choice((0, 0, 1, 1, 2, 3, 7, 14, 59, 60, 61)), caveats.LAST_DAY
        )
        slot = f"/slots/{facility}/{spelled_day(day)}/{draw.randrange(opens, shuts):02d}"
        if kind == "view":
            return self.bytes_of(moment, "GET", key, slot)
        request = (
            "PUT",
            key,
            f"{slot}/bookings/{draw.randrange(1, 10**9)}",
            b'{"guests":%d}' % draw.choice((0, 0, 1, 1, 2, 3)),
        )
        self.booked.append(request)
        return self.bytes_of(moment, *request)

    def bytes_of(self, moment, method, key, path, body=b""):
        given = self.draw.choice(self.passes[key][-6:])
        if self.draw.random() < 0.03:
            # Adds a caveat with which the pass expires at this minute or at the next minute.
            until = f"until < {spelled_moment(moment + self.draw.choice((0, 1)))}"
            given = passes.text_of(passes.read(given).narrowed(until.encode()), "v2")
        length = b"Content-Length: %d\r\n" % len(body) if body else b""
        return b"%s %s HTTP/1.1\r\nHost: club\r\nAuthorization: Bearer %s\r\n%s\r\n%s" % (
            method.encode(),
            path.encode(),
            given,
            length,
            body,
        )

    # ---- servers

    def server(self, instant, count):
        variables = {"LD_PRELOAD": self.clock, "CLOCK_SECOND": str(int(instant.timestamp()))}
        return programs.Server(self.desk, self.file, count, "--zone", RULE, variables=variables)

    def served(self, instant, count):
        """Sends requests to a server whose clock shows this instant. Kills about one server in nine
        during a request, and sends the remaining requests to a new server."""
        moment = civil_minute(instant)
        kill_at = self.draw.randrange(count) if self.draw.randrange(KILLS_ONE_IN) == 0 else count
        asked = [self.request(moment) for _ in range(count)]
        with self.server(instant, count) as server:
            for data in asked[:kill_at]:
                self.ask(server, data, moment)
            if kill_at < count:
                self.cut_off(server, asked[kill_at])
        if kill_at < count:
            with self.server(instant, count - kill_at) as server:
                for data in asked[kill_at:]:
                    self.ask(server, data, moment)

    def cut_off(self, server, data):
        """Sends a request, and kills the server while the server carries out the request or shortly
        afterwards."""
        with socket.create_connection(("127.0.0.1", server.port), 30) as client:
            client.sendall(data)
            time.sleep(self.draw.choice((0, 0.0001, 0.0005, 0.002)))
            server.kill()
        self.kills += 1

    def pass_day(self, day, requests):
        """Simulates a day of the club: first the office's commands, then two or three servers, and
        finally the day sheet. On days near a change of summer time, runs six more servers."""
        draw = self.draw
        instants = sorted(
            NEW_YEAR + timedelta(days=day, minutes=draw.randrange(16 * 60))
            for _ in range(draw.choice((2, 3)))
        )
        if day in DAYS_OF_SUMMER_TIME:
            instants += [
                NEW_YEAR + timedelta(days=day, hours=19, minutes=it)
                for it in (-1, 0, 59, 60, 119, 120)
            ]
        self.work_of_office(day, civil_minute(instants[0]))
        for instant in instants:
            self.served(instant, max(1, requests // len(instants)))
        self.compare_sheet(civil_minute(instants[0]) // 1440)

    def pass_days(self, days, requests):
        for day in programs.paced(days, 1, "days"):
            self.pass_day(day, requests)
            if day % 30 == 29:
                self.compare_rows()
        self.compare_rows()


def run(given, desk, plant=None):
    with tempfile.TemporaryDirectory(dir=programs.IN_MEMORY) as folder:
        year = Year(given.seed, desk, folder, plant)
        year.begin()
        year.pass_days(given.days, given.requests)
        bookings = sum(map(len, year.club.bookings.values()))
        print(
            f"{given.days} days, seed {given.seed}: {bookings} bookings, {year.commands} commands,"
            f" {year.kills} kills, no difference"
        )


def main():
    parser = argparse.ArgumentParser(description=__doc__.partition("\n\n")[0])
    parser.add_argument("--seed", type=int, default=1)
    parser.add_argument("--days", type=int, default=365)
    parser.add_argument(
        "--requests",
        type=int,
        default=240,
        help="the number of requests per day; the default takes about ten minutes",
    )
    parser.add_argument(
        "--self-test", action="store_true", help="plants each fault of the reference in turn"
    )
    given = parser.parse_args()
    os.environ.setdefault("TZ", "UTC")
    desk = programs.program("clubdesk")
    if given.self_test:
        given.days = min(given.days, 90)
        return 0 if finds_each_plant(lambda plant: run(given, desk, plant)) else 1
    run(given, desk)
    return 0


if __name__ == "__main__":
    sys.exit(main())

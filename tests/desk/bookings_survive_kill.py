#!/usr/bin/env -S /usr/bin/python3 -B -m pytest -q -p no:cacheprovider
"""Although the test kills servers while clients book, each acknowledged booking is in the file
exactly once.

When the test sends the same requests again, it gets the same replies.

A fixed seed determines the times of the kills. The test finds each acknowledged booking in the
rows, in the day sheets and in the replies to GET requests. A booking that was in progress may be in
the file too, but never in part. The file's totals are the sums of its bookings. At the end the file
has all 200 bookings, each once. With ROUNDS=N in the environment, the test kills N servers.
"""

import os
import random
import threading
import time

import pytest

import desk
from both import Both, expect, spelled_day
from kinds import ACCOUNT, NOON, ONE, ROOT, TWO, Row, key_pass, text
from reference import caveats, wire

pytestmark = [pytest.mark.faults, pytest.mark.needs("clubdesk")]

ROUNDS = int(os.environ.get("ROUNDS", "20"))
MOMENT, MAY = caveats.moment_of(NOON), caveats.day_of("2026-05-01")
DAYS = range(MAY, MAY + 8)
KEYS = [text(key_pass(f"k{key}")) for key in range(1, 5)]
SLOTS = [
    f"/slots/court-1/{spelled_day(MAY + slot // 14)}/{8 + slot % 14:02}" for slot in range(100)
]
# The first booking in a slot is for two persons, and the second booking is for one.
PUTS = [
    Row("PUT", f"{SLOTS[it // 2]}/bookings/{it + 1}", ONE if it % 2 else TWO, KEYS[it % 4]).data
    for it in range(200)
]
GETS = [Row("GET", path, passed=KEYS[0]).data for path in SLOTS] + [
    ACCOUNT.under(it).data for it in KEYS
]


class Desk(Both):
    """A club with four members, who have one key each, and a court with 4 places for 7 points. Each
    member has 10,000 points, which are enough for all bookings."""

    def __init__(self, program, file):
        super().__init__(program, file)
        self.give(("add-facility", "court-1", "court", 4, 7, 8, 22))
        for key in range(1, 5):
            for command in (
                ("add-member", f"m{key}", 99),
                ("credit", f"m{key}", 10_000),
                ("add-key", f"k{key}", f"m{key}", bytes.fromhex(ROOT)),
            ):
                self.give(command)

    def server(self, count=None):
        return desk.Server(self.desk, self.file, count, "--at", NOON)

    def asks(self, requests):
        with self.server(len(requests)) as it:
            for data in requests:
                self.ask(it, data, MOMENT)

    def holds(self):
        """Checks that the file has exactly the bookings of the reference, each once, and the right
        totals."""
        expect("unsound", desk.unsound(self.file), [])
        self.compare_rows()
        for day in DAYS:
            self.compare_sheet(day)
        self.asks(GETS)

    def killed_after(self, seconds):
        """Sends the requests to a server, and kills the server after the given number of seconds.
        Returns the server's replies."""
        replies = []
        with self.server() as it:
            client = threading.Thread(
                target=lambda: replies.extend(it.exchange(data) for data in PUTS)
            )
            client.start()
            time.sleep(seconds)
            it.kill()
            client.join()
        return replies


@pytest.fixture(scope="module")
def seconds(clubdesk, tmp_path_factory):
    """Returns the number of seconds that all bookings take if nobody kills the server."""
    club = Desk(clubdesk, tmp_path_factory.mktemp("whole") / "club")
    start = time.monotonic()
    club.asks(PUTS)
    taken = time.monotonic() - start
    club.holds()
    return taken


@pytest.mark.parametrize("number", range(ROUNDS))
def test_server_that_is_killed(clubdesk, seconds, tmp_path, number):
    club = Desk(clubdesk, tmp_path / "club")
    replies = club.killed_after(random.Random(number).random() * seconds)
    acknowledged = [it for it in replies if it]
    there = len(desk.rows(club.file, "SELECT * FROM bookings"))
    assert there in (len(acknowledged), len(acknowledged) + 1)
    wanted = [wire.exchange(club.club, data, MOMENT) for data in PUTS[:there]]
    assert acknowledged == wanted[: len(acknowledged)]
    club.holds()
    club.asks(PUTS)
    club.holds()

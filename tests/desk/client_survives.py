#!/usr/bin/env -S /usr/bin/python3 -B -m pytest -q -p no:cacheprovider
"""`examples/client.py` books nothing twice and loses no booking, even if the server is killed or a
proxy fails.

The test kills the server and starts it again 100 times. No acknowledged booking or cancellation is
lost.

Every fifth time, the test also kills the client. The client requests each slot once, and cancels
most of its bookings. At the end the file has exactly the bookings in the client's record, each
once. The bookings have the charges, places and refunds that the server acknowledged. The file's
totals are the sums of its bookings. Then the test runs each command of client.py and compares the
command's output. Finally, the client books and cancels through a proxy that fails in several ways.
With KILLS=N in the environment, the test kills N servers.
"""

import multiprocessing
import os
import random
import re
import subprocess
import sys
import time
from datetime import date

import pytest

import desk
from between import FAILURES, Between
from kinds import ROOT

sys.path.insert(0, str(desk.ROOT / "examples"))
from client import Client, NoReply, Record

pytestmark = [pytest.mark.programs, pytest.mark.faults, pytest.mark.needs("clubdesk")]

KILLS = int(os.environ.get("KILLS", "100"))
KEYS = range(8)
# Facility, day, hour and guests of each booking. No slot repeats.
SLOTS = [
    (f"court-{it % 10}", f"2026-05-{1 + it // 10 % 30:02}", f"{8 + it // 300 % 14:02}", it % 3)
    for it in range(10 * 30 * 14)
]


class Counting(Client):
    """A client that writes a line whenever a request gets no reply."""

    def __init__(self, folder, port, key, file=None):
        super().__init__(
            f"http://127.0.0.1:{port}",
            (folder / f"pass.{key}").read_text().strip(),
            Record(folder / f"record.{key}"),
        )
        self.file = file

    def _exchange(self, *words):
        try:
            return super()._exchange(*words)
        except NoReply:
            print("again", file=self.file, flush=True)
            raise


def work(folder, port):
    """Books each slot that isn't in the client's record yet. Cancels ten of eleven bookings, so
    that no member reaches the quota of 99."""
    with open(folder / "acknowledged", "a", encoding="utf-8") as file:
        clients = [Counting(folder, port, key, file) for key in KEYS]
        for client in clients:
            client.repeat()
        for place, (facility, day, hour, guests) in enumerate(SLOTS):
            client = clients[place % 8]
            asked = {
                (it["facility"], it["day"], it["hour"]): number
                for number, it in client.record.bookings.items()
                if it["book"] is None or it["book"].get("fault") != 13
            }
            number = asked.get((facility, day, hour))
            if number is None:
                reply = client.book(facility, day, hour, guests)
                assert "fault" not in reply, (facility, day, hour, reply)
                number = int(reply["booking"].split("/")[1])
                print(number, "book", reply["charge"], reply["left"], file=file, flush=True)
            if place % 11 and "cancel" not in client.record.bookings[number]:
                print(number, "cancel", client.cancel(number)["refund"], file=file, flush=True)


def killed_and_killed(club, folder):
    """Starts servers one after the other at the same port, and kills each of them. Every fifth
    time, also kills the client's process."""
    draw, worker, port = random.Random(20260501), None, 0
    for kill in range(1, KILLS + 1):
        with club.served(port=port) as server:
            port = server.port
            if worker is None or not worker.is_alive():
                assert worker is None or worker.exitcode <= 0, "the worker failed"
                worker = multiprocessing.Process(target=work, args=(folder, port))
                worker.start()
            time.sleep(draw.uniform(0.05, 0.4))
        if kill % 5 == 0:
            worker.kill()
            worker.join()
        time.sleep(draw.uniform(0, 0.05))
    return worker, port


def recorded(folder, port):
    """Finishes the unfinished requests of all keys. Returns the recorded bookings as rows of the
    table `bookings`."""
    rows = {}
    for key in KEYS:
        client = Counting(folder, port, key, sys.stderr)
        client.repeat()
        for number, it in client.record.bookings.items():
            reply, cancelled = it["book"], it.get("cancel")
            assert reply.get("fault") in (None, 13), reply
            if "fault" not in reply:
                rows[f"k{key}", number] = (
                    it["facility"],
                    date.fromisoformat(it["day"]).toordinal() - 719163,
                    int(it["hour"]),
                    it["guests"],
                    reply["charge"],
                    reply["left"],
                    int(cancelled is not None),
                    cancelled["refund"] if cancelled else 0,
                )
    return rows


def test_servers_and_clients_that_are_killed(new_club, tmp_path):
    club = new_club(*(f"add-facility court-{court} court 4 7 8 22" for court in range(10)))
    for key in KEYS:
        (tmp_path / f"pass.{key}").write_text(
            club.does(
                f"add-member m{key} 99", f"credit m{key} 1000000", f"add-key k{key} m{key} {ROOT}"
            )
        )
    worker, port = killed_and_killed(club, tmp_path)
    with club.served(port=port):
        time.sleep(1)
        worker.kill()
        worker.join()
        rows = recorded(tmp_path, port)
    club.does("sheet 2026-05-01")
    assert {row[:2]: row[2:] for row in club.sql("SELECT * FROM bookings")} == rows
    assert (
        len({row[:3] for row in rows.values()}) == len(rows) > KILLS
    ), "a slot is booked twice, or too few slots are booked"
    by_number = {number: row for (_, number), row in rows.items()}
    lines = [
        line.split()
        for line in (tmp_path / "acknowledged").read_text().splitlines(keepends=True)
        if line.endswith("\n")
    ]
    assert ["again"] in lines
    for number, action, *numbers in (line for line in lines if line != ["again"]):
        row = by_number[int(number)]
        assert [int(it) for it in numbers] == (
            list(row[4:6]) if action == "book" else [row[7]]
        ), number
    assert not desk.unsound(club.file)


@pytest.fixture
def own(new_club, tmp_path):
    """Returns a club with the member amy, and a function that runs amy's client."""
    club = new_club("add-facility court-1 court 4 200 8 22", "add-member amy 2", "credit amy 10000")
    (tmp_path / "pass").write_text(club.does(f"add-key amy-1 amy {ROOT}"))

    def prints(port, words, patience=0):
        """Runs a command of the client. Returns the status, the output with N in place of the
        booking number, and the booking number."""
        ended = subprocess.run(
            [desk.ROOT / "examples" / "client.py", *words.split()],
            cwd=tmp_path,
            check=False,
            stdout=subprocess.PIPE,
            text=True,
            env={**os.environ, "DESK": f"http://127.0.0.1:{port}", "PATIENCE": str(patience)},
        )
        drawn = re.search(r"amy-1/(\d+)", ended.stdout)
        return (
            ended.returncode,
            re.sub(r'("number":|amy-1/)\d+', r"\1N", ended.stdout),
            drawn and drawn[1],
        )

    return club, prints


def test_commands(own):
    club, prints = own
    with club.served(count=12) as it:
        status, printed, number = prints(it.port, "book court-1 2026-05-01 18 2")
        assert (status, printed) == (0, '{"booking":"amy-1/N","charge":600,"left":1}\n')
        for words, wanted, text in (
            ("book court-1 2026-05-01 18 1", 1, '{"fault":18,"text":"no places"}\n'),
            (
                "show court-1 2026-05-01 18",
                0,
                '{"facility":"court-1","day":"2026-05-01","hour":18,"kind":"court","price":200,"places":4,"taken":3,"closed":false}\n',
            ),
            (f"cancel {number}", 0, '{"booking":"amy-1/N","refund":600}\n'),
            (f"cancel {number}", 0, '{"booking":"amy-1/N","refund":600}\n'),
            ("account", 0, '{"member":"amy","balance":10000,"quota":2,"open":0,"spent":0}\n'),
            ("repeat", 0, ""),
            (
                "list",
                0,
                (
                    '{"number":N,"book":{"booking":"amy-1/N","charge":600,"left":1},"facility":"court-1","day":"2026-05-01","hour":"18","guests":2,"points":600,'
                    '"cancel":{"booking":"amy-1/N","refund":600}}\n'
                    '{"number":N,"book":{"fault":18,"text":"no'
                    ' places"},"facility":"court-1","day":"2026-05-01","hour":"18","guests":1,"points":400}\n'
                ),
            ),
        ):
            assert prints(it.port, words)[:2] == (wanted, text)
        for _ in range(2):
            prints(it.port, "account")
    # If no server listens, the request stays in the record. The client finishes the request when a
    # server runs again. Without a stated price, the client can't look at the price, so it neither
    # records nor sends a request.
    assert prints(it.port, "book court-1 2026-05-02 18 0 200")[:2] == (3, "")
    assert prints(it.port, "book court-1 2026-05-02 19 0")[:2] == (3, "")
    with club.served(count=2) as it:
        assert prints(it.port, "repeat")[:2] == (0, '{"booking":"amy-1/N","charge":200,"left":3}\n')
    assert prints(it.port, "borrow")[:2] == (1, "")


def test_a_price_that_rose(own, tmp_path):
    """The desk charges at most the stated price, or the price that the slot had when the command
    began."""
    club, prints = own
    with club.served(count=6) as it:
        club.does("set-facility court-1 4 450 8 22")
        assert prints(it.port, "book court-1 2026-05-01 18 1 400")[:2] == (
            1,
            '{"fault":12,"text":"caveat denies","caveat":1,"price":450}\n',
        )
        assert prints(it.port, "book court-1 2026-05-01 18 1 900")[:2] == (
            0,
            '{"booking":"amy-1/N","charge":900,"left":2}\n',
        )
        prints(it.port, "account")
    (tmp_path / "pass").write_text("TURBeyJ9")
    assert prints(it.port, "book court-1 2026-05-01 19 1 900")[:2] == (1, "")


def test_proxy_that_fails(own):
    """Each time the client sends the request, the proxy fails in a different way."""
    club, prints = own
    number = ""
    for method, words, reply in (
        ("PUT", "book court-1 2026-05-03 18 0", '{"booking":"amy-1/N","charge":200,"left":3}\n'),
        ("DELETE", "cancel ", '{"booking":"amy-1/N","refund":200}\n'),
    ):
        with club.served(count=6 if method == "PUT" else 4) as it:
            proxy = Between(it.port)
            proxy.fates[method] = list(FAILURES)
            status, printed, number = prints(proxy.port, words + number, 60)
            assert (status, printed, proxy.fates[method]) == (0, reply, [])
    assert club.sql("SELECT count(*), sum(cancelled) FROM bookings") == [(1, 1)]

#!/usr/bin/env -S /usr/bin/python3 -B -m pytest -q -x -s -p no:cacheprovider
"""500 commands of two offices and 5,000 simultaneous requests of four clients get the right answers
and leave the right totals.

The answers and totals are also right if clients are slow, or if the test kills programs, leaves
stale doors or moves files. A door is the Unix socket through which a server receives the office's
commands. The test prints how long commands and requests took.

The test uses real processes. When the server has stopped, sqlite3 finds that each total is the sum
of its rows. Then the test kills ten servers and ten commands. One client is silent while another
client sends a byte a second. The test also tries a stale door, a folder at the door's path, and a
second server. The test uses links to the file and its folder, and moves, replaces and removes the
file. The test also runs a command as another user, and checks the modes of the files and the lines
of the log. The test measures the times of requests with and without commands, and with 300,000 more
bookings.
"""

import contextlib
import os
import re
import shutil
import socket
import stat
import statistics
import subprocess
import tempfile
import threading
import time
from collections import Counter
from concurrent.futures import ThreadPoolExecutor
from pathlib import Path

import pytest

import desk
from conftest import Club
from kinds import ACCOUNT, NOON, ROOT, TWO, book, booked, cancel, key_pass, slot, text, view

pytestmark = [
    pytest.mark.programs,
    pytest.mark.faults,
    pytest.mark.needs("clubdesk passtool"),
    pytest.mark.wants("sqlite3 util-linux"),
]

PASSES = {place: text(key_pass(f"k{place}")) for place in range(1, 5)}
BOOKING = book(1, TWO, slot(facility="court-1"))
DONE, FAILED = (0, "done\n", ""), (5, "", "storage failed\n")
DRIP = lambda client: desk.drip(client, b"GET /a")


@pytest.fixture(scope="module")
def made(clubdesk):
    """A club on a disk. Each client has a court, a member with 10,000 points, and a key. Each
    office has a room, and a key that the office can revoke."""
    with tempfile.TemporaryDirectory() as folder:
        club = Club(clubdesk, Path(folder, "made"))
        for n in PASSES:
            club.does(
                f"add-facility court-{n} court 4 7 8 22",
                f"add-member m{n} 99",
                f"credit m{n} 10000",
                f"add-key k{n} m{n} {ROOT}",
            )
        for n in (1, 2):
            club.does(f"add-facility room-{n} room 1 5 8 22", f"add-key old-{n} m1 {ROOT}")
        assert [stat.filemode(os.stat(f"{club.file}{it}").st_mode) for it in ("", "-wal")] == [
            "-rw-------"
        ] * 2
        yield club


@pytest.fixture(scope="module")
def club(made):
    return made.copied_to(made.file.with_name("club"))


class Times(list):
    """The seconds that each call took."""

    def of(self, act, *words):
        begun = time.monotonic()
        found = act(*words)
        self.append(time.monotonic() - begun)
        return found

    def show(self, what):
        print(
            (
                f"{len(self)} {what}: median {statistics.median(self) * 1000:.1f} ms, longest"
                f" {max(self) * 1000:.1f} ms"
            ),
            flush=True,
        )


def asked_by(place):
    """Yields a client's 1,250 requests, with the expected replies. In each of ninety rounds the
    client makes a booking, repeats it, and gets the slot and the account. In every third round the
    client also cancels the booking. The remaining requests get the account.
    """
    spent = opened = 0
    for number in range(1, 91):
        day, hour, is_cancelled = f"{1 + number // 14:02}", 8 + number % 14, number % 3 == 0
        path = slot(f"{hour:02}", day, f"court-{place}")
        made = booked(book(number, TWO, path), 14, 2, f"k{place}")
        yield from (made, made)
        if is_cancelled:
            yield cancel(number, path).serves(booking=f"k{place}/{number}", refund=14)
        else:
            spent, opened = spent + 14, opened + 1
        yield view(path).serves(
            facility=f"court-{place}",
            day=f"2026-05-{day}",
            hour=hour,
            kind="court",
            price=7,
            places=4,
            taken=0 if is_cancelled else 2,
            closed=False,
        )
        account = ACCOUNT.serves(
            member=f"m{place}", balance=10_000 - spent, quota=99, open=opened, spent=spent
        )
        yield account
    yield from [account] * (1250 - 90 * 4 - 30)


def given_by(place):
    """Yields 250 commands with the expected answers. The commands add members, credit points, close
    slots, revoke keys and show slots."""
    for n in range(1, 51):
        day = f"2026-{6 + n // 29:02}-{1 + n % 28:02}"
        for words in (
            f"add-member o{place}-{n} 5",
            f"credit o{place}-{n} {100 * n}",
            f"close-slot room-{place} {day} 10",
            f"revoke-key old-{place}",
        ):
            yield words, "done\n"
        yield f"show-slot room-{place} {day} 10", f"facility room-{place}\nday {day}\nhour 10\nkind room\nprice 5\nplaces 1\ntaken 0\nclosed yes\n"


def beside(club, server, count):
    """Runs four clients, and also two offices unless `count` is 0. Compares each reply and each
    answer with the expected text."""
    bookings, others, commands = Times(), Times(), Times()

    def client(place):
        last = None
        for row in asked_by(place):
            times = bookings if row.method == "PUT" and row is not last else others
            assert (
                times.of(desk.exchange, server.port, row.under(PASSES[place]).data, 60)
                == row.wanted
            )
            last = row

    def office(place):
        for words, printed in given_by(place):
            assert commands.of(club.command, *words.split()) == (0, printed, "")

    with ThreadPoolExecutor(6) as pool:
        for begun in [pool.submit(client, place) for place in PASSES] + [
            pool.submit(office, place) for place in (1, 2) if count
        ]:
            begun.result()
    requests = Times(bookings + others)
    assert (len(requests), len(bookings), len(commands)) == (5000, 360, count)
    print(f"{club.file.name}, with {count} commands")
    for what, found in (("commands", commands), ("bookings", bookings), ("requests", requests)):
        if found:
            found.show(what)


def test_door_has_a_mode_and_commands_have_lines(club):
    """Runs 500 commands while clients send 5,000 requests. Then runs three commands that take a
    root. The server refuses one of the three commands. Another of the three commands reads the root
    from standard input. The log contains no root."""
    with club.served("--log") as server:
        assert stat.filemode(os.stat(f"{club.file}-office").st_mode) == "srw-------"
        beside(club, server, 500)
        assert club.command("add-key", "given", "m1", ROOT) == (
            0,
            text(key_pass("given")) + "\n",
            "",
        )
        assert club.command("rotate-key", "nobody", ROOT, "2030-01-01T00:00") == (
            1,
            "",
            "refused: unknown\n",
        )
        assert desk.command(
            club.program, "add-key", club.file, "read", "m1", "--root-stdin", text=ROOT
        ) == (0, text(key_pass("read")) + "\n", "")
        # The server writes a command's line to the log before it answers the next client.
        assert server.exchange(b"GET /account HTTP/1.1\r\n\r\n")
        log = server.log.read_text()
    names = ("add-member", "credit", "close-slot", "revoke-key", "show-slot")
    assert Counter(re.findall(r" office (\S+) (\S+) ", log)) == {
        (name, "0"): 100 for name in names
    } | {("add-key", "0"): 2, ("rotate-key", "1"): 1}
    assert ROOT not in log


def ends(wanted, most, *words):
    """Runs a command, which must end with the expected status and output within `most` seconds."""
    begun = time.monotonic()
    assert desk.command(*words) == wanted
    assert time.monotonic() - begun < most


def test_what_others_meet_beside_a_server(club):
    """Starts a second server on the file. Runs commands through links to the file and to its
    folder. Moves the file, and runs a command with the file's old path. Runs a command as another
    user who may read the file."""
    folder, moved = club.file.parent, club.file.with_name("moved")
    with club.served():
        ends(FAILED, 15, club.program, "serve", club.file, "--port", "0", "--count", "1")
        (folder / "linked").symlink_to(club.file)
        (folder / "here").symlink_to(folder)
        for file in ("linked", "here/club"):
            ends(DONE, 1, club.program, "credit", folder / file, "m2", "1")
        club.file.rename(moved)
        ends(DONE, 1, club.program, "credit", club.file, "m2", "1")
        moved.rename(club.file)
        if os.geteuid() == 0:
            folder.chmod(0o755)
            club.file.chmod(0o644)
            ends(FAILED, 15, *desk.AS_ANOTHER, club.program, "credit", club.file, "m2", "1")
            club.file.chmod(0o600)


@pytest.mark.parametrize("is_replaced", [True, False], ids=["replaced", "removed"])
def test_file_that_is_gone(made, is_replaced):
    """After someone removes the file of a running server, the server acknowledges no change. It
    still answers what changes nothing. If someone puts a new file at the old file's path, the server
    leaves the new file unchanged."""
    club = made.copied_to(made.file.with_name("gone"))
    with club.served() as server:
        account = server.exchange(ACCOUNT.under(PASSES[1]).data)
        assert account.startswith(b"HTTP/1.1 200 ")
        club.file.unlink()
        if is_replaced:
            shutil.copy(made.file, club.file)
        assert server.exchange(ACCOUNT.under(PASSES[1]).data) == account
        assert server.exchange(BOOKING.under(PASSES[1]).data).startswith(b"HTTP/1.1 503 ")
        for words in (("credit", "m2", "1"), ("add-member", "new", "1")):
            assert club.command(*words) == FAILED, words
        assert club.command("show-account", "k2", "--at", NOON)[0] == 0
        assert club.file.exists() == is_replaced
        assert not is_replaced or club.file.read_bytes() == made.file.read_bytes()


def test_server_whose_file_was_replaced_leaves_the_door_of_the_next(made):
    """The next server serves the new file. The old server doesn't remove the door of the next
    server."""
    club = made.copied_to(made.file.with_name("twice"))
    with club.served(count=1) as first:
        made.copied_to(club.file)
        with club.served():
            assert first.exchange(BOOKING.under(PASSES[1]).data).startswith(b"HTTP/1.1 503 ")
            assert first.process.wait(10) == 0
            ends(DONE, 1, club.program, "credit", club.file, "m2", "1")


def test_door_in_a_folder_of_a_long_name(made):
    """The door's path is too long for the address of a Unix socket."""
    folder = made.file.with_name("f" * 120)
    folder.mkdir()
    club = made.copied_to(folder / "club")
    with club.served():
        assert Path(f"{club.file}-office").is_socket()
        ends(DONE, 1, club.program, "credit", club.file, "m2", "1")
        assert club.balance("k2") == 10_001


def test_killed_server_leaves_a_door_and_whole_totals(club):
    assert Path(f"{club.file}-office").is_socket()
    ends(DONE, 2, club.program, "credit", club.file, "m3", "1")
    assert not desk.unsound(club.file)
    for wanted, statement in (
        ((360, 120, 3360), "SELECT count(*), sum(cancelled), sum(charge - refund) FROM bookings"),
        ((100, 255_000), "SELECT count(*), sum(credited) FROM members WHERE name LIKE 'o%'"),
        ((100,), "SELECT count(*) FROM slots WHERE closed"),
        ((40_004,), "SELECT sum(credited) FROM members WHERE name LIKE 'm%'"),
    ):
        assert desk.rows(club.file, statement) == [wanted]


def test_something_else_than_a_door_stays(club):
    door = Path(f"{club.file}-office")
    door.unlink(missing_ok=True)
    door.mkdir()
    ends(FAILED, 2, club.program, "serve", club.file, "--port", "0", "--count", "1")
    door.rmdir()


def test_commands_beside_four_clients_of_which_two_dawdle(club):
    """One client is silent, and another client sends a byte a second. The server carries out each
    command within 0.9 seconds, and two other clients get their replies."""
    commands = Times()

    def dawdles(server, act):
        with socket.create_connection(
            ("127.0.0.1", server.port), 60
        ) as client, contextlib.suppress(ConnectionResetError):
            act(client)
            assert client.recv(1) == b""

    def asks(server, place):
        for _ in range(50):
            assert desk.exchange(server.port, ACCOUNT.under(PASSES[place]).data, 60).startswith(
                b"HTTP/1.1 200 "
            )

    with club.served("--patience", "2") as server, ThreadPoolExecutor(4) as pool:
        begun = [pool.submit(dawdles, server, act) for act in (lambda _: None, DRIP)] + [
            pool.submit(asks, server, place) for place in (1, 2)
        ]
        while not all(it.done() for it in begun):
            assert commands.of(club.command, "credit", "m4", 1) == DONE
        for it in begun:
            it.result()
    assert max(commands) <= 0.9
    commands.show(
        "commands next to four clients; one client is silent, and one sends a byte a second"
    )


@pytest.mark.parametrize("dawdle", [lambda _: None, DRIP], ids=["silent", "a byte a second"])
def test_client_that_dawdles_keeps_no_command(club, dawdle):
    """The server carries out each command within 0.9 seconds, while it still waits for the slow
    client. The server cuts off the slow client after four seconds, the value of the option
    `--patience`."""
    commands = Times()
    with (
        club.served("--patience", "4") as server,
        socket.create_connection(("127.0.0.1", server.port), 60) as client,
    ):
        begun, dawdling = time.monotonic(), threading.Thread(target=dawdle, args=[client])
        dawdling.start()
        for wait in (0.2, 1.1):
            time.sleep(wait)
            assert commands.of(club.command, "credit", "m4", 1) == DONE
        with contextlib.suppress(ConnectionResetError):
            assert client.recv(1) == b""
        assert 3.9 < time.monotonic() - begun < 6
        dawdling.join()
    assert max(commands) <= 0.9
    commands.show("commands next to a slow client")


@pytest.mark.parametrize("number", range(1, 21))
def test_killed_command_or_server(club, number):
    """The status of a command states whether the server carried out the command, or that the
    outcome is unknown. The totals agree with the status."""
    with club.served() as server:
        before = club.balance("k1")
        command = subprocess.Popen(
            [club.program, "credit", club.file, "m1", "1"],
            stdout=subprocess.DEVNULL,
            stderr=subprocess.DEVNULL,
        )
        time.sleep((number % 10 * 10 + number * 7 % 10) / 10_000)
        (command if number % 2 else server).kill()
        command.wait()
    assert (command.returncode, club.balance("k1") - before) in {
        (0, 1),
        (8, 0),
        (8, 1),
        (9, 0),
        (-9, 0),
        (-9, 1),
    }
    assert not desk.unsound(club.file)


def test_server_that_ends_takes_its_door_along(club):
    """The server removes only its door. The files of other clubs in the same folder stay."""
    others = [Path(f"{club.file}-{ending}") for ending in ("wanted", "serving", "paused")]
    for it in others:
        it.write_text("another's\n")
    with club.served(count=1) as server:
        assert all(it.read_text() == "another's\n" for it in others)
        assert server.exchange(ACCOUNT.under(PASSES[1]).data).startswith(b"HTTP/1.1 200 ")
    assert not Path(f"{club.file}-office").exists()


@pytest.mark.parametrize("bookings, count", [(0, 0), (300_000, 0), (300_000, 500)])
def test_times(made, bookings, count):
    """Measures the times in a small club without commands. Then measures the times in a club with
    300,000 bookings of 1,000 other members, first without commands and then with commands."""
    club = made.copied_to(made.file.with_name(f"at {bookings}"))
    if bookings:
        desk.add_past_bookings(club.file, bookings, ROOT)
    with club.served() as server:
        beside(club, server, count)

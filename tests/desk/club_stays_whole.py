#!/usr/bin/env -S /usr/bin/python3 -B -m pytest -q -p no:cacheprovider
"""Each command of `clubdesk` is done or leaves the club unchanged, even if memory or storage runs
out or the command is killed.

The test refuses each allocation of a command once, including the allocations for printing passes.
If a command fails, it has printed nothing, and the club is unchanged. After a kill the club is
unchanged or the command is done.

After each failure or kill, sqlite3 finds no damage in the file, and clubdesk can read the file.
- The test repeats the command and refuses another allocation each time. With STEP=N in the
  environment, the test refuses only each Nth allocation, which is faster. The command ends with
  status 4, or with status 2 if clap, the parser of the arguments, needed the refused allocation. If
  the command didn't need the refused allocation, it ends as with ample memory.
- The test limits the size of the file to various numbers of blocks. The command ends with status 5
  if it needs more blocks. If the command needs no more blocks, it ends as with ample storage.
- The test kills the command after various numbers of milliseconds.
"""

import contextlib
import hashlib
import os
import sqlite3
import subprocess
import tempfile
import time
from pathlib import Path

import pytest

import desk
import kinds
from reference import club as rules

pytestmark = [pytest.mark.faults, pytest.mark.needs("clubdesk"), pytest.mark.wants("gcc libc6-dev")]

STEP = int(os.environ.get("STEP", "1"))
ROOT, OTHER = "30313233343536373839616263646566", "ffeeddccbbaa99887766554433221100"
# Each command, with the SQL that makes the same change.
COMMANDS = {
    "add-member amy 5": "INSERT INTO members VALUES ('amy', 0, 5, 0)",
    "credit amy 10000": "UPDATE members SET credited = credited + 10000",
    "debit amy 500": "UPDATE members SET credited = credited - 500",
    "set-quota amy 8": "UPDATE members SET quota = 8",
    "add-facility court-1 court 4 200 8 22": (
        "INSERT INTO facilities VALUES ('court-1', 'court', 4, 200, 8, 22)"
    ),
    "set-facility court-1 2 250 7 23": (
        "UPDATE facilities SET places = 2, price = 250, opens = 7, shuts = 23"
    ),
    f"add-key amy-1 amy {ROOT} --form v1": (
        f"INSERT INTO keys VALUES ('amy-1', 'amy', x'{ROOT}', 0)"
    ),
    f"add-key amy-2 amy {ROOT}": f"INSERT INTO keys VALUES ('amy-2', 'amy', x'{ROOT}', 0)",
    f"rotate-key amy-1 {OTHER} 2026-05-01T18:00 --form json": (
        f"UPDATE keys SET root = x'{OTHER}' WHERE name = 'amy-1'; INSERT INTO old_roots VALUES"
        f" ('amy-1', x'{ROOT}', 29627640)"
    ),
    "close-slot court-1 2026-05-01 09": "INSERT INTO slots VALUES ('court-1', 20574, 9, 1, 0)",
    "open-slot court-1 2026-05-01 09": "UPDATE slots SET closed = 0",
    "revoke-key amy-2": "UPDATE keys SET revoked = 1 WHERE name = 'amy-2'",
    "cancel-booking amy-1 7": (
        "UPDATE bookings SET cancelled = 1, refund = charge; UPDATE slots SET taken = 0; UPDATE"
        " members SET used = 0"
    ),
}
# The request that a member sends before the test runs the command.
BOOKED_BEFORE = {
    "cancel-booking amy-1 7": kinds.book(
        7, kinds.TWO, passed=kinds.text(kinds.key_pass("amy-1", OTHER))
    )
}
TABLES = ("desk", "members", "facilities", "keys", "old_roots", "slots", "bookings")


def rows(club):
    """Returns the rows of each table. If a kill interrupted the creation of the tables, returns the
    rows of an empty club, because clubdesk completes the tables later."""
    try:
        assert club.sql("PRAGMA integrity_check") == [("ok",)] and not club.sql(
            "PRAGMA foreign_key_check"
        )
        return [sorted(club.sql(f"SELECT * FROM {table}")) for table in TABLES]
    except sqlite3.DatabaseError as fault:
        assert "file is not a database" in str(fault) or "no such table" in str(fault)
        return [[(2,)], [], [], [], [], [], []]


class Command:
    """A command, with the club's rows before and after the command. The test runs the command
    repeatedly, each time on a new copy of the club."""

    def __init__(self, before, words):
        self.before, self.words, self.found = before, words.split(), {}
        model = before.copied_to(before.file.with_name("model"))
        model.does("sheet 2026-05-01")
        with desk.opened(model.file) as database:
            database.executescript(f"PRAGMA foreign_keys = ON; {COMMANDS[words]}")
        self.rows, self.after = rows(before), rows(model)
        self.whole = self.given()
        assert self.whole[0] == 0

    @contextlib.contextmanager
    def copy(self):
        """Yields a copy of the club, and the command line that runs the command on the copy."""
        with tempfile.TemporaryDirectory(dir=self.before.file.parent) as folder:
            club = self.before.copied_to(Path(folder, "club"))
            yield club, [club.program, self.words[0], club.file, *self.words[1:]]

    def keeps_a_club(self, club, *wanted):
        """Checks that the file and its log have the rows of one of the `wanted` states, and that
        clubdesk can read the file. Reads files with the same bytes only once."""
        state = hashlib.sha256(
            b" log ".join(
                it.read_bytes() for it in (club.file, Path(f"{club.file}-wal")) if it.exists()
            )
        ).digest()
        if state not in self.found:
            self.found[state] = rows(club.copied_to(club.file.with_name("copied")))
            club.does("sheet 2026-05-01")
            assert rows(club) == self.found[state]
        found = self.found[state]
        assert found in wanted

    def given(self, limits=None, **variables):
        """Runs the command on a copy of the club. Returns the status, the output and the standard
        error. If the command fails, the club must be unchanged."""
        with self.copy() as (club, words):
            ended = desk.command(
                *words, env={**os.environ, **variables}, preexec_fn=limits, restore_signals=False
            )
            self.keeps_a_club(club, self.rows if ended[0] else self.after)
        return ended

    def fails(self, ended, fault, *statuses):
        """Returns whether the command failed. A failed command must end with one of the given
        statuses and no output. A command that doesn't fail must end as with ample memory and
        storage."""
        assert (
            ended == self.whole
            or ended[0] in statuses
            and ended[1] == ""
            and (ended[0] == 2 or ended[2] == fault)
        ), ended
        return ended != self.whole

    def kill(self, milliseconds):
        with self.copy() as (club, words):
            with subprocess.Popen(
                words, stdout=subprocess.DEVNULL, stderr=subprocess.DEVNULL
            ) as command:
                time.sleep(milliseconds / 1000)
                command.kill()
            assert command.returncode in (0, -9)
            self.keeps_a_club(club, self.after, *([self.rows] if command.returncode else []))


def test_each_command_is_given():
    assert {words.split()[0] for words in COMMANDS} == {
        it[8:].replace("_", "-") for it in dir(rules.Club) if it.startswith("command_")
    }


@pytest.mark.parametrize("words", COMMANDS)
def test_command(new_club, tmp_path, words):
    before = new_club()
    before.file.touch()
    before.does(*list(COMMANDS)[: list(COMMANDS).index(words)])
    if words in BOOKED_BEFORE:
        assert before.ask(BOOKED_BEFORE[words].data).status == 200
    command = Command(before, words)
    assert any(
        [
            command.fails(it, "out of memory\n", 4, 2)
            for it in desk.refused_in_turn(command.given, tmp_path, STEP)
        ]
    )
    assert any(
        [
            command.fails(
                command.given(lambda: desk.limit_files(512 * blocks)), "storage failed\n", 5
            )
            for blocks in range(0, 2001, 50)
        ]
    )
    for milliseconds in range(1, 31):
        command.kill(milliseconds)

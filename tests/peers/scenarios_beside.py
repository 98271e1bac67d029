#!/usr/bin/env -S /usr/bin/python3 -B
"""The desks in C and Go of `tests/peers/beside.py` give the replies that the scenarios demand.

These desks support views, bookings and accounts, with passes in V2 and four kinds of caveats.

The test runs each scenario up to the first line that the desks don't support, such as a
cancellation. `clubdesk` carries out the scenario's commands and listings on the same file. The desk
in C replies with the same bytes as clubdesk. The desk in Go writes the header lines in another
order. If Go is missing, the test skips the desk in Go.

    tests/peers/scenarios_beside.py [FILE ..]
"""
# pytestmark = [mark.programs, mark.needs("clubdesk"),
#     mark.wants("gcc libc6-dev libsqlite3-dev nettle-dev golang-go golang-github-mattn-go-sqlite3-dev golang-gopkg-macaroon.v2-dev")]

import os
import re
import shutil
import signal
import subprocess
import sys
import tempfile
from pathlib import Path

sys.dont_write_bytecode = True
sys.path[:0] = [str(Path(__file__).resolve().parents[1] / it) for it in ("lib", "desk", "")]
import desk as programs
import scenario_lines as lines
from reference import caveats, passes, wire
from scenario_lines import Crash, Reopen, Request
from scenario_players import Difference, Programs, compare, run_as_test, status_of
from scenarios import whole

KNOWN_CAVEATS = (b"guests <= ", b"until < ", b"spend <= ", b"actions = ")
KNOWN_FAULTS = {4, 9, 10, 11, 12, 13, 14, 16, 17, 18, 19, 20}
STATEMENTS = "KEY OLDER_ROOT MEMBER FACILITY SLOT BOOKING COSTS_UNDER_KEY OPEN ADD_BOOKING ADD_TAKEN CHARGE".split()


def knows(event):
    """Returns whether the desks support the event in this line of a scenario."""
    if not isinstance(event, Request):
        return not isinstance(event, Crash) and not (isinstance(event, Reopen) and event.version)
    try:
        text, request = wire.decoded(event.data("v2"))
        given = passes.read(text)
    except (wire.NotDecoded, passes.NoPass):
        return False
    fault = re.match(rb'\{"fault":(\d+)', event.reply.body)
    is_plain = (
        event.pieces[0].endswith(b" HTTP/1.1\r\nHost: club\r\n")
        and passes.text_of(given, "v2") == text
    )
    return (
        is_plain
        and request.action != "cancel"
        and (not fault or int(fault[1]) in KNOWN_FAULTS)
        and all(
            it.startswith(KNOWN_CAVEATS) and caveats.test_of(it) or it == b"shoe = red"
            for it in given.caveats
        )
    )


def known(scenario):
    """Returns the events before the first event that the desks don't support."""
    for number, event in enumerate(scenario.events):
        if not knows(event):
            return scenario.events[:number]
    return scenario.events


class Server(programs.Server):
    """Runs the server of another desk."""

    killed_by = signal.SIGTERM

    def __init__(self, words, file, moment, statements):
        super().__init__(words[0], file, None, given=statements)
        self.command = [*words, str(file), str(moment)]


class Beside(Programs):
    """Sends requests to another desk and commands to `clubdesk`, over the same file."""

    def __init__(self, desk, folder, words, statements, has_order):
        super().__init__(desk, folder)
        self.words, self.statements, self.has_order = words, statements, has_order

    def played(self, scenario):
        return known(scenario)

    def serve(self, requests):
        with Server(self.words, self.file, requests[0].moment, self.statements) as server:
            for it in requests:
                found = server.exchange(it.data(self.form))
                compare(
                    it,
                    *(
                        (it.reply.data, found)
                        if self.has_order
                        else (in_order(it.reply.data), in_order(found))
                    ),
                )


def in_order(reply):
    """Sorts a reply's header lines, and drops the lines that only the other server adds."""
    head, _, body = reply.partition(b"\r\n\r\n")
    return b"\r\n".join(
        [
            *sorted(
                it for it in head.split(b"\r\n") if not it.startswith((b"Date: ", b"Server: "))
            ),
            body,
        ]
    )


def statements(folder):
    """Writes clubdesk's SQL statements into a file, one per line. The file has only those
    statements that the desks need."""
    source = (programs.ROOT / "crates" / "club_tables" / "src" / "texts.rt").read_text(
        encoding="utf-8"
    )
    texts = dict(re.findall(r'const (\w+): &str = "(.*?)";', source, re.DOTALL))
    path = Path(folder, "statements")
    path.write_text(
        "".join(re.sub(r"\\\n *", "", texts[name]) + "\n" for name in STATEMENTS), encoding="utf-8"
    )
    return path


def desks(folder):
    """Builds the desks. For each desk, yields the name, the command line, and whether the header
    lines have clubdesk's order."""
    in_c, in_go = Path(folder, "desk_in_c"), Path(folder, "desk_in_go")
    subprocess.run(
        [
            "cc",
            "-O2",
            "-o",
            in_c,
            programs.TESTS / "peers" / "beside_c" / "desk.c",
            "-lsqlite3",
            "-lnettle",
        ],
        check=True,
    )
    yield "C", [str(in_c)], True
    if shutil.which("go"):
        subprocess.run(
            ["go", "build", "-tags", "libsqlite3", "-o", in_go, "."],
            check=True,
            cwd=programs.TESTS / "peers" / "beside_go",
            env={
                **os.environ,
                "GO111MODULE": "off",
                "GOPATH": "/usr/share/gocode",
                "GOCACHE": str(Path(folder, "cache")),
            },
        )
        yield "Go", [str(in_go)], False
    else:
        print("Go isn't installed: the desk in Go is skipped")


def main():
    scenarios = [it for path in lines.files(sys.argv[1:]) for it in whole(path)]
    count, faults = sum(isinstance(event, Request) for it in scenarios for event in known(it)), []
    clubdesk = programs.program("clubdesk")
    with tempfile.TemporaryDirectory(dir=programs.IN_MEMORY) as folder:
        for name, words, has_order in desks(folder):
            player = Beside(clubdesk, folder, words, statements(folder), has_order)
            for it in scenarios:
                try:
                    player.play(it, "v2")
                except Difference as fault:
                    faults.append(f"{name}: {fault}")
            print(f"the desk in {name}: {count} requests that it supports")
    return status_of(faults)


if __name__ == "__main__":
    run_as_test(main)

"""Plays scenarios, either with the rules in Python or with `clubdesk`. The server of `clubdesk`
uses a file, and gets requests over a socket. If an answer is wrong, the player raises a Difference
with the file and the line."""

import copy
import random
import socket
import subprocess
import sys
import tempfile
import time
from collections import Counter
from contextlib import suppress
from pathlib import Path

import desk as programs
import scenario_lines as lines
from both import spelled_moment
from reference import caveats, club as rules, passes, wire
from scenario_lines import Crash, Fault, Listing, Office, Reopen, Request

KILLS = 4  # how often the test kills the program for a line after `crash`
# The SQL that changes the tables to their format of version 1, which had no older roots and no
# index of bookings by key.
AS_VERSION_1 = (
    "DROP TABLE old_roots; DROP INDEX IF EXISTS bookings_by_key; UPDATE desk SET version = 1"
)


class Difference(AssertionError):
    """Reports that the answer to a line of a scenario differs from the expected answer."""

    def __init__(self, place, wanted, found):
        super().__init__(f"{place}: wanted {wanted}\n{' ' * len(str(place))}  found  {found}")


def compare(event, wanted, found):
    if wanted != found:
        raise Difference(event.place, shown(wanted), shown(found))


def shown(value):
    return (
        value.decode(errors="backslashreplace").replace("\r\n", "|")
        if isinstance(value, bytes)
        else " / ".join(value)
        if isinstance(value, tuple)
        else str(value)
    )


def printed(event):
    """Returns the output of a command that succeeds: `done`, or the pass of a key in the requested
    form. Without a requested form, the pass is in V2."""
    name, *values = event.words
    if name not in lines.OF_KEYS:
        return "done"
    form = values[-1] if "--form" in values else "v2"
    return passes.text_of(
        passes.minted(bytes.fromhex(values[lines.OF_KEYS[name]]), b"key:" + values[0].encode()),
        form,
    ).decode()


def wanted_of(event, number=0):
    """Returns the expected answer to a command. If `number` is 1, returns the answer that is
    expected if the desk has already carried out the command."""
    outcome = event.outcomes[min(number, len(event.outcomes) - 1)]
    return printed(event) if outcome == "done" else outcome.removeprefix("prints ")


class Rules:
    """Plays scenarios with the rules in Python."""

    name = "the rules in Python"

    def __init__(self, plant=None):
        self.plant = plant

    def play(self, scenario, form):
        self.club, self.form = lines.made(scenario, self.plant), form
        for event in scenario.events:
            self.happens(event)

    def happens(self, event):
        if isinstance(event, Crash):
            self.crashes(event.event)
        elif not isinstance(event, Reopen):
            compare(event, self.wanted(event), self.found(event))

    def wanted(self, event, number=0):
        if isinstance(event, Office):
            return wanted_of(event, number)
        return event.reply.data if isinstance(event, Request) else event.lines

    def found(self, event):
        """Returns the answer that the rules give to an event."""
        if isinstance(event, Request):
            return wire.exchange(self.club, event.data(self.form), event.moment)
        if isinstance(event, Office):
            try:
                self.club.command(event.command)
            except rules.CommandRefused as refusal:
                return f"refused: {refusal}"
            return printed(event)
        return listing(self.club, event)

    def crashes(self, event):
        """Plays two cases: the desk crashes after or before it carries out the event. In both
        cases, repeats the event after the crash. Both cases must lead to the same club."""
        before = copy.deepcopy(self.club)
        compare(event, self.wanted(event), self.found(event))
        compare(event, self.wanted(event, 1), self.found(event))
        after, self.club = self.club, before
        compare(event, self.wanted(event), self.found(event))
        if vars(after) != vars(self.club):
            raise Difference(event.place, "the same club in both cases", "two clubs")


def listing(club, event):
    """Returns the lines of a listing for the office, or the refusal."""
    command, *words = event.words
    if command == "sheet":
        rows = club.sheet(caveats.day_of(words[0]))
        found = [
            f"{facility:<24} {hour:02d}:00 {key:<24} {number:9d} {persons:2d} {charge:6d}"
            for facility, hour, key, number, persons, charge in rows
        ]
        total = (
            f"Total bookings {len(rows)}, persons {sum(it[4] for it in rows)}, charge"
            f" {sum(it[5] for it in rows)}"
        )
        return (
            (f"Day sheet {words[0]}", *found, total)
            if rows
            else (f"Day sheet {words[0]}", "No bookings.")
        )
    if command == "show-account":
        key = club.keys.get(words[0])
        if key is None:
            return ("refused: unknown",)
        older = f"until {spelled_moment(key.older[1])}" if key.older else "none"
        return (
            f"member {key.member}",
            f"balance {club.balance(key.member)}",
            f"quota {club.members[key.member].quota}",
            f"open {club.open_count(key.member, event.moment, words[0])}",
            f"spent {club.spent(words[0])}",
            f"revoked {'yes' if key.is_revoked else 'no'}",
            f"older root {older}",
        )
    slot = (words[0], caveats.day_of(words[1]), int(words[2]))
    facility = club.facilities.get(words[0])
    if facility is None:
        return ("refused: unknown",)
    return (
        f"facility {slot[0]}",
        f"day {words[1]}",
        f"hour {slot[2]}",
        f"kind {facility.kind}",
        f"price {facility.price}",
        f"places {facility.places}",
        f"taken {club.taken(slot)}",
        f"closed {'yes' if slot in club.closed else 'no'}",
    )


class Programs:
    """Plays scenarios with `clubdesk`. Commands change a file, and a server of this file gets the
    requests over a socket."""

    name = "clubdesk over a file and a socket"

    def __init__(self, desk, folder):
        self.desk, self.folder = desk, folder
        self.draw = random.Random(1)

    def play(self, scenario, form):
        with tempfile.TemporaryDirectory(dir=self.folder) as folder:
            self.file, self.form = Path(folder, "club"), form
            programs.copy(self.made(scenario), self.file)
            for run in runs(self.played(scenario)):
                if isinstance(run[0], Request):
                    self.serve(run)
                else:
                    self.happens(run[0])
            compare(scenario, [], programs.unsound(self.file))

    def played(self, scenario):
        """Returns the events of a scenario that this player can play."""
        return scenario.events

    def made(self, scenario):
        """Returns a file with the scenario's club. Makes the club only if no earlier scenario had
        the same club."""
        whole = Path(self.folder, f"club-{abs(hash(tuple(scenario.commands)))}")
        if not whole.exists():
            begun = Path(tempfile.mkdtemp(dir=self.folder))
            self.make(scenario, begun / "club")
            with suppress(OSError):  # another thread has made the same club meanwhile
                begun.rename(whole)
        return whole / "club"

    def make(self, scenario, file):
        """Makes the club with commands. If a member has more points than one command can credit,
        sets the points with SQL."""
        points = Counter()
        self.carry_out(scenario, file, ("sheet", "2000-01-01"))
        for command in scenario.commands:
            if command[0] == "credit":
                points[command[1]] += int(command[2])
            else:
                self.carry_out(scenario, file, command)
        for member, count in points.items():
            if count <= lines.MOST_CREDIT:
                self.carry_out(scenario, file, ("credit", member, str(count)))
            else:
                with programs.opened(file) as database:
                    database.execute(
                        "UPDATE members SET credited = ? WHERE name = ?", (count, member)
                    )

    def carry_out(self, scenario, file, words):
        status, _, fault = programs.command(self.desk, words[0], file, *words[1:])
        if status != 0:
            raise Fault(f"{scenario.place}: can't make the club: {' '.join(words)}: {fault}")

    def serve(self, requests):
        """Sends requests of the same moment to one server, and compares the replies."""
        with self.server(requests[0], len(requests)) as server:
            for it in requests:
                compare(it, it.reply.data, server.exchange(it.data(self.form)))

    def server(self, event, count):
        return programs.Server(self.desk, self.file, count, "--at", spelled_moment(event.moment))

    def happens(self, event):
        if isinstance(event, Crash):
            self.crashes(event.event)
        elif isinstance(event, Office):
            compare(event, wanted_of(event), self.command(event.words))
        elif isinstance(event, Listing):
            at = ("--at", spelled_moment(event.moment)) if event.words[0] == "show-account" else ()
            compare(event, event.lines, tuple(self.command(event.words + at).split("\n")))
        elif event.version == 1:
            with programs.opened(self.file) as database:
                database.executescript(AS_VERSION_1)

    def command(self, words):
        """Runs a command. Returns the output of the command, or the line of its fault."""
        status, output, fault = programs.command(self.desk, words[0], self.file, *words[1:])
        return output.removesuffix("\n") if status == 0 else fault.removesuffix("\n")

    def crashes(self, event):
        """Plays an event with a crash several times, each time on a new copy of the file. Starts
        the event, kills the program after a random delay, and then plays the event again."""
        before = Path(f"{self.file}.before")
        programs.copy(self.file, before)
        for _ in range(KILLS):
            programs.copy(before, self.file)
            if isinstance(event, Request):
                self.kill_server(event)
                self.serve([event])
            else:
                self.kill_command(event)
                found = self.command(event.words)
                if found not in {wanted_of(event, it) for it in range(len(event.outcomes))}:
                    raise Difference(event.place, " or ".join(event.outcomes), found)

    def kill_server(self, event):
        with self.server(event, None) as server:
            with socket.create_connection(("127.0.0.1", server.port), 30) as client:
                client.sendall(event.data(self.form))
                time.sleep(self.draw.choice((0, 0.0002, 0.001, 0.003)))
                server.kill()

    def kill_command(self, event):
        with subprocess.Popen(
            [self.desk, event.words[0], str(self.file), *event.words[1:]],
            stdout=subprocess.DEVNULL,
            stderr=subprocess.DEVNULL,
        ) as command:
            time.sleep(self.draw.choice((0, 0.001, 0.003, 0.01)))
            with suppress(ProcessLookupError):
                command.kill()


def runs(events):
    """Groups neighbouring requests of the same moment. An event that isn't a request is alone in
    its group."""
    found = []
    for event in events:
        if (
            found
            and isinstance(event, Request)
            and isinstance(found[-1][0], Request)
            and found[-1][0].moment == event.moment
        ):
            found[-1].append(event)
        else:
            found.append([event])
    return found


def status_of(faults):
    """Prints the faults that players have found, one per line. Returns 1 if there are faults,
    otherwise 0."""
    print(*faults, sep="\n", end="\n" if faults else "")
    return 1 if faults else 0


def run_as_test(main):
    """Runs a test's `main`, and exits with its status. If a file of scenarios can't be played,
    exits with the Fault as the message."""
    try:
        sys.exit(main())
    except Fault as it:
        sys.exit(str(it))

#!/usr/bin/env -S /usr/bin/python3 -B
"""If a command of the office is killed at a random moment, it takes effect once or not at all. A killed import can be repeated.

A desk runs while the test kills the commands, and no total is wrong afterwards. The test needs root, because it covers the machine's
folders with temporary overlays (tests/lib/office_room.sh).

- The test kills 100 commands and corrections while four clients use the desk. Each reply is right, and the desk keeps running.
- The test kills an import of twelve members before and after each command of the import, and at 40 random moments. After the test repeats the import,
  each member has one credit, and each pass works.
- The test kills a restore 25 times. After each kill, the club is either unchanged or equal to the copy.
- At random moments, the test kills the job that copies the club to another disk, and the restore from that disk. Each copy with a final name is
  complete and tested.
- At random moments, the test kills commands that credit all members, book for a caller, or undo a correction. Then the test runs the killed
  command again. Each member gets one credit, each slot has one booking, and each undo is complete.

  tests/office/office_killed.py [KILLS [SEED]]
"""
# pytestmark = [mark.package, mark.faults, mark.root, mark.needs("clubdesk passtool"),
#     mark.wants("sudo sqlite3 openssl util-linux bsdutils iproute2 systemd python3-psutil")]

import argparse
import contextlib
import itertools
import random
import shutil
import sqlite3
import subprocess
import sys
import threading
import time
from collections import Counter
from concurrent.futures import ThreadPoolExecutor
from pathlib import Path

sys.path[:0] = [str(Path(__file__).resolve().parents[1] / it) for it in ("lib", "")]
from office_room import (
    CLUB,
    HOME,
    NOON,
    ROOM,
    Service,
    begun,
    configure,
    done,
    everything,
    kill,
    killed_after,
    leave,
    office,
    rows,
    run_as,
    same,
    whole,
)

parser = argparse.ArgumentParser()
parser.add_argument(
    "kills", type=int, nargs="?", default=100, choices=range(1, 10_001), metavar="KILLS"
)
parser.add_argument("seed", type=int, nargs="?", default=int(time.time()), metavar="SEED")
given = parser.parse_args()
chance = random.Random(given.seed)
print(f"seed {given.seed}")
YES = ["--yes", "--at", NOON]


def books_and_cancels(server, place, text, is_over):
    """Runs a client that has this court for itself, and sends each booking and each cancellation twice. Returns the number of replies, and at most
    three wrong replies."""
    wrong = []
    for number in itertools.count(1):
        if is_over.wait(0.05):
            return 4 * (number - 1), wrong[:3]
        path = f"/slots/court-{place}/2026-05-{1 + number // 14 % 28:02d}/{8 + number % 14:02d}/bookings/{number}"
        for asked, wanted in (
            (("PUT", path, '{"guests":1}'), '"charge":14,"left":2'),
            (("DELETE", path), '"refund":14'),
        ):
            for _ in range(2):
                reply = server.answer(text, *asked)
                if reply != (200, f'{{"booking":"k{place}-1/{number}",{wanted}}}'):
                    wrong.append((asked, reply))


def seconds_of(*words):
    """Returns the time that an uninterrupted office command takes."""
    start = time.monotonic()
    done(*words)
    return time.monotonic() - start


def commands_beside_the_desk():
    """Kills commands that credit, debit, close, cancel or set a quota, while clients use the desk."""
    configure()
    done("new")
    for place in range(1, 5):
        done("add-facility", f"court-{place}", "court", "4", "7", "8", "22")
    done("add-facility", "room-1", "room", "50", "5", "0", "24")
    members, text = ("k1", "k2", "k3", "k4", "zoe"), {}
    for member in members:
        done("add-member", member, "99")
        done("credit", member, "100000")
        text[member] = done("add-key", f"{member}-1", member).strip()
    server = Service()
    for number in range(1, 97):
        server.answer(
            text["zoe"],
            "PUT",
            f"/slots/room-1/2026-06-{1 + number // 24:02d}/{number % 24:02d}/bookings/{number}",
            '{"guests":0}',
        )
    commands, start, is_over = (
        [command_of(attempt) for attempt in range(given.kills)],
        time.monotonic(),
        threading.Event(),
    )
    with ThreadPoolExecutor(4) as pool:
        clients = [
            pool.submit(books_and_cancels, server, place, text[f"k{place}"], is_over)
            for place in range(1, 5)
        ]
        plain = seconds_of("debit", "zoe", "1", *YES)
        print(f"a correction while the desk runs takes {plain:.2f} s")
        for attempt, words in enumerate(commands):
            killed_after(
                chance.uniform(0, plain * (0.4 if words[0] == "credit" else 1.2)),
                words,
                chance if attempt % 3 == 0 else None,
            )
            if attempt % 10 == 0:
                whole(f"kill {attempt}")
        server.is_heard()
        is_over.set()
    same("wrong replies", [it for client in clients for it in client.result()[1]], [])
    print(
        f"{given.kills} kills in {time.monotonic() - start:.0f} s, {server.starts} starts, {sum(it.result()[0] for it in clients)} replies"
    )
    whole("all kills")
    hold_book(commands)
    same("the desk runs", server.is_heard(), True)
    same("the desk answers", server.answer(text["zoe"], "GET", "/account")[0], 200)
    done("members")
    same("no temporary files are left", left(), [])
    server.stop()


def left():
    """Returns the temporary files that the office hasn't removed."""
    return [it for folder in (Path("/dev/shm"), HOME) for it in folder.glob(".office-*")]


def command_of(attempt):
    return (
        ["debit", "zoe", str(1000 + attempt), *YES],
        ["credit", "zoe", str(2000 + attempt)],
        ["cancel", "zoe-1", str(1 + attempt % 96), *YES],
        ["close", f"2026-07-{1 + attempt % 28:02d}", "10-12", "room-1", *YES],
        ["set-quota", "zoe", str(99 - attempt % 50), *YES],
    )[attempt % 5]


def hold_book(commands):
    """In the book, a command has status 0 if it is done, and a question mark if it was interrupted. The club must contain each credit and
    debit that has status 0 in the book. It may also contain those with a question mark, but no others.
    """
    book = [line.split() for line in done("log", "zoe").splitlines()]
    book = [
        (status, command, words)
        for _, _, status, command, *words in book
        if command in ("credit", "debit")
    ]
    sums, counts = {0}, Counter(status for status, _, _ in book)
    for status, command, words in book:
        points = int(words[1]) * (1 if command == "credit" else -1)
        if status in ("0", "?"):
            sums = {it + points for it in sums} | (sums if status == "?" else set())
    same(
        f"zoe's credits, {counts['?']} of them interrupted",
        rows("SELECT credited FROM members WHERE name = 'zoe'")[0][0] in sums,
        True,
    )
    lines = {" ".join(word for word in words if word != "--yes") for words in commands} | {
        "credit zoe 100000",
        f"debit zoe 1 --at {NOON}",
    }
    same(
        "no commands that the test didn't run",
        {" ".join([command, *words]) for _, command, words in book} - lines,
        set(),
    )
    print(f"credits and debits: {counts['0'] - 2} were done, {counts['?']} were interrupted")


def restores():
    """Kills restores at random moments. After each kill, the club is either unchanged or equal to the copy."""
    copies, night = HOME / "back-ups", "2026-04-19T030000Z"
    configure(BACK_UPS=copies)
    run_as("clubdesk", "mkdir", "-m", "700", copies, folder="/")
    same(
        "a copy",
        run_as("clubdesk", "/usr/lib/clubdesk/back_up", CLUB, copies / night, folder="/")[0],
        0,
    )
    copy = everything()

    def goes_on():
        done("add-member", "after", "1")
        done("credit", "after", "5")

    goes_on()
    later = everything()
    server = Service()
    plain = seconds_of("restore", night, "--yes")
    outcomes = Counter()
    for _ in range(min(given.kills, 25)):
        if everything() == copy:
            goes_on()
        killed_after(chance.uniform(0, plain * 2), ["restore", night, "--yes"])
        found = everything()
        same("the club is the copy or unchanged", found in (copy, later), True)
        outcomes["restored" if found == copy else "before"] += 1
        whole("a killed restore")
    same(
        "the restore works after all kills",
        done("restore", night, "--yes").splitlines()[-1],
        "done",
    )
    same("the club of the copy", everything(), copy)
    same("the desk runs", server.is_heard(), True)
    server.stop()
    print(f"a restore, killed {sum(outcomes.values())} times: {dict(outcomes)}")


def season_points():
    """Kills the command that credits all members, and runs the command again. Each member gets the points once, no matter how often the command
    runs."""
    for number in range(1, 21):
        done("add-member", f"player-{number}", "5")
    before = dict(rows("SELECT name, credited FROM members WHERE quota > 0"))
    server = Service()
    words = ["credit-all", "100", "--as", "killed", "--yes"]
    for _ in range(min(given.kills, 12)):
        killed_after(chance.uniform(0.2, 4), words, chance if chance.random() < 0.3 else None)
        more = {
            points - before[name]
            for name, points in rows("SELECT name, credited FROM members WHERE quota > 0")
        }
        same("each member has the points once or not yet", more <= {0, 100}, True)
    same("the command again", office(*words)[0] in (0, 1), True)
    same(
        "each member has the points once",
        {
            points - before[name]
            for name, points in rows("SELECT name, credited FROM members WHERE quota > 0")
        },
        {100},
    )
    same("the command is refused afterwards", office(*words)[0], 1)
    server.stop()


def bookings_for_callers():
    """Kills a command that books an hour for a member who calls, and runs the command again. The member gets one booking. A command for two hours
    makes one booking for each hour."""
    done("add-member", "caller", "99")
    done("credit", "caller", "10000")
    server = Service()
    configure(PORT=server.port)
    for attempt in range(min(given.kills, 10)):
        first, count = 2 * attempt, 1 + attempt % 2
        words = ["book", "caller", "room-1", "2026-05-20", f"{first}-{first + count}", "1"]
        killed_after(chance.uniform(0.2, 2.5 * count), words)
        status, _, errors = office(*words)
        same(
            f"a booking, again at {first}",
            (status == 0, "already" in errors) in ((True, False), (False, True)),
            True,
        )
        for hour in range(first, first + count):
            same(
                f"booked at {hour}",
                rows(
                    f"SELECT count(*), sum(taken) FROM slots WHERE facility = 'room-1' AND day = 20593 AND hour = {hour}"
                ),
                [(1, 2)],
            )
    whole("killed bookings")
    server.stop()


def undos():
    """Kills an undo. Afterwards the correction is either unchanged or fully undone."""
    for attempt in range(min(given.kills, 10)):
        before = everything()
        done("close", f"2026-08-{attempt + 1:02d}", "10-12", "room-1", "--yes")
        after = everything()
        killed_after(chance.uniform(0.2, 2.5), ["undo", "--yes"])
        found = everything()
        same("a killed undo", found in (before, after), True)
        if found == after:
            done("undo", "--yes")
            same("the correction is undone", everything(), before)


def copies_elsewhere():
    """Kills the job that copies the club to another disk. Each copy with a final name is complete, and in the list of tested copies. After the kills,
    the next copy has the last change."""
    place = ROOM / "away"
    place.mkdir(exist_ok=True)
    subprocess.run(["mount", "-t", "tmpfs", "-o", "mode=777", "tmpfs", place], check=True)
    ROOM.chmod(0o755)
    configure(OFFSITE=place)
    line = ["runuser", "-u", "clubdesk", "--", "/usr/lib/clubdesk/copy_offsite", "club", "--once"]
    begun_at = time.monotonic()
    same("a copy elsewhere", run_as("clubdesk", *line[4:], folder="/")[0], 0)
    plain, killed = time.monotonic() - begun_at, 0
    for attempt in range(min(given.kills, 25)):
        done("credit", "zoe", str(1 + attempt))
        command = subprocess.Popen(
            line,
            stdin=subprocess.DEVNULL,
            stdout=subprocess.PIPE,
            stderr=subprocess.PIPE,
            text=True,
            cwd="/",
            start_new_session=True,
        )
        time.sleep(chance.uniform(0, plain * 1.2))
        killed += command.poll() is None
        kill(command, chance if attempt % 3 == 0 else None)
        named = [it.name for it in place.glob("2*Z")]
        tested = [
            it.split()[0] for it in (place / "tested").read_text(encoding="ascii").splitlines()
        ]
        same("each copy was tested", [it for it in named if it not in tested], [])
        for it in named[-3:]:
            found = subprocess.run(
                [
                    "sqlite3",
                    f"file:{place / it}?immutable=1",
                    "PRAGMA integrity_check; SELECT count(*) FROM desk",
                ],
                capture_output=True,
                text=True,
                check=False,
            )
            same(f"the copy {it} is complete", found.stdout, "ok\n1\n")
    same("the job works after all kills", run_as("clubdesk", *line[4:], folder="/")[0], 0)
    newest = sorted(it.name for it in place.glob("2*Z"))[-1]
    same(
        "the copy has the last change",
        copy_rows(place / newest),
        [it for it in everything() if "INSERT" in it],
    )
    same("no temporary files are left after the copies", left(), [])
    copy, after = copy_rows(place / newest), None
    for _ in range(min(given.kills, 8)):
        done("credit", "zoe", "7")
        after = [it for it in everything() if "INSERT" in it]
        killed_after(chance.uniform(0.2, 3), ["restore", newest, "--yes"])
        same(
            "a killed restore of such a copy",
            [it for it in everything() if "INSERT" in it] in (copy, after),
            True,
        )
        done("restore", newest, "--yes")
        same("a restore of such a copy", [it for it in everything() if "INSERT" in it], copy)
    print(f"copies elsewhere, killed {killed} times")
    subprocess.run(["umount", place], check=True)
    configure()


def copy_rows(path):
    """Returns the rows of a copy. No program may write to this copy meanwhile."""
    with contextlib.closing(sqlite3.connect(f"file:{path}?immutable=1", uri=True)) as db:
        return [it for it in db.iterdump() if "INSERT" in it]


# The name, quota and points of each member, and the name that the office makes from the member's name.
MEMBERS = [
    ("Amy Müller", 5, 10000, "amy-mueller"),
    ("Bob", 3, 5000, "bob"),
    ("Çelik, Ayşe", 2, 0, "celik-ayse"),
    ("Ole Sørensen", 9, 700, "ole-soerensen"),
    ("Zoë", 1, 1, "zoe"),
    ("Łukasz Wójcik", 4, 20, "lukasz-wojcik"),
    ("Jean-Luc d'Arc", 6, 60, "jean-luc-d-arc"),
    ("Straßer, Uwe Maximilian der Jüngere", 7, 1000000, "strasser-uwe-maximilian"),
    ("n.n. 4711", 0, 5, "n-n-4711"),
    ("Ægir", 8, 8, "aegir"),
    ("İnci", 2, 22, "inci"),
    ("Ana", 3, 33, "ana"),
]
LIST = Path("/home/anna/members.csv")


def make_list(members, delimiter=","):
    lines = [
        ("name", "quota", "points"),
        *((f'"{name}"', str(quota), str(points)) for name, quota, points, _ in members),
    ]
    LIST.write_text("".join(delimiter.join(it) + "\n" for it in lines), encoding="utf-8")


STOPPER = f"""#!/bin/sh
# This script replaces clubdesk, and counts the office's commands. Before or after the Nth command, the script waits, so that the test can kill the
# office's processes.
case $1 in
    add-member | credit | add-key | rotate-key)
        number=$(($(cat {ROOM}/orders) + 1))
        echo $number >{ROOM}/orders
        [ "$number before" != "$(cat {ROOM}/kill)" ] || {{ echo >{ROOM}/killed; sleep 60; }}
        {ROOM}/clubdesk "$@" || exit
        [ "$number after" != "$(cat {ROOM}/kill)" ] || {{ echo >{ROOM}/killed; sleep 60; }}
        ;;
    *) exec {ROOM}/clubdesk "$@" ;;
esac
"""


def fresh_club():
    subprocess.run(["rm", "-rf", *HOME.glob("club*"), "/home/anna/passes"], check=True)
    done("new")
    done("add-facility", "room-1", "room", "50", "5", "0", "24")


def count_commands(stop="0 never"):
    """Resets the counter of commands, and sets the command before or after which the script waits."""
    for file, text in (("orders", "0"), ("kill", stop)):
        (ROOM / file).write_text(f"{text}\n")
        (ROOM / file).chmod(0o666)
    (ROOM / "killed").unlink(missing_ok=True)


def import_stopped(*at):
    """Runs an import. If `at` is given, kills the import before or after this command of the import. Returns the import's status."""
    count_commands(*at)
    command = begun("import", "members.csv", "--yes")
    while command.poll() is None and not (ROOM / "killed").exists():
        time.sleep(0.005)
    kill(command)
    return command.returncode


def imported(what, members):
    """Checks that each member exists once and got one credit. Each member must have a key, and a pass that the key's root signed."""
    found = rows("SELECT name, credited, quota, used FROM members ORDER BY rowid")
    same(
        f"{what}: the members",
        sorted(found),
        sorted((name, points, quota, 0) for _, quota, points, name in members),
    )
    keys = rows("SELECT member, name, hex(root) FROM keys ORDER BY rowid")
    same(f"{what}: the keys", sorted(it[0] for it in keys), sorted(it[-1] for it in members))
    same(
        f"{what}: the passes",
        sorted(run_as("anna", "ls", "-A", "passes")[1].split()),
        sorted(it[1] for it in keys),
    )
    for _, key, root in keys:
        same(
            f"{what}: the pass of {key}",
            run_as("anna", "sh", "-c", f"passtool verify --root {root} <passes/{key}")[1],
            "signed\n",
        )


def imports():
    shutil.move("/usr/bin/clubdesk", ROOM / "clubdesk")
    (ROOM / "stopper").write_text(STOPPER)
    subprocess.run(["install", "-m", "755", ROOM / "stopper", "/usr/bin/clubdesk"], check=True)
    ROOM.chmod(0o777)
    count_commands()
    refused_lists()
    first = MEMBERS[:3]
    make_list(first)
    for number in range(1, 1 + sum(2 + (points > 0) for _, _, points, _ in first)):
        for point in (f"{number} before", f"{number} after"):
            where = " command ".join(reversed(point.split()))
            fresh_club()
            same(f"killed {where}", import_stopped(point) != 0, True)
            same(f"killed {where}: again", import_stopped(), 0)
            imported(f"killed {where}", first)
    same("a repeated import", import_stopped(), 0)
    imported("a repeated import", first)
    make_list(MEMBERS, ";")
    fresh_club()
    import_stopped()
    imported("a list with semicolons", MEMBERS)
    fresh_club()
    for _ in range(min(given.kills, 40)):
        killed_after(
            chance.uniform(0.1, 2),
            ["import", "members.csv", "--yes"],
            chance if chance.random() < 0.3 else None,
        )
    same("killed at random: again", import_stopped(), 0)
    imported("killed at random", MEMBERS)
    keys = rows("SELECT name, hex(root) FROM keys")
    same("a debit, then the import again", done("debit", "zoe", "1", *YES).splitlines()[-1], "done")
    same(
        "the import has nothing to do",
        office("import", "members.csv", "--yes")[1].splitlines()[-1],
        "nothing to do",
    )
    same("the import changed no key", rows("SELECT name, hex(root) FROM keys"), keys)
    same(
        "the import gave no credit", rows("SELECT credited FROM members WHERE name = 'zoe'"), [(0,)]
    )


def refused_lists():
    """The office refuses these lists before it changes anything."""
    fresh_club()
    same("no file", office("import", "members.csv", "--yes")[0], 7)
    for what, lines, status in (
        ("no column names", "Amy,5,10", 3),
        ("an invalid quota", "name,quota,points\nAmy,100,10", 3),
        ("invalid points", "name,quota,points\nAmy,1,1000001", 3),
        ("no name", "name,quota,points\n'--',1,1", 3),
        ("too few cells", "name,quota,points\nAmy,1", 3),
        ("too many cells", "name,quota,points\nAmy,1,1,1,1", 3),
        ("two rows with one name", "name,quota,points\nAmy,1,1\nÄmy,1,1\nämy,2,2", 3),
        ("two rows with one key", "name,quota,points,key\nAmy,1,1,k\nBob,1,1,K", 3),
        ("no letter", "name,quota,points\n\udc81,1,1", 7),
        ("too large for a list of members", "name,quota,points\n" + "Amy,1,1\n" * 1_300_000, 3),
        ("an invalid mail address", "name,quota,points,mail\nAmy,1,1,amy", 3),
    ):
        LIST.write_text(f"{lines}\n", encoding="utf-8", errors="surrogateescape")
        same(what, office("import", "members.csv", "--yes")[0], status)
    same("no member is added", rows("SELECT * FROM members"), [])
    make_list(MEMBERS[:2])
    status, out, _ = office("import", "members.csv", given="n\n")
    same(
        "not confirmed",
        (status, out.splitlines()[2].split()),
        (1, ["2", "Amy", "Müller", "amy-mueller", "5", "10000", "amy-mueller-1", "new"]),
    )
    same("no member is added before the confirmation", rows("SELECT * FROM members"), [])
    run_as("anna", "mkdir", "passes")
    run_as("anna", "sh", "-c", "echo mine >passes/bob-1")
    same("a file with the pass's name", office("import", "members.csv", "--yes")[0], 1)
    same("the other file stays", run_as("anna", "cat", "passes/bob-1")[1], "mine\n")
    same("no member is added after the refusal", rows("SELECT * FROM members"), [])


commands_beside_the_desk()
restores()
season_points()
bookings_for_callers()
undos()
copies_elsewhere()
imports()
leave()

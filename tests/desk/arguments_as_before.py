#!/usr/bin/env python3
"""An old and a new build of `passtool` or `clubdesk` answer the same arguments in the same way.

    tests/desk/arguments_as_before.py BEFORE NOW

Run this test after a change to the code that reads arguments, if the change must not affect the
programs' behaviour. BEFORE and NOW are the paths of the old and the new program. The last part of
each path is `passtool` or `clubdesk`. The test runs about 450 command lines of `passtool`, or about
800 of `clubdesk`. Some command lines ask for help or the version. Other command lines have correct,
wrong, repeated or missing arguments, several faults together, words after `--`, or bytes that
aren't text. Each command line runs in a new folder. A `serve` line names a folder as its database,
so that the server ends immediately. The test compares status, standard output and standard error
byte for byte. The test prints each command line whose answers differ, and finally the counts. The
status is 1 if any answers differ. `tests/run` doesn't run this test, because the repository
contains no old program."""

import subprocess
import sys
from itertools import permutations, product
from pathlib import Path
from tempfile import TemporaryDirectory

ROOT = "00ff"
ROOTS = [
    [],
    ["--root", ROOT],
    ["--root=" + "AB" * 64],
    ["--root", "xyz"],
    ["--root="],
    ["--root", "0"],
    ["--root=" + "00" * 65],
]
FORMS = [[], ["--form", "v1"], ["--form=json"], ["--form", "v3"], ["--form="], ["--form"]]
CAVEATS = [
    [],
    ["guests <= 2"],
    ["no caveat"],
    ["kind = court", "no caveat", "nor this"],
    ["--", "-1", "guests <= 2"],
]
COMMANDS = ["mint", "show", "narrow", "convert", "verify"]
KEY_ROOT = "000102030405060708090a0b0c0d0e0f"
# The arguments of each clubdesk command: first valid values for each argument, then invalid values.
# FOLDER isn't a database.
FOLDER = "."
WORDS = {
    "add-member": ([FOLDER, "amy", "5"], ["", "Amy", "5x"]),
    "credit": ([FOLDER, "amy", "10000"], ["", "amy!", "1.0"]),
    "debit": ([FOLDER, "amy", "500"], ["", "amy!", "1.0"]),
    "set-quota": ([FOLDER, "amy", "5"], ["", "amy!", "5x"]),
    "add-facility": (
        [FOLDER, "court-1", "court", "4", "200", "8", "22"],
        ["", "court 1", "Court", "x", "+1", "", "1000000000"],
    ),
    "set-facility": (
        [FOLDER, "court-1", "4", "250", "8", "21"],
        ["", "court 1", "x", "+1", "", "1000000000"],
    ),
    "add-key": ([FOLDER, "amy-1", "amy", KEY_ROOT], ["", "K", "BOB", "0g"]),
    "revoke-key": ([FOLDER, "amy-1"], ["", "amy_1"]),
    "rotate-key": ([FOLDER, "amy-1", KEY_ROOT, "2026-05-01T00:00"], ["", "K", "00", "never"]),
    "close-slot": ([FOLDER, "court-1", "2026-05-01", "18"], ["", "Court", "2026-02-29", "24"]),
    "open-slot": ([FOLDER, "court-1", "2026-05-01", "18"], ["", "Court", "2026-02-29", "24"]),
    "cancel-booking": ([FOLDER, "amy-1", "7"], ["", "Amy-1", "x"]),
    "sheet": ([FOLDER, "2026-05-01"], ["", "1999-12-31"]),
    "serve": ([FOLDER], [""]),
    "show-account": ([FOLDER, "amy-1"], ["", "Amy-1"]),
    "show-slot": ([FOLDER, "court-1", "2026-05-01", "18"], ["", "court 1", "2026-5-1", "8"]),
}
PORTS = [[], ["--port", "0"], ["--port=65536"], ["--port", "x"], ["--port"]]
COUNTS = [[], ["--count", "1"], ["--count=0"], ["--count", "1000001"]]
CLOCKS = [
    [],
    ["--zone", "UTC"],
    ["--zone=CET-1CEST,M3.5.0,M10.5.0/3"],
    ["--at", "2026-05-01T12:00"],
    ["--at=never"],
    ["--at", "2026-05-01T12:00", "--zone=x"],
]
PATIENCES = [
    ["--patience", "1"],
    ["--patience=0"],
    ["--patience", "3601"],
    ["--patience"],
    ["--log", "--log"],
    ["--log=1"],
    ["--verbose"],
]


def texts(commands):
    """Yields arguments that ask for help or the version, and arguments that name no command."""
    first, second = commands[:2]
    yield from (
        [],
        [""],
        ["--help"],
        ["-h"],
        ["--version"],
        ["-V"],
        ["-hV"],
        ["-Vh"],
        ["help"],
        ["help", "help"],
        ["help", "none"],
        ["help", first, second],
        ["none"],
        [first.title()],
        [first[:3]],
        ["--"],
        ["--", second],
        ["-"],
        ["-x"],
        ["--root", ROOT],
        ["--version=1"],
        ["--help", "none"],
        ["none", "--help"],
        [second, second],
        [first, "help"],
    )
    for command in commands:
        yield from (
            [command, "--help"],
            [command, "-h"],
            ["help", command],
            [command, "--version"],
            [command, "-V"],
            [command, "--none"],
            [command, "-z"],
            [command, "--help=1"],
            ["--help", command],
            [command, "--", "--help"],
            [command, ""],
            [command, b"\xff"],
            [b"\xff", command],
        )


def mints():
    for root, form in product(ROOTS, FORMS):
        yield ["mint", *root, "--id", "key:amy-1", *form]
    for caveats, id_words in product(CAVEATS, ([], ["--id=key"], ["--id", ""], ["--id"])):
        yield ["mint", *id_words, "--root", ROOT, *caveats]
        yield ["mint", *caveats, *id_words, "--form", "v9", "--root", "bad"]
    parts = (["--root", ROOT], ["--id", "k"], ["--location=club"], ["--form=v1"])
    for order in permutations(parts):
        yield ["mint", *sum(order, []), "kind = court"]
    for part in parts:
        yield ["mint", *sum(parts, []), *part]
    yield from (
        ["mint", "--root", "-1", "--id", "k"],
        ["mint", "--root=-1", "--id=k"],
        ["mint", "--roo", ROOT, "--id", "k"],
        ["mint", "--root", ROOT, "--id", "k", "--location", ""],
        ["mint", "--root", ROOT, "--id", "k", "--any"],
        ["mint", "--root", ROOT, "--id", "k", "x" * 200],
        ["mint", "--root", ROOT, "--id", "k" * 9000],
        ["mint", "--root", ROOT, "--id", "k", *["guests <= 2"] * 64],
        ["mint", "--root", ROOT, "--id", "k", *["guests <= 2"] * 65],
    )


def readers():
    """Yields command lines of the commands that read a pass."""
    for caveats, flag in product(
        CAVEATS, ([], ["--any"], ["--any", "--any"], ["--any=true"], ["--any="])
    ):
        yield ["narrow", *flag, *caveats]
        yield ["narrow", *caveats, *flag]
    for form in FORMS:
        yield from (
            ["convert", *form],
            ["convert", *form, *form],
            ["convert", *form, "word"],
            ["show", *form],
            ["verify", *form],
        )
    for root in ROOTS:
        yield from (
            ["verify", *root],
            ["verify", *root, *root],
            ["verify", *root, "word"],
            ["convert", *root],
            ["narrow", *root],
        )


def orders():
    """Yields each command of clubdesk with good and bad arguments. Also yields the commands that
    take a root, with the options for the root and for the form of the pass."""
    for command, (good, bad) in WORDS.items():
        options = ["--port=0", "--count=1"] if command == "serve" else []
        yield from ([command, *options, *good[:n]] for n in range(len(good) + 1))
        yield from (
            [command, *options, *good, "more"],
            [command, *good, *options],
            [command, *options, "--", *good],
            [command, *options, *bad],
        )
        yield [command, *options, *good[:-1], "-1"]
        yield from (
            [command, *options, *good[:n], bad[n], *good[n + 1 :]] for n in range(len(good))
        )
        yield from (
            [command, *options, *good[:n], bad[n], *bad[n + 1 :]] for n in range(1, len(good))
        )
    for command, flag, form in product(
        ("add-key", "rotate-key"),
        ([], ["--root-stdin"], ["--root-stdin"] * 2, ["--root-stdin=1"]),
        FORMS,
    ):
        good, bad = WORDS[command]
        short = [word for word in good if word != KEY_ROOT]
        yield from ([command, *words, *flag, *form] for words in (good, short, bad, short[:-1]))


def clocks():
    """Yields command lines of the clubdesk commands that need a clock."""
    yield from (["serve", FOLDER, *port, *count] for port, count in product(PORTS, COUNTS))
    for clock in CLOCKS:
        yield from (
            ["show-account", FOLDER, "amy-1", *clock],
            ["show-account", "club.db", "Amy", *clock],
            ["show-slot", FOLDER, *clock],
        )
        yield from (
            ["serve", FOLDER, "--port=0", "--count=1", *clock, *patience]
            for patience in ([], *PATIENCES)
        )


def runs():
    """Yields command lines that use a database. Each command line gets a new database."""
    for command, (good, bad) in WORDS.items():
        if command != "serve":
            yield from ([command, "club.db", *good[1:]], [command, "club.db", *bad[1:]])
    yield from (
        ["add-member", "club.db", "amy", "100"],
        ["sheet", "club.db", "2026-05-01", "--log"],
        ["sheet", "none/club.db", "2026-05-01"],
    )


def answer(program, words, given):
    with TemporaryDirectory() as folder:
        done = subprocess.run(
            [program, *words], input=given, capture_output=True, timeout=60, check=False, cwd=folder
        )
    return done.returncode, done.stdout, done.stderr


def passtool_lines(before):
    made = answer(before, ["mint", "--root", ROOT, "--id", "key:amy-1", "kind = court"], b"")[1]
    inputs = (
        made,
        answer(before, ["convert", "--form", "json"], made)[1],
        b"",
        b"no pass",
        b"A" * 8193,
    )
    yield from ((words, made) for words in [*texts(COMMANDS), *mints()])
    yield from ((words, given) for words in readers() for given in (made, b"no pass"))
    yield from (
        (words, given)
        for words in (
            ["show"],
            ["verify", "--root", ROOT],
            ["convert", "--form=v1"],
            ["narrow", "guests <= 2"],
        )
        for given in inputs
    )


def clubdesk_lines():
    yield from (
        (words, KEY_ROOT.encode()) for words in [*texts(list(WORDS)), *orders(), *clocks(), *runs()]
    )
    keys = (["add-key", FOLDER, "k", "amy"], ["rotate-key", FOLDER, "k", "2026-05-01T00:00"])
    for words, given in product(keys, (b"", b"00", b"\xff", b"00" * 65, b"00" * 16 + b"\n")):
        yield [*words, "--root-stdin"], given


def main(before, now):
    before, now = Path(before).resolve(), Path(now).resolve()
    lines = list(clubdesk_lines() if now.name == "clubdesk" else passtool_lines(before))
    different = 0
    for words, given in lines:
        old, new = answer(before, words, given), answer(now, words, given)
        if old != new:
            different += 1
            print(f"{words} with {len(given)} bytes: {old} before, {new} now")
    print(f"{len(lines)} command lines, {different} answered differently")
    return 1 if different else 0


if __name__ == "__main__":
    if len(sys.argv) != 3:
        sys.exit(__doc__)
    sys.exit(main(*sys.argv[1:]))

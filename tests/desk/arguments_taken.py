#!/usr/bin/env -S /usr/bin/python3 -B -m pytest -q -p no:cacheprovider
"""clubdesk takes each numeric argument at each length, each hour, each patience, and names and
roots of each length.

Each command names a file in a folder that doesn't exist. So a command whose arguments are accepted
ends with status 5, and a refused argument ends with another status. Two keys can have the same
root, and the office can see a revoked key. Both programs print their version.
"""

from concurrent.futures import ThreadPoolExecutor

import pytest

import desk

pytestmark = [pytest.mark.programs, pytest.mark.quick, pytest.mark.needs("clubdesk passtool")]

FILE = "/nonexistent/club.db"
TAKEN = (5, "", "storage failed\n")
AT_ONCE = 4
# The words of a command after its file. A number stands for `#`.
NUMBERED = [
    "add-member amy #",
    "credit amy #",
    "debit amy #",
    "set-quota amy #",
    "add-facility b court # 1 2 3",
    "add-facility b boat 1 # 2 3",
    "add-facility b room 1 2 # 3",
    "add-facility b court 1 2 3 #",
    "set-facility b # 1 2 3",
    "set-facility b 1 # 2 3",
    "set-facility b 1 2 # 3",
    "set-facility b 1 2 3 #",
    "cancel-booking amy-1 #",
]
OF_AN_HOUR = ["close-slot", "open-slot", "show-slot"]
SERVE = "serve --port 0 --count 1"
FORMS = ["v1", "v2", "json"]


def takes(lines: list[str]):
    """Expects that clubdesk accepts the arguments of each line."""

    def run(line: str) -> tuple[int, str, str]:
        command, *words = line.split(" ")
        return desk.command(desk.program("clubdesk"), command, FILE, *words)

    with ThreadPoolExecutor(AT_ONCE) as pool:
        for line, told in zip(lines, pool.map(run, lines)):
            assert told == TAKEN, line


@pytest.mark.parametrize("line", NUMBERED)
def test_numbers_of_each_length(line: str):
    """A number of one to nine digits is accepted."""
    takes([line.replace("#", "123456789"[:length]) for length in range(1, 10)])


@pytest.mark.parametrize("command", OF_AN_HOUR)
def test_each_hour(command: str):
    """Each hour of a day is accepted."""
    takes([f"{command} court-1 2026-05-01 {hour:02}" for hour in range(24)])


def test_each_patience():
    """A patience of 1 to 3,600 seconds is accepted."""
    takes([f"{SERVE} --patience {seconds}" for seconds in range(1, 3601)])


def test_ports_and_counts():
    """Ports up to the last, and counts of one to seven digits, are accepted."""
    takes([f"serve --count 1 --port {port}" for port in [*range(0, 65536, 256), 65535]])
    takes([f"serve --port 0 --count {count}" for count in [*(10**n for n in range(7)), 999999]])


@pytest.mark.parametrize("form", FORMS)
def test_keys_of_each_length(form: str):
    """Names of 1 to 24 letters and roots of 16 to 64 bytes are accepted."""
    names = ["k" * length for length in range(1, 25)]
    roots = ["a7" * length for length in range(16, 65)]
    pairs = [(names[it % len(names)], root) for it, root in enumerate(roots)]
    takes([f"add-key {name} bob {root} --form {form}" for name, root in pairs])
    takes([f"rotate-key {name} {root} 2026-04-25T00:00 --form {form}" for name, root in pairs])


@pytest.mark.parametrize("form", FORMS)
def test_one_root_for_two_keys(new_club, form: str):
    """Two keys can have the same root, and the office sees a key after it is revoked."""
    root = "00112233445566778899aabbccddeeff"
    club = new_club("add-member amy 5", "credit amy 100")
    program, file = club.program, club.file
    for key in ("k", "k" * 24):
        status, printed, fault = desk.command(
            program, "add-key", file, key, "amy", root, "--form", form
        )
        assert (status, printed.count("\n"), fault) == (0, 1, "")
        assert desk.command(program, "revoke-key", file, key) == (0, "done\n", "")
        told = desk.command(program, "show-account", file, key, "--at", "2026-04-20T12:00")
        assert told[0] == 0 and "revoked yes" in " ".join(told[1].split()), told


@pytest.mark.parametrize("name", ["clubdesk", "passtool"])
@pytest.mark.parametrize("word", ["-V", "--version"])
def test_version(name: str, word: str):
    """A program prints its name and the version that `bin/version` prints."""
    version = desk.command(desk.ROOT / "bin" / "version")[1].strip()
    assert desk.command(desk.program(name), word) == (0, f"{name} {version}\n", "")

#!/usr/bin/env -S /usr/bin/python3 -B -m pytest -q -p no:cacheprovider
"""`clubdesk` and `passtool` do their deepest work with the stack that docs/TRUST.md states, much less than the 8 MiB of Debian.

For each work, the test finds the smallest limit of the stack with which the program gives the same answer as with 8 MiB. `-s` prints the limits:

    tests/desk/stack_bounds.py -s

No proof says how much stack a program needs. The works are:
- passes of 64 caveats in each form, and requests with such passes
- JSON that is nested as deeply as the desk reads it, and deeper
- a new file, a file with many bookings, and a day sheet"""

import re
import subprocess
from pathlib import Path

import pytest

import desk
from kinds import NOON, ROOT, key_pass, text

pytestmark = [
    pytest.mark.faults,
    pytest.mark.needs("clubdesk passtool"),
    pytest.mark.wants("util-linux"),
]

LEAST, AMPLE = 16, 8192  # KiB
FORMS = ("v1", "v2", "json")
CAVEATS = [f"spend <= {999_999_999 - number}" for number in range(64)]
NESTED = {levels: '{"c":' + "[" * (levels - 1) for levels in (127, 4000)}
SLOT = "/slots/court-1/2026-05-01/18"


@pytest.fixture(scope="session")
def tool():
    return desk.program("passtool")


def stated():
    """Returns the KiB that docs/TRUST.md states."""
    page = (desk.ROOT / "docs" / "TRUST.md").read_text(encoding="utf-8")
    return int(re.search(r"at most (\d+) KiB of stack", page)[1])


def limited(kib):
    return ("prlimit", f"--stack={kib * 1024}")


def ran(kib, program, *words, given=b""):
    done = subprocess.run(
        [*limited(kib), program, *map(str, words)],
        input=given,
        capture_output=True,
        env={},
        check=False,
    )
    return done.returncode, done.stdout, done.stderr


def least_of(answer):
    """Returns the smallest limit in KiB, to the nearest 4, with which `answer` returns the same value as with an ample stack."""
    wanted, low, high = answer(AMPLE), LEAST, AMPLE
    while high - low > 4:
        middle = (low + high) // 2
        low, high = (low, middle) if answer(middle) == wanted else (middle, high)
    return high


def is_within(name, answer):
    found = least_of(answer)
    print(f"\n{found:5} KiB  {name}")
    assert found <= stated(), (name, found)


def nested(levels):
    """Returns a text that begins like a pass in JSON, and nests lists."""
    return NESTED[levels] + "]" * (levels - 1) + "}"


@pytest.mark.parametrize("form", FORMS)
@pytest.mark.parametrize("work", ["show", "verify", "narrow"])
def test_passes(tool, work, form):
    """passtool reads, verifies and narrows a pass of 63 caveats."""
    words = {"show": [], "verify": ["--root", ROOT], "narrow": ["kind = court"]}[work]
    given = text(key_pass("amy-1"), *CAVEATS[:63], form=form).encode()
    assert ran(AMPLE, tool, work, *words, given=given)[0] == 0
    is_within(f"passtool {work}, {form}", lambda kib: ran(kib, tool, work, *words, given=given))


@pytest.mark.parametrize("levels", NESTED)
def test_nested_passes(tool, levels):
    given = nested(levels).encode()
    assert ran(AMPLE, tool, "show", given=given)[2] == b"fault 2: malformed\n"
    is_within(f"passtool show, {levels} levels", lambda kib: ran(kib, tool, "show", given=given))


def replied(club, data):
    """Returns a function that starts a server with a limit, and returns its reply to the request."""

    def answer(kib):
        try:
            with desk.Server(
                club.program, club.file, None, "--at", NOON, by=limited(kib)
            ) as server:
                return desk.exchange(server.port, data)
        except AssertionError:
            return None

    return answer


@pytest.mark.parametrize("form", FORMS)
def test_requests(club, form):
    """A server books under a pass of 64 caveats."""
    passed = text(key_pass("amy-1"), *CAVEATS, form=form)
    row = desk_request("PUT", f"{SLOT}/bookings/7", passed, '{"guests":2}')
    assert b" 200 " in replied(club, row)(AMPLE)
    is_within(f"a booking, {form}", replied(club, row))


@pytest.mark.parametrize("levels", NESTED)
def test_requests_with_nested_passes(club, levels):
    row = desk_request("GET", "/account", nested(levels))
    assert b"pass malformed" in replied(club, row)(AMPLE)
    is_within(f"a pass of {levels} levels", replied(club, row))


def test_requests_with_nested_bodies(club):
    body = '{"guests":' + "[" * 120 + "]" * 120 + "}"
    row = desk_request("PUT", f"{SLOT}/bookings/7", text(key_pass("amy-1")), body)
    assert b"bad request" in replied(club, row)(AMPLE)
    is_within("a body of 121 levels", replied(club, row))


def desk_request(method, path, passed, body=None):
    lines = [f"{method} {path} HTTP/1.1", f"Authorization: Bearer {passed}"]
    if body is not None:
        lines.append(f"Content-Length: {len(body)}")
    return ("\r\n".join(lines) + "\r\n\r\n" + (body or "")).encode()


def test_commands(club, tmp_path):
    """clubdesk makes a file, opens a file with many bookings, and prints a sheet."""
    desk.add_past_bookings(club.file, 2000, ROOT)

    def made(kib):
        file = Path(tmp_path, "new")
        for it in tmp_path.glob("new*"):
            it.unlink()
        return ran(kib, club.program, "add-member", file, "amy", "5")

    is_within("a new file", made)
    day = desk.rows(club.file, "SELECT date(day * 86400, 'unixepoch') FROM bookings LIMIT 1")[0][0]
    is_within("an account", lambda kib: ran(kib, club.program, "show-account", club.file, "amy-1"))
    is_within("a sheet", lambda kib: ran(kib, club.program, "sheet", club.file, day))

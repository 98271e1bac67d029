#!/usr/bin/env -S /usr/bin/python3 -B -m pytest -q -p no:cacheprovider
"""The server answers each request in the tables of docs/HANDING_ON.md and docs/CLIENT.md as the
page states.

The test runs the commands of a page's console blocks, and sends each request of the page's tables.
The head of a table states the pass and the moment of the table's requests. The commands before the
first table of a section make a club without bookings. The section's requests and later commands use
a copy of this club. Another test, docs_hold.py, runs the same blocks, including the commands that
start servers.
"""

import os
import re
import shutil
import subprocess
from collections import Counter

import pytest

import desk
from conftest import Club
from kinds import Row
from reference import wire

pytestmark = [
    pytest.mark.pages,
    pytest.mark.needs("clubdesk passtool"),
    pytest.mark.wants("openssl"),
]

PART = re.compile(
    (
        r"^```console\n(?P<block>[^`]*?)^```$|^(?P<section>##.*)|^\| (?P<under>Under `.*)|^\|"
        r" (?P<asked>`(?:GET|PUT|DELETE|POST) .*)"
    ),
    re.MULTILINE,
)
UNDER = re.compile(r"Under `([^`]+)` at (\S+) \|.*")
ASKED = re.compile(r"`(\S+) (\S+)(?: -d ([^`]+))?` \| (\d+) `([^`]+)` \|")


@pytest.mark.parametrize("name", ["HANDING_ON.md", "CLIENT.md"])
def test_page(clubdesk, tmp_path, name):
    made, copy, bin_folder = (tmp_path / it for it in ("made", "copy", "bin"))
    made.mkdir()
    bin_folder.mkdir()
    for program in ("clubdesk", "passtool"):
        (bin_folder / program).symlink_to(desk.program(program))
    variables = {**os.environ, "PATH": f"{bin_folder}:{os.environ['PATH']}"}
    place, asked = made, Counter()
    for part in PART.finditer((desk.ROOT / "docs" / name).read_text(encoding="utf-8")):
        text = part[part.lastgroup]
        match part.lastgroup:
            case "block":
                for command in (
                    [] if "clubdesk serve" in text else re.findall(r"^\$ (.*)", text, re.MULTILINE)
                ):
                    subprocess.run(
                        ["sh", "-c", command],
                        cwd=place,
                        check=True,
                        stdin=subprocess.DEVNULL,
                        env=variables,
                    )
            case "section":
                place = made
            case "under":
                key, moment = UNDER.fullmatch(text).groups()
                if place == made:
                    place = copy
                    shutil.rmtree(copy, ignore_errors=True)
                    shutil.copytree(made, copy)
                row = Row(passed=(place / key).read_text().strip(), moment=moment)
            case "asked":
                method, path, body, status, reply = ASKED.fullmatch(text).groups()
                wanted = wire.bytes_with(int(status), reply.encode())
                Club(clubdesk, place / "club").play(
                    [row.but(method=method, path=path, body=body, wanted=wanted)]
                )
                asked[status == "200"] += 1
    assert asked[True] and asked[False]

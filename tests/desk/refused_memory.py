#!/usr/bin/env -S /usr/bin/python3 -B -m pytest -q -p no:cacheprovider
"""If an allocation is refused, each command of `passtool` still prints the right result or reports
"out of memory".

The test runs each command with each form of a pass. Each run ends with status 4 and no output, or
it ends as if no allocation had been refused.
"""

import os
import subprocess

import pytest

import desk
from kinds import ROOT, key_pass, text
from reference import passes

pytestmark = [pytest.mark.faults, pytest.mark.needs("passtool"), pytest.mark.wants("gcc libc6-dev")]

CAVEATS = ("kind = court", "guests <= 2")
COMMANDS = [
    (
        "mint",
        "--root",
        ROOT,
        "--id",
        "key:amy-1",
        "--location",
        "club-desk",
        "--form",
        "FORM",
        *CAVEATS,
    ),
    ("show",),
    ("narrow", *CAVEATS),
    ("convert", "--form", "json"),
    ("convert", "--form", "v2"),
    ("verify", "--root", ROOT),
]


@pytest.mark.parametrize("words", COMMANDS, ids=" ".join)
@pytest.mark.parametrize("form", passes.FORMS)
def test_each_allocation_refused(tmp_path, form, words):
    words = [desk.program("passtool"), *(it.replace("FORM", form) for it in words)]

    def ended(**variables):
        run = subprocess.run(
            words,
            input=text(key_pass("amy-1"), form=form).encode(),
            capture_output=True,
            check=False,
            env={**os.environ, **variables},
        )
        return run.returncode, run.stdout, run.stderr

    whole, refused = ended(), (4, b"", b"out of memory\n")
    assert whole[0] == 0
    assert refused in set(desk.refused_in_turn(ended, tmp_path)) <= {whole, refused}

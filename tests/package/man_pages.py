#!/usr/bin/env -S /usr/bin/python3 -B -m pytest -q -p no:cacheprovider
"""`mandoc` finds no fault in the manual pages, and the pages have the commands, options and statuses of `--help`.

The manual pages have no other commands, options or statuses. The test checks office's page only with `mandoc`. Another test, office_holds.py,
compares office's page with the `--help` of office. office's page refers to the manual pages of sudo, so sudo must be installed.
"""

import re
import subprocess

import pytest

import desk
from helps import names_of, options_of, printed, words_of

pytestmark = [
    pytest.mark.package,
    pytest.mark.quick,
    pytest.mark.needs("clubdesk passtool"),
    pytest.mark.wants("mandoc sudo"),
]

MAN = desk.ROOT / "man"


def by_help(program):
    """Reads the help text. Returns each command with its words, options and values, and each exit status."""
    top, found = printed(program, "--help"), {"help command"}
    for command in names_of(top):
        text = printed(program, "help", command) if command != "help" else ""
        values = {f"--{name}": value for name, value in options_of(text).items() if name != "help"}
        found |= {
            command,
            *(
                f"{command} {it}"
                for it in [*words_of(text), *values, *filter(None, values.values())]
            ),
        }
    return found | {
        f"status {it}"
        for it in re.findall(r"^  ([0-9])  ", top.partition("Exit status:")[2], re.MULTILINE)
    }


def listed(page, heading, item):
    """Returns the items of the list under a heading, each without the words that match `item`."""
    return re.findall(
        rf"^\.It {item}(.*)",
        re.search(rf"^{heading}\n(.*?)^\.El", page, re.MULTILINE | re.DOTALL)[1],
        re.MULTILINE,
    )


def by_page(page):
    """Returns the commands and statuses from the lists of a manual page."""
    found = {f"status {it}" for it in listed(page, r"\.Sh EXIT STATUS", "(?=[0-9])")}
    for command, *words in map(str.split, listed(page, "The commands are:", "Cm ")):
        found |= {
            command,
            *(
                f"{command} {'-' * (it[0] == '-')}{it}"
                for it in words
                if re.fullmatch("-.*|[A-Z]+|command", it)
            ),
        }
    return found


@pytest.mark.parametrize("name", ["clubdesk", "passtool"])
def test_page_has_what_the_help_shows(name):
    page = (MAN / f"{name}.1").read_text(encoding="utf-8")
    found, wanted = by_page(page), by_help(desk.program(name))
    assert len(wanted) > 20
    assert sorted(found ^ wanted) == []
    explained = {
        it.rpartition("Fl -")[2].split()[0]
        for it in listed(page, "The options are:", "")
        if "Fl -" in it
    }
    assert explained - {"help", "version"} == {
        it.partition(" --")[2] for it in found if " --" in it
    }


def test_mandoc_has_nothing_to_say():
    """mandoc runs in the folder of the manual pages, so that mandoc finds the pages that these pages refer to. A warning about the machine's
    outdated index of pages isn't a fault."""
    said = subprocess.run(
        ["mandoc", "-T", "lint", "clubdesk.1", "passtool.1", "office.1"],
        cwd=MAN,
        capture_output=True,
        text=True,
        check=False,
    )
    assert not [
        it for it in (said.stdout + said.stderr).splitlines() if "outdated mandoc.db" not in it
    ]

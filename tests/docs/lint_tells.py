#!/usr/bin/env -S /usr/bin/python3 -B -m pytest -q -p no:cacheprovider
"""`tests/lint.py` finds foreign English, faulty subjects of commits and misspelt words, and finds
nothing in plain English.

tests/lint.py checks the English only of added lines, and ignores code. With the same seed,
`tests/docs/sentences.py` always draws the same sentences.

The test makes small repositories for these checks.
"""

import subprocess
from pathlib import Path

import pytest

import prose

pytestmark = [pytest.mark.quick, pytest.mark.wants("git aspell aspell-en aspell-de")]

TESTS = Path(__file__).resolve().parents[1]
LONG = " ".join(["word"] * 31)
SLIPS = [
    ("It returns none exactly if nothing is left.", "exactly if"),
    ("The file can be read so many times.", "so many"),
    ("It tries so often.", "so often"),
    ("A job, of which `clap` found the command.", "of which"),
    ("The key by which it was signed is kept.", "by which"),
    ("Members of whom nothing is known are left out.", "of whom"),
    ("Each fault comes, each in its case.", "each in its case"),
    ("The file is to be closed.", "is to be"),
    ("It fails for want of memory.", "for want of"),
    ("It is ignored from here on.", "from here on"),
    ("The file lies in the folder.", "lies in"),
    (f"{LONG}.", "31 words"),
    ("What a run leaves of the file is a copy.", "What .."),
    ("Whoever holds the root can sign a pass.", "Whoever .."),
    ("That a new key has a new name follows from this.", "That a .."),
]
PLAIN = [
    "It returns `None` if and only if nothing is left.",
    "So many bookings that the table is full make it slow.",
    "What does a caveat allow?",
    "What it is",
    "That follows from the rule above, which is short.",
    " ".join(["word"] * 30) + ".",
    "Run `cut -d' ' -f 1 exactly if`.",
]
SUBJECTS = [
    ("docs: shorten the first page", None),
    ("pass_mac: compress the chain", None),
    ("docs: " + "a" * 55, "61 letters"),
    ("Shorten the first page", "no area"),
    ("nowhere: shorten the first page", "no area"),
    ("docs: shortened the first page", "not an imperative"),
    ("docs: shortens the first page", "not an imperative"),
    ("docs: The first page", "not an imperative"),
]
FILES = {
    "page.md": ("# What a page says\n\nIt is found exactly if it is there.\n", 3),
    "list.md": ("- A short item.\n- It is found exactly if it is there.\n", 2),
    "table.md": ("| A | B |\n|---|---|\n| short | found exactly if there |\n", 3),
    "crates/pass_mac/src/lib.rt": ("/// Returns it.\n/// Found exactly if there.\nfn f() {}\n", 2),
    "crates/pass_mac/specs/A.antt": ("-- found exactly if there\nA : Type\n", 1),
    "tests/a.py": ('"""Finds it.\n\nFound exactly if there.\n"""\n', 3),
    "tests/b.sh": ("#!/bin/sh\n# found exactly if there\n", 2),
    "web/src/a.mjs": ("// found exactly if there\n", 1),
    "web/src/words/en.json": ('{\n  "found": "Found exactly if there."\n}\n', 2),
    "man/a.1": (".Sh NAME\nFound exactly if there.\n", 2),
    "crates/a/src/table.rt": (
        (
            'const HELP: &str = "FILE is the file.\nIt is found exactly if there.\n\nExample:\n '
            ' exactly if";\n'
        ),
        2,
    ),
    "deploy/club_office/texts.py": (
        'TEXTS = {\n    "a": ("It is found exactly if there.", "Gefunden, wenn da."),\n}\n',
        2,
    ),
}


@pytest.mark.parametrize("sentence, found", SLIPS)
def test_slip(sentence, found):
    assert any(found in it for it in prose.foreign("docs/TOUR.md", sentence)), sentence


@pytest.mark.parametrize("sentence", PLAIN)
def test_plain(sentence):
    assert not list(prose.foreign("docs/TOUR.md", sentence))


@pytest.mark.parametrize("subject, fault", SUBJECTS)
def test_subject(subject, fault):
    found = list(prose.subject_faults(subject, ["pass_mac"]))
    assert (fault is None and not found) or any(fault in it for it in found)


@pytest.mark.parametrize("file", FILES)
def test_kinds_of_files(file):
    text, line = FILES[file]
    assert [it.split(": ")[1] for it in prose.foreign(file, text)] == [f"{file}:{line}"]


@pytest.mark.parametrize(
    "text",
    ["```sh\nexactly if it is\n```\n", "    exactly if it is\n", "  usage exactly if     it is\n"],
)
def test_code_is_no_prose(text):
    assert not list(prose.foreign("docs/TOUR.md", text))


def test_numbers_of_lines_within_a_paragraph():
    text = "It is\nlong.\nIt is found exactly\nif it is there.\n"
    assert [it.split(": ")[1] for it in prose.foreign("a.md", text)] == ["a.md:3"]
    assert not list(prose.foreign("a.md", text, {1, 2}))
    assert list(prose.foreign("a.md", text, {4}))


@pytest.fixture
def clone(tmp_path):
    """A clone of a small repository, which has a page, a crate and one commit."""

    def git(*words, at):
        subprocess.run(
            ["git", "-c", "user.name=a", "-c", "user.email=a@example", *words],
            cwd=at,
            check=True,
            capture_output=True,
        )

    origin, clone = tmp_path / "origin", tmp_path / "clone"
    (origin / "crates/pass_mac").mkdir(parents=True)
    (origin / "crates/pass_mac/README.md").write_text("A crate.\n")
    (origin / "page.md").write_text("It was found exactly if it was there.\n\nA line.\n")
    git("init", "-q", at=origin)
    git("add", ".", at=origin)
    git("commit", "-q", "-m", "It begins", at=origin)
    git("clone", "-q", str(origin), str(clone), at=tmp_path)
    return clone, lambda *words: git(*words, at=clone)


def test_added_lines_and_commits_alone(clone):
    root, git = clone
    assert not list(prose.of_change(root, prose.base_of(root)))
    (root / "page.md").write_text(
        "It was found exactly if it was there.\n\nA line.\n\nIt is found exactly if it is there.\n"
    )
    (root / "new.md").write_text("A new page, of which this is a line.\n")
    assert [it.split(": ")[1] for it in prose.of_change(root, prose.base_of(root))] == [
        "page.md:5",
        "new.md:1",
    ]
    git("add", ".")
    git("commit", "-q", "-m", "Pages get lines")
    found = list(prose.of_change(root, prose.base_of(root)))
    assert [it.split(": ")[0] for it in found] == ["prose", "prose", "subject"]
    assert not list(prose.of_change(root, "HEAD"))
    assert not list(prose.of_change(root, prose.base_of(root), "crates/pass_mac/"))


def test_folder_that_is_no_clone(tmp_path):
    assert prose.base_of(tmp_path) is None


def test_exceptions_are_in_their_files():
    assert not list(prose.unused_exceptions(TESTS.parent))
    assert len(list(prose.unused_exceptions(TESTS))) == len(prose.EXCEPTIONS)


def test_spelling(tmp_path):
    (tmp_path / "docs").mkdir()
    (tmp_path / "tests/lib").mkdir(parents=True)
    (tmp_path / "web/src/words").mkdir(parents=True)
    for page in prose.PAGES:
        (tmp_path / page).write_text(
            "A page with `codde`, [a link](wrongg.md), page.mdd and clubdesk's name.\n"
        )
    (tmp_path / "docs/A.md").write_text("A line.\n\nA mispelt word.\n")
    (tmp_path / "tests/lib/words.txt").write_text(
        "# en: words\nclubdesk\n\n# de_DE: Wörter\nJSON\n"
    )
    (tmp_path / "web/src/words/en.json").write_text('{\n  "a": "A fine {word} here."\n}\n')
    (tmp_path / "web/src/words/de.json").write_text('{\n  "a": "Ein schönes Wortt in JSON."\n}\n')
    assert list(prose.misspellings(tmp_path)) == [
        "misspelt: docs/A.md:3: mispelt",
        "misspelt: web/src/words/de.json:2: Wortt",
    ]


def test_draw():
    def draw(*words):
        return subprocess.run(
            [TESTS / "docs" / "sentences.py", *words], check=True, capture_output=True, text=True
        ).stdout

    if prose.git(TESTS.parent, "ls-files") is None:
        pytest.skip("wants a clone")
    one = draw("--seed", "5")
    assert one == draw("--seed", "5") != draw("--seed", "6")
    assert [it.split()[1] for it in one.splitlines()] == ["code"] * 14 + ["pages"] * 13 + [
        "help"
    ] * 13
    assert len(draw("--below", "docs/TOUR.md", "--count", "5").splitlines()) == 5
    assert (
        subprocess.run(
            [TESTS / "docs" / "sentences.py", "--below", "none"], check=False, capture_output=True
        ).returncode
        == 2
    )

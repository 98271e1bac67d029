#!/usr/bin/env -S /usr/bin/python3 -B
"""Python's standard library, pymacaroons, Go's macaroon.v2 and Node.js narrow 1,000 passes with the
same result as `passtool`.

A fixed seed determines the passes, and the programs in examples/ narrow them. The programs with
Python's standard library and with Node.js narrow passes in V2. The programs with pymacaroons and
with Go's macaroon.v2 narrow passes in V1, V2 and JSON. The test compares the bytes of passes in V1
and V2. JSON allows several spellings, and in V2 pymacaroons writes an empty location, which
passtool omits. In these two cases, passtool converts the narrowed pass before the comparison. In
V1, pymacaroons counts the characters of a location and of an identifier instead of their bytes.
Therefore pymacaroons gets only passes with ASCII in both fields, like the desk's own passes. Each
narrowed pass is signed under its root.
"""
# pytestmark = [mark.programs, mark.needs("passtool"), mark.wants("python3-pymacaroons nodejs golang-go golang-gopkg-macaroon.v2-dev")]

import os
import random
import subprocess
import sys
import tempfile
from collections import Counter
from pathlib import Path

sys.path[:0] = [str(Path(__file__).resolve().parents[1] / it) for it in ("lib", "")]
import desk
from both import expect

TOOL, EXAMPLES = desk.program("passtool"), desk.ROOT / "examples"
ROOM = tempfile.TemporaryDirectory()
BUILT = f"{ROOM.name}/narrow"
GROUPS, PASSES = 50, 20
FORMS = ["v1", "v2", "json"]
PYMACAROONS = "pymacaroons"
# name, words, forms
PROGRAMS = [
    ("Python's standard library", ["/usr/bin/python3", f"{EXAMPLES}/narrow.py"], ["v2"]),
    (PYMACAROONS, ["/usr/bin/python3", f"{EXAMPLES}/narrow_pymacaroons.py"], FORMS),
    ("Go's macaroon.v2", [BUILT], FORMS),
    ("Node.js", ["node", f"{EXAMPLES}/narrow.mjs"], ["v2"]),
]
LINES = [
    "kind = court",
    "facility = court-1,court-2",
    "hours = 18-20",
    "days = 2026-05-01..2026-05-31",
    "weekday = sat,sun",
    "until < 2026-05-01T18:00",
    "guests <= 2",
    "spend <= 600",
    "actions = view,book",
    "shoe = red",
]
draw = random.Random(20260501)


def line_of(words, given=""):
    """Returns the output of a program."""
    return subprocess.run(
        words, input=given, capture_output=True, check=True, text=True
    ).stdout.removesuffix("\n")


def any_text(least, most):
    """Draws a text of characters with one to four bytes in UTF-8, including line feeds, quotes and
    backslashes."""
    odd = lambda: (
        draw.choice('\n"\\/<>&äß€�\U0001f3be')
        if draw.random() < 0.5
        else chr(draw.randint(0xA0, 0xD7FF))
    )
    return "".join(
        odd() if draw.random() < 0.2 else chr(draw.randint(1, 127))
        for _ in range(draw.randint(least, most))
    )


def caveats(most):
    return [
        draw.choice(LINES) if draw.random() < 0.7 else any_text(1, 200)
        for _ in range(draw.randint(0, most))
    ]


class Pass:
    """Draws a pass in each form, and the pass's root."""

    def __init__(self):
        self.root = draw.randbytes(draw.randint(1, 64)).hex()
        self.identifier = (
            f"key:amy-{draw.randint(1, 999)}" if draw.random() < 0.7 else any_text(1, 130)
        )
        self.location = draw.choice(["club-desk", "club-desk", "", any_text(1, 130)])
        words = [
            "--root",
            self.root,
            f"--id={self.identifier}",
            f"--location={self.location}",
            "--",
            *caveats(4),
        ]
        v2 = line_of([TOOL, "mint", *words])
        self.texts = {
            "v2": v2,
            **{form: line_of([TOOL, "convert", "--form", form], v2) for form in ("v1", "json")},
        }
        self.narrowed = {}

    def narrow(self, texts, form):
        """Narrows the pass in each form with passtool. Checks the signature of the narrowed pass in
        `form`."""
        self.narrowed = {
            form: line_of([TOOL, "narrow", "--any", "--", *texts], text)
            for form, text in self.texts.items()
        }
        expect(
            self.narrowed[form],
            line_of([TOOL, "verify", "--root", self.root], self.narrowed[form]),
            "signed",
        )

    def suits(self, program, form):
        return program != PYMACAROONS or form != "v1" or (self.identifier + self.location).isascii()

    def compare(self, program, form, got):
        if form == "json" or (program == PYMACAROONS and form == "v2" and self.location == ""):
            got = line_of([TOOL, "convert", "--form", form], got)
        expect(f"{program}, {form}", got, self.narrowed[form])


def main():
    subprocess.run(
        ["go", "build", "-o", BUILT, EXAMPLES / "narrow.go"],
        check=True,
        env={
            **os.environ,
            "GO111MODULE": "off",
            "GOPATH": "/usr/share/gocode",
            "GOCACHE": f"{ROOM.name}/cache",
        },
    )
    compared = Counter()
    for group in range(GROUPS):
        passes = [Pass() for _ in range(PASSES)]
        texts = caveats(5) or ["guests <= 0"]
        for each in passes:
            each.narrow(texts, FORMS[group % 3])
        for program, words, its_forms in PROGRAMS:
            for form in its_forms:
                suiting = [each for each in passes if each.suits(program, form)]
                got = line_of(
                    [*words, *texts], "".join(each.texts[form] + "\n" for each in suiting)
                ).split("\n")
                for each, text in zip(suiting, got, strict=True):
                    each.compare(program, form, text)
                compared[program, form] += len(suiting)
    for program, _, its_forms in PROGRAMS:
        print(
            f"{program} narrows as passtool does: "
            + ", ".join(f"{compared[program, form]} passes in {form}" for form in its_forms)
        )


with ROOM:
    main()

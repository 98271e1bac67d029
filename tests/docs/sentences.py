#!/usr/bin/env -S /usr/bin/python3 -B
"""Draws sentences at random, for a reader who didn't write them. The reader marks each sentence
that needs a second reading.

The code (its docstrings and comments), the pages, and the help each give a third of the sentences.
The help consists of the tables of commands, the manual pages, and the texts of the office and of
web/. In the same tree, the same seed always draws the same sentences.

    tests/docs/sentences.py                         forty sentences, seed 1
    tests/docs/sentences.py --seed 7 --count 12     twelve with another seed
    tests/docs/sentences.py --below docs/TOUR.md    of one file, or of the files below a folder; may be given several times
    tests/docs/sentences.py --slips                 also prints what tests/lib/prose.py finds in each sentence
    tests/docs/sentences.py --context               also prints the lines around each sentence; in a table, the line of titles and the row
"""

import argparse
import random
import re
import sys
from pathlib import Path

sys.path[:0] = [str(Path(__file__).resolve().parents[1] / it) for it in ("lib", "")]
import prose

ROOT = Path(__file__).resolve().parents[2]
KINDS = {
    "code": re.compile(
        r"crates/[^/]+/(src|specs|proofs)/.*\.(rt|antt)|(tests|bin|deploy)/.*|web/src/.*\.mjs|examples/.*"
    ),
    "pages": re.compile(
        r"(README|CONTRIBUTING|CHANGELOG|SECURITY)\.md|docs/.*\.md|crates/[^/]+/README\.md"
    ),
    "help": re.compile(
        r"crates/(clubdesk_arguments|passtool_commands)/src/table\.rt|man/.*|deploy/club_office/(texts|refusals)\.py|web/src/words/en\.json"
    ),
}
LEAST_WORDS = 5  # a shorter one is a name or a label
MOST_LINES = 6  # of the context, before and after the sentence's first line


def kind_of(file):
    return next((kind for kind in ("help", "pages", "code") if KINDS[kind].fullmatch(file)), None)


def all_sentences(below):
    """Returns the sentences of each kind, as (file, line, sentence), in the order of the tree."""
    found = {kind: [] for kind in KINDS}
    for file in sorted(prose.git(ROOT, "ls-files").splitlines()):
        kind = kind_of(file)
        if (
            not kind
            or not (ROOT / file).is_file()
            or (
                below
                and not any(file == it or file.startswith(it.rstrip("/") + "/") for it in below)
            )
        ):
            continue
        try:
            text = (ROOT / file).read_text(encoding="utf-8")
        except UnicodeDecodeError:
            continue
        for paragraph in prose.paragraphs(file, text):
            for lines, sentence in prose.sentences(paragraph):
                is_cut = file.startswith("man/") and not sentence.endswith(
                    "."
                )  # a request of mdoc follows
                is_usage = re.match(r"(tests|bin|deploy|crates)/\S+ |pytestmark", sentence)
                if (
                    len(re.findall(r"[A-Za-z]{2,}", sentence)) >= LEAST_WORDS
                    and not is_cut
                    and not is_usage
                ):
                    found[kind].append((file, min(lines), sentence))
    return found


def context(file, line):
    """Returns the lines around a line of a file, up to the next blank lines. In a page's table,
    returns the line of titles and the row."""
    lines = (ROOT / file).read_text(encoding="utf-8").splitlines()
    first = last = line - 1
    is_row = file.endswith(".md") and lines[first].lstrip().startswith("|")
    while first > 0 and lines[first - 1].strip() and (is_row or line - first <= MOST_LINES):
        first -= 1
    if is_row:
        return [lines[first], lines[line - 1]]
    while last + 1 < len(lines) and lines[last + 1].strip() and last + 1 - line < MOST_LINES:
        last += 1
    return lines[first : last + 1]


def drawn(found, seed, count):
    """Yields an equal number of sentences of each kind. If the count can't be divided equally, the
    first kinds get one sentence more."""
    dice, kinds = random.Random(seed), [it for it in found if found[it]]
    for place, kind in enumerate(kinds):
        share = count // len(kinds) + (place < count % len(kinds))
        yield from ((kind, *it) for it in dice.sample(found[kind], min(share, len(found[kind]))))


def main():
    parser = argparse.ArgumentParser(
        usage="tests/docs/sentences.py [--seed N] [--count N] [--below PATH] [--slips] [--context]"
    )
    parser.add_argument("--seed", type=int, default=1)
    parser.add_argument("--count", type=int, default=40)
    parser.add_argument("--below", action="append", default=[], metavar="PATH")
    parser.add_argument("--slips", action="store_true")
    parser.add_argument("--context", action="store_true")
    given = parser.parse_args()
    found = all_sentences(given.below)
    if not any(found.values()):
        parser.error("no sentences below " + " ".join(given.below))
    for number, (kind, file, line, sentence) in enumerate(drawn(found, given.seed, given.count), 1):
        print(f"{number:2} {kind:5} {file}:{line}: {sentence.replace(prose.CODE, '`..`')}")
        if given.slips:
            for remedy in prose.remedies(sentence):
                print(f"         {remedy}")
        if given.context:
            print(*(f"         | {it}" for it in context(file, line)), sep="\n")
    return 0


sys.exit(main())

#!/usr/bin/env python3
"""Tries the mutants of crates/NAME/must-fail/ and crates/NAME/more-edits.txt, and prints how each
mutant is refused (see more_edits.sh).

Most edits change the body of a single function. The proof of a function depends only on its own
body and on the contracts of the functions that it calls. Therefore, one check can try edits of
several functions together. If this check gives no verdict on one of the functions, the program
tries the edit of that function alone.

Other edits change a constant, such as an SQL text. One check can try edits of several constants,
too: a lemma that cites only one of these constants fails because of that constant's edit."""
import os
import re
import shutil
import subprocess
import sys
import tempfile
from collections import Counter, defaultdict
from contextlib import suppress
from pathlib import Path
from typing import NamedTuple

ROOT = Path(__file__).resolve().parents[2]
FOLDER, FILE = "must-fail", "more-edits.txt"
WORDS = ("false", "goal", "names", "test", "proved", "limit", "bad")
# The crate whose tests are files in its folder data/.
SCENARIOS = "scenarios"
# An edit's line with the crate and the name of a test. If no contract refuses the edit, this test
# must fail.
TEST = re.compile(r"^test: (\w+) ([\w:]+)$", re.MULTILINE)
# The message of the compiler, rattle, about a goal with a counterexample. The message is on the
# line that reports the goal, or on the line that reports a missing answer. An answer is a
# handwritten proof.
FALSE = re.compile(
    r"the facts known there allow values at which this goal is false|may be false: the known facts"
    r" allow"
)
# The messages of rattle about a proof file with an unknown name, and about proofs that depend on
# this file.
NAMES = re.compile(r"has no field|is not in scope|has no `|was not admitted|no item `")
# Messages that rattle continues on the next line because a record's name is long.
WRAPPED = re.compile(r"\n +(has no |is not in scope|was not admitted)")
FAULT = re.compile(
    r"(?:note: )?(?:\./)?((?:src|specs|proofs)/\S+?):(\d+):\d+: (error: .*|it is not proved .*)"
)
WANTED = re.compile(r"no proof: expected answers in (?:\./)?(\S+);")
HEAD = re.compile(r"(?:pub )?([^\s:]+) : ")
# The first line of a function, and of a block that contains functions, in the layout of `rt fmt`.
FUNCTION = re.compile(
    r"(?P<indent> {4})?(?:pub(?:\([^)]*\))? )?(?:const )?(?:extern \"C\" )?fn (?P<name>\w+)"
)
# The first line of a constant at the top level of a file, and of a declaration in a proof file.
CONSTANT = re.compile(r"(?:pub(?:\([^)]*\))? )?(?:const|static) (?P<name>\w+)")
DECLARATION = re.compile(r"\s*(?:pub )?([^\s:]+) : ")
# The message of rattle about declarations that it didn't check because they depend on another
# declaration.
UNCHECKED = re.compile(r"declarations? that depends? on")
BLOCK = re.compile(
    r"(?:impl(?:<.*?>)? |(?:pub(?:\([^)]*\))? )?trait )(?:(?:\w+::)*(?P<trait>\w+)(?:<.*?>)? for"
    r" )?(?:\w+::)*(?P<type>\w+)"
)
AT_ONCE = 30  # the most edits that one check tries
# The message of rattle when it reaches its own limit and gives no verdict.
LIMIT = re.compile(
    r"antt ran out of (stack|the (steps|memory) that the check of one declaration may)|outgrew the"
    r" memory limit|stopped at the step limit"
)


class NoVerdict(Exception):
    """Raised with a result and a reason if the check gives no verdict on an edit."""


class Edit(NamedTuple):
    """A mutant: its name, the crate's folder or file that contains it, and its text."""

    name: str
    place: str
    text: str


def edits_of(crate):
    """Reads the edits of a crate. An edit is a file in must-fail/, or a part of more-edits.txt that
    begins with `edit: NAME`."""
    for path in sorted((crate / FOLDER).glob("*.edit")):
        yield Edit(path.stem, FOLDER, path.read_text(encoding="utf-8"))
    if (crate / FILE).exists():
        for part in re.split(
            r"^edit: ", (crate / FILE).read_text(encoding="utf-8"), flags=re.MULTILINE
        )[1:]:
            name, _, text = part.partition("\n")
            yield Edit(name.strip(), FILE, text)


def changes_of(edit):
    """Yields (path, old text, new text) for each change of an edit."""
    for word, rest in re.findall(r"^(file|old|new): ?(.*)", edit.text, re.MULTILINE):
        if word == "file":
            path = rest.strip()
        elif word == "old":
            old = rest
        else:
            yield path, old, rest


def edited_texts(crate, edit):
    """Returns the changed text of each file that an edit changes, by the file's path in the crate.
    Applies the edit in the same way as `rt ci`."""
    texts = {}
    for path, old, new in changes_of(edit):
        text = texts[path] if path in texts else (crate / path).read_text(encoding="utf-8")
        if text.count(old) != 1:
            raise NoVerdict("bad", f"an old text occurs {text.count(old)} times in {path}")
        texts[path] = text.replace(old, new)
    return texts


def function_at(path, text, offset):
    """Returns the function whose body contains a place in a file, as the words of the function's
    path, its first line and its last line. Returns None if no body contains the place."""
    lines = text.split("\n")
    place = text.count("\n", 0, offset)
    first = next((it for it in range(place, -1, -1) if FUNCTION.match(lines[it])), None)
    if first is None:
        return None
    head = FUNCTION.match(lines[first])
    indent = head["indent"] or ""
    begin = next(
        (
            it
            for it in range(first, len(lines))
            if lines[it] == indent + "{" or re.match(rf"{indent}\S.* {{$", lines[it])
        ),
        len(lines),
    )
    last = next((it for it in range(begin, len(lines)) if lines[it] == indent + "}"), -1)
    if not begin < place < last:
        return None
    words = [it for it in Path(path).with_suffix("").parts[1:] if it not in ("lib", "main", "mod")]
    if indent:
        owner = next(filter(None, (BLOCK.match(lines[it]) for it in range(first, -1, -1))), None)
        if owner is None:
            return None
        words.append(owner["type"] + (owner["trait"] or ""))
    return (*words, head["name"]), first + 1, last + 1


def constant_at(text, offset):
    """Returns the constant whose declaration contains a place in a file, as its name after "const",
    its first line and its last line. Returns None if no declaration of a constant contains the
    place."""
    lines = text.split("\n")
    place = text.count("\n", 0, offset)
    first = next(it for it in range(place, -1, -1) if it == 0 or lines[it][:1].strip())
    head = CONSTANT.match(lines[first])
    last = next((it for it in range(first, len(lines)) if lines[it].endswith(";")), -1)
    return (("const", head["name"]), first + 1, last + 1) if head and place <= last else None


def edited_item(crate, edit):
    """Returns the file and the function whose body contains all changes of an edit, or the file and
    the constant whose declaration contains them. Returns None if there is no such function or
    constant."""
    found = set()
    for path, old, _ in changes_of(edit):
        text = (crate / path).read_text(encoding="utf-8")
        offset = text.index(old) if path.startswith("src/") and text.count(old) == 1 else None
        found.add(
            (
                path,
                (
                    None
                    if offset is None
                    else function_at(path, text, offset) or constant_at(text, offset)
                ),
            )
        )
    path, item = found.pop() if len(found) == 1 else (None, None)
    return (path, item) if item else None


def groups_of(crate, edits):
    """Groups the edits. No two edits of a group change the same function or constant. An edit that
    doesn't change exactly one function body or constant is alone in its group."""
    groups = []
    for edit in edits:
        place = edited_item(crate, edit)
        open_one = next(
            (
                it
                for it in groups
                if place and None not in it and place not in it and len(it) < AT_ONCE
            ),
            None,
        )
        if open_one is None:
            groups.append(open_one := {})
        open_one[place] = edit
    return groups


def check(crate):
    """Checks the crate. Returns the lines of the check, and whether the crate is proved."""
    ran = subprocess.run(
        ["rt", "check", "--jobs", "1"],
        cwd=crate,
        stdin=subprocess.DEVNULL,
        stdout=subprocess.PIPE,
        stderr=subprocess.STDOUT,
        text=True,
        errors="replace",
        check=False,
    )
    lines = WRAPPED.sub(r" \1", ran.stdout).split("\n")
    reached = [line for line in lines if line.startswith("logic=")]
    if reached:
        return lines, reached[-1].startswith("logic=proved")
    if limit := next(filter(LIMIT.search, lines), None):
        raise NoVerdict("limit", limit)
    raise NoVerdict(
        "bad", next((line for line in lines if "error" in line), "the check did not end")
    )


def faults_in(lines):
    """Yields (text, file, line, whether it is an error, whether a name is missing) for each fault
    that a check reports."""
    for line in lines:
        if found := FAULT.match(line):
            yield line, found[1], int(found[2]), found[3].startswith("error"), bool(
                NAMES.search(found[3])
            )


def without_answers(crate, lines):
    """Returns the new text of each proof file in which these lines report unknown names, by path.
    The new text lacks the declarations that use unknown names."""
    places = defaultdict(set)
    for _, path, number, _, is_name in faults_in(lines):
        if path.startswith("proofs/") and is_name:
            places[path].add(number)
    texts = {}
    for path, numbers in places.items():
        # A declaration begins with its signature, and ends before the next signature.
        kept, name, declarations = [], None, []
        for number, line in enumerate((crate / path).read_text(encoding="utf-8").split("\n"), 1):
            head = HEAD.match(line)
            if head and head[1] != name:
                name = head[1]
                declarations.append([name, []])
            elif line.startswith(("use ", "module ")):
                name = None
            (declarations[-1][1] if name else kept).append((number, line))
        lost = [one for one in declarations if numbers & {number for number, _ in one[1]}]
        left = [
            line
            for one in declarations
            if one not in lost
            for line in [*(text for _, text in one[1]), ""]
        ]
        # If only a `use` line has an unknown name, the new text of the whole file is empty.
        texts[path] = "\n".join([text for _, text in kept] + left) if lost else ""
    return texts


def open_goal(lines, gone):
    """Returns the line of a goal that is open for a reason other than a missing name. An answer is
    a handwritten proof of a goal. Either the goal's answer fails, or the goal has no answer
    although no answer was removed from its file."""
    failing = {
        line
        for line, path, _, is_error, is_name in faults_in(lines)
        if path.startswith("proofs/") and is_error and not is_name
    }
    return next(
        (
            line
            for line in lines
            if line in failing or (wanted := WANTED.search(line)) and wanted[1] not in gone
        ),
        None,
    )


def declaration_at(text, number):
    """Returns the lines of the declaration in a proof file that contains line `number`, from its
    name and type on."""
    found, name = [], None
    for place, line in enumerate(text.split("\n"), 1):
        head = DECLARATION.match(line)
        if head and head[1] != name:
            if place > number:
                break
            found, name = [], head[1]
        found.append(line)
    return "\n".join(found)


def lines_about(crate, constant, others, lines):
    """Returns the lines of a check that report a fault in a declaration of a proof file, if the
    declaration cites this constant and none of the others."""
    found = []
    for line, path, number, *_ in faults_in(lines):
        if path.startswith("proofs/") and not UNCHECKED.search(line):
            cited = set(
                re.findall(
                    r"\w+", declaration_at((crate / path).read_text(encoding="utf-8"), number)
                )
            )
            if constant in cited and not cited & others:
                found.append(line)
    return found


def lines_of(crate, path, function, lines):
    """Returns the lines of a check that are about this function. If a method is in another file
    than its type, rt names the method after the type's module."""
    words, first, last = function
    before, own = (r"(\w+/)*", words[-2:]) if words[-2:][0][0].isupper() else ("", words)
    proofs, head = re.compile(f"proofs/{before}{'/'.join(own)}/"), re.compile(
        f"fn {crate.name}::{before.replace('/', '::')}{'::'.join(own)}:"
    )
    found = {
        line
        for line, where, number, _, _ in faults_in(lines)
        if proofs.match(where) or where == path and first <= number <= last
    }
    return [line for line in lines if line in found or head.match(line)]


class Trial:
    """A crate in the scratch copy of the tree. The program restores the crate after each try."""

    def __init__(self, crate):
        self.crate = crate
        self.was = {}

    def put(self, texts):
        for path, text in texts.items():
            self.was.setdefault(path, (self.crate / path).read_text(encoding="utf-8"))
            (self.crate / path).write_text(text, encoding="utf-8")

    def restore(self):
        for path, text in self.was.items():
            (self.crate / path).write_text(text, encoding="utf-8")
        self.was = {}

    def verdicts(self, group):
        """Yields (edit, result, line with the reason) for each edit of a group."""
        told = self.told_together(group) if len(group) > 1 else {}
        for edit in group.values():
            try:
                word, line = told.get(edit) or self.verdict(edit)
                if word == "proved" and (test := TEST.search(edit.text)):
                    word, line = self.tested(edit, *test.groups())
            except NoVerdict as it:
                word, line = it.args
            self.restore()
            yield edit, word, line

    def tested(self, edit, crate, test):
        """Runs the test that an edit names, because no contract has refused the edit. Returns
        `test` if the test fails and `proved` otherwise, with the test's line. rt runs the test
        without a proof."""
        self.restore()
        self.put(edited_texts(self.crate, edit))
        front, words = f"test {test} ...", ["--test", "--", test]
        if crate == SCENARIOS:
            front, words = f"{test}.txt:", ["--data", f"{test}.txt=data/{test}.txt"]
        ran = subprocess.run(
            ["rt", "try", *words],
            cwd=self.crate.parent / crate,
            stdin=subprocess.DEVNULL,
            stdout=subprocess.PIPE,
            stderr=subprocess.STDOUT,
            text=True,
            errors="replace",
            check=False,
        )
        line = next((line for line in ran.stdout.split("\n") if line.startswith(front)), None)
        if line is None:
            raise NoVerdict("bad", f"no test {crate} {test}: {ran.stdout.strip()[-100:]}")
        return ("proved" if line.endswith((" ok", " lines")) else "test"), line

    def told_together(self, group):
        """Checks the crate once with all edits of a group. Returns the results of those edits whose
        functions or constants have a false or open goal and no missing name."""
        for edit in group.values():
            with suppress(NoVerdict):
                self.put(edited_texts(self.crate, edit))
        lines = []
        with suppress(NoVerdict):
            lines, _ = check(self.crate)
        self.restore()
        told, constants = {}, {words[1] for _, (words, *_) in group if words[0] == "const"}
        for (path, item), edit in group.items():
            kind, name = item[0][0], item[0][-1]
            own = (
                lines_about(self.crate, name, constants - {name}, lines)
                if kind == "const"
                else lines_of(self.crate, path, item, lines)
            )
            if any(is_name for *_, is_name in faults_in(own)):
                continue
            if false := next(filter(FALSE.search, own), None):
                told[edit] = "false", false
            elif left := open_goal(own, set()):
                told[edit] = "goal", left
        if not told and len(group) > 3:
            # One of these edits may have stopped the check, so the program tries each half of the
            # group.
            items = list(group.items())
            middle = len(items) // 2
            told = self.told_together(dict(items[:middle])) | self.told_together(
                dict(items[middle:])
            )
        return told

    def verdict(self, edit):
        """Tries an edit alone. Returns the result, and a line with the reason."""
        texts = edited_texts(self.crate, edit)
        if not texts:
            raise NoVerdict("bad", "the edit changes nothing")
        self.put(texts)
        lines, proved = check(self.crate)
        if proved:
            return "proved", "the crate is proved with this edit"
        # If the edited code uses an unknown name, the check can't try the edit.
        for line, path, _, is_error, is_name in faults_in(lines):
            if (path in texts or path.startswith("src/")) and is_error and is_name:
                raise NoVerdict("bad", line)
        gone = set()
        # Each round removes answers with unknown names. Other answers may use a removed answer. The
        # next round removes these too.
        for _ in range(4):
            if false := next(filter(FALSE.search, lines), None):
                return "false", false
            fewer = without_answers(self.crate, lines)
            if not fewer:
                break
            gone |= set(fewer)
            self.put(fewer)
            lines, proved = check(self.crate)
            if proved:
                return (
                    "proved",
                    "the crate is proved without the answers whose names the edit removed",
                )
        if left := open_goal(lines, gone):
            return "goal", left
        return "names", next((line for line in lines if FAULT.match(line)), lines[0])


def link_or_copy(source, target):
    try:
        os.link(source, target)
    except OSError:
        shutil.copy2(source, target)


def crates_below(names):
    """Returns all crates that these crates depend on, directly or through other crates, according
    to crates.txt."""
    uses = {
        name: used.split()
        for name, used in re.findall(
            r"^(\w+)[^:#\n]*:([^#\n]*)",
            (ROOT / "crates.txt").read_text(encoding="utf-8"),
            re.MULTILINE,
        )
    }
    below, left = set(), list(names)
    while left:
        for used in uses.get(left.pop(), []):
            if used in uses and used not in below:
                below.add(used)
                left.append(used)
    return below


def take_libraries(copy, names):
    """Puts the built libraries of this tree into the copy, so that rt doesn't build them again. For
    the crates that the tried crates depend on, the copy has hard links, because no check writes to
    these libraries."""
    below = crates_below(names) - set(names)
    for crates, parts, copies in (
        (below, ("rlib",), link_or_copy),
        (names, ("rlib", "incremental"), shutil.copy2),
    ):
        for crate in crates:
            for part in (Path("crates", crate, "out", it) for it in parts):
                if (ROOT / part).is_dir():
                    shutil.copytree(ROOT / part, copy / part, copy_function=copies)


def try_crate(crate, wanted, counts):
    """Tries the edits of a crate in the scratch copy. If `wanted` names edits, tries only these."""
    if not check(crate)[1]:
        sys.exit(f"{crate.name}: not proved without an edit")
    trial = Trial(crate)
    edits = [it for it in edits_of(crate) if not wanted or it.name in wanted]
    for group in groups_of(crate, edits):
        for edit, word, line in trial.verdicts(group):
            counts[word] += 1
            print(f"{word:6} {crate.name} {edit.name}: {line[:200]}", flush=True)


def main(words):
    wanted = defaultdict(set)
    for name, _, edit in (word.partition("/") for word in words):
        wanted[name] |= {edit} if edit else set()
    names = sorted(
        {it.parent.name for place in (FOLDER, FILE) for it in (ROOT / "crates").glob(f"*/{place}")}
    )
    lacking = [name for name in wanted if name not in names]
    if lacking:
        print(f"{lacking[0]}: not a crate with edits", file=sys.stderr)
        return 2
    counts = Counter()
    with tempfile.TemporaryDirectory(prefix="more-edits-") as folder:
        copy = Path(folder)
        shutil.copytree(
            ROOT, copy, dirs_exist_ok=True, ignore=shutil.ignore_patterns("out", ".git")
        )
        tried = [name for name in names if not wanted or name in wanted]
        take_libraries(copy, tried)
        for name in tried:
            try_crate(copy / "crates" / name, wanted[name], counts)
    print(", ".join(f"{counts[word]} {word}" for word in WORDS))
    return 1 if counts["proved"] or counts["bad"] else 0


if __name__ == "__main__":
    sys.exit(main(sys.argv[1:]))

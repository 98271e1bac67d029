#!/usr/bin/env python3
"""docs/proofs/AUDIT.md is up to date, and the citations in docs/proofs/PROMISES.md,
docs/proofs/COMPUTED.md and docs/TOUR.md hold.

The test also checks that the rules in Python (`tests/reference`) give the answers of
docs/vectors.json.

AUDIT lists the definitions that a reader must trust for each promise. AUDIT also marks the
definitions that the vectors exercise. Each contract that PROMISES cites must exist. A computing
definition computes what another definition states. PROMISES names the few computing definitions
that its contracts may depend on. The contracts that PROMISES cites, and the values of ghosts, may
depend on no other computing definition. A ghost is a value that only contracts use. Each contract
that COMPUTED cites must depend on a computing definition. Each step of a path in TOUR must cite the
next step. Without an option, the program writes docs/proofs/AUDIT.md.

The program reads the promises in docs/proofs/PROMISES.md, the clauses that state these promises,
and the definitions that the clauses cite. tests/lib/definitions.py reads the definitions.

    tests/audit.py                  writes docs/proofs/AUDIT.md
    tests/audit.py --check          checks whether docs/proofs/AUDIT.md is current
    tests/audit.py --strict         also fails if a contract or a ghost depends on a computing definition that PROMISES doesn't name
    tests/audit.py --below NAME     prints the definitions below a definition, or below all clauses of a function (Desk::ask), in reading order
"""
# pytestmark = [mark.quick("--strict")]

import argparse
import difflib
import re
import shutil
import subprocess
import sys
from collections import defaultdict
from itertools import groupby
from pathlib import Path

sys.dont_write_bytecode = True
sys.path.insert(0, str(Path(__file__).resolve().parent / "lib"))
import shown
from cited import Contracts, citations
from definitions import Book, closure, owner_of
from more_edits import crates_below
from spec_files import COMPUTED, OF_SPECS, ROOT

PAGE = ROOT / "docs" / "proofs" / "AUDIT.md"
PROMISES = ROOT / "docs" / "proofs" / "PROMISES.md"
TOUR = ROOT / "docs" / "TOUR.md"
# Patterns for the sources that a comment may cite for a definition.
SOURCES = (r"RFC \d+", r"FIPS [\d-]+", r"NDSS \d+", r"libmacaroons")
# Methods that types of std also have. The name of such a method doesn't determine the type.
OF_STD = set(
    "len is_empty push iter next clone as_slice as_bytes as_str into_iter map unwrap unwrap_or ok_or expect write read remove".split()
)


class Fault(Exception):
    """Raised with the reason why the page can't be made."""


def clauses_of(book, function, labels=()):
    """Returns (file, function, label, text, place) for each precondition of the function, and for
    each clause with one of the labels. Without labels, returns all clauses of the function."""
    *before, name = function.split("::")
    owner = next((it for it in before if it[0].isupper()), None)
    crate = before[0] if before and before[0] in book.crates else "club_gate"
    for key, file in book.code.items():
        if not key.startswith(f"{crate}/"):
            continue
        for it in (owner,) if owner else (None, "Desk"):
            try:
                start, clauses = file.clauses(name, it)
            except KeyError:
                continue
            found = [
                (file, function, *clause[1:3], start)
                for clause in clauses
                if clause[0] == "requires" or not labels or clause[1] in labels
            ]
            if found and {label for _, _, label, _, _ in found} >= set(labels):
                return found
    raise Fault(f"no clause {function}: {' '.join(labels)}")


def below_all(book, function):
    """Returns each definition that any clause of a function cites, directly or through other
    definitions."""
    cited = []
    for file, _, _, text, start in clauses_of(book, function):
        found, unknown = file.cited_by(start, text)
        if unknown:
            raise Fault(f"not understood in {function}: {' '.join(unknown)}")
        cited += found
    return closure(cited)


class Promise:
    """A promise of docs/proofs/PROMISES.md, with its title and the clauses that state it. `fields`
    has the record fields that the promise names."""

    def __init__(self, book, number, line):
        self.book, self.number = book, number
        self.title = re.match(r"\d+\. \*\*(.*?)\.\*\*", line)[1]
        self.fields = [
            it
            for group in re.findall(r"\((`\w+`(?:, `\w+`)*)\)", line)
            for it in re.findall(r"`(\w+)`", group)
        ]
        # Matches a function, a colon, and clauses of the function, as in "`Desk::ask`: `lawful`".
        self.carriers = [
            (function, re.findall(r"`(\w+)`", labels))
            for function, labels in re.findall(r"`([\w:]+)`: (`\w+`(?:, `\w+`)*)", line)
        ]
        self.clauses = [
            it for function, labels in self.carriers for it in clauses_of(book, function, labels)
        ]
        self.cited, heads = self.read()
        self.below = closure(self.cited)
        self.below += [it for it in heads if it not in self.below]

    def read(self):
        """Returns the definitions that the clauses cite, and the records whose fields the promise
        names. For such a record, returns only the definitions that the named fields cite."""
        cited, heads, used = [], [], set()
        for file, _, _, text, start in self.clauses:
            found, unknown = file.cited_by(start, text)
            if unknown:
                raise Fault(f"not understood in {self.title}: {' '.join(unknown)}")
            for it in found:
                fields = [name for name in self.fields if name in it.parts]
                if fields:
                    heads.append(it)
                    used.update(fields)
                cited += [other for name in fields for other in it.parts[name]] if fields else [it]
        if used != set(self.fields):
            raise Fault(f"no fields {' '.join(sorted(set(self.fields) - used))}: {self.title}")
        return cited, heads

    def of(self, *kinds):
        return [it for it in self.below if it.kind in kinds]

    @property
    def words(self):
        """Returns the promise's functions, clauses and fields as the page prints them."""
        carriers = [
            f"`{function}`" + (f": `{'`, `'.join(labels)}`" if labels else "")
            for function, labels in self.carriers
        ]
        return "; ".join(carriers) + (f" (`{'`, `'.join(self.fields)}`)" if self.fields else "")


def promises_of(book):
    lines = [
        line
        for line in PROMISES.read_text(encoding="utf-8").splitlines()
        if re.match(r"\d+\. \*\*", line)
    ]
    return [Promise(book, number, line) for number, line in enumerate(lines, 1)]


def named_as_computing():
    """Returns the names of the computing definitions that promises depend on, according to
    docs/proofs/PROMISES.md."""
    found = re.search(
        r"Promises rest on \w+ computing functions: (.*?)\.", PROMISES.read_text(encoding="utf-8")
    )
    return set(re.findall(r"`(\w+)`", found[1])) if found else set()


def source_of(comments):
    """Returns the sources that the head of a file and the comments of its definitions cite. A
    definition without a source is our own."""
    found = [it[0] for pattern in SOURCES for it in re.finditer(pattern, comments)]
    return ", ".join(dict.fromkeys(found))


def in_reading_order(book, files):
    """Sorts files by their crates, in the order of crates.txt. A file comes after the files that it
    imports."""
    done = []

    def visit(file):
        if file in done:
            return
        for module, _, _ in file.imports:
            other = book.specs.get(module)
            if other and other.crate == file.crate and other in files:
                visit(other)
        done.append(file)

    for crate in book.crates:
        for file in sorted((it for it in files if it.crate == crate), key=lambda it: it.module):
            visit(file)
    return done


class Audit:
    def __init__(self):
        self.book = Book()
        self.promises = promises_of(self.book)
        self.marks = shown.marks()
        self.every = {id(it): it for promise in self.promises for it in promise.below}
        unknown = [f"{it}: {word}" for it in self.every.values() for word in it.unknown]
        if unknown:
            raise Fault(f"not understood: {', '.join(unknown)}")
        known = {
            (it.crate, it.module.rsplit(".", 1)[-1], it.name)
            for file in self.book.specs.values()
            for it in file.definitions.values()
        }
        lost = [".".join(it) for it in self.marks if it not in known]
        if lost:
            raise Fault(f"tests/lib/shown.py: no definitions {' '.join(lost)}")
        rows = closure(
            [
                it
                for file in self.book.specs.values()
                if re.search(r"Example|Rotation", file.module)
                for it in file.definitions.values()
                if it.kind in OF_SPECS
            ]
        )
        self.rows = {id(it) for it in rows}

    # ---- parts of the page

    def mark(self, it):
        mark = self.marks.get((it.crate, it.module.rsplit(".", 1)[-1], it.name))
        return mark or ("row" if id(it) in self.rows else "")

    def numbers(self, it):
        return self.spelled(
            promise.number
            for promise in self.promises
            if any(it is other for other in promise.below)
        )

    @staticmethod
    def spelled(numbers):
        runs = []
        for number in sorted(numbers):
            if runs and number == runs[-1][1] + 1:
                runs[-1][1] = number
            else:
                runs.append([number, number])
        return ",".join(str(a) if a == b else f"{a}-{b}" for a, b in runs)

    def summary(self):
        yield "| Promise | Clause | Definitions | Lines | Computing | Types |"
        yield "|---|---|---|---|---|---|"
        for it in self.promises:
            specs = it.of(*OF_SPECS)
            plain = [other for other in specs if not other.is_computed]
            yield (
                f"| {it.number}. {it.title} | {it.words} | {len(plain)} | {sum(other.lines for other in plain)} "
                f"| {len(specs) - len(plain)} | {len(it.of('type'))} |"
            )
        specs = [it for it in self.every.values() if it.kind in OF_SPECS]
        plain = [it for it in specs if not it.is_computed]
        types = [it for it in self.every.values() if it.kind == "type"]
        yield f"| together | | {len(plain)} | {sum(it.lines for it in plain)} | {len(specs) - len(plain)} | {len(types)} |"

    def functions(self):
        """Returns the functions whose clauses state the promises."""
        return list(
            dict.fromkeys(function for promise in self.promises for function, _ in promise.carriers)
        )

    def beside(self):
        """Returns further computing definitions, which no promise depends on. Other clauses of the
        promises' functions depend on these definitions, or cite ghosts whose values depend on
        them."""
        found = {
            id(it): it for function in self.functions() for it in below_all(self.book, function)
        }
        for ghost in [it for it in found.values() if it.kind == "ghost"]:
            found.update(
                (id(it), it) for *_, below in self.book.standing_for(ghost) for it in below
            )
        listed = (
            it
            for it in found.values()
            if it.is_computed and it.kind in OF_SPECS and id(it) not in self.every
        )
        return sorted(listed, key=lambda it: (it.module, it.line))

    def computed(self):
        return sorted(
            (it for it in self.every.values() if it.is_computed and it.kind in OF_SPECS),
            key=lambda it: (it.module, it.line),
        )

    def first_computed(self):
        """Returns a dict from the id of each computing definition to the names of the clauses and
        non-computing definitions that cite it."""
        found = defaultdict(set)
        for it in self.every.values():
            if not it.is_computed:
                for other in map(owner_of, it.cited):
                    if other.is_computed:
                        found[id(other)].add(it.name)
        for promise in self.promises:
            for other in map(owner_of, promise.cited):
                if other.is_computed:
                    found[id(other)].add(f"the clause of {promise.number}")
        return found

    def faults(self):
        cited = self.first_computed()
        for it in self.computed():
            if id(it) in cited:
                names = ", ".join(
                    name if " " in name else f"`{name}`" for name in sorted(cited[id(it)])
                )
                yield f"- `{it.name}` in `{it.file}`, cited by {names}"

    def further_faults(self):
        """Returns, by file, the computing definitions that only computing definitions cite."""
        cited, by_file = self.first_computed(), defaultdict(list)
        for it in self.computed():
            if id(it) not in cited:
                by_file[it.file].append(f"`{it.name}`")
        return "; ".join(f"{', '.join(names)} in `{file}`" for file, names in by_file.items())

    def definitions_of(self, crate):
        """Yields the page's lines about a crate's definitions, file by file. Neighbouring
        definitions with the same promises and the same mark share a list item. If a file has only
        one item, the item follows the file's name on the same line.
        """
        listed = [
            it
            for it in self.every.values()
            if it.crate == crate and it.kind in OF_SPECS and not it.is_computed
        ]
        for file in in_reading_order(
            self.book, [self.book.specs[module] for module in {it.module for it in listed}]
        ):
            own = sorted((it for it in listed if it.module == file.module), key=lambda it: it.line)
            gist = re.sub(
                r" \([^)]*(\)|$)", "", re.match(r".*?[^A-Z0-9][.:](?= |$)|.*", file.head)[0]
            ).rstrip(".:")
            gist = re.sub(
                r"(?:This file )?(?:defines|states) (.)",
                lambda it: it[1].upper(),
                gist,
                count=1,
                flags=re.IGNORECASE,
            )
            source = source_of(" ".join([file.head, *(it.comment for it in own)]))
            source = f" [{source}]" if source else ""
            groups = [
                (numbers + (mark and " " + mark), ", ".join(f"`{it.name}`" for it in group))
                for (numbers, mark), group in groupby(
                    own, lambda it: (self.numbers(it), self.mark(it))
                )
            ]
            head = f"**`{file.path.relative_to(ROOT)}`** ({sum(it.lines for it in own)}): {gist}{source}"
            if len(groups) == 1:
                yield f"{head}. {groups[0][0]}: {groups[0][1]}"
            else:
                yield head + "\n"
                yield from (f"- {numbers}: {names}" for numbers, names in groups)
            yield ""

    def types(self):
        by_file = defaultdict(list)
        for it in self.every.values():
            if it.kind == "type":
                by_file[it.path].append(it)
        order = {crate: at for at, crate in enumerate(self.book.crates)}
        for crate in sorted({path.relative_to(ROOT).parts[1] for path in by_file}, key=order.get):
            files = sorted(path for path in by_file if path.relative_to(ROOT).parts[1] == crate)
            yield f"- **`crates/{crate}/src`**: " + ", ".join(
                f"`{it.name}`"
                for path in files
                for it in sorted(by_file[path], key=lambda it: it.line)
            )

    def ghosts(self):
        yield "| Ghost | Promises | Values |"
        yield "|---|---|---|"
        for it in sorted(
            (it for it in self.every.values() if it.kind == "ghost"),
            key=lambda it: (it.path, it.line),
        ):
            stands = []
            for of, file, value, below in self.book.standing_for(it):
                below = [it for it in below if it.kind in OF_SPECS]
                computing = sum(it.is_computed for it in below)
                counts = (
                    f" ({len(below)}" + (f", {computing} computing)" if computing else ")")
                    if below
                    else ""
                )
                stands.append(
                    f"`{of}`, `{file.path.relative_to(ROOT)}`: `{' '.join(value.split())}`{counts}"
                )
            yield f"| `{it.name}`, `{it.file}` | {self.numbers(it)} | {'; '.join(stands)} |"

    # ---- other trusted parts

    def libraries_below(self, promise):
        """Returns the crates whose code the functions of a promise may call: the crates of these
        functions, and all crates below them."""
        own = {file.crate for file, *_ in promise.clauses}
        return own | crates_below(own)

    def calls(self):
        """Returns the names of the functions that our crates call in each library, and the promises
        that depend on these calls."""
        page = (
            subprocess.run(["rt", "doc"], capture_output=True, text=True, check=False).stdout
            if shutil.which("rt")
            else ""
        )
        kit = Path(page.strip() or "/none").parent / "rattle"
        if not kit.is_dir():
            raise Fault("no toolchain: the page lists calls of its libraries")
        below = {promise.number: self.libraries_below(promise) for promise in self.promises}
        found, promises = defaultdict(set), defaultdict(set)
        for file in self.book.code.values():
            numbers = {number for number, crates in below.items() if file.crate in crates}
            if not numbers:
                continue
            for library in {
                crate
                for crate, _ in file.uses.values()
                if crate not in self.book.crates and (kit / crate / "src").is_dir()
            }:
                if library in ("std", "core"):
                    continue
                declared = {
                    name
                    for path in (kit / library / "src").rglob("*.rt")
                    for name in re.findall(r"\bfn (\w+)", path.read_text(encoding="utf-8"))
                }
                calls = set()
                for here, (crate, name) in file.uses.items():
                    if crate == library:
                        calls |= {
                            f"{name}::{it}"
                            for it in re.findall(
                                rf"\b{here}(?:::<[^>]*>)?::([a-z]\w*)\(", file.text
                            )
                        }
                        if here[0].islower() and re.search(rf"(?<![:.\w]){here}\(", file.text):
                            calls.add(name)
                calls |= {
                    it
                    for it in re.findall(r"\.(\w+)(?:::<[^>]*>)?\(", file.text)
                    if it in declared - OF_STD
                }
                if calls:
                    found[library] |= calls
                    promises[library] |= numbers
        return found, promises

    def words_of(self):
        """Returns, for each library, the names in its specs that our definitions cite, and the
        promises that depend on these names."""
        found, promises = defaultdict(set), defaultdict(set)
        for promise in self.promises:
            for it in promise.of("library"):
                if it.crate != "std":
                    found[it.crate].add(it.name)
                    promises[it.crate].add(promise.number)
        return found, promises

    def trusted(self):
        calls, below = self.calls()
        words, citing = self.words_of()
        ours = {
            name
            for file in self.book.code.values()
            for name in re.findall(r"\bfn (\w+)\([&m]*self", file.text)
        }
        yield "| Library | Calls | Definitions cited | Promises |"
        yield "|---|---|---|---|"
        for library in sorted(set(calls) | set(words)):
            names = ", ".join(f"`{it}`" for it in sorted(calls[library] - ours))
            perhaps = ", ".join(f"`{it}`" for it in sorted(calls[library] & ours))
            names += f"; perhaps {perhaps}" if perhaps else ""
            cited = ", ".join(f"`{it}`" for it in sorted(words[library]))
            yield f"| `{library}` | {names} | {cited} | {self.spelled(below[library] | citing[library])} |"

    def externs(self):
        found = [
            f"`{file.path.relative_to(ROOT)}`"
            for file in self.book.code.values()
            if re.search(r'\bextern (?:"C" )?\{', file.text)
        ]
        return (
            f"These files declare C functions: {', '.join(found)}."
            if found
            else "No file declares a C function (`extern`)."
        )

    # ---- the page

    def section_of_faults(self):
        computed = self.computed()
        if not computed:
            return [
                "No clause of these promises rests on a computing definition. The same is true for the other clauses of the promises' functions, for the "
                "values of [ghosts](#ghosts-of-traits), and for the other contracts that [PROMISES](PROMISES.md) cites."
            ]
        sections = [
            f"A computing definition computes what another definition states. [COMPUTED](COMPUTED.md) has the laws that both agree. These promises rest on "
            f"{len(computed)} computing definitions, which the crates' lists omit. Other definitions cite {len(self.first_computed())} of these:",
            "\n".join(self.faults()),
        ]
        if len(computed) > len(self.first_computed()):
            sections.append(f"Only computing definitions cite the others: {self.further_faults()}.")
        return sections

    def page(self):
        specs = [it for it in self.every.values() if it.kind in OF_SPECS]
        plain = [it for it in specs if not it.is_computed]
        counts = {
            mark: sum(1 for it in plain if self.mark(it) == mark)
            for mark in ("all", "part", "none", "row", "")
        }
        handles = (
            (ROOT / "HANDLES").read_text(encoding="utf-8").strip().rpartition(": ")[2].rstrip(".")
        )
        sections = [
            "# What a reader must trust",
            "This page lists each definition that the eight laws of [README](../../README.md#what-is-proved) depend on, beginning with the standards, and what "
            "else is trusted. The prover checks proofs, lemmas and laws, so this page omits them. `tests/audit.py` writes the page. "
            "[TOUR](../TOUR.md#when-is-a-root-good) follows twelve paths through definitions.",
            "To check a promise, read its clause, then the definitions with the promise's number, from the top. Numbers and [marks](#marks) precede the "
            "definitions' names. After a file's name, brackets contain the listed definitions' number of lines, and the standards that the file "
            "cites. Definitions without a standard are ours.",
            "\n".join(self.summary()),
            "These functions have further clauses, for example about failed requests. `tests/audit.py --below NAME` prints the file and line of each "
            "definition that the function or definition depends on.",
            "## Computing definitions",
            *self.section_of_faults(),
            "## Marks",
            "`tests/reference` states definitions again in Python, written from the pages alone. For each vector of [vectors.json](../vectors.json), the Python "
            "code returns the expected answer. A mark says how many of a definition's Python lines the vectors run: "
            f"`all` ({counts['all']} of {len(plain)} definitions), `part` ({counts['part']}) or `none` ({counts['none']}). {counts['row']} more definitions, "
            "marked `row`, occur in worked examples, which are proved by computation. "
            f"No vector tests the other {counts['']}: laws, and the contents of stores and tables. The seven cases of RFC 4231 also test HMAC.",
        ]
        for crate in self.book.crates:
            if any(it.crate == crate for it in plain):
                sections += [f"## {crate}", "\n".join(self.definitions_of(crate)).strip()]
        sections += [
            "## Types and constants of the code",
            "Definitions represent types as fields and variants, or as the value of `Model`. The constants are SQL.",
            "\n".join(self.types()),
            "## Ghosts of traits",
            "A promise about any store, reader, writer or desk cites a trait's ghost, which only contracts use. Read the ghost's value in each type. "
            "Brackets contain the number of definitions that a value depends on; the lists above omit some. A reader's ghost is the remaining bytes, and a "
            "writer's ghost is the written bytes.",
            "\n".join(self.ghosts()),
            "## Also trusted",
            "The promises rest on the toolchain's contracts of these libraries. The calls are in the crates that a promise depends on; `perhaps` marks "
            "names that our methods also have. Our definitions cite the definitions in the third column. The table omits std, which nearly every line uses.",
            "\n".join(self.trusted()),
            f"{self.externs()} `HANDLES` allows {handles}. [TRUST](../TRUST.md#trusted) lists the rest: compiler, prover, system, what people [only "
            "read](../TRUST.md#read-and-shown-by-vectors), and what is [not claimed](../TRUST.md#not-claimed).",
        ]
        return "\n\n".join(sections) + "\n"

    # ---- what pages cite

    def named(self):
        """Returns the names of the computing definitions that docs/proofs/PROMISES.md names, and of
        the computing definitions that they depend on."""
        first = named_as_computing()
        return first | {
            it.name
            for it in closure([it for it in self.computed() if it.name in first])
            if it.is_computed and it.kind in OF_SPECS
        }

    def citing(self):
        """Yields the faults in the tables of docs/proofs/PROMISES.md and docs/proofs/COMPUTED.md. A
        citation that can't be read is a fault. In PROMISES, no contract may depend on a computing
        definition that the page doesn't name. In COMPUTED, each contract must depend on a computing
        definition.
        """
        contracts, named = Contracts(self.book), self.named()
        for page in (PROMISES, COMPUTED):
            for citation in citations(page.read_text(encoding="utf-8")):
                place = f"docs/proofs/{page.name}:{citation.line}"
                for name, cited in contracts.below(citation):
                    computing = sorted(
                        {it.name for it in cited if it.is_computed and it.kind in OF_SPECS}
                    )
                    if page == PROMISES and set(computing) - named:
                        yield f"{place}: {name} reaches computing definitions: {' '.join(sorted(set(computing) - named))}"
                    if page == COMPUTED and not computing:
                        yield f"{place}: {name} reaches no computing definition"
                yield from (f"{place}: not understood: {it}" for it in contracts.unknown)
                contracts.unknown.clear()

    # ---- paths

    def paths(self):
        """Yields the faults in the paths of the tour's second part. Each step must be a clause, or
        a definition that the previous step cites."""
        text = TOUR.read_text(encoding="utf-8").partition("\n# ")[2]
        for question in re.split(r"^## ", text, flags=re.MULTILINE)[1:]:
            title, cited = question.splitlines()[0], None
            for path, name in re.findall(r"^\d+\. `([^`]+)`: `([^`]+)`", question, re.MULTILINE):
                if path.endswith(".rt"):
                    cited = self.cited_by_clause(path, name)
                    if cited is None:
                        yield f"docs/TOUR.md: {title}: {path} has no clause {name}"
                    continue
                file = self.book.specs.get(".".join(Path(path).with_suffix("").parts[1:]))
                it = file.definitions.get(name) if file else None
                if it is None:
                    yield f"docs/TOUR.md: {title}: {path} defines no {name}"
                elif cited is not None and not any(it is other for other in map(owner_of, cited)):
                    yield f"docs/TOUR.md: {title}: {name} isn't cited by the step before"
                cited = it.cited if it else None

    def cited_by_clause(self, path, label):
        file = self.book.code.get(
            "/".join((Path(path).parts[1], ".".join(Path(path).with_suffix("").parts[3:])))
        )
        if file is None:
            return None
        found = None
        for clause in re.finditer(rf"ensures {label} \{{", file.text):
            end, depth = clause.end(), 1
            while depth:
                depth += (file.text[end] == "{") - (file.text[end] == "}")
                end += 1
            start = max(it.start() for it in re.finditer(r"\bfn \w+", file.text[: clause.start()]))
            found = (found or []) + file.cited_by(start, file.text[clause.end() : end - 1])[0]
        return found

    def below(self, name):
        if "::" in name:
            listed = [it for it in below_all(self.book, name) if it.kind in OF_SPECS]
        else:
            found = [
                it
                for file in self.book.specs.values()
                for it in file.definitions.values()
                if it.name == name and it.kind in OF_SPECS
            ]
            if len(found) != 1:
                raise Fault(f"{len(found)} definitions are named {name}")
            listed = [it for it in closure(found) if it.kind in OF_SPECS]
        files = in_reading_order(
            self.book, [self.book.specs[module] for module in {it.module for it in listed}]
        )
        for file in files:
            for it in sorted(
                (it for it in listed if it.module == file.module), key=lambda it: it.line
            ):
                yield f"{it.file}:{it.line}: {it.name}"
        yield f"{len(listed)} definitions, {sum(it.lines for it in listed)} lines, {sum(it.is_computed for it in listed)} computing"


def run(arguments):
    audit = Audit()
    if arguments.below:
        print("\n".join(audit.below(arguments.below)))
        return 0
    page, faults = audit.page(), []
    if arguments.check or arguments.strict:
        old = PAGE.read_text(encoding="utf-8") if PAGE.exists() else ""
        if old != page:
            faults.append("docs/proofs/AUDIT.md isn't current: run tests/audit.py")
            faults += list(
                difflib.unified_diff(
                    old.splitlines(), page.splitlines(), "the page", "the sources", lineterm="", n=0
                )
            )[:20]
        faults += audit.paths()
    else:
        PAGE.write_text(page, encoding="utf-8")
    if arguments.strict:
        named = audit.named()
        computed = [it for it in audit.computed() + audit.beside() if it.name not in named]
        faults += [f"{it.file}:{it.line}: reaches a computed name: {it.name}" for it in computed]
        faults += [f"{len(computed)} computed names"] if computed else []
        faults += [
            f"docs/proofs/PROMISES.md: no promise rests on {name}"
            for name in sorted(named_as_computing() - {it.name for it in audit.computed()})
        ]
        faults += audit.citing()
    for it in faults:
        print(it, file=sys.stderr)
    if not faults:
        print(
            "docs/proofs/AUDIT.md is current"
            if arguments.check or arguments.strict
            else f"docs/proofs/AUDIT.md: {page.count(chr(10))} lines"
        )
    return 1 if faults else 0


def main():
    parser = argparse.ArgumentParser(
        description="Writes docs/proofs/AUDIT.md, or says whether it is current."
    )
    parser.add_argument("--check", action="store_true")
    parser.add_argument("--strict", action="store_true")
    parser.add_argument("--below", metavar="NAME")
    try:
        sys.exit(run(parser.parse_args()))
    except (Fault, AssertionError) as fault:
        sys.exit(f"tests/audit.py: {fault}")


if __name__ == "__main__":
    main()

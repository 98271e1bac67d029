"""Reads the contracts that the tables of a page, such as docs/proofs/PROMISES.md, cite. Finds the
definitions on which these contracts depend.

Each section of the page is about a crate. The second cell of a row has groups, with `;` between
them. Each group has the form `NAME, .. : CLAUSE, .. by DEFINITION, ..`. A NAME is a function of the
section's crate, an implementation of a trait (`Log for LogLines`), a type or a trait. If a group
has no CLAUSE, the group cites all clauses of its NAMEs. A DEFINITION is in the section's crate, or
in the crate that its name states before `::`. The module or type of a NAME also applies to the next
NAMEs that have no module or type. A ghost is a value that a trait declares for contracts, and that
implementations define."""

import re
from dataclasses import dataclass

from definitions import closure

FUNCTION = r"^ *(?:pub(?:\([a-z]+\))? )?(?:final )?(?:const )?(?:extern \"C\" )?fn "


@dataclass
class Citation:
    """A group in a row of a table."""

    line: int
    crate: str
    names: list
    labels: list
    definitions: list


def citations(text):
    """Yields the groups in a page's tables."""
    crate = ""
    for number, line in enumerate(text.splitlines(), 1):
        if line.startswith("## "):
            crate = line.split()[1].strip("`")
        if not line.startswith("|") or re.match(r"\|[-|]+$|\| (Promise|Definition) \|", line):
            continue
        for group in line.replace("\\|", "/").split("|")[2].split(";"):
            found = Citation(number, crate, [], [], [])
            into = found.names
            for at, piece in enumerate(group.split("`")):
                if at % 2:
                    into.append(piece)
                elif re.search(r"(^|[ ,])by ", piece):
                    into = found.definitions
                elif ":" in piece:
                    into = found.labels
            yield found


class Contracts:
    """The definitions on which the citations of a page depend."""

    def __init__(self, book):
        self.book = book
        self.unknown = []  # names and words that weren't understood

    def below(self, citation):
        """Yields the name of each cited clause or definition, with all definitions on which the
        clause or definition depends. These include the definitions that the values of cited ghosts
        cite."""
        above = None
        if citation.labels and not citation.names:
            self.unknown.append(f"no function of {' '.join(citation.labels)}")
        for name in citation.names:
            *before, _ = name.split("::")
            above = before[-1] if before else above
            texts = self.texts(citation.crate, name, above, citation.labels)
            if texts is None:
                self.unknown.append(": ".join([f"no contract {name}", *citation.labels]))
            for file, start, label, text in texts or []:
                cited, unknown = file.cited_by(start, text)
                self.unknown += [f"{name}: {label}: {it}" for it in unknown]
                yield f"{name}: {label}" if label else name, self.with_ghosts(cited)
        for name in citation.definitions:
            path, _, field = name.partition(".")
            *before, record = path.split("::")
            crate = before[0] if before else citation.crate
            found = self.defined(crate, record)
            if (
                not (found or self.texts_of_ghosts(crate, record))
                or field
                and not any(field in it.parts for it in found)
            ):
                self.unknown.append(f"no definition {name}")
            yield name, self.with_ghosts(found)

    def with_ghosts(self, cited):
        found = {id(it): it for it in closure(cited)}
        left = list(found.values())
        while left:
            it = left.pop()
            if it.kind == "ghost":
                new = {
                    id(other): other
                    for *_, below in self.book.standing_for(it)
                    for other in below
                    if id(other) not in found
                }
                found |= new
                left += new.values()
        return found.values()

    def files(self, crate):
        return [file for key, file in self.book.code.items() if key.startswith(f"{crate}/")]

    def defined(self, crate, name):
        specs = [
            it
            for file in self.book.specs.values()
            if file.crate == crate
            for it in (file.definitions.get(name),)
            if it
        ]
        return specs or [file.types[name] for file in self.files(crate) if name in file.types]

    def texts(self, crate, name, above, labels):
        """Returns (file, place, label, text) for each clause of a contract, or None if there is no
        such contract. For the implementation of a trait, also returns the values that the
        implementation gives to the trait's ghosts."""
        if " for " in name:
            return self.texts_of_implementation(crate, name)
        last = name.split("::")[-1]
        places = self.places(crate, last, above) or (
            self.places(crate, last, None) if "::" not in name else []
        )
        if places:
            clauses = [
                (file, start, *clause[:2])
                for file, start in places
                for clause in self.clauses(file, start)
            ]
            found = [it for it in clauses if not labels or it[2] in labels or it[2] == "requires"]
            return None if set(labels) - {it[2] for it in found} else found
        if self.defined(crate, last):
            return [
                (file, at, "", last)
                for file in self.files(crate)
                if last in file.types
                for at in (file.text.find(f" {last}"),)
            ]
        return self.texts_of_ghosts(crate, last)

    def places(self, crate, function, above):
        """Returns (file, place) for each function of this name. If `above` is given, returns only
        functions of that module or type."""
        found, owner = [], self.behind_alias(crate, above)
        for file in self.files(crate):
            for it in re.finditer(rf"{FUNCTION}{function}\b", file.text, re.MULTILINE):
                head = file.block_around(it.start())[0]
                if above is None or (
                    above == file.place.split(".")[-1]
                    if above[0].islower()
                    else re.search(rf"\b{owner}\b", head)
                ):
                    found.append((file, it.start()))
        return found

    def behind_alias(self, crate, name):
        """If a `type` alias has this name, returns the name of the aliased type. Otherwise returns
        the name itself."""
        found = [
            it[1]
            for file in self.files(crate)
            for it in re.finditer(rf"^pub type {name}\b[^=]*= (\w+)", file.text, re.MULTILINE)
        ]
        return found[0] if found else name

    @staticmethod
    def clauses(file, start):
        """Yields (label, text) for each clause after a function's head."""
        inner = file.block_around(start)[0]
        body = file.text.find("\n    {\n" if inner else "\n{\n", start)
        following = re.compile(f"{FUNCTION}\\w", re.MULTILINE).search(
            file.text, file.text.find("(", start)
        )
        stop = min(
            it for it in (body, following.start() if following else -1, len(file.text)) if it > 0
        )
        at = start
        while it := re.compile(r"(requires|ensures)( [a-z_0-9]+)? \{").search(file.text, at, stop):
            at = file.block_end(it.end() - 1)
            yield "requires" if it[1] == "requires" else (it[2] or "").strip(), file.text[
                it.end() : at - 1
            ]

    def texts_of_implementation(self, crate, name):
        trait, owner = name.split(" for ")
        found = None
        for file in self.files(crate):
            for it in re.finditer(
                rf"^impl\b[^{{]*\b{trait}\b[^{{]* for [^{{]*\b{owner}\b[^{{]*\{{",
                file.text,
                re.MULTILINE,
            ):
                block = file.text[it.start() : file.block_end(it.start())]
                found = found or []
                found += [
                    (file, it.start() + ghost.start(), ghost[1], ghost[2])
                    for ghost in re.finditer(r"\bghost (\w+) = \{\s*(.*?)\s*\};", block, re.DOTALL)
                ]
                found += [
                    (file, it.start() + function.start(), *clause)
                    for function in re.finditer(f"{FUNCTION}\\w", block, re.MULTILINE)
                    for clause in self.clauses(file, it.start() + function.start())
                ]
        return found

    def texts_of_ghosts(self, crate, name):
        """Returns the type of a trait's ghost with this name, and the values that types give to the
        ghost."""
        found = [
            (file, it.start(), name, it[1])
            for file in self.files(crate)
            for it in re.finditer(
                rf"\bghost {name}(?: =|:) \{{\s*(.*?)\s*\}}[;,]", file.text, re.DOTALL
            )
        ]
        return found or None

"""Reads specs/*.antt: the definitions of a file, and the definitions that each of them cites."""

import re
from dataclasses import dataclass, field
from functools import cache, cached_property
from pathlib import Path

ROOT = Path(__file__).resolve().parents[2]
CRATES = ROOT / "crates"

WORD = r"""[^\s(){};,."λ]+(?:\.[^\s(){};,."λ]+)*"""
TOKEN = re.compile(rf'"(?:\\.|[^"\\])*"|(?<=[)}}])\.{WORD}|λ|{WORD}|[(){{}};,.]')
# Keywords and built-in names of specs/ and of clauses, and the signs in types and propositions.
BUILT_IN = set(
    """
    : = | → ← × Type Unit Bool tt refl record data if then else let in do where of by pub abbrev unfoldable opaque module ⊥ ⊤ ¬ ∥ ∥₁ _ λ ↔ ≡
    now old new entry result self Self true false fields
""".split()
)
# The page that lists the computing definitions, and the functions whose contracts use these
# definitions.
COMPUTED = ROOT / "docs" / "proofs" / "COMPUTED.md"
# The kinds of definitions in specs/.
OF_SPECS = ("definition", "record", "data")
# Constructors of std that may appear in a pattern.
PATTERNS = {
    "[]",
    "∷",
    "Some",
    "None",
    "Ok",
    "Err",
    "true",
    "false",
    "zero",
    "suc",
    "tt",
    "now",
    "ready",
    "inl",
    "inr",
}


@cache
def computing():
    """Returns the definitions that docs/proofs/COMPUTED.md names after `by`, each as (crate,
    name)."""
    crate, found = "", set()
    for line in COMPUTED.read_text(encoding="utf-8").splitlines():
        if line.startswith("## "):
            crate = line.strip("#` ")
        elif line.startswith("| "):
            found |= {
                (crate, name)
                for name in re.findall(r"`(\w+)`", line.split("|")[1].partition(" by ")[2])
            }
    return found


@dataclass(eq=False)
class Definition:
    """A definition in specs/, a type or constant of the code, a ghost of a trait, or a definition
    of a library. Only a library's definition has no file."""

    module: str
    name: str
    kind: str  # definition, record, data, constructor, type, ghost or library
    path: Path = None
    line: int = 0
    text: str = ""
    comment: str = ""
    owner: "Definition" = None  # the data type, if this is a constructor
    cited: list = field(default_factory=list)
    unknown: list = field(default_factory=list)
    parts: dict = field(
        default_factory=dict
    )  # for each field or constructor, the definitions that it cites

    def __repr__(self):
        return f"{self.module}.{self.name}"

    @property
    def crate(self):
        return self.module.split(".")[0]

    @property
    def lines(self):
        return sum(1 for line in self.text.splitlines() if line.strip())

    @property
    def is_computed(self):
        return ".specs.computed." in f"{self.module}." or (self.crate, self.name) in computing()

    @property
    def file(self):
        return str(self.path.relative_to(ROOT))


def without_comments(text, sign):
    """Replaces comments with spaces, so that lines and columns stay the same."""
    return re.sub(rf'("(?:\\.|[^"\\\n])*")|{sign}[^\n]*', lambda m: m[1] or " " * len(m[0]), text)


def indent_of(line):
    return len(line) - len(line.lstrip())


def names_of(path, lead=""):
    """Returns (module, name) for each name in the path of an import. A list in the path may contain
    names, paths and nested lists."""
    head, brace, inner = path.partition("{")
    if not brace:
        module, _, name = (lead + path).rpartition(".")
        return [(module, name)] if name else []
    parts, depth = [""], 0
    for sign in inner.rstrip()[:-1]:
        depth += (sign == "{") - (sign == "}")
        parts = [*parts, ""] if sign == "," and not depth else [*parts[:-1], parts[-1] + sign]
    return [it for part in parts for it in names_of(part.strip(), lead + head)]


@cache
def spelled_out(text):
    """Returns the text without nested imports. Replaces an import that has paths in its list with
    one import for each module."""

    def flat(line):
        modules = {}
        for module, name in names_of(line[2]):
            modules.setdefault(module, []).append(name)
        return "".join(
            f"{line[1]}{module}.{{{', '.join(names)}}}{line[3]}\n"
            for module, names in modules.items()
        )

    return re.sub(
        (
            r"^( *(?:unfoldable )?(?:pub )?(?:ghost )?use"
            r" )(Rattle\.[^;{\n]*\{[^;\n]*[.{][^;\n]*\})(;?)\n"
        ),
        flat,
        text,
        flags=re.MULTILINE,
    )


def imports_in(text, word):
    """Returns the imports in a text, each as (module, name in the module, name in the text). If the
    text imports the module itself, the second value is None and the third is the alias."""
    found = []
    for line in re.finditer(
        rf"^ *(pub )?{word} Rattle\.([\w.-]+?)(?:\.\{{([^}}]*)\}}|;|$| as ([\w◌]+))",
        spelled_out(text),
        re.MULTILINE,
    ):
        module, names, alias = line[2], line[3], line[4]
        if names is None:
            found.append((module, None, alias))
            continue
        for it in filter(None, (it.strip() for it in names.split(","))):
            name, _, here = it.partition(" as ")
            found.append((module, name, here or name))
    return found


class Scope:
    """The names that a text may use: names that it imports or defines, and aliases of modules."""

    def __init__(self, book, imports):
        self.book = book
        self.names, self.aliases = {}, {}
        for module, name, here in imports:
            if name is None:
                self.aliases[here or module.rsplit(".", 1)[-1]] = module
                continue
            self.names[here] = (module, name)
            for sign in filter(None, here.split("◌")) if "◌" in here else ():
                self.names.setdefault(sign, (module, name))

    def find(self, word):
        """Returns the definition of a word. The word may begin with the alias of a module, and end
        with names of fields."""
        head, _, rest = word.partition(".")
        if word in self.names:
            return self.book.look(*self.names[word])
        if rest and head in self.aliases:
            return self.book.look(self.aliases[head], rest.split(".")[0])
        if head in self.names:
            found = self.book.look(*self.names[head])
            # `Type.Variant`, as clauses write it
            if rest and found and found.kind == "type":
                return self.book.variant(found, rest.split(".")[0]) or found
            return found
        return None


class Walk:
    """Collects the definitions that an expression cites, and the words that aren't known."""

    def __init__(self, scope, bound=()):
        self.scope = scope
        self.cited, self.unknown = [], []
        self.scopes = [set(bound)]

    def is_bound(self, word):
        return any(word.split(".")[0] in it for it in self.scopes)

    def cite(self, word):
        if (
            word.startswith(('"', "."))
            or re.fullmatch(r"\d[\w.]*|0x\w+|\d+(\.\d+)*", word)
            or self.is_bound(word)
        ):
            return
        found = self.scope.find(word)
        if found:
            self.cited.append(found)
        elif word.split(".")[0] not in BUILT_IN:
            self.unknown.append(word)

    def pattern(self, tokens):
        """Reads the left side of an equation. Each word that isn't a constructor is a variable. The
        exception is a library's function at the beginning of a bracket, which is applied to the
        words after it."""
        for at, token in enumerate(tokens):
            if token in "(){},;_":
                continue
            found = self.scope.find(token)
            is_applied = (
                at and tokens[at - 1] == "(" and at + 1 < len(tokens) and tokens[at + 1] not in "),"
            )
            if (
                token in PATTERNS
                or found
                and (
                    found.kind == "constructor"
                    or found.kind == "library"
                    and (is_applied or token[0].isupper())
                )
            ):
                self.cite(token)
            elif not token.startswith('"') and not token.isdigit():
                self.scopes[-1].add(token)

    def expression(self, tokens):
        at = 0
        while at < len(tokens):
            at = self.step(tokens, at)

    def step(self, tokens, at):
        token = tokens[at]
        if token in "({":
            group = at + 1
            while (
                group < len(tokens)
                and re.fullmatch(r"[^\W\d][\w'-]*|[^\W\d]\w*", tokens[group])
                and tokens[group] not in ("record", "if", "let")
            ):
                group += 1
            if at + 1 < group < len(tokens) and tokens[group] == ":":
                self.scopes.append(set())
                end = self.close(tokens, at)
                self.expression(tokens[group + 1 : end])
                self.scopes.pop()
                self.scopes[-1].update(tokens[at + 1 : group])
                return end + 1
            self.scopes.append(set())
            return at + 1
        if token in ")}":
            if len(self.scopes) > 1:
                self.scopes.pop()
            return at + 1
        if token == "λ":
            at += 1
            while at < len(tokens) and tokens[at] != ".":
                if tokens[at] in "({":
                    at = self.step(tokens, at)
                else:
                    self.scopes[-1].add(tokens[at])
                    at += 1
            return at + 1
        if token == "do" and ">>=" in self.scope.names:
            self.cite(">>=")
            return at + 1
        if token == "let":
            self.scopes[-1].add(tokens[at + 1])
            return at + 2
        if at + 1 < len(tokens) and tokens[at + 1] == "←":
            self.scopes[-1].add(token)
            return at + 2
        # The name of a field in a record type is bound in the fields after it.
        if at + 1 < len(tokens) and tokens[at + 1] == ":" and len(self.scopes) > 1:
            self.scopes[-1].add(token)
            return at + 2
        # A word before `=` within brackets is the label of a field in a record.
        if at + 1 < len(tokens) and tokens[at + 1] == "=" and len(self.scopes) > 1:
            return at + 2
        if token not in ",;.=":
            self.cite(token)
        return at + 1

    @staticmethod
    def close(tokens, at):
        depth = 0
        for here in range(at, len(tokens)):
            depth += (tokens[here] in "({") - (tokens[here] in ")}")
            if depth == 0:
                return here
        return len(tokens)


def tokens_of(text):
    return TOKEN.findall(text)


def top_level(tokens, sign):
    """Returns the position of the first token `sign` outside all brackets, or None if there is no
    such token."""
    depth = 0
    for at, token in enumerate(tokens):
        depth += (token in "({") - (token in ")}")
        if depth == 0 and token == sign:
            return at
    return None


class SpecsFile:
    """A module of specs/."""

    HEAD = re.compile(
        r"(?:(?:abbrev|unfoldable|opaque) )*(?:pub )?(?:(record|data) )?(\S+)(?= :| [({]|$)"
    )

    def __init__(self, book, path):
        self.book, self.path = book, path
        relative = path.relative_to(CRATES).with_suffix("")
        self.module = ".".join(relative.parts)
        self.crate = relative.parts[0]
        self.raw = path.read_text(encoding="utf-8")
        self.text = without_comments(self.raw, "--")
        self.definitions = {}
        self.imports = imports_in(self.text, "use")
        self.reexports = re.findall(r"^pub use Rattle\.([\w.]+)$", self.text, re.MULTILINE)
        self.read()

    @cached_property
    def head(self):
        """Returns the comment at the head of the file as one line."""
        lines = []
        for line in self.raw.splitlines():
            if not line.startswith("-- "):
                break
            lines.append(line[3:])
        return " ".join(lines)

    def read(self):
        """Splits the text into declarations. The declarations within `module _ (..) where` are
        indented. Each of these declarations has the module's parameters."""
        lines = self.text.splitlines()
        raw = self.raw.splitlines()
        outer = []  # the modules around this line: (indent, parameters, indent of the contents)
        at, last = 0, None
        while at < len(lines):
            line = lines[at]
            if not line.strip():
                at += 1
                continue
            indent = indent_of(line)
            while outer and indent <= outer[-1][0]:
                outer.pop()
            base = outer[-1][2] if outer else 0
            end = at + 1
            while end < len(lines) and (
                not lines[end].strip()
                or indent_of(lines[end]) > base
                or lines[end].startswith(" " * base + "}")
            ):
                end += 1
            chunk = "\n".join(lines[at:end]).rstrip()
            words = chunk.split()
            if words[0] == "module":
                head = chunk[: re.search(r"\bwhere\b", chunk).end()]
                at += head.count("\n") + 1
                within = next((indent_of(it) for it in lines[at:] if it.strip()), 0)
                outer.append((indent, re.sub(r"^\s*module _|where$", "", head), within))
                continue
            if words[0] in ("use", "mod", "infixl", "infixr", "infix") or words[:2] in (
                ["pub", "use"],
                ["pub", "mod"],
            ):
                at = end
                continue
            telescope = " ".join(it[1] for it in outer)
            found = self.HEAD.match(chunk.strip())
            is_new = (
                found
                and (found[1] or re.match(r"\s*:(?!=)", chunk.strip()[found.end() :]))
                and not chunk.strip().startswith("(")
            )
            if is_new:
                comment = []
                above = at - 1
                while above >= 0 and raw[above].lstrip().startswith("--"):
                    comment.insert(0, raw[above].strip()[3:])
                    above -= 1
                last = Definition(
                    self.module,
                    found[2],
                    found[1] or "definition",
                    self.path,
                    at + 1,
                    chunk,
                    " ".join(comment),
                )
                last.telescope, last.indent = telescope, base
                self.definitions[last.name] = last
            elif last:
                last.text += "\n" + chunk
            at = end
        for it in list(self.definitions.values()):
            if it.kind == "data":
                for name in re.findall(r"^ +(\S+) :", it.text, re.MULTILINE):
                    self.definitions[name] = Definition(
                        self.module, name, "constructor", self.path, it.line, owner=it
                    )

    @cached_property
    def scope(self):
        scope = Scope(self.book, self.imports)
        for name in self.definitions:
            scope.names[name] = (self.module, name)
            for sign in filter(None, name.split("◌")) if "◌" in name else ():
                scope.names[sign] = (self.module, name)
        return scope

    def resolve(self, it):
        """Finds the definitions that a definition cites."""
        if it.kind in ("record", "data"):
            self.resolve_record(it)
            return
        # Each equation of a definition begins at the definition's own indentation.
        pieces, piece = [], []
        for line in it.text.splitlines():
            if (
                piece
                and line.strip()
                and indent_of(line) == it.indent
                and not line.lstrip().startswith("}")
            ):
                pieces.append("\n".join(piece))
                piece = []
            piece.append(line)
        pieces.append("\n".join(piece))
        for number, text in enumerate(pieces):
            walk = self.walk(it)
            tokens = tokens_of(text)
            if number == 0:
                walk.expression(tokens[tokens.index(":") + 1 :])
            else:
                sign = top_level(tokens, "=")
                left = tokens[:sign] if sign is not None else tokens
                walk.pattern(
                    [
                        token
                        for at, token in enumerate(left)
                        if token != it.name and token not in it.name.split("◌")
                    ]
                )
                if sign is not None:
                    walk.expression(tokens[sign + 1 :])
            it.cited += walk.cited
            it.unknown += walk.unknown

    def walk(self, it):
        walk = Walk(self.scope)
        if it.telescope:
            walk.expression(tokens_of(it.telescope))
        return walk

    def resolve_record(self, it):
        tokens = tokens_of(it.text)
        start = next(at for at, token in enumerate(tokens) if token == it.name) + 1
        where = tokens.index("where") if "where" in tokens else len(tokens)
        walk = self.walk(it)
        walk.expression(tokens[start:where])
        body = it.text[re.search(r"\bwhere\b", it.text).end() :] if "where" in tokens else ""
        fields = []
        for line in body.splitlines():
            if re.match(r" +(pub )?\S+ :", line) and (
                not fields or indent_of(line) == fields[0][0]
            ):
                fields.append((indent_of(line), [line]))
            elif line.strip() and fields:
                fields[-1][1].append(line)
        for _, lines in fields:
            words = [token for token in tokens_of("\n".join(lines)) if token != "pub"]
            if it.kind == "data":
                inner = Walk(self.scope, set().union(*walk.scopes))
                inner.expression(words[2:])
                it.parts[words[0]] = inner.cited
                walk.cited += inner.cited
                walk.unknown += inner.unknown
                continue
            before = len(walk.cited)
            walk.expression(words[2:])
            it.parts[words[0]] = walk.cited[before:]
            walk.scopes[0].add(words[0])
        it.cited, it.unknown = walk.cited, walk.unknown

"""Reads files of scenarios (crates/scenarios/README.md) as clubs and their events. If a line can't
be read, the reader raises a Fault with the file and the line."""

import json
import re
from dataclasses import dataclass, field, replace
from pathlib import Path

from reference import caveats, club as rules, passes, wire

ROOT = Path(__file__).resolve().parents[2]
FOLDER = ROOT / "crates" / "scenarios" / "data"
PAGE = ROOT / "crates" / "scenarios" / "README.md"  # the example on this page is a scenario too
FIRST_ROOT = "00112233445566778899aabbccddeeff"
NAME = caveats.NAME
MOST_CREDIT = 1_000_000  # points of one command
ESCAPES = {"r": b"\r", "n": b"\n", "t": b"\t", "\\": b"\\"}
AGAIN = "anywhere in the next line; then the same line again"
REFUSALS = ("exists", "unknown", "out of range", "slot in use")
# COMMANDS has the kinds of each command's values. OF_KEYS has the commands that print a key's pass.
# The number in OF_KEYS is the position of the root among the command's values.
COMMANDS = {
    "add-member": ("name", "number"),
    "credit": ("name", "number"),
    "debit": ("name", "number"),
    "set-quota": ("name", "number"),
    "add-facility": ("name", "kind", "number", "number", "number", "number"),
    "set-facility": ("name", "number", "number", "number", "number"),
    "add-key": ("name", "name", "root"),
    "revoke-key": ("name",),
    "rotate-key": ("name", "root", "moment"),
    "close-slot": ("name", "day", "hour"),
    "open-slot": ("name", "day", "hour"),
    "cancel-booking": ("name", "number"),
}
OF_KEYS = {"add-key": 2, "rotate-key": 1}


class Fault(Exception):
    """Reports why a file of scenarios can't be run, with the file and the line."""


@dataclass(frozen=True)
class Place:
    """A line of a file."""

    file: str
    line: int

    def __str__(self):
        return f"{self.file}:{self.line}"


@dataclass(frozen=True)
class Pass:
    """A key's pass as the office makes it, with caveats that a holder has added."""

    key: str
    root: str
    caveats: tuple = ()
    form: str | None = None
    is_forged: bool = False
    identifier: bytes | None = None
    location: bytes = b"club-desk"

    def given(self):
        made = passes.minted(
            bytes.fromhex(self.root),
            b"key:" + self.key.encode() if self.identifier is None else self.identifier,
            self.location,
        )
        for caveat in self.caveats:
            made = made.narrowed(caveat)
        return (
            replace(made, signature=made.signature[:31] + bytes([made.signature[31] ^ 1]))
            if self.is_forged
            else made
        )

    def text(self, form):
        return passes.text_of(self.given(), self.form or form)


@dataclass(frozen=True)
class Text:
    """Bytes that a request has in place of a pass."""

    data: bytes
    form: str = "none"

    def text(self, _form):
        return self.data


@dataclass(frozen=True)
class Reply:
    """The expected reply: its status, its body, and with status 405 the methods of the path."""

    status: int
    body: bytes
    methods: str | None = None

    @property
    def data(self):
        return wire.bytes_with(self.status, self.body, self.methods)

    def __str__(self):
        return f"{self.status} {self.body.decode()}" + (
            f"  allows {' and '.join(self.methods.split(', '))}" if self.methods else ""
        )


@dataclass(frozen=True)
class Event:
    """An event in a club, with its line in the file and its moment."""

    place: Place
    moment: int | None


@dataclass(frozen=True)
class Request(Event):
    """A request to the desk, as a list of pieces. Each piece is bytes, a pass, or a text in place
    of a pass."""

    pieces: tuple
    reply: Reply | None

    def data(self, form):
        return b"".join(it if isinstance(it, bytes) else it.text(form) for it in self.pieces)

    @property
    def is_in_any_form(self):
        return any(not isinstance(it, bytes) and it.form is None for it in self.pieces)


@dataclass(frozen=True)
class Office(Event):
    """A command of the office, with its words and its outcomes. After a crash, the test runs the
    command again. If the desk had already carried out the command before the crash, the second run
    has the second outcome."""

    words: tuple
    outcomes: tuple

    @property
    def command(self):
        """Returns the command in the form that the rules in Python expect."""
        name, *values = self.words
        return (name, *(READERS[kind](value) for kind, value in zip(COMMANDS[name], values)))


@dataclass(frozen=True)
class Listing(Event):
    """A command that prints a listing for the office. `lines` has the expected lines or refusal."""

    words: tuple
    lines: tuple | None


@dataclass(frozen=True)
class Reopen(Event):
    """The desk closes its tables and opens them again. If `version` is given, the tables are first
    changed to the format of this older version."""

    version: int | None


@dataclass(frozen=True)
class Crash(Event):
    """An event that is stopped at any point and then repeated."""

    event: Event


@dataclass
class Scenario:
    """A club, and the events in it, in their order."""

    place: Place
    commands: list
    events: list = field(default_factory=list)

    @property
    def requests(self):
        return [it for it in map(inner, self.events) if isinstance(it, Request)]

    @property
    def forms(self):
        """Returns the forms of passes with which the test runs the scenario: all forms, or only V2
        if each pass in the scenario states its form."""
        return tuple(passes.FORMS) if any(it.is_in_any_form for it in self.requests) else ("v2",)


def inner(event):
    return event.event if isinstance(event, Crash) else event


READERS = {
    "name": str,
    "number": int,
    "kind": str,
    "root": bytes.fromhex,
    "moment": caveats.moment_of,
    "day": caveats.day_of,
    "hour": caveats.hour_of,
}
SHAPES = {
    "name": NAME,
    "number": r"0|[1-9]\d{0,8}",
    "kind": "court|boat|room",
    "root": "(?:[0-9a-f]{2}){16,64}",
}


def unescaped(text):
    """Returns the bytes of a text, with its escapes replaced."""
    out = bytearray()
    for plain, simple, code, odd in re.findall(
        r"([^\\]+)|\\([rnt\\])|\\x([0-9a-f]{2})|(\\.?)", text
    ):
        if odd:
            raise ValueError(f"{odd} isn't an escape")
        out += plain.encode() or ESCAPES.get(simple) or bytes.fromhex(code)
    return bytes(out)


class Reader:
    """Reads a file of scenarios, line by line."""

    def __init__(self, path):
        self.name, self.lines = path.name, path.read_text(encoding="utf-8").splitlines()
        if path == PAGE:
            self.lines = example(self.lines)
        self.roots, self.texts, self.moment = {"first": FIRST_ROOT}, {}, None
        self.club, self.keys, self.scenarios = None, {}, []
        self.at, self.crashes = 0, False

    # ---- lines

    def fault(self, why):
        return Fault(f"{self.place}: {why}")

    @property
    def place(self):
        return Place(self.name, self.at)

    def read(self):
        """Returns the scenarios of the file."""
        while self.at < len(self.lines):
            line = self.lines[self.at]
            self.at += 1
            if line.strip() and not line.startswith("#"):
                try:
                    self.line(line)
                except ValueError as why:
                    raise self.fault(why) from why
        if self.crashes:
            raise self.fault("a crash without a line after it")
        if not any(it.events for it in self.scenarios):
            raise self.fault("no expectation")
        return self.scenarios

    def below(self):
        """Returns the lines that belong to the current line: the following lines that begin with a
        space."""
        found = []
        for line in self.lines[self.at :]:
            if not line.startswith(" "):
                break
            found.append(line.strip())
        return found

    def line(self, line):
        if line.startswith(" "):
            raise ValueError("an indented line belongs to no other line")
        known = {
            "club": self.read_club,
            "root": self.read_root,
            "text": self.read_text,
            "at": self.read_at,
            "bytes": self.read_bytes,
            "office": self.read_office,
            "sheet": self.read_sheet,
            "account": self.read_account,
            "slot": self.read_slot,
            "crash": self.read_crash,
            "reopen": self.read_reopen,
        }
        word, _, rest = line.rstrip().partition(" ")
        columns = (
            [word, *filter(None, re.split(" {2,}", rest.strip()))]
            if word in known
            else re.split(" {2,}", line.rstrip())
        )
        below = self.below()
        known.get(columns[0], self.read_request)(columns, below)
        self.at += len(below)

    def none_below(self, below):
        if below:
            raise ValueError("this line has no indented lines")

    # ---- clubs

    def read_club(self, columns, below):
        words = " ".join([*columns[1:], *below])
        if self.crashes:
            raise ValueError("a crash must be followed by a request or a command")
        if words != "again":
            self.club = words
        if self.club is None:
            raise ValueError("no club before this one")
        self.keys = {}
        commands = (
            []
            if self.club == "empty"
            else [it for part in self.club.split("; ") for it in self.part_of_club(part)]
        )
        scenario = Scenario(self.place, commands)
        made(scenario)
        self.scenarios.append(scenario)

    def part_of_club(self, part):
        """Returns the commands that make a part of a club."""
        kind, _, rest = part.partition(" ")
        if kind == "members":
            return [it for member in rest.split(", ") for it in self.member(member)]
        if kind == "keys":
            return [self.key(it) for it in rest.split(", ")]
        return [self.facility(it) for it in part.split(", ")]

    def member(self, text):
        name, quota, points = self.matched(
            text, rf"({NAME}) (\d+) (\d+)", "a member has a name, a quota and points"
        )
        points = int(points)
        credits = [MOST_CREDIT] * (points // MOST_CREDIT) + [points % MOST_CREDIT] * (
            points % MOST_CREDIT > 0
        )
        return [("add-member", name, quota), *(("credit", name, str(it)) for it in credits)]

    def facility(self, text):
        return (
            "add-facility",
            *self.matched(
                text,
                rf"({NAME}) ({SHAPES['kind']}) (\d+) (\d+) (\d+)-(\d+)",
                "a facility has a name, a kind, places, a price and hours",
            ),
        )

    def key(self, text):
        name, member, root = self.matched(
            text,
            rf"({NAME})(?: of ({NAME}))?(?: under (\S+))?",
            "a key has a name, a member and a root",
        )
        self.keys[name] = self.root(root or "first")
        return ("add-key", name, member or name.rpartition("-")[0], self.keys[name])

    def matched(self, text, pattern, rule):
        found = re.fullmatch(pattern, text, re.ASCII)
        if not found:
            raise ValueError(f"{rule}: {text}")
        return found.groups()

    def root(self, text):
        root = self.roots.get(text, text)
        self.matched(
            root, f"({SHAPES['root']})", "a root has 16 to 64 bytes in hexadecimal, or a name"
        )
        return root

    def read_root(self, columns, below):
        self.none_below(below)
        name, root = self.matched(
            " ".join(columns[1:]), r"(\S+) (\S+)", "a root has a name and its bytes"
        )
        self.roots[name] = self.root(root)

    def read_text(self, columns, below):
        """Reads one of two kinds of lines: the definition of a text, or a request that has a
        defined text in place of a pass."""
        if len(columns) > 2:
            return self.read_request([f"text {columns[1]}", *columns[2:]], below)
        (name,) = self.matched(" ".join(columns[1:]), rf"({NAME})", "a text has a name")
        self.texts[name] = b"".join(self.repeated(it) for it in below)

    def repeated(self, text):
        """Returns the bytes of a text. If the text begins with `N times`, returns the bytes N
        times."""
        count, _, what = text.partition(" times ")
        return unescaped(what) * int(count) if what and count.isdecimal() else unescaped(text)

    def read_at(self, columns, below):
        self.none_below(below)
        self.moment = caveats.moment_of(" ".join(columns[1:]))
        if self.moment is None:
            raise ValueError("not a moment")

    # ---- events

    def happens(self, event):
        if not self.scenarios:
            raise ValueError("no club before it")
        if self.crashes and isinstance(event, (Listing, Reopen)):
            raise ValueError("a crash must be followed by a request or a command")
        self.scenarios[-1].events.append(
            Crash(event.place, event.moment, event) if self.crashes else event
        )
        self.crashes = False

    def asked(self, pieces, columns):
        if self.moment is None:
            raise ValueError("no moment before it")
        self.happens(Request(self.place, self.moment, tuple(pieces), self.reply(columns)))

    def read_request(self, columns, below):
        self.none_below(below)
        if len(columns) < 2:
            raise ValueError(f"not understood: {' '.join(columns)}")
        passed = self.holder(columns[0])
        method, path, body = self.matched(
            columns[1],
            r"(\S+) (\S+)(?: (.+))?",
            "a request has a method, a path and perhaps a body",
        )
        path = (
            path if path.startswith("/") else f"/{path}" if path == "account" else f"/slots/{path}"
        )
        body = (body or "").encode()
        pieces = [f"{method} {path} HTTP/1.1\r\nHost: club\r\n".encode()]
        pieces += [b"Authorization: Bearer ", passed, b"\r\n"] if passed else []
        pieces += [b"Content-Length: %d\r\n\r\n%b" % (len(body), body) if body else b"\r\n"]
        self.asked(pieces, columns[2:])

    def read_bytes(self, columns, below):
        self.asked([it for line in below for it in self.pieces(line)], columns[1:])

    def pieces(self, line):
        """Yields the pieces of a request's line of bytes. Between < and >, the line names the
        holder of a pass."""
        for plain, holder in re.findall(r"([^<]+)|<([^>]*)>", line):
            yield self.repeated(plain) if plain else self.holder(holder)

    def holder(self, text):
        """Returns the pass of a holder, or None for `nobody`."""
        if text == "nobody":
            return None
        if text.startswith("text "):
            if text[5:] not in self.texts:
                raise ValueError(f"undefined: {text}")
            return Text(self.texts[text[5:]])
        key, parts = self.matched(
            text,
            rf"({NAME})(?: \[(.*)\])?",
            "a line begins with a keyword, or with a key and parts of its pass",
        )
        parts = parts.split("; ") if parts else []
        if ("unknown" in parts) == (key in self.keys):
            raise ValueError(f"the key {key} is {'known' if key in self.keys else 'unknown'}")
        found = Pass(key, self.keys.get(key, FIRST_ROOT))
        for part in parts:
            found = self.with_part(found, part)
        return found

    def with_part(self, given, part):
        """Returns a pass with the change that one part of the line's brackets describes."""
        word, _, rest = part.partition(" ")
        if part == "unknown":
            return given
        if part == "forged":
            return replace(given, is_forged=True)
        if part in passes.FORMS:
            return replace(given, form=part)
        if word == "under":
            return replace(given, root=self.root(rest))
        if word in ("identifier", "location"):
            return replace(given, **{word: unescaped(unquoted(rest))})
        count, _, caveat = part.partition(" times ")
        many = (caveat, int(count)) if caveat and count.isdecimal() else (part, 1)
        return replace(given, caveats=given.caveats + (unescaped(unquoted(many[0])),) * many[1])

    def reply(self, columns):
        """Returns the reply that a line states, or None if the line states no reply."""
        if not columns:
            return None
        status, body = self.matched(
            columns[0], r"(\d{3}) (\S.*)", "a reply has a status and a body"
        )
        if int(status) not in wire.PHRASES:
            raise ValueError(f"not a status of the desk: {status}")
        json.loads(body)
        methods = next(
            (
                it.removeprefix("allows ").replace(" and ", ", ")
                for it in columns[1:]
                if it.startswith("allows ")
            ),
            None,
        )
        if (methods is not None) != (status == "405"):
            raise ValueError("a reply has the path's methods if and only if its status is 405")
        reply = Reply(int(status), body.encode(), methods)
        for it in columns[1:]:
            if not it.startswith("allows "):
                self.has_length(reply, it)
        return reply

    def has_length(self, reply, text):
        for count in text.split(", "):
            number, what = self.matched(
                count, r"(\d+) (bytes|in all)", "only counts of its bytes may follow a reply"
            )
            found = len(reply.body if what == "bytes" else reply.data)
            if int(number) != found:
                raise ValueError(f"{found}, not {number} {what}")

    def read_office(self, columns, below):
        self.none_below(below)
        name, *values = columns[1].split(" ") if len(columns) > 1 else [""]
        kinds = COMMANDS.get(name)
        if kinds is None or len(values) not in (len(kinds), len(kinds) + 2 * (name in OF_KEYS)):
            raise ValueError(f"not a command: {' '.join(columns[1:2])}")
        values = [self.value(kind, it) for kind, it in zip(kinds, values)] + values[len(kinds) :]
        if name == "add-key":
            self.keys.setdefault(values[0], values[2])
        outcomes = tuple(columns[2].split(" or ")) if len(columns) > 2 else ()
        for it in outcomes:
            self.matched(
                it,
                rf"(done|prints \S+|refused: (?:{'|'.join(REFUSALS)}))",
                "not an outcome of a command",
            )
        self.happens(Office(self.place, self.moment, (name, *values), outcomes))

    def value(self, kind, text):
        if kind == "root":
            return self.root(text)
        if kind in SHAPES:
            return self.matched(text, f"({SHAPES[kind]})", f"invalid {kind}")[0]
        if READERS[kind](text) is None:
            raise ValueError(f"invalid {kind}: {text}")
        return text

    def read_sheet(self, columns, below):
        day = self.value("day", " ".join(columns[1:]))
        self.happens(
            Listing(
                self.place,
                self.moment,
                ("sheet", day),
                (f"Day sheet {day}", *below) if below else None,
            )
        )

    def read_account(self, columns, below):
        self.none_below(below)
        if self.moment is None:
            raise ValueError("no moment before it")
        self.listed(
            ("show-account", columns[1] if len(columns) > 1 else ""), ("name",), columns[2:]
        )

    def read_slot(self, columns, below):
        self.none_below(below)
        self.listed(
            ("show-slot", *(columns[1].split(" ") if len(columns) > 1 else ())),
            ("name", "day", "hour"),
            columns[2:],
        )

    def listed(self, words, kinds, columns):
        if len(words) != 1 + len(kinds):
            raise ValueError("wrong number of words")
        values = tuple(self.value(kind, it) for kind, it in zip(kinds, words[1:]))
        self.happens(
            Listing(
                self.place,
                self.moment,
                (words[0], *values),
                tuple(columns[0].split(", ")) if columns else None,
            )
        )

    def read_crash(self, columns, below):
        self.none_below(below)
        if columns[1:] != [AGAIN]:
            raise ValueError(f"a crash line must be `crash  {AGAIN}`")
        self.crashes = True

    def read_reopen(self, columns, below):
        self.none_below(below)
        (version,) = self.matched(
            " ".join(columns[1:]),
            r"(?:as version (1))?",
            "a reopen line may only have `as version 1`",
        )
        self.happens(Reopen(self.place, self.moment, version and int(version)))


def example(lines):
    """Returns the lines of the example in a page. Empty lines replace the page's other lines, so
    that each line keeps its number."""
    begin = lines.index("```scenario") + 1
    end = lines.index("```", begin)
    return [""] * begin + lines[begin:end] + [""] * (len(lines) - end)


def unquoted(text):
    return text[1:-1] if len(text) > 1 and text[0] == text[-1] == '"' else text


def made(scenario, plant=None):
    """Makes the club of a scenario with the rules in Python, and returns the club."""
    club = rules.Club(plant)
    for command in scenario.commands:
        try:
            club.command(Office(scenario.place, None, command, ()).command)
        except rules.CommandRefused as refusal:
            raise Fault(
                f"{scenario.place}: can't make the club: {' '.join(command)}: refused: {refusal}"
            ) from refusal
    return club


def files(names=()):
    """Returns the files of these names, or all files."""
    found = [*sorted(FOLDER.glob("*.txt")), PAGE]
    unknown = set(names) - {it.stem for it in found}
    if unknown:
        raise Fault(f"no such file of scenarios: {' '.join(sorted(unknown))}")
    return [it for it in found if not names or it.stem in names]


def read(path):
    return Reader(path).read()

"""Reads, writes, narrows and verifies passes with the library libclubpass.

    import clubpass

    lent = clubpass.Pass.parse(text).narrow("kind = court", "guests <= 1")
    print(lent, lent.verify(root))

A Pass never changes: `narrow` returns a new Pass. Roots, signatures and the parts of a pass are
bytes. Except for roots, a method that takes bytes also takes a str, which it encodes as UTF-8, or
a bytearray, which it copies. A subclass of bytes is a TypeError, because its length may differ
from its memory. If a call of the library fails, the method raises a subclass of PassError.
"""

from __future__ import annotations

import ctypes
from dataclasses import dataclass
from datetime import date, datetime, timedelta
from operator import index
from typing import Any, Callable, Union

from ._library import MAX_NAME, SIZE, AskObject, Object, is_signed, length, library, read

__all__ = [
    "Ask",
    "CaveatFault",
    "Malformed",
    "NotAnAsk",
    "NoRoom",
    "Pass",
    "PassError",
    "ThirdParty",
    "TooLong",
    "TooMany",
    "is_caveat",
]

Bytes = Union[bytes, bytearray, str]


class PassError(ValueError):
    """A pass can't be read, written or narrowed."""


class TooLong(PassError):
    """A text would have more than 8,192 bytes."""


class Malformed(PassError):
    """The text isn't a pass."""


class ThirdParty(PassError):
    """A third party must discharge a caveat."""


class TooMany(PassError):
    """There are more than 64 caveats."""


class NoRoom(PassError):
    """Memory ran out, or location, identifier and caveats have more than 8,192 bytes."""


class NotAnAsk(PassError):
    """A value of a request is out of range."""


_FIRST = slice(8193)  # no text, part or caveat of a pass has more than 8,192 bytes
_OK, _SHORT_BUFFER = 0, 6
_ERRORS = {1: TooLong, 2: Malformed, 3: ThirdParty, 4: TooMany, 5: NoRoom, 9: NotAnAsk}
_VERDICTS = {10: "not understood", 11: "denies"}
_FORMS = {"v1": 1, "v2": 2, "json": 3}
_FORM_NAMES = {number: name for name, number in _FORMS.items()}
_ACTIONS = {"view": 1, "book": 2, "cancel": 3, "account": 4}
_KINDS = {None: 0, "court": 1, "boat": 2, "room": 3}


def _bytes(value: Bytes, errors: str = "strict") -> bytes:
    """Returns a value as bytes whose `len` is the length of their memory. So a subclass of str may
    not choose how it is encoded, and a subclass of bytes or bytearray is refused. A value that is
    too long isn't copied whole: the library gives its first bytes the same answer."""
    if type(value) is bytes:
        return value
    if isinstance(value, str):
        return str.encode(str.__getitem__(value, _FIRST), "utf-8", errors)
    if type(value) is bytearray:
        return bytes(value[_FIRST])
    raise TypeError(f"bytes or str, not {type(value).__name__}")


def _text(value: Bytes) -> bytes:
    """Returns the bytes of a text. A str that UTF-8 can't encode becomes bytes that aren't UTF-8.
    These bytes are neither a pass nor a caveat."""
    return _bytes(value, "surrogatepass")


def _root(value: bytes) -> bytes:
    if type(value) is not bytes:
        raise TypeError(f"a root is bytes, not {type(value).__name__}")
    return value


def _check(code: int) -> None:
    if code != _OK:
        error = _ERRORS[code]
        raise error(error.__doc__)


def is_caveat(text: Bytes) -> bool:
    """Returns whether a text is a caveat that the desk understands, such as `kind = court`."""
    line = _text(text)
    return bool(library.clubpass_is_caveat(line, len(line)))


@dataclass(frozen=True)
class Ask:
    """The values of a request that caveats restrict. `action` is view, book, cancel or account.
    Without a facility there is no slot.

    `moment` is the club's local time. A call ignores the time zone of `moment`.
    """

    action: str
    moment: datetime
    facility: str | None = None
    day: date | None = None
    hour: int = 0
    kind: str | None = None
    guests: int = 0
    owed: int = 0
    spent: int = 0

    def _object(self) -> AskObject:
        numbers = self._numbers()
        name = b"" if self.facility is None else _text(self.facility)
        is_named = self.facility is None or 0 < len(name) <= MAX_NAME
        if not is_named or any(number < 0 or number >> bits for number, bits in numbers):
            raise NotAnAsk(NotAnAsk.__doc__)
        moment, day, hour, guests, owed, spent = (number for number, _ in numbers)
        return AskObject(
            owed,
            spent,
            _ACTIONS[self.action],
            _KINDS[self.kind],
            moment,
            day,
            hour,
            guests,
            len(name),
            (ctypes.c_uint8 * MAX_NAME)(*name),
        )

    def _numbers(self) -> list[tuple[int, int]]:
        """Returns the numbers of the request, each with the bits that its field has."""
        if self.action not in _ACTIONS or self.kind not in _KINDS:
            raise NotAnAsk(f"no such action or kind: {self.action}, {self.kind}")
        if not isinstance(self.moment, datetime) or not isinstance(self.day, (date, type(None))):
            raise TypeError("`moment` is a datetime, and `day` a date")
        since_1970 = self.moment.replace(tzinfo=None) - datetime(1970, 1, 1)
        day = 0 if self.day is None else self.day.toordinal() - date(1970, 1, 1).toordinal()
        return [
            (since_1970 // timedelta(minutes=1), 32),
            (day, 16),
            (index(self.hour), 8),
            (index(self.guests), 8),
            (index(self.owed), 64),
            (index(self.spent), 64),
        ]


@dataclass(frozen=True)
class CaveatFault:
    """The first caveat that isn't understood or that denies a request. `number` counts from 1.
    `understood` is true if the caveat denies the request."""

    number: int
    understood: bool

    def __str__(self) -> str:
        return f"caveat {self.number} {'denies' if self.understood else 'not understood'}"


class Pass:
    """A pass, with the form of the text that it was read from. `str` returns the pass's text in the
    same form."""

    __slots__ = ("_at",)
    # The pass's object, by reference. No other pass ever has this object, so that a pass that
    # outlives its deletion keeps its bytes.
    _at: Any

    def __new__(cls) -> Pass:
        raise TypeError("Pass.parse reads a pass, and Pass.mint makes one")

    def __copy__(self) -> Pass:
        return self

    def __deepcopy__(self, memo: object) -> Pass:
        return self

    @classmethod
    def parse(cls, text: Bytes) -> Pass:
        """Reads a pass from its text in any form. Raises TooLong, Malformed, ThirdParty or TooMany,
        and NoRoom if memory runs out."""
        line, made = _text(text), _made(cls)
        code = read(line, length(len(line)), made._at)
        if code != _OK:
            _check(code)
        return made

    @classmethod
    def mint(cls, root: bytes, identifier: Bytes, location: Bytes = b"") -> Pass:
        """Makes a new pass without caveats, signed under a root. Raises NoRoom if the location and
        the identifier together have more than 8,192 bytes."""
        root, place, name = _root(root), _bytes(location), _bytes(identifier)
        made = _made(cls)
        _check(library.clubpass_mint(root, len(root), place, len(place), name, len(name), made._at))
        return made

    def narrow(self, *caveats: Bytes) -> Pass:
        """Returns the pass with these caveats added. Raises TooMany for more than 64 caveats, and
        NoRoom if the parts of the pass would have more than 8,192 bytes."""
        made = _made(Pass)
        ctypes.memmove(made._at, self._at, SIZE)
        for caveat in caveats:
            line = _bytes(caveat)
            _check(library.clubpass_narrow(made._at, line, len(line)))
        return made

    def verify(self, root: bytes) -> bool:
        """Returns whether the root signed the pass with its caveats. The call doesn't test the
        caveats against a request."""
        return is_signed(self._at, _root(root), length(len(root)))

    def first_fault(self, ask: Ask) -> CaveatFault | None:
        """Returns the first caveat that isn't understood or that denies the request, or None. The
        call doesn't test the signature."""
        if not isinstance(ask, Ask):
            raise TypeError(f"an Ask, not {type(ask).__name__}")
        number = ctypes.c_size_t()
        code = library.clubpass_first_fault(
            self._at, ctypes.byref(ask._object()), ctypes.byref(number)
        )
        if code in _VERDICTS:
            return CaveatFault(number.value, code == 11)
        _check(code)
        return None

    def to(self, form: str) -> str:
        """Returns the text in a form: v1, v2 or json. Raises TooLong if the text would have more
        than 8,192 bytes, and NoRoom if memory runs out."""
        if form not in _FORMS:
            raise ValueError(f"no such form: {form}")
        return self._told(
            lambda *out: library.clubpass_write(self._at, _FORMS[form], *out)
        ).decode()

    @property
    def form(self) -> str:
        """The form of the text that the pass was read from, or v2 for a new pass."""
        return _FORM_NAMES[library.clubpass_form(self._at)]

    @property
    def location(self) -> bytes:
        """An unsigned hint about where the pass is valid."""
        return self._told(lambda *out: library.clubpass_location(self._at, *out))

    @property
    def identifier(self) -> bytes:
        """The name of the root."""
        return self._told(lambda *out: library.clubpass_identifier(self._at, *out))

    @property
    def caveats(self) -> list[bytes]:
        """The caveats, in the order in which they were added."""
        return [
            self._told(lambda *out, place=place: library.clubpass_caveat(self._at, place, *out))
            for place in range(library.clubpass_caveat_count(self._at))
        ]

    @property
    def signature(self) -> bytes:
        """The last signature of the chain, 32 bytes."""
        out = ctypes.create_string_buffer(32)
        library.clubpass_signature(self._at, out)
        return out.raw

    def _told(self, call: Callable[..., int]) -> bytes:
        """Returns the bytes that a call writes. Repeats the call with a longer buffer if a buffer
        of 1,024 bytes is too short."""
        room, written = 1024, ctypes.c_size_t()
        while True:
            out = ctypes.create_string_buffer(room)
            code = call(out, room, ctypes.byref(written))
            if code != _SHORT_BUFFER:
                _check(code)
                return out.raw[: written.value]
            room = written.value

    def __str__(self) -> str:
        return self.to(self.form)

    def __repr__(self) -> str:
        return f"Pass.parse({str(self)!r})"

    def __eq__(self, other: object) -> bool:
        return isinstance(other, Pass) and self._parts() == other._parts()

    def __hash__(self) -> int:
        return hash(self._parts())

    def _parts(self) -> tuple[bytes, bytes, tuple[bytes, ...], bytes]:
        return self.location, self.identifier, tuple(self.caveats), self.signature


def _made(kind: type[Pass]) -> Pass:
    """Returns a pass with an empty object, for a call that fills the object."""
    made = object.__new__(kind)
    made._at = ctypes.byref(Object())
    return made

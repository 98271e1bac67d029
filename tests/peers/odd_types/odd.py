"""Plays rows of table.txt with the Python module. Reads lines `PLACE|VALUE`, and prints answers."""

import array
import sys
import time
from datetime import date, datetime

import clubpass

ROOT, NAME, CAVEAT = b"root", b"key:a-1", b"kind = court"
LONGEST_SECONDS = 1
FAULTS = {"TooLong": 1, "Malformed": 2, "ThirdParty": 3, "TooMany": 4, "NoRoom": 5, "NotAnAsk": 9}
PASS = clubpass.Pass.mint(ROOT, NAME)


class Greater(bytes):
    def __len__(self):
        return 100_000


class Smaller(bytes):
    def __len__(self):
        return 1


class OtherBytes(bytes):
    def __bytes__(self):
        return b"other"


class OtherText(str):
    def encode(self, *_, **__):
        return Greater(b"other")


class Mutable(bytearray):
    def __bytes__(self):
        return Greater(b"other")


class Lengthy:
    def __len__(self):
        return 50_000_000

    def __getitem__(self, place):
        return 65


VALUES = {
    "nothing": lambda plain: None,
    "true": lambda plain: True,
    "a number": lambda plain: 5,
    "a fraction": lambda plain: 18.5,
    "a number below 0": lambda plain: -1,
    "a number above all": lambda plain: 2**70,
    "a list of numbers": list,
    "an object that states a length of 50,000,000": lambda plain: Lengthy(),
    "bytes that state a greater length": Greater,
    "bytes that state a smaller length": Smaller,
    "bytes that state another value": OtherBytes,
    "a text that states another value": lambda plain: OtherText(plain.decode()),
    "a string": lambda plain: plain.decode(),
    "an empty string": lambda plain: "",
    "a mutable array of bytes": bytearray,
    "a class of mutable arrays of bytes": Mutable,
    "a view of bytes": memoryview,
    "an array of wider numbers": lambda plain: array.array("H", list(plain)),
    "50,000,000 letters": lambda plain: "a" * 50_000_000,
    "a text with half a character": lambda plain: plain.decode() + "\ud800",
    "the first moment of the language": lambda plain: datetime.min,
}


def asked(facility="court-1", hour=18, moment=datetime(2026, 5, 1)):
    caveat = PASS.narrow("facility = court-1")
    return caveat.first_fault(clubpass.Ask("view", moment, facility, date(2026, 5, 1), hour))


# The bytes of each place's plain value, the call that gets a value in this place, and the plain
# value if it isn't these bytes.
PLACES = {
    "text": (str(PASS).encode(), clubpass.Pass.parse),
    "root": (ROOT, lambda value: clubpass.Pass.mint(value, NAME)),
    "signer": (ROOT, PASS.verify),
    "caveat": (CAVEAT, PASS.narrow),
    "identifier": (NAME, lambda value: clubpass.Pass.mint(ROOT, value)),
    "location": (b"here", lambda value: clubpass.Pass.mint(ROOT, NAME, value).location),
    "line": (CAVEAT, clubpass.is_caveat),
    "facility": (b"court-1", asked),
    "hour": (b"18", lambda value: asked(hour=value), 18),
    "moment": (b"2026", lambda value: asked(moment=value), datetime(2026, 5, 1)),
    "ask": (b"", PASS.first_fault, clubpass.Ask("view", datetime(2026, 5, 1))),
}


def answer(place, name):
    plain, call, usual = (*PLACES[place], PLACES[place][0])[:3]
    value, wanted = VALUES[name](plain), call(usual)
    begun = time.process_time()
    try:
        found = call(value)
        told = "no" if found is False else "ok" if found == wanted else "differs"
    except TypeError:
        told = "type"
    except clubpass.PassError as fault:
        told = str(FAULTS[type(fault).__name__])
    seconds = time.process_time() - begun
    return told if seconds < LONGEST_SECONDS else f"{told} after {seconds:.1f} s"


for line in sys.stdin:
    print(answer(*line.rstrip("\n").split("|")), flush=True)

"""Writes the files next to a lost club anew. The files come from the place of the copies, so they are data: each line is tested. A line that has
another form is left out and counted."""

import csv
import io
import json
import re

from club_office.begin import printable
from club_office.closures import MOST_LETTERS
from club_office.faults import Fault, refusal
from club_office.page import MOST_PICTURE
from club_office.people import HEADS, person_of_row, rows_text
from club_office.values import NAME

MOST_BYTES = 50_000_000
MOST_TITLES = 100_000
STEP = re.compile(
    r"[a-z0-9][a-z0-9-]{0,23} ([a-z0-9][a-z0-9-]{0,23}|\*) [0-9]{1,9} [0-9]{1,15} (begun|done)"
)
# The greatest number of bytes of a line in a book. A line of the office's book is shorter.
MOST_LINE = 50_000


def people(data: bytes) -> tuple[bytes, int]:
    """Returns the persons of a file, in the form that the office writes."""
    found, left = {}, 0
    rows = csv.DictReader(io.StringIO(data.decode(errors="replace"), newline=""))
    if rows.fieldnames != HEADS:
        raise refusal("other form")
    try:
        for row in rows:
            try:
                if not NAME.fullmatch(row["member"] or "") or None in row or "\ufffd" in str(row):
                    raise refusal("other form")
                found[row["member"]] = person_of_row(row)
            except Fault:
                left += 1
    except csv.Error:
        raise refusal("other form") from None
    return rows_text(found).encode(), left


def lines_of(data: bytes) -> list[str]:
    return data.decode(errors="backslashreplace").split("\n")[
        : -1 if data.endswith(b"\n") else None
    ]


def seasons(data: bytes) -> tuple[bytes, int]:
    """Returns the lines of a ledger of season's points."""
    lines = lines_of(data)
    kept = [it for it in lines if STEP.fullmatch(it)]
    return "".join(f"{it}\n" for it in kept).encode(), len(lines) - len(kept)


def is_reason(it: object) -> bool:
    if not isinstance(it, dict) or set(it) != {"facility", "day", "from", "until", "why"}:
        return False
    begin, end, why = it["from"], it["until"], it["why"]
    return (
        isinstance(it["facility"], str)
        and NAME.fullmatch(it["facility"]) is not None
        and type(begin) is int
        and type(end) is int
        and 0 <= begin < end <= 24
        and type(it["day"]) is int
        and 0 <= it["day"] < 50_000
        and isinstance(why, str)
        and why.isprintable()
        and 0 < len(why) <= MOST_LETTERS
    )


def reasons(data: bytes) -> tuple[bytes, int]:
    """Returns the reasons for closed slots."""
    try:
        entries = json.loads(data)
    except (ValueError, RecursionError):
        entries = None
    if not isinstance(entries, list):
        raise refusal("other form")
    kept = [it for it in entries if is_reason(it)]
    return json.dumps(kept, ensure_ascii=False).encode(), len(entries) - len(kept)


def book(data: bytes) -> tuple[bytes, int]:
    """Returns the lines of a book of commands. An unprintable character becomes a number."""
    lines = [printable(it[:MOST_LINE]) for it in lines_of(data)]
    return "".join(f"{it}\n" for it in lines).encode(), 0


def titles(data: bytes) -> tuple[bytes, int]:
    """Returns the lines of a file of titles. The page tests the titles when it shows them."""
    if len(data) > MOST_TITLES:
        raise refusal("other form")
    lines = lines_of(
        data.removeprefix(b"\xef\xbb\xbf").replace(b"\r\n", b"\n").replace(b"\t", b" ")
    )
    kept = [it for it in lines if it.isprintable()]
    return "".join(f"{it}\n" for it in kept).encode(), len(lines) - len(kept)


def logo(data: bytes) -> tuple[bytes, int]:
    if len(data) > MOST_PICTURE:
        raise refusal("other form")
    return data, 0


# The files next to a club's file, by their suffixes.
ANEW = {"-people.csv": people, "-seasons": seasons, "-reasons": reasons, "-book": book}

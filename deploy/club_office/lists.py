"""Prints lists of a club's rows, and checks the club's totals."""

import csv
import re
import shutil
import sys

from club_office.faults import refusal
from club_office.texts import head, say
from club_office.values import date_of, day, name


def table(heads, rows, as_csv):
    """Prints rows below their column heads, in aligned columns or as CSV."""
    if as_csv:
        csv.writer(sys.stdout, lineterminator="\n").writerows(
            [heads, *(map(unformed, row) for row in rows)]
        )
    else:
        width = shutil.get_terminal_size((80, 24)).columns if sys.stdout.isatty() else None
        print(*aligned(heads, rows, width), sep="\n")


def aligned(heads, rows, width=None):
    """Formats rows and column heads as lines. Numbers are right-aligned. With a width, shortens the longest texts until each line fits."""
    words = {"no", "yes", "none", "court", "boat", "room"}
    cells = [
        [head(it) for it in heads],
        *([head(cell) if cell in words else str(cell) for cell in row] for row in rows),
    ]
    widths = [max(len(row[column]) for row in cells) for column in range(len(heads))]
    right = [
        bool(rows) and all(isinstance(row[column], int) for row in rows)
        for column in range(len(heads))
    ]
    shortened(widths, right, width)
    return [
        "  ".join(
            cut(c, w).rjust(w) if r else cut(c, w).ljust(w) for c, w, r in zip(row, widths, right)
        ).rstrip()
        for row in cells
    ]


LEAST_WIDTH = 6


def shortened(widths, right, width):
    """Shortens the widest columns with texts until the columns fit into a terminal of this width."""
    while width and sum(widths) + 2 * (len(widths) - 1) > width:
        texts = [it for it, is_number in enumerate(right) if not is_number]
        widest = max(texts, key=lambda it: widths[it], default=None)
        if widest is None or widths[widest] <= LEAST_WIDTH:
            return
        widths[widest] -= 1


def cut(text, width):
    return text if len(text) <= width else text[: width - 1] + "…"


# A spreadsheet takes a text that begins with one of these characters for a formula. The last four are the full-width forms of the first four.
FORMULAS = tuple("=+-@\t\r\n\uff1d\uff0b\uff0d\uff20")


def unformed(cell):
    """Returns a cell in a form that no spreadsheet takes for a formula."""
    return f"'{cell}" if isinstance(cell, str) and cell[:1] in FORMULAS else cell


def with_names(heads, rows, people, column):
    """Appends the members' full names to the rows, if any full name is known."""
    if not people:
        return heads, rows
    return [*heads, "name"], [
        [*row, people[row[column]].name if row[column] in people else ""] for row in rows
    ]


def is_row(db, table_name, row_name):
    return (
        db.execute(f"SELECT count(*) FROM {table_name} WHERE name = ?", [row_name]).fetchone()[0]
        == 1
    )


def wants_row(db, table_name, row_name):
    if not is_row(db, table_name, row_name):
        raise refusal(f"no row {table_name}", name=row_name)


def list_members(db, words, now):
    rows = db.execute(
        """SELECT members.name, max(credited - used, 0), quota,
               (SELECT count(*) FROM bookings JOIN keys ON keys.name = pass_key
                   WHERE member = members.name AND cancelled = 0 AND day * 1440 + hour * 60 > ?),
               (SELECT count(*) FROM keys WHERE member = members.name)
           FROM members ORDER BY members.name""",
        [now],
    ).fetchall()
    table(
        *with_names(["member", "balance", "quota", "open", "keys"], rows, words.people, 0),
        words.csv,
    )


def list_facilities(db, words, _now):
    rows = db.execute(
        "SELECT name, kind, places, price, opens, shuts FROM facilities ORDER BY name"
    ).fetchall()
    table(["facility", "kind", "places", "price", "opens", "shuts"], rows, words.csv)


def list_keys(db, words, _now):
    wants_row(db, "members", words.member)
    rows = db.execute(
        """SELECT keys.name, CASE revoked WHEN 0 THEN 'no' ELSE 'yes' END,
               coalesce(strftime('%Y-%m-%dT%H:%M', until * 60, 'unixepoch'), 'none'),
               (SELECT coalesce(sum(charge - refund), 0) FROM bookings WHERE pass_key = keys.name)
           FROM keys LEFT JOIN old_roots ON pass_key = keys.name WHERE member = ? ORDER BY keys.name""",
        [words.member],
    ).fetchall()
    table(["key", "revoked", "older root until", "spent"], rows, words.csv)


def list_closed(db, words, now):
    rows = db.execute(
        "SELECT facility, date(day * 86400, 'unixepoch'), hour FROM slots WHERE closed = 1 AND day >= ? ORDER BY facility, day, hour",
        [now // 1440],
    ).fetchall()
    table(["facility", "day", "hour"], rows, words.csv)


def list_bookings(db, words, now):
    column, value = asked_of_bookings(db, words.what)
    since = 0 if words.all or column == "day" else now // 1440
    rows = db.execute(
        f"""SELECT date(day * 86400, 'unixepoch'), hour, facility, member, pass_key, number, guests + 1, charge,
                CASE cancelled WHEN 0 THEN 'no' ELSE 'yes' END, refund
            FROM bookings JOIN keys ON keys.name = pass_key WHERE {column} = ? AND day >= ? AND (cancelled = 0 OR ?)
            ORDER BY day, hour, facility, pass_key, number""",
        [value, since, words.all],
    ).fetchall()
    heads = [
        "day",
        "hour",
        "facility",
        "member",
        "key",
        "number",
        "persons",
        "charge",
        "cancelled",
        "refund",
    ]
    shown = len(heads) if words.all else 8
    table(*with_names(heads[:shown], [row[:shown] for row in rows], words.people, 3), words.csv)
    if not rows and not words.csv:
        print(say("no bookings"))


def asked_of_bookings(db, what):
    """Returns a column and a value that select the bookings of a day, a member or a facility."""
    if re.fullmatch(r"[0-9]{4}-[0-9]{2}-[0-9]{2}", what):
        return "day", day(what)
    name(what)
    found = [
        column
        for column, rows in (("member", "members"), ("facility", "facilities"))
        if is_row(db, rows, what)
    ]
    if len(found) != 1:
        raise refusal("both" if found else "neither", name=what)
    return found[0], what


def list_money(db, words, _now):
    if words.member:
        wants_row(db, "members", words.member)
    rows = db.execute(
        """SELECT members.name, credited, coalesce(sum(charge), 0), coalesce(sum(refund), 0), max(credited - used, 0)
           FROM members LEFT JOIN keys ON member = members.name LEFT JOIN bookings ON pass_key = keys.name
           WHERE members.name = ? OR ? IS NULL GROUP BY members.name ORDER BY members.name""",
        [words.member, words.member],
    ).fetchall()
    table(
        *with_names(
            ["member", "credited", "charged", "refunded", "balance"], rows, words.people, 0
        ),
        words.csv,
    )


def list_faults(db, _words, _now):
    """Checks that the totals are the sums of the bookings, and that the file isn't damaged."""
    found = sorted(faults(db))
    for line in found:
        print(line)
    if found:
        raise refusal("faults", count=len(found))
    print(say("sums are right"))


def faults(db):
    """Returns a sentence for each wrong total, wrong reference and exceeded limit. Returns an empty set for a sound club."""
    found = set()
    for member, used, spent in db.execute(
        """SELECT members.name, used, coalesce(sum(charge - refund), 0) AS spent
           FROM members LEFT JOIN keys ON member = members.name LEFT JOIN bookings ON pass_key = keys.name
           GROUP BY members.name HAVING used <> spent"""
    ):
        found.add(say("used off", member=member, used=used, spent=spent))
    for facility, on, hour, off in db.execute(
        """SELECT facility, day, hour, sum(persons) FROM
               (SELECT facility, day, hour, guests + 1 AS persons FROM bookings WHERE cancelled = 0
                UNION ALL SELECT facility, day, hour, -taken FROM slots)
           GROUP BY facility, day, hour HAVING sum(persons) <> 0"""
    ):
        found.add(say("taken off", facility=facility, day=date_of(on), hour=hour, persons=off))
    for what, sql in LIMITS:
        found.update(say(f"limit {what}", row=row[0]) for row in db.execute(sql))
    return found


LIMITS = [
    ("balance", "SELECT name FROM members WHERE used > credited"),
    ("hours", "SELECT name FROM facilities WHERE opens >= shuts"),
    (
        "places",
        "SELECT facility || ' ' || date(day * 86400, 'unixepoch') || ' ' || hour FROM slots JOIN facilities ON name = facility"
        " WHERE taken NOT BETWEEN 0 AND places",
    ),
    ("refund", "SELECT pass_key || '/' || number FROM bookings WHERE refund > charge * cancelled"),
    ("reference", "SELECT \"table\" || ' ' || rowid FROM pragma_foreign_key_check"),
]

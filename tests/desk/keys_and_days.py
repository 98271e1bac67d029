#!/usr/bin/env -S /usr/bin/python3 -B -m pytest -q -p no:cacheprovider
"""A server answers the passes of 65 keys, each twice, and clubdesk prints the sheet of each day of
a leap year.

A desk keeps the derived keys of at most 64 keys. Keys that follow each other have different roots,
and the desk refuses a pass under the root of the next key.
"""

from datetime import date, timedelta

import pytest

import desk
import kinds
from kinds import ACCOUNT, account, key_pass, text

pytestmark = [pytest.mark.programs, pytest.mark.quick, pytest.mark.needs("clubdesk")]

KEYS = [f"amy-{number}" for number in range(65)]
ROOTS = [kinds.ROOT, "ffeeddccbbaa99887766554433221100", "09" * 64]
BOOKED = {"2028-02-28": 0, "2028-02-29": 1, "2028-03-01": 2}


def root_of(place: int) -> str:
    return ROOTS[place % len(ROOTS)]


def test_keys_beyond_the_cache(new_club):
    """Each key's pass is accepted once, and again after the passes of all other keys."""
    keys = [f"add-key {key} amy {root_of(place)}" for place, key in enumerate(KEYS)]
    club = new_club("add-member amy 5", "credit amy 10000", *keys)
    rows = []
    for place, key in enumerate(KEYS):
        rows.append(account(row=ACCOUNT.under(text(key_pass(key, root_of(place))))))
    for place, key in enumerate(KEYS):
        rows.append(account(row=ACCOUNT.under(text(key_pass(key, root_of(place))))))
        rows.append(ACCOUNT.under(text(key_pass(key, root_of(place + 1)))).gets(9))
    with club.served(count=len(rows)) as it:
        it.serves(*rows)


def sheet_of(day: str) -> str:
    """Returns the sheet of a day. A booking for `guests` guests has the number 1 + guests."""
    if day not in BOOKED:
        return f"Day sheet {day}\nNo bookings.\n"
    persons = BOOKED[day] + 1
    line = f"{'court-1':24} 18:00 {'amy-1':24} {persons:9} {persons:2} {persons * 200:6}"
    total = f"Total bookings 1, persons {persons}, charge {persons * 200}"
    return f"Day sheet {day}\n{line}\n{total}\n"


def test_sheets_of_a_leap_year(new_club):
    """The sheet of each day has the bookings of this day."""
    club = new_club(
        "add-member amy 5",
        "credit amy 10000",
        "add-facility court-1 court 4 200 8 22",
        f"add-key amy-1 amy {kinds.ROOT}",
    )
    for day, guests in BOOKED.items():
        path = f"/slots/court-1/{day}/18/bookings/{guests + 1}"
        body = f'{{"guests":{guests}}}'
        row = ACCOUNT.but(method="PUT", path=path, body=body)
        reply = club.ask(row.data, at="2028-02-01T12:00")
        assert reply.status == 200
    days = [date(2028, 1, 1) + timedelta(days=number) for number in range(366)]
    for day in map(str, days):
        told = desk.command(club.program, "sheet", club.file, day)
        assert told == (0, sheet_of(day), "")

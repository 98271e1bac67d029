"""The caveat language (docs/CAVEATS.md)."""

import re
from dataclasses import dataclass
from datetime import date

KINDS = ("court", "boat", "room")
ACTIONS = ("view", "book", "cancel", "account")
WEEKDAYS = ("mon", "tue", "wed", "thu", "fri", "sat", "sun")
MOST_BYTES = 256
NAME = r"[a-z0-9][a-z0-9-]{0,23}"
EPOCH = date(1970, 1, 1)
FIRST_DAY, LAST_DAY = (date(2000, 1, 1) - EPOCH).days, (date(2099, 12, 31) - EPOCH).days


@dataclass
class Ask:
    """The values of a request that a pass's caveats check. `slot` is a facility, a day and an hour,
    or None. `kind` is the kind of the facility."""

    action: str
    slot: tuple | None
    kind: str | None
    guests: int
    moment: int
    owed: int
    spent: int


def day_of(text):
    """Returns the number of days from 1970-01-01 to the day in the text, or None if the text isn't
    a day from 2000 to 2099."""
    if not re.fullmatch(r"\d{4}-\d{2}-\d{2}", text, re.ASCII):
        return None
    try:
        day = (date.fromisoformat(text) - EPOCH).days
    except ValueError:
        return None
    return day if FIRST_DAY <= day <= LAST_DAY else None


def hour_of(text):
    return int(text) if re.fullmatch(r"[01]\d|2[0-3]", text, re.ASCII) else None


def moment_of(text):
    """Returns the number of minutes from 1970-01-01T00:00 to the moment in the text, or None if the
    text isn't a moment from 2000 to 2099."""
    found = re.fullmatch(r"(\d{4}-\d{2}-\d{2})T([01]\d|2[0-3]):([0-5]\d)", text, re.ASCII)
    day = day_of(found[1]) if found else None
    return None if day is None else (day * 24 + int(found[2])) * 60 + int(found[3])


def number_of(text, most):
    return (
        int(text) if re.fullmatch(r"0|[1-9]\d{0,8}", text, re.ASCII) and int(text) <= most else None
    )


def listed(text, words):
    """Reads a list of one or more of these words with commas between them, in the order of `words`.
    Returns the places of the words in `words`, or False if the text isn't such a list."""
    places = [words.index(it) if it in words else None for it in text.split(",")]
    return (
        None not in places and all(one < other for one, other in zip(places, places[1:])) and places
    )


def facility_test(text):
    names = text.split(",")
    if len(names) <= 8 and all(re.fullmatch(NAME, it) for it in names):
        return lambda ask: ask.slot is not None and ask.slot[0] in names
    return None


def kind_test(text):
    return (lambda ask: ask.slot is not None and ask.kind == text) if text in KINDS else None


def hours_test(text):
    found = re.fullmatch(r"(\d\d)-(\d\d)", text, re.ASCII)
    if found and int(found[1]) < int(found[2]) <= 24:
        return lambda ask: ask.slot is not None and int(found[1]) <= ask.slot[2] < int(found[2])
    return None


def days_test(text):
    first, found, last = text.partition("..")
    first, last = day_of(first), day_of(last)
    if found and first is not None and last is not None and first <= last:
        return lambda ask: ask.slot is not None and first <= ask.slot[1] <= last
    return None


def weekday_test(text):
    days = listed(text, WEEKDAYS)
    return (lambda ask: ask.slot is not None and (ask.slot[1] + 3) % 7 in days) if days else None


def until_test(text):
    end = moment_of(text)
    return None if end is None else lambda ask: ask.moment < end


def guests_test(text):
    most = number_of(text, 49)
    return None if most is None else lambda ask: ask.action != "book" or ask.guests <= most


def spend_test(text):
    most = number_of(text, 999_999_999)
    return None if most is None else lambda ask: ask.owed == 0 or ask.spent + ask.owed <= most


def actions_test(text):
    actions = listed(text, ACTIONS)
    return (lambda ask: ACTIONS.index(ask.action) in actions) if actions else None


LINES = (
    ("facility = ", facility_test),
    ("kind = ", kind_test),
    ("hours = ", hours_test),
    ("days = ", days_test),
    ("weekday = ", weekday_test),
    ("until < ", until_test),
    ("guests <= ", guests_test),
    ("spend <= ", spend_test),
    ("actions = ", actions_test),
)


def test_of(caveat):
    """Returns the predicate on an Ask that a caveat states, or None if the caveat isn't
    understood."""
    if len(caveat) > MOST_BYTES or not caveat.isascii():
        return None
    text = caveat.decode()
    return next((test(text[len(front) :]) for front, test in LINES if text.startswith(front)), None)


NOT_UNDERSTOOD, DENIES = 11, 12


def first_fault(caveats, ask):
    """Finds the first caveat that isn't understood or that denies the request. Returns the fault
    and the number of this caveat, counted from 1. Returns None if all caveats allow the request."""
    for number, caveat in enumerate(caveats, 1):
        test = test_of(caveat)
        if test is None:
            return NOT_UNDERSTOOD, number
        if not test(ask):
            return DENIES, number
    return None

"""Parses arguments. Each function takes a word and returns the word's value, or raises a fault if the word is invalid."""

import datetime
import re

from club_office.faults import bad_value
from club_office.texts import WEEKDAYS


NAME = re.compile(r"[a-z0-9][a-z0-9-]{0,23}")
# The name of a copy. A nightly copy's name is its moment in UTC. The name of a correction's copy has the moment in the club's zone and the
# correction's command. If two corrections happen in one second, the name of the second copy also has a number.
COPY = re.compile(
    r"20[0-9]{2}-[0-9]{2}-[0-9]{2}T(?:[0-9]{6}Z|[0-9]{2}-[0-9]{2}-[0-9]{2}-[a-z-]+(?:-[0-9]{1,3})?)"
)
EPOCH = datetime.date(1970, 1, 1)
MOST_CHARGE = 499_950
MOST_NUMBER = 999_999_999
MOST_CREDIT = 1_000_000


def name(word):
    if not NAME.fullmatch(word):
        raise bad_value("no name of", word=word)
    return word


def number(least, most):
    def value(word):
        if not re.fullmatch(r"[0-9]{1,9}", word) or not least <= int(word) <= most:
            raise bad_value("no number of", word=word, least=least, most=most)
        return int(word)

    return value


def day(word):
    try:
        found = datetime.date.fromisoformat(word)
    except ValueError:
        found = None
    if not found or found.isoformat() != word or not 2000 <= found.year <= 2099:
        raise bad_value("no day of", word=word)
    return (found - EPOCH).days


def days(word):
    """Returns the days of a word: one day, or a span such as 2026-12-01..2027-03-31."""
    first, dots, last = word.partition("..")
    begin, end = day(first), day(last if dots else first)
    if not begin <= end <= begin + 400:
        raise bad_value("no days of", word=word)
    return range(begin, end + 1)


def hours(word):
    found = re.fullmatch(r"([0-9]{1,2})-([0-9]{1,2})", word)
    if not found or not int(found[1]) < int(found[2]) <= 24:
        raise bad_value("no hours of", word=word)
    return int(found[1]), int(found[2])


def weekday(word):
    """Returns the number of a weekday, counted from Monday. The word is the beginning of the weekday's name in a language of the office."""
    for language in WEEKDAYS.values():
        for place, called in enumerate(language):
            if len(word) > 1 and called.lower().startswith(word.lower()):
                return place
    raise bad_value("no weekday", word=word)


def hour_or_hours(word):
    """Returns the first hour and the hour after the last hour. The word is one hour or a span of hours."""
    if re.fullmatch("[0-9]{1,2}", word) and int(word) < 24:
        return int(word), int(word) + 1
    return hours(word)


def names(word):
    """Returns the names in a list with commas between them."""
    return [name(it) for it in word.split(",")]


def moment(word):
    try:
        found = datetime.datetime.strptime(word, "%Y-%m-%dT%H:%M")
    except ValueError:
        found = None
    if not found or found.strftime("%Y-%m-%dT%H:%M") != word or not 2000 <= found.year <= 2099:
        raise bad_value("no moment", word=word)
    return (found.date() - EPOCH).days * 1440 + found.hour * 60 + found.minute


def copy_name(word):
    if not COPY.fullmatch(word):
        raise bad_value("no copy name", word=word)
    return word


def moment_text(minute):
    return f"{date_of(minute // 1440)}T{minute // 60 % 24:02d}:{minute % 60:02d}"


def date_of(day_number):
    return (EPOCH + datetime.timedelta(days=day_number)).isoformat()

"""Asks a clerk questions at a terminal. Ctrl-C or the end of input cancels a question before the command has changed anything."""

import datetime
import sys
import textwrap

from club_office.reading import found, read_day, read_facilities, read_hours
from club_office.texts import day_text, means, say

# The greatest number of matches in a printed list.
MOST_LISTED = 15
BOOKABLE_DAYS = 60


class Back(Exception):
    """The clerk cancelled a question."""


def is_terminal():
    return sys.stdin.isatty() and sys.stdout.isatty()


def show_lines(lines):
    """Prints lines, wrapped at 80 columns on a terminal."""
    for line in lines:
        if sys.stdout.isatty():
            line = textwrap.fill(
                line, 80, subsequent_indent="    ", break_long_words=False, break_on_hyphens=False
            )
        print(line, flush=True)


def ask(text):
    """Returns the clerk's answer without spaces at its ends."""
    try:
        return input(text).strip()
    except (EOFError, KeyboardInterrupt):
        print()
        raise Back from None


def confirms(question="shall", **values):
    """Returns whether the clerk answers a question with yes. The prompt goes to standard output. The answer comes from standard input, even if
    standard input isn't a terminal."""
    print(say(question, **values), end="", flush=True)
    try:
        return means("yes", sys.stdin.buffer.readline(100).decode(errors="replace"))
    except KeyboardInterrupt:
        print()
        return False


def chosen(typed, names, about=lambda name: ""):
    """Lets the clerk choose one of several names by its number."""
    print(say("several fit", typed=typed))
    for number, name in enumerate(names[:MOST_LISTED], 1):
        print(f"  {number:2} {name}  {about(name)}".rstrip())
    if len(names) > MOST_LISTED:
        print("     " + say("more", count=len(names) - MOST_LISTED))
    while True:
        answer = ask(say("which"))
        if not answer:
            raise Back
        if answer.isdigit() and 0 < int(answer) <= min(len(names), MOST_LISTED):
            return names[int(answer) - 1]
        fits = found(answer, names)
        if len(fits) == 1:
            return fits[0]


def until_read(prompt, read, fault):
    """Asks until the clerk gives a readable answer. An empty answer cancels the question. `fault` is the text for an unreadable answer, or a function
    that returns the text."""
    while True:
        answer = ask(f"{prompt}: ")
        if not answer:
            raise Back
        value = read(answer)
        if value is not None:
            return value
        print("   " + (fault(answer) if callable(fault) else fault))


def ask_name(prompt, names, about=lambda name: "", fitting=found):
    """Lets the clerk choose one of the names by typing a part of it."""
    if not names:
        print("   " + say("none yet"))
        raise Back

    def read(typed):
        fits = fitting(typed, names)
        return None if not fits else fits[0] if len(fits) == 1 else chosen(typed, fits, about)

    name = until_read(prompt, read, say("nobody"))
    print(f"   -> {name}  {about(name)}".rstrip())
    return name


def ask_day(prompt, today):
    day = until_read(prompt, lambda typed: read_day(typed, today), say("no day"))
    print(f"   -> {day_text(day)}")
    return day


def doubts(day, today):
    """Returns a warning if a day for a booking or a closure is past or far ahead. Returns None if members can book the day."""
    if day < today:
        return say("is past", day=day_text(day))
    if day > today + datetime.timedelta(BOOKABLE_DAYS):
        return say("is far", day=day_text(day), ahead=(day - today).days)
    return None


def ask_hours(prompt):
    begin, end = until_read(prompt, read_hours, say("no hours"))
    return f"{begin}-{end}"


def number_of(typed):
    """Returns the typed number, or None if it isn't a number of 15 digits at most."""
    digits = typed.replace(".", "").replace("'", "")
    return int(digits) if digits.isascii() and digits.isdigit() and len(digits) < 16 else None


def ask_number(prompt, least, most):
    def read(typed):
        number = number_of(typed)
        return number if number is not None and least <= number <= most else None

    def fault(typed):
        number = number_of(typed)
        if number is None:
            return say("no number", least=least, most=most)
        return (
            say("number too small", least=least)
            if number < least
            else say("number too large", most=most)
        )

    return until_read(prompt, read, fault)


def ask_facilities(prompt, facilities):
    def read(typed):
        lists = read_facilities(typed, facilities)
        if not lists or not all(lists):
            return None
        return list(
            dict.fromkeys(fits[0] if len(fits) == 1 else chosen(typed, fits) for fits in lists)
        )

    names = until_read(prompt, read, say("nobody"))
    print(f"   -> {', '.join(names)}")
    return names

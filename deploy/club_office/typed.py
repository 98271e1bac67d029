"""Converts a clerk's typed words to the form that the desk's side expects. A word may be a day, hours, or several facilities. At a terminal, a word
may also be a part of a name."""

import contextlib
import datetime
import json
import re
import shlex
import sys

from club_office.asking import Back, chosen, confirms, doubts, is_terminal
from club_office.counter import as_desk
from club_office.faults import fault, refusal
from club_office.reading import (
    Facility,
    Key,
    Member,
    Names,
    found,
    found_members,
    is_all_of_a_kind,
    is_group,
    read_day,
    read_facilities,
    read_hours,
)
from club_office.texts import day_text, say


def names_of(club):
    """Reads the club's names from a copy."""
    status, text = as_desk(club, ["names"])
    if status:
        raise fault(status, "club unread")
    it = json.loads(text)
    return Names(
        {name: Member(*row) for name, row in it["members"].items()},
        {name: Key(*row) for name, row in it["keys"].items()},
        {name: Facility(*row) for name, row in it["facilities"].items()},
        it["written"],
    )


def print_names(db, words, _now):
    """Prints the names that names_of reads."""
    members = db.execute(
        "SELECT name, credited, max(credited - used, 0), quota FROM members ORDER BY name"
    )
    keys = db.execute("SELECT name, member, revoked FROM keys ORDER BY name")
    facilities = db.execute(
        "SELECT name, kind, opens, shuts, places, price FROM facilities ORDER BY rowid"
    )
    named = (("members", members), ("keys", keys), ("facilities", facilities))
    made = {what: {row[0]: row[1:] for row in rows} for what, rows in named}
    written = {member: person.name for member, person in words.people.items()}
    json.dump({**made, "written": written}, sys.stdout)


class Reader:
    """Converts the words of one command. Reads the club's names at most once."""

    def __init__(self, club, called):
        self.club, self.called = club, called
        self.today = datetime.date.today()
        self.known = None
        self.is_guessed = False

    @property
    def names(self):
        if not self.known:
            self.known = names_of(self.club)
        return self.known

    def day(self, word):
        found_day = read_day(word, self.today)
        return word if found_day is None else self.echoed(word, str(found_day), day_text(found_day))

    def days(self, word):
        """Converts a day, or two days with .. between them."""
        return "..".join(map(self.day, word.split("..")))

    def hours(self, word):
        read = read_hours(word)
        return f"{read[0]}-{read[1]}" if read and not re.fullmatch("[0-9]{1,2}", word) else word

    def hour(self, word):
        """Converts an hour, or several hours, to clubdesk's form."""
        read = None if word.isdigit() else read_hours(word)
        if not read:
            return word
        return f"{read[0]:02d}" if read[1] == read[0] + 1 else f"{read[0]}-{read[1]}"

    def member(self, word):
        return self.one_of(word, lambda: found_members(word, self.names))

    def key(self, word):
        return self.one_of(word, lambda: found(word, self.names.keys))

    def facility(self, word):
        return self.one_of(word, lambda: found(word, self.names.facilities))

    def facilities(self, word):
        """Converts a facility, several facilities with commas between them, a kind, or all."""
        if not is_terminal() and not is_group(word):
            return word
        lists = read_facilities(word, self.names.facilities)
        if not lists or not all(lists):
            return word
        named = [fits[0] if len(fits) == 1 else self.choice(word, fits) for fits in lists]
        return self.echoed(word, ",".join(dict.fromkeys(named)))

    def what(self, word):
        """Converts a day, a member or a facility."""
        if read_day(word, self.today) and not (
            word.isalpha() and word in {*self.names.members, *self.names.facilities}
        ):
            return self.day(word)
        return self.one_of(
            word,
            lambda: list(
                dict.fromkeys(
                    [*found_members(word, self.names), *found(word, self.names.facilities)]
                )
            ),
        )

    def one_of(self, word, fitting):
        """Returns the name that contains the word. Without a terminal the word must be the whole name, because no clerk can choose among several
        names."""
        if not is_terminal():
            return word
        fits = fitting()
        if not fits:
            return word
        name = fits[0] if len(fits) == 1 else self.choice(word, fits)
        self.is_guessed |= name != word
        return self.echoed(word, name)

    def choice(self, word, fits):
        try:
            return chosen(word, fits)
        except Back:
            raise refusal("not confirmed") from None

    def echoed(self, word, read, text=None):
        """At a terminal, prints how the office read a word if the result differs from the typed word. Uses standard error, so that standard output
        has only the command's output."""
        if read != word and is_terminal():
            print(f"{word}: {text or read}", file=sys.stderr)
        return read


# Maps the name of each kind of word to its converter.
READS = {
    "MEMBER": Reader.member,
    "KEY": Reader.key,
    "FACILITY": Reader.facility,
    "FACILITIES": Reader.facilities,
    "DAY": Reader.day,
    "DAYS": Reader.days,
    "HOURS": Reader.hours,
    "HOUR": Reader.hour,
    "MEMBER|DAY|FACILITY": Reader.what,
}
# These commands accept only a complete key name, and don't search for a part of a name.
MAKES_A_KEY = ("add-key", "letters")


def places_of(command):
    """Returns the kinds of a command's positional words, in order. Also returns whether the last kind may repeat, and which options take a value."""
    called, is_repeated, takes_value = [], False, set()
    for place, how in command.words:
        if place.startswith("-"):
            takes_value |= set() if how.get("action") else {place}
        else:
            called.append(how["metavar"])
            is_repeated = how.get("nargs") == "+"
    return called, is_repeated, takes_value | {"--at"}


def read_words(reader, command, words):
    """Returns a command's words in the form that the desk's side expects. Among the values of options, converts only days."""
    called, is_repeated, takes_value = places_of(command)
    made, place, option, is_over = [], 0, None, False
    for word, following in zip(words, [*words[1:], ""]):
        if option:
            made.append(reader.day(word) if option == "--before" else word)
            option = None
        elif word.startswith("-") and not is_over and not re.fullmatch("-[0-9]+", word):
            is_over = word == "--"
            option = word if word in takes_value else None
            made.append(word)
        else:
            what = (
                called[min(place, len(called) - 1) if is_repeated else place]
                if is_repeated or place < len(called)
                else ""
            )
            if what == "FACILITIES" and is_all_of_a_kind(word, following):
                continue
            is_new = what == "KEY" and reader.called in MAKES_A_KEY
            made.append(word if is_new or what not in READS else READS[what](reader, word))
            place += 1
    return made


def usual_points(names):
    """Returns the median of the members' credits, or 0. Leaves out members without credit."""
    credited = sorted(it.credited for it in names.members.values() if it.credited)
    return credited[len(credited) // 2] if credited else 0


# Commands that close slots, each with the position of the day among its words.
DAY_AT = {"close": 0, "close-slot": 1}


def without_options(command, words):
    """Returns the words that are neither options nor values of options."""
    _, _, takes_value = places_of(command)
    return [
        it
        for before, it in zip(["", *words], words)
        if not it.startswith("--") and before not in takes_value
    ]


def confirms_odd(reader, command, words, is_order):
    """Asks the clerk to confirm odd input: a past day, a day far ahead, many points, or a guessed name. A guessed name counts as odd only if
    `is_order` is true. If a word means several days, checks only the first day."""
    odd, called = [], reader.called
    plain = without_options(command, words)
    with contextlib.suppress(KeyError, IndexError, ValueError):
        odd.append(
            doubts(
                datetime.date.fromisoformat(plain[DAY_AT[called]].partition("..")[0]), reader.today
            )
        )
    if called in ("credit", "credit-all") and plain and plain[-1].isdigit():
        usual = usual_points(reader.names)
        if usual and int(plain[-1]) > 10 * usual:
            odd.append(say("is much", points=plain[-1], usual=usual))
    odd = [it for it in odd if it]
    is_guessed = is_order and reader.is_guessed
    if is_guessed:
        odd.append(shlex.join(["office", reader.club.name, called, *words]))
    for it in odd:
        print(it)
    if odd and not confirms("go on"):
        raise refusal("not confirmed")

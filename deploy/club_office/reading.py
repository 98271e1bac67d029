"""Parses a clerk's input: parts of names, days, hours, several facilities. Each parser returns a value for the commands. A parser returns None or an
empty list if it can't parse the input."""

import collections
import datetime
import re
import unicodedata

from club_office.texts import MONTHS, WEEKDAYS

LETTERS = {
    "ä": "ae",
    "ö": "oe",
    "ü": "ue",
    "ß": "ss",
    "æ": "ae",
    "ø": "oe",
    "å": "aa",
    "œ": "oe",
    "đ": "d",
    "ł": "l",
    "þ": "th",
    "ð": "d",
    "ı": "i",
    "ə": "e",
    "ħ": "h",
    "ŧ": "t",
    "ŋ": "n",
}
# The facts about a club that the parsers use. `members` has each member's credit, balance and quota. `keys` has each key's member, and whether the
# key is revoked. `facilities` has each facility's kind, hours, places and price. `written` has the members' known full names.
Names = collections.namedtuple("Names", "members keys facilities written")
Member = collections.namedtuple("Member", "credited balance quota")
Key = collections.namedtuple("Key", "member revoked")
Facility = collections.namedtuple("Facility", "kind opens shuts places price")


def plain(text):
    """Returns the text in the form of names: in lower case and without accents."""
    text = "".join(
        LETTERS.get(letter, letter) for letter in unicodedata.normalize("NFC", text.strip()).lower()
    )
    return "".join(
        letter
        for letter in unicodedata.normalize("NFKD", text)
        if not unicodedata.combining(letter)
    )


def fitted(text, most):
    """Makes a name from a text. The name consists of lower-case letters, digits and hyphens, and has at most `most` characters."""
    return re.sub(r"[^a-z0-9]+", "-", plain(text)).strip("-")[:most].strip("-")


def loose(text):
    """Drops the e of each umlaut, so that `muller` matches `mueller`."""
    return re.sub("([aou])e", r"\1", text)


def found(typed, names):
    """Returns the names that contain each typed part. If a name equals the typed text, returns only that name."""
    if typed in names:
        return [typed]
    parts = re.findall("[a-z0-9]+", plain(typed))
    if not parts:
        return []
    whole = "-".join(parts)
    if whole in names:
        return [whole]
    # In the first round, a typed plain vowel also matches an umlaut in a name. If no name matches, a typed umlaut also matches a plain vowel in the
    # second round.
    for made in (lambda text: text, loose):
        fits = [
            it for it in names if all(made(part) in made(it) or part in loose(it) for part in parts)
        ]
        if fits:
            return sorted(
                fits,
                key=lambda it: (
                    not any(word.startswith(made(parts[0])) for word in made(it).split("-")),
                    it,
                ),
            )
    return []


def found_members(typed, names):
    """Returns the members that the text may mean, found by their names or their full names."""
    fits = found(typed, names.members)
    parts = re.findall("[a-z0-9]+", plain(typed))
    if typed in fits or not parts:
        return fits
    written = [
        it
        for it, name in names.written.items()
        if it in names.members and all(part in plain(name) for part in parts)
    ]
    return list(dict.fromkeys([*fits, *written]))


# ---- Days.

NEAR = {
    "today": 0,
    "heute": 0,
    "now": 0,
    "tomorrow": 1,
    "morgen": 1,
    "uebermorgen": 2,
    "yesterday": -1,
    "gestern": -1,
    "vorgestern": -2,
}


def read_day(text, today):
    """Returns the day that a text means on the day `today`, or None. A weekday or a day of a month means the next such day, which may be today."""
    text = plain(text).rstrip(",")
    if text in NEAR:
        return today + datetime.timedelta(NEAR[text])
    if re.fullmatch(r"[+-][0-9]{1,4}", text):
        return today + datetime.timedelta(int(text))
    if len(text) >= 2 and text.isalpha():
        for language in WEEKDAYS.values():
            for place, weekday in enumerate(language):
                if plain(weekday).startswith(text):
                    return today + datetime.timedelta((place - today.weekday()) % 7)
    try:
        return dated(text, today)
    except ValueError:
        return None


def dated(text, today):
    """Parses a date such as 2026-12-05, 5.12., 5.12.2026, 5 December, or 5. Dezember 2026."""
    if re.fullmatch(r"[0-9]{4}-[0-9]{2}-[0-9]{2}", text):
        return datetime.date.fromisoformat(text)
    parts = re.fullmatch(r"([0-9]{1,2})\. ?([0-9]{1,2})\.? ?([0-9]{4}|[0-9]{2})?", text)
    if parts:
        return next_of(today, int(parts[1]), int(parts[2]), parts[3])
    parts = re.fullmatch(r"([0-9]{1,2})\.? ([a-z]{3,})\.? ?([0-9]{4})?", text)
    if parts:
        month = next(
            (
                n
                for names in MONTHS.values()
                for n, it in enumerate(names, 1)
                if plain(it).startswith(parts[2]) or loose(plain(it)).startswith(parts[2])
            ),
            0,
        )
        return next_of(today, int(parts[1]), month, parts[3])
    raise ValueError


def next_of(today, day, month, year):
    if year:
        return datetime.date(int(year) + (2000 if len(year) == 2 else 0), month, day)
    for candidate in range(today.year, today.year + 5):  # the 29th of February isn't in each year
        try:
            made = datetime.date(candidate, month, day)
        except ValueError:
            continue
        if made >= today:
            return made
    raise ValueError


# ---- Hours, facilities.


def read_hours(text):
    """Returns the first hour and the hour after the last hour, or None. The text is, for example, 15-17, 15, 15:00-17:00 or 15 Uhr."""
    text = (
        re.sub(r"(:00|uhr|h)\b|\s", "", text.strip().lower())
        .replace("–", "-")
        .replace("bis", "-")
        .replace("to", "-")
    )
    parts = re.fullmatch(r"([0-9]{1,2})(?:-([0-9]{1,2}))?", text)
    if not parts:
        return None
    begin = int(parts[1])
    end = int(parts[2]) if parts[2] else begin + 1
    return (begin, end) if begin < end <= 24 else None


ALL = ("all", "alle", "alles", "*")
KINDS = {
    "court": ("court", "courts", "platz", "plaetze", "platze"),
    "boat": ("boat", "boats", "boot", "boote"),
    "room": ("room", "rooms", "raum", "raeume", "raume"),
}


def is_all_of_a_kind(word, following):
    """Returns whether two words mean all facilities of a kind, as `all courts` does."""
    return plain(word) in ALL and any(plain(following) in called for called in KINDS.values())


def is_group(word):
    """Returns whether a word means all facilities, or all facilities of a kind."""
    return plain(word) in ALL or any(plain(word) in called for called in KINDS.values())


def read_facilities(text, facilities):
    """Finds the facilities that a text means. The text is `all`, a kind such as `courts`, or parts of names with commas or spaces between them.
    Returns a list of matching facilities for each part. If a list has several facilities, the caller chooses one.
    """
    words = [it for it in re.split(r"[\s,]+", text.strip()) if it]
    if all(plain(it) in ALL for it in words) and words:
        return [[it] for it in facilities]
    if len(words) > 1 and plain(words[0]) in ALL:
        words = words[1:]
    # One name may contain a space, as in `court 1`.
    whole = (
        found(text, facilities)
        if "," not in text and not all(it in facilities for it in words)
        else []
    )
    if len(whole) == 1:
        return [whole]
    lists = []
    for word in words:
        kind = next((kind for kind, called in KINDS.items() if plain(word) in called), None)
        if word not in facilities and kind:
            lists += [[it] for it, about in facilities.items() if about.kind == kind]
        else:
            lists.append(found(word, facilities))
    return lists

"""Writes club.json for the booking page. club.json has the club's name, zone, contact, imprint, privacy page and logo, and the club's facilities with
titles, kinds and hours."""

import base64
import json
import os
import re

from club_office.faults import STORAGE, fault, refusal
from club_office.texts import say

ZONES = "/usr/share/zoneinfo"
# The greatest number of UTF-16 code units in a title on the page. JavaScript measures texts in UTF-16 code units.
MOST_TITLE = 80


def rule_of(zone, zones=ZONES):
    """Returns a zone's POSIX rule, which is the last line of the zone's file."""
    if not re.fullmatch(r"[A-Za-z0-9_+-]+(/[A-Za-z0-9_+-]+)*", zone):
        raise refusal("no zone name", zone=zone)
    try:
        with open(os.path.join(zones, zone), "rb") as file:
            return file.read().rstrip(b"\n").rpartition(b"\n")[2].decode(errors="replace")
    except OSError:
        raise refusal("no zone", zone=zone, path=zones) from None


def wants_rule(zone, rule, zones=ZONES):
    """Refuses a zone if its rule isn't the server's rule."""
    found = rule_of(zone, zones)
    if found != rule:
        raise refusal("other zone", zone=zone, found=found, rule=rule)


def titles_of(path, facilities):
    """Reads the titles of facilities from a file. Each line names one facility, such as `court-1 Court 1`. Refuses the first line that has another
    form. Ignores empty lines and lines that begin with #."""
    try:
        with open(path, "rb") as file:
            lines = file.read().removeprefix(b"\xef\xbb\xbf").split(b"\n")
    except FileNotFoundError:
        raise refusal("no file", path=path) from None
    except OSError as failure:
        raise fault(STORAGE, "cannot be read", path=path, fault=failure) from None
    found = {}
    for number, line in enumerate(lines, 1):
        try:
            text = line.decode().strip()
            if text and not text.startswith("#"):
                add_title(
                    found,
                    *(text.split(None, 1) if " " in text or "\t" in text else (text, "")),
                    number,
                    facilities,
                )
        except UnicodeDecodeError:
            raise refusal("in line", path=path, line=number, why=say("no UTF-8")) from None
        except ValueError as failure:
            raise refusal("in line", path=path, line=number, why=failure) from None
    return {name: titled for name, (_, titled) in found.items()}


def add_title(found, name, written, line, facilities):
    title, bar, about = (" ".join(it.split()) for it in written.partition("|"))
    if name not in facilities:
        raise ValueError(say("club without", name=name))
    if name in found:
        raise ValueError(say("titled already", name=name, line=found[name][0]))
    if bar and (
        not about or not about.isprintable() or len(about.encode("utf-16-le")) > 2 * MOST_SENTENCE
    ):
        raise ValueError(say("no sentence", most=MOST_SENTENCE))
    if not title or not title.isprintable():
        raise ValueError(say("title unprinted" if title else "no title", name=name))
    if len(title.encode("utf-16-le")) > 2 * MOST_TITLE:
        raise ValueError(say("title too long", most=MOST_TITLE))
    found[name] = line, {"title": title, **({"about": about} if about else {})}


# The settings of a club that the page also shows: contact, imprint and privacy page.
MORE = ("contact", "imprint", "privacy")
MOST_SENTENCE = 200
MOST_PICTURE = 29_000
PICTURES = {".svg": "svg+xml", ".png": "png", ".jpg": "jpeg", ".jpeg": "jpeg", ".webp": "webp"}


def more_of(given):
    """Returns contact, imprint, privacy page and logo from the settings. The logo's setting is the path of a file."""
    found = {it: setting_of(it, given[it]) for it in MORE if given.get(it)}
    if given.get("logo"):
        found["logo"] = logo_of(given["logo"])
    return found


def setting_of(what, value):
    """Returns the value of a setting that the page shows, or refuses it."""
    if not value.isprintable() or len(value.encode("utf-16-le")) > 2 * MOST_SENTENCE:
        raise refusal("setting unprinted", what=what.upper(), most=MOST_SENTENCE)
    if what != "contact" and not re.fullmatch(r"https://[^\s\"'<>\\]+", value):
        raise refusal("no address", what=what.upper())
    return value


def logo_of(path):
    kind = PICTURES.get(os.path.splitext(path)[1].lower())
    try:
        with open(path, "rb") as file:
            data = file.read(MOST_PICTURE + 1)
    except OSError as failure:
        raise fault(STORAGE, "cannot be read", path=path, fault=failure) from None
    if kind is None or len(data) > MOST_PICTURE:
        raise refusal("no logo", path=path, most=MOST_PICTURE)
    return f"data:image/{kind};base64,{base64.b64encode(data).decode()}"


def page_of(db, name, zone, titles_file, closures=(), more=()):
    """Returns the text of club.json. A title may have a sentence after it, as in `court-1 Court 1 | Clay, flat soles`."""
    rows = db.execute("SELECT name, kind, opens, shuts FROM facilities ORDER BY rowid").fetchall()
    titles = titles_of(titles_file, {row[0] for row in rows}) if titles_file else {}
    if not name.isprintable():
        raise refusal("club name unprinted")
    facilities = [
        {"name": each, **titles.get(each, {}), "kind": kind, "opens": opens, "shuts": shuts}
        for each, kind, opens, shuts in rows
    ]
    found = {
        "name": name,
        "zone": zone,
        "facilities": facilities,
        **({"closures": closures} if closures else {}),
        **dict(more),
    }
    return json.dumps(found, ensure_ascii=False, separators=(",", ":")) + "\n"

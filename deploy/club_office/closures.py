"""Keeps the reasons for closed slots, which the page shows. The reasons are in a JSON file next to the club. Each entry has a facility, a day, hours
and a reason."""

import json
import os

from club_office.copies import synced
from club_office.faults import bad_value
from club_office.plans import days_of, unique
from club_office.values import date_of

MOST_LETTERS = 60


def reason(word):
    """A reason that a page shows."""
    text = " ".join(word.split())
    if not text or not text.isprintable() or len(text) > MOST_LETTERS:
        raise bad_value("no reason", word=word, most=MOST_LETTERS)
    return text


def reasons_of(club):
    """Returns the entries of the file, oldest first. Returns no entries if the file is missing or isn't JSON."""
    try:
        with open(club.file + "-reasons", encoding="utf-8") as file:
            return json.load(file)
    except (FileNotFoundError, ValueError):
        return []


def add_reasons(club, words, today):
    """Adds reasons for closed slots, and removes the reasons for past slots."""
    begin, end = words.hours
    more = [
        {"facility": facility, "day": day, "from": begin, "until": end, "why": words.why}
        for day in days_of(words)
        for facility in unique(words.facilities)
    ]
    kept = [it for it in reasons_of(club) if it["day"] >= today and it not in more] + more
    made = club.file + "-reasons.new"
    with open(made, "w", encoding="utf-8") as file:
        json.dump(kept, file, ensure_ascii=False)
        file.flush()
        os.fsync(file.fileno())
    os.rename(made, club.file + "-reasons")
    synced(os.path.dirname(club.file))


def closures_of(db, reasons, today):
    """Returns the closed hours from today on that have a reason, in the form that the page reads. If an hour has several reasons, the newest reason
    applies."""
    why = {
        (it["facility"], it["day"], hour): it["why"]
        for it in reasons
        for hour in range(it["from"], it["until"])
    }
    found = []
    for facility, day, hour in db.execute(
        "SELECT facility, day, hour FROM slots WHERE closed = 1 AND day >= ? ORDER BY facility, day, hour",
        [today],
    ):
        text = why.get((facility, day, hour))
        last = found[-1] if found else None
        if (
            text
            and last
            and (last["facility"], last["day"], last["until"], last["why"])
            == (facility, date_of(day), hour, text)
        ):
            last["until"] = hour + 1
        elif text:
            found.append(
                {
                    "facility": facility,
                    "day": date_of(day),
                    "from": hour,
                    "until": hour + 1,
                    "why": text,
                }
            )
    return found

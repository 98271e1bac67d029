"""Keeps persons: the members' full names, mail addresses and telephone numbers. The persons are in FILE-people.csv next to the club's file, with the
mode and owner of the club's file. Personal data never gets into the book, an argument of a process, or a copy of the club."""

import collections
import contextlib
import csv
import datetime
import io
import json
import os
import re
import sys

from club_office.book import Turn
from club_office.clubs import wants_file
from club_office.copies import snapshot, synced
from club_office.faults import bad_value
from club_office.lists import unformed, wants_row
from club_office.mailer import sent
from club_office.texts import day_text, say
from club_office.values import date_of

Person = collections.namedtuple("Person", "name mail telephone")
NOBODY = Person("", "", "")
HEADS = ["member", *Person._fields]
MOST_LETTERS = 100


def people_of(club):
    return club.settings["file"] + "-people.csv"


def read_people(club):
    """Returns the persons by the names of the members. Returns no person if there is no file."""
    with contextlib.suppress(FileNotFoundError), open(
        people_of(club), encoding="utf-8", newline=""
    ) as file:
        rows = csv.DictReader(file)
        return {
            row["member"]: Person(*(text_of_cell(row.get(it) or "") for it in Person._fields))
            for row in rows
            if row.get("member")
        }
    return {}


def cell_of(text):
    """Returns a cell that no spreadsheet takes for a formula. An apostrophe precedes a text that would be a formula, or such a cell."""
    return f"'{text}" if unformed(text.lstrip("'")) != text.lstrip("'") else text


def text_of_cell(cell):
    """Returns the text of a cell that `cell_of` made, or of a cell without an apostrophe."""
    return cell[1:] if cell[:1] == "'" and cell_of(cell[1:]) == cell else cell


def person_of_row(row):
    """Returns the person of a row, or raises a fault if a cell has another form."""
    return person_of({it: text_of_cell(row.get(it) or "") for it in Person._fields})


def rows_text(people):
    """Returns the persons by the names of the members, in the form of the file."""
    made = io.StringIO(newline="")
    rows = csv.writer(made, lineterminator="\n")
    rows.writerow(HEADS)
    rows.writerows([member, *map(cell_of, person)] for member, person in sorted(people.items()))
    return made.getvalue()


def write_people(club, people):
    made = people_of(club) + ".new"
    with open(
        os.open(made, os.O_WRONLY | os.O_CREAT | os.O_TRUNC, 0o600),
        "w",
        encoding="utf-8",
        newline="",
    ) as file:
        file.write(rows_text(people))
        file.flush()
        os.fsync(file.fileno())
    os.rename(made, people_of(club))
    synced(os.path.dirname(club.file))


def person_of(values):
    """Makes a person from typed or imported values. Joins the lines of a value, and refuses a value that is too long or unprintable."""
    found = Person(*(" ".join(str(values.get(it) or "").split()) for it in Person._fields))
    for it in found:
        if len(it) > MOST_LETTERS or not it.isprintable():
            raise bad_value("person too long", most=MOST_LETTERS)
    if found.mail and not re.fullmatch(r"[^@\s<>,;\"]+@[A-Za-z0-9.-]+", found.mail):
        raise bad_value("no mail address")
    if found.telephone and not re.fullmatch(r"[0-9 +()/.-]+", found.telephone):
        raise bad_value("no telephone")
    return found


def set_person(club, words):
    """Reads a member's personal data from standard input, as JSON, and stores the data. The book has only the member's name."""
    wants_file(club)
    try:
        values = json.loads(sys.stdin.buffer.read(10_000))
    except ValueError:
        raise bad_value("no person") from None
    person = person_of(values if isinstance(values, dict) else {})

    def act():
        with snapshot(club) as db:
            wants_row(db, "members", words.member)
        keep_person(club, words.member, person)
        return 0

    with Turn(club) as turn:
        status = turn.order(["person", words.member], act)
    print(say("done"))
    return status


def keep_person(club, member, person):
    """The caller must have the turn."""
    people = read_people(club)
    people[member] = person
    write_people(club, {it: about for it, about in people.items() if about != NOBODY})


def forget_person(club, member):
    """Removes the personal data of a leaving member. The caller must have the turn."""
    people = read_people(club)
    if people.pop(member, None):
        write_people(club, people)


def show_person(club, words):
    found = read_people(club).get(words.member, NOBODY)
    json.dump(found._asdict(), sys.stdout)
    return 0


# ---- Whom a correction concerns.


def concerned_text(person):
    return "  ".join(it for it in person if it)


def show_concerned(club, members):
    """Lists the known persons whom a correction affects, so that the clerk can tell them."""
    people = read_people(club)
    known = [people[it] for it in dict.fromkeys(members) if it in people]
    if known:
        print(say("to tell"), *(f"    {concerned_text(it)}" for it in known), sep="\n")


def greeted(name):
    """Returns a full name as a mail greets its owner. `Müller, Bob` becomes `Bob Müller`."""
    surname, _, first = (it.strip() for it in name.partition(","))
    return f"{first} {surname}" if first else surname


def titles_for_members(club):
    """Returns the titles of facilities by their names. Without a readable file of titles, a mail has the names."""
    with contextlib.suppress(OSError, UnicodeDecodeError, TypeError):
        with open(club.settings.get("titles"), encoding="utf-8-sig") as file:
            pairs = [line.split(None, 1) for line in file if not line.startswith("#")]
        return {it[0]: it[1].partition("|")[0].strip() for it in pairs if len(it) == 2}
    return {}


def mail_of(club, name, bookings):
    """Returns the subject and the text of a mail about a person's cancelled bookings."""
    titles, several = titles_for_members(club), " several" if len(bookings) > 1 else ""
    lines = [
        "- "
        + say(
            "mail slot",
            facility=titles.get(it.facility, it.facility),
            day=day_text(datetime.date.fromisoformat(date_of(it.day))),
            hour=it.hour,
        )
        for it in bookings
    ]
    text = say(
        f"mail text{several}",
        name=greeted(name),
        lines="\n".join(lines),
        points=sum(it.charge for it in bookings),
        club=club.title,
    )
    return say(f"mail subject{several}", club=club.title), text


def mail_concerned(club, bookings, record):
    """Sends each affected person a mail about the person's cancellations, with the machine's mailer. Prints which persons have no address, and which
    mails failed. A person who already got the mail according to the record gets no second mail."""
    people, of_member = read_people(club), collections.defaultdict(list)
    for it in bookings:
        of_member[it.member].append(it)
    for member, its in of_member.items():
        if member in record.content["mailed"]:
            continue
        person = people.get(member, NOBODY)
        if not person.mail:
            print(say("no mail", name=person.name or member))
            continue
        subject, text = mail_of(club, person.name or member, its)
        is_sent = sent(person.mail, subject, text)
        if is_sent:
            record.note_mail(member)
        print(say("mailed" if is_sent else "not mailed", name=person.name or member))

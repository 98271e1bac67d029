"""Reads the list of an import, which comes from a spreadsheet or another program. Finds the list's encoding, delimiter, columns and rows."""

import codecs
import collections
import contextlib
import csv
import io
import re

from club_office.faults import BAD_VALUE, OUTPUT, Fault, bad_value, fault
from club_office.people import person_of
from club_office.reading import fitted, plain
from club_office.texts import say
from club_office.values import MOST_CREDIT, name, number

Row = collections.namedtuple("Row", "line written member quota points key person")
MOST_BYTES = 2_000_000
# The accepted column names, without accents and in lower case.
HEADS = {
    "name": ("name", "member", "mitglied", "full name", "anzeigename"),
    "surname": ("surname", "last name", "family name", "nachname", "familienname"),
    "first name": ("first name", "given name", "vorname"),
    "quota": ("quota", "open bookings", "buchungen"),
    "points": ("points", "punkte", "guthaben", "credit"),
    "key": ("key", "schluessel"),
    "mail": ("mail", "e-mail", "email", "mail address", "e-mail-adresse"),
    "telephone": (
        "telephone",
        "phone",
        "tel",
        "tel.",
        "telefon",
        "telefonnummer",
        "mobile",
        "mobil",
        "handy",
    ),
}


def text_of(path):
    """Returns a file's text and its encoding."""
    try:
        with open(path, "rb") as file:
            data = file.read(MOST_BYTES + 1)
    except OSError as failure:
        raise fault(OUTPUT, "cannot be read", path=path, fault=failure) from None
    if len(data) > MOST_BYTES:
        raise fault(BAD_VALUE, "too large", path=path, most=MOST_BYTES // 1_000_000)
    for mark, called in (
        (codecs.BOM_UTF8, "utf-8-sig"),
        (codecs.BOM_UTF16_LE, "utf-16"),
        (codecs.BOM_UTF16_BE, "utf-16"),
    ):
        if data.startswith(mark):
            return decoded(path, data, called), called.upper().removesuffix("-SIG")
    try:
        return data.decode("utf-8"), "UTF-8"
    except UnicodeDecodeError:
        return decoded(path, data, "cp1252"), "Latin-1"


def decoded(path, data, called):
    try:
        return data.decode(called)
    except UnicodeDecodeError as failure:
        raise fault(OUTPUT, "cannot be read", path=path, fault=failure) from None


def columns_of(path, heads, given):
    """Returns the position of the column for each kind of value. Recognizes a column by its name, or by a map such as name=Player,points=Balance."""
    called = [plain(it) for it in heads]
    found = {}
    for what, names in HEADS.items():
        place = next((called.index(it) for it in names if it in called), None)
        if place is not None:
            found[what] = place
    for each in filter(None, (given or "").split(",")):
        what, sign, head = each.partition("=")
        if not sign or what.strip() not in HEADS or plain(head) not in called:
            raise bad_value(
                "no such column", each=each, whats=", ".join(HEADS), heads=", ".join(heads)
            )
        found[what.strip()] = called.index(plain(head))
    if "name" not in found and not {"surname", "first name"} <= set(found):
        raise fault(BAD_VALUE, "no heads", path=path, heads=", ".join(heads))
    return found


def cells_of(text):
    """Returns a list's delimiter, and a reader of the list's rows."""
    first = re.sub('"[^"]*"', "", text.lstrip("\n").split("\n", 1)[0])
    delimiter = max(",;\t", key=first.count)
    return delimiter, csv.reader(io.StringIO(text, newline=""), delimiter=delimiter, strict=True)


def lacking(path):
    """Returns which of the columns quota and points are missing. Returns neither column if the member list has another fault."""
    with contextlib.suppress(Fault, csv.Error):
        columns = columns_of(path, next(cells_of(text_of(path)[0])[1], []), None)
        return [it for it in ("quota", "points") if it not in columns]
    return []


def rows_of(words):
    """Returns the list's rows and a sentence that describes how the program read the list. All returned rows are valid. Raises a fault that names
    the first invalid line."""
    path = words.file
    text, letters = text_of(path)
    delimiter, reader = cells_of(text)
    rows, columns, heads = [], None, []
    try:
        for cells in reader:
            if columns is None:
                heads = [it.strip() for it in cells]
                columns = columns_of(path, heads, words.columns)
                for what, value in (("quota", words.quota), ("points", words.points)):
                    if what not in columns and value is None:
                        raise fault(
                            BAD_VALUE,
                            "no column",
                            path=path,
                            what=what,
                            names=", ".join(HEADS[what][1:]),
                        )
            elif any(it.strip() for it in cells):
                rows.append(row_of(path, reader.line_num, heads, cells, columns, words))
    except csv.Error as failure:
        raise fault(BAD_VALUE, "in line", path=path, line=reader.line_num, why=failure) from None
    if columns is None:
        raise fault(BAD_VALUE, "is empty", path=path)
    understood = ", ".join(f"{what} = {heads[place]}" for what, place in columns.items())
    over = [it for place, it in enumerate(heads) if place not in columns.values() and it]
    signs = {",": ",", ";": ";", "\t": "tab"}[delimiter]
    return rows, say("list read", letters=letters, sign=signs, columns=understood) + (
        say("list over", columns=", ".join(over)) if over else ""
    )


# A whole number, as spreadsheets write it: with a sign between thousands, or with zeros after a decimal sign.
THOUSANDS = re.compile(r"[0-9]{1,3}(?:([.,'’ \u00a0\u202f])[0-9]{3})(?:\1[0-9]{3})*(?:[.,]0{1,2})?")
WHOLE = re.compile(r"[0-9]+(?:[.,]0{1,2})?")


def digits(text):
    """Returns the digits of a whole number such as 5.000 or 5000,00. Returns any other text unchanged."""
    if not THOUSANDS.fullmatch(text) and not WHOLE.fullmatch(text):
        return text
    return re.sub("[^0-9]", "", re.sub("[.,]0{1,2}$", "", text))


def row_of(path, line, heads, cells, columns, words):
    try:
        if len(cells) != len(heads):
            raise bad_value("other cells")
        values = {what: cells[place].strip() for what, place in columns.items()}
        if "name" not in values:
            values["name"] = ", ".join(filter(None, (values["surname"], values["first name"])))
        member = name(fitted(values["name"], 24))
        key = name(fitted(values.get("key") or fitted(values["name"], 22) + "-1", 24))
        written = "".join(
            letter if letter.isprintable() else " " for letter in values["name"]
        ).strip()
        quota = number(0, 99)(digits(values["quota"])) if values.get("quota") else words.quota
        points = (
            number(0, MOST_CREDIT)(digits(values["points"]))
            if values.get("points")
            else words.points
        )
        if quota is None or points is None:
            raise bad_value("no quota" if quota is None else "no points")
        return Row(
            line, written, member, quota, points, key, person_of({**values, "name": written})
        )
    except Fault as failure:
        raise fault(failure.status, "in line", path=path, line=line, why=failure) from None

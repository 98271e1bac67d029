"""Makes three outputs: the list of a key's bookings in the form that the page reads, the page's list of the club, and the board's page. The desk's
side makes all three from a copy of the club."""

import datetime
import os
import sys

from club_office.closures import add_reasons, closures_of, reasons_of
from club_office.clubs import clock
from club_office.copies import snapshot, synced
from club_office.faults import Fault, refusal, storage_failed
from club_office.lists import wants_row
from club_office.page import more_of, page_of, wants_rule
from club_office.report import report_of
from club_office.texts import say

RECORD = """
    SELECT printf('%d %s %s %02d guests %d charge %d left %d', number, facility, date(day * 86400, 'unixepoch'), hour, guests, charge, remains)
        || CASE cancelled WHEN 1 THEN ' refund ' || refund ELSE '' END
    FROM bookings WHERE pass_key = ? ORDER BY day, hour, facility, number
"""


def print_record(db, words, _now):
    """Prints a key's bookings in the form that the page accepts under "Bring a list here". With --link, prints a link that opens the page with the
    bookings, but without the pass."""
    wants_row(db, "keys", words.key)
    lines = [row[0] for row in db.execute(RECORD, [words.key])]
    if not words.link:
        print(f"record of {words.key}", *lines, sep="\n")
        return
    if not words.site:
        raise refusal("no site", club=words.club)
    text = ";".join([words.key, *lines]).replace(" ", "+")
    print(f"{words.site}/book.html#record={text}")


def make_page(club, _words):
    print(f"{write_page(club)}: {say('done')}")
    return 0


def write_page(club):
    """Rewrites club.json atomically in the folder PAGES of the configuration. Returns its path."""
    folder, zone = club.settings.get("pages"), club.settings.get("zone_name")
    if not folder or not zone:
        raise refusal("no pages", club=club.name)
    wants_rule(zone, club.zone)
    titles = club.settings.get("titles")
    with snapshot(club) as db:
        closures = closures_of(db, reasons_of(club), clock() // 1440)
        text = page_of(
            db,
            club.title,
            zone,
            titles if titles and os.path.exists(titles) else None,
            closures,
            more_of(club.settings),
        )
    place = os.path.join(folder, "club.json")
    made = f"{place}.new"
    try:
        if is_as(place, text):
            return place
        with open(made, "w", encoding="utf-8") as file:
            os.fchmod(file.fileno(), 0o644)
            file.write(text)
            file.flush()
            os.fsync(file.fileno())
        os.rename(made, place)
        synced(folder)
    except OSError as failure:
        raise storage_failed("cannot be written", path=place, fault=failure) from None
    return place


def is_as(place, text):
    """Returns whether a file exists and contains exactly this text."""
    try:
        with open(place, "rb") as file:
            return file.read() == text.encode()
    except FileNotFoundError:
        return False


def keep_reasons(club, words):
    """Records the reasons for closed slots. If the recording fails, the slots stay closed without a reason."""
    try:
        add_reasons(club, words, clock() // 1440)
    except OSError as failure:
        print(say("reason unwritten", fault=failure), file=sys.stderr)


def page_again(club):
    """Rebuilds the page's list after a change that the list shows, if the club has pages. The command succeeds even if the list can't be
    rebuilt."""
    if not club.settings.get("pages"):
        return
    try:
        write_page(club)
    except Fault as failure:
        print(say("page of before", fault=failure), file=sys.stderr)


def print_report(club, words):
    """Prints the board's page for a year."""
    today = datetime.date.today()
    with snapshot(club) as db:
        year = words.year or today.year
        if year > today.year:
            raise refusal("is to come", day=year)
        sys.stdout.buffer.write(report_of(club, db, year, today, not words.no_names).encode())
    return 0

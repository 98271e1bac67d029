"""Makes bookings and cancellations for a member who calls by telephone. The office sends requests to the desk, as the member's page does. The desk's
side makes the passes for these requests from a key's root, and shows the passes to nobody. The desk decides about each request, and applies its rules
for refunds."""

import collections
import contextlib
import json
import secrets
import sys

from club_office.book import Turn
from club_office.clubs import clubdesk, wants_file
from club_office.copies import snapshot
from club_office.desk_requests import Slot, asked, narrowed, path_of, refuse_failed
from club_office.faults import fault, refusal, storage_failed
from club_office.lists import wants_row
from club_office.plans import slot_text
from club_office.texts import say
from club_office.values import date_of

OFFICE_KEY = "-office"
# The greatest number of points in a caveat on points.
MOST_SPENT = 999_999_999
# The values of a facility that a booking depends on. A clerk may see these values before the booking.
Offer = collections.namedtuple("Offer", "price places opens shuts")


def office_key(db, member):
    """Returns the name of the key with which the office books for a member, and whether the key exists."""
    wants_row(db, "members", member)
    for number in ("", *(f"-{it}" for it in range(2, 100))):
        name = member[: 24 - len(OFFICE_KEY) - len(number)].rstrip("-") + OFFICE_KEY + number
        row = db.execute("SELECT member, revoked FROM keys WHERE name = ?", [name]).fetchone()
        if row is None or row == (member, 0):
            return name, row is not None
    raise refusal("no office key", member=member)


def make_key(club, turn, member, facility):
    """Makes the office's key for a member if it is missing."""
    with snapshot(club) as db:
        wants_row(db, "facilities", facility)
        name, is_there = office_key(db, member)
    if not is_there:
        root = secrets.token_hex(32).encode()
        status = turn.order(
            ["add-key", name, member],
            lambda: clubdesk(club, "add-key", [name, member], ["--root-stdin"], root)[0],
        )
        if status:
            raise fault(status, "order failed", order=f"add-key {name} {member}", status=status)
    return name


def book(club, words):
    """Books a slot for a member in each of the command's hours. Without --again, skips slots that the office has already booked for the member."""
    wants_file(club)
    with said_at_the_end() as lines, Turn(club) as turn:
        offer = offered(club, turn, words)
        key = make_key(club, turn, words.member, words.facility)
        there = [] if words.again else booked_by(club, words, key)
        if len(there) == len(range(*words.hour)):
            refuse_booked(turn, words, key, there)
        for hour, number in there:
            lines.append(
                say(
                    "booked before",
                    slot=slot_text(words.facility, words.day, hour),
                    member=words.member,
                    booking=f"{key} {number}",
                )
            )
        left = [hour for hour in range(*words.hour) if hour not in dict(there)]
        return each_hour(
            turn,
            words,
            left,
            lines,
            lambda hour: put(club, words, Slot(words.facility, words.day, hour), key, offer, lines),
            "booked in all",
        )


def offer_of(db, facility):
    wants_row(db, "facilities", facility)
    return Offer(
        *db.execute(
            "SELECT price, places, opens, shuts FROM facilities WHERE name = ?", [facility]
        ).fetchone()
    )


def offered(club, turn, words):
    """Returns the facility's offer when the command begins. Refuses the command if the price isn't the price that the clerk saw."""
    with snapshot(club) as db:
        offer = offer_of(db, words.facility)
    if words.price not in (None, offer.price):

        def act():
            raise other_offer(words.facility, offer)

        turn.order(words.given, act)
    return offer


def other_offer(facility, offer):
    return refusal("other offer", facility=facility, **offer._asdict())


def booked_by(club, words, key):
    """Returns the hours that a key has booked, each with its booking number."""
    with snapshot(club) as db:
        return db.execute(
            """SELECT hour, min(number) FROM bookings
               WHERE pass_key = ? AND facility = ? AND day = ? AND hour >= ? AND hour < ? AND cancelled = 0 GROUP BY hour ORDER BY hour""",
            [key, words.facility, words.day, *words.hour],
        ).fetchall()


def refuse_booked(turn, words, key, there):
    hour, number = there[0]

    def act():
        raise refusal(
            "booked already",
            slot=slot_text(words.facility, words.day, hour),
            member=words.member,
            booking=f"{key} {number}",
        )

    turn.order(words.given, act)


@contextlib.contextmanager
def said_at_the_end():
    """Prints lines after the turn, even after a refusal. So a closed pipe interrupts no command."""
    lines = []
    try:
        yield lines
    finally:
        print(*lines, sep="\n", end="\n" if lines else "", flush=True)


def each_hour(turn, words, hours, lines, act, total):
    """Runs a command for each hour, until the desk refuses an hour. `act` returns the points of an hour. If there are several hours, also prints the
    sum of the points, and the hours that the desk didn't book or cancel."""
    points = []
    try:
        for hour in hours:
            turn.order(order_of(words, hour), lambda hour=hour: points.append(act(hour)) or 0)
    finally:
        if len(range(*words.hour)) > 1:
            lines += [say(total, count=len(points), points=sum(points))] if points else []
            if len(points) < len(hours):
                left = ", ".join(
                    slot_text(words.facility, words.day, hour) for hour in hours[len(points) :]
                )
                print(say("not done", lines=left), file=sys.stderr)
    return 0


def order_of(words, hour):
    """Returns the words of a command for one hour, in the form that the book needs."""
    if len(range(*words.hour)) == 1:
        return words.given
    line = [words.command, words.member, words.facility, date_of(words.day), str(hour)]
    if words.command == "book":
        return [
            *line,
            *([str(words.guests)] if words.guests is not None else []),
            *(["--again"] if words.again else []),
            *([f"--price={words.price}"] if words.price is not None else []),
        ]
    return [*line, *([f"--number={words.number}"] if words.number else [])]


def put(club, words, slot, key, offer, lines):
    """Books one hour, and returns its charge. The pass of the request allows no more points than the offer costs. So if the price rises in the
    meantime, the desk books nothing."""
    persons = (words.guests or 0) + 1
    with snapshot(club) as db:
        (root,) = db.execute("SELECT root FROM keys WHERE name = ?", [key]).fetchone()
        (number,) = db.execute(
            "SELECT coalesce(max(number), 0) + 1 FROM bookings WHERE pass_key = ? AND number < 900000000",
            [key],
        ).fetchone()
        (spent,) = db.execute(
            "SELECT coalesce(sum(charge - refund), 0) FROM bookings WHERE pass_key = ?", [key]
        ).fetchone()
    text = narrowed(
        key,
        root,
        "book",
        slot,
        f"guests <= {persons - 1}",
        f"spend <= {min(spent + offer.price * persons, MOST_SPENT)}",
    )
    found = asked(club, "PUT", path_of(slot, number), text, json.dumps({"guests": persons - 1}))
    with snapshot(club) as db:
        charge = charge_of(db, key, number, slot)
        now = offer_of(db, slot.facility)
    if charge is None and now != offer:
        raise other_offer(slot.facility, now)
    refuse_failed(found)
    if charge is None:
        raise storage_failed("reply untrue", slot=slot_text(*slot))
    lines.append(
        say(
            "booked",
            slot=slot_text(*slot),
            member=words.member,
            persons=say("persons", count=persons) if persons > 1 else say("person"),
            points=charge,
            booking=f"{key} {number}",
        )
    )
    return charge


def charge_of(db, key, number, slot):
    """Returns the charge of a booking in the club's file, or None if the file doesn't have the booking."""
    return next(
        db.execute(
            """SELECT charge FROM bookings
               WHERE pass_key = ? AND number = ? AND facility = ? AND day = ? AND hour = ? AND cancelled = 0""",
            [key, number, *slot],
        ),
        (None,),
    )[0]


def cancel_for(club, words):
    """Cancels a member's bookings in the command's hours, each booking under the key that made the booking. The member gets the same refund as after
    cancelling on the page."""
    wants_file(club)
    with said_at_the_end() as lines, Turn(club) as turn:
        return each_hour(
            turn,
            words,
            list(range(*words.hour)),
            lines,
            lambda hour: delete(club, words, Slot(words.facility, words.day, hour), lines),
            "called off in all",
        )


def delete(club, words, slot, lines):
    """Cancels the booking of one hour, and returns its refund."""
    with snapshot(club) as db:
        key, number, root = booking_to_cancel(db, club, words, slot)
    text = narrowed(key, root, "cancel", slot)
    found = asked(club, "DELETE", path_of(slot, number), text)
    refuse_failed(found)
    with snapshot(club) as db:
        (refund, cancelled) = db.execute(
            "SELECT refund, cancelled FROM bookings WHERE pass_key = ? AND number = ?",
            [key, number],
        ).fetchone()
    if not cancelled:
        raise storage_failed("reply untrue", slot=slot_text(*slot))
    lines.append(
        say(
            "called off",
            slot=slot_text(*slot),
            member=words.member,
            points=refund,
            booking=f"{key} {number}",
        )
    )
    return refund


def booking_to_cancel(db, club, words, slot):
    """Returns the key, the number and the key's root of the member's only booking in a slot, or of the booking that the clerk chose."""
    wants_row(db, "members", words.member)
    wants_row(db, "facilities", words.facility)
    found = db.execute(
        """SELECT pass_key, number, root, revoked FROM bookings JOIN keys ON keys.name = pass_key
           WHERE member = ? AND facility = ? AND day = ? AND hour = ? AND cancelled = 0 ORDER BY pass_key, number""",
        [words.member, *slot],
    ).fetchall()
    if not found:
        raise refusal("no booking of", member=words.member, slot=slot_text(*slot))
    if words.number:
        found = [it for it in found if it[1] == words.number]
        if not found:
            raise refusal(
                "no booking numbered",
                member=words.member,
                number=words.number,
                slot=slot_text(*slot),
            )
    if len(found) > 1:
        raise refusal(
            "several bookings",
            member=words.member,
            slot=slot_text(*slot),
            bookings=", ".join(f"{it[0]} {it[1]}" for it in found),
        )
    key, number, root, revoked = found[0]
    if revoked:
        raise refusal("key revoked", key=key, club=club.name, number=number)
    return key, number, root

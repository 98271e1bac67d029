"""Plans corrections. A plan has the changes that a correction would make to the current club."""

import collections

from club_office.faults import USAGE, doubtful, fault, nothing_left, refusal
from club_office.lists import is_row, wants_row
from club_office.texts import say
from club_office.values import MOST_CHARGE, MOST_CREDIT, MOST_NUMBER, date_of


# The weekday of day 0, 1970-01-01, counted from Monday.
THURSDAY = 3
Booking = collections.namedtuple("Booking", "key number facility day hour guests charge member")
# A command of clubdesk, and its effect on the club's rows.
Order = collections.namedtuple("Order", "words edits")
# A change of a table's row: the row's key, new values for some columns, and amounts to add to other columns.
Edit = collections.namedtuple("Edit", "table key sets adds", defaults=({}, {}))


class Plan:
    """A correction: the lines that the clerk sees, and the clubdesk commands that carry out the correction. A correction that writes into the file
    has SQL statements, each with its values and the number of rows that it changes."""

    def __init__(self):
        self.lines = []
        self.orders = []
        self.changes = []
        # Queries that must return the same rows before and after the correction.
        self.keeps = []
        # The new name of a leaving member.
        self.new_name = None
        # The path of a copy made before the correction, or None.
        self.copy_to = None
        # The summary counts these cancelled bookings, closed slots, opened slots and undone changes.
        self.cancelled, self.closed, self.opened, self.undone = [], 0, 0, 0

    @property
    def is_empty(self):
        return not self.orders and not self.changes

    def tell(self, text, /, **values):
        self.lines.append(say(text, **values))

    def all_lines(self):
        """Returns the lines for the clerk. If several bookings or slots change, or the correction undoes something, the last line is a summary."""
        if len(self.cancelled) + self.closed + self.opened + self.undone < 2:
            return self.lines
        parts = [say("changes", count=self.undone)] if self.undone else []
        if self.cancelled:
            names = sorted({it.member for it in self.cancelled})
            members = names[0] if len(names) == 1 else say("members", count=len(names))
            text = "cancelled one" if len(self.cancelled) == 1 else "cancelled"
            parts.append(
                say(
                    text,
                    count=len(self.cancelled),
                    points=sum(it.charge for it in self.cancelled),
                    members=members,
                )
            )
        for text, count in (("slots closed", self.closed), ("slots opened", self.opened)):
            parts += [say(text if count > 1 else text + " one", count=count)] if count else []
        return [*self.lines, say("in all", what=", ".join(parts))]

    def order(self, words, *edits):
        self.orders.append(Order([str(it) for it in words], edits))

    def change(self, rows, sql, *values):
        self.changes.append((rows, sql, values))

    def cancel(self, bookings):
        """Plans to cancel bookings with a full refund. The cancellations free the booked places."""
        for it in bookings:
            self.tell(
                "cancels",
                slot=slot_text(it.facility, it.day, it.hour),
                persons=persons_text(it),
                points=it.charge,
                key=it.key,
                number=it.number,
                member=it.member,
            )
            self.cancelled.append(it)
            self.order(
                cancel_words(it),
                Edit("bookings", (it.key, it.number), {"cancelled": 1, "refund": it.charge}),
                Edit("members", (it.member,), adds={"used": -it.charge}),
                Edit("slots", (it.facility, it.day, it.hour), adds={"taken": -(it.guests + 1)}),
            )


def slot_text(facility, day, hour):
    return f"{facility} {date_of(day)} {hour:02d}:00"


def slot_words(facility, day, hour):
    """Returns a slot as arguments of clubdesk."""
    return [facility, date_of(day), f"{hour:02d}"]


def cancel_words(booking):
    return ["cancel-booking", booking.key, str(booking.number)]


def persons_text(booking):
    return say("persons", count=booking.guests + 1) if booking.guests else say("person")


def unique(lists):
    """Returns the names in several lists, without duplicates."""
    return list(dict.fromkeys(name for names in lists for name in names))


def bookings_of(db, condition, *values):
    """Returns the bookings that aren't cancelled, sorted by slot."""
    rows = db.execute(
        f"""SELECT pass_key, number, facility, day, hour, guests, charge, member FROM bookings JOIN keys ON keys.name = pass_key
            WHERE cancelled = 0 AND {condition} ORDER BY day, hour, facility, pass_key, number""",
        values,
    )
    return [Booking(*row) for row in rows]


def plan_quota(db, words, _now):
    wants_row(db, "members", words.member)
    plan = Plan()
    (before,) = db.execute("SELECT quota FROM members WHERE name = ?", [words.member]).fetchone()
    plan.tell("quota of", member=words.member, before=before, then=words.quota)
    plan.order(
        ["set-quota", words.member, words.quota],
        Edit("members", (words.member,), {"quota": words.quota}),
    )
    return plan


def plan_debit(db, words, _now):
    wants_row(db, "members", words.member)
    return debit(db, words.member, words.points)


def plan_rest_of_debit(db, words, left):
    """Plans the rest of an interrupted debit. The rest follows from the member's row in the debit's record, because only the office changes the
    credits of a member."""
    wants_row(db, "members", words.member)
    (credited,) = db.execute(
        "SELECT credited FROM members WHERE name = ?", [words.member]
    ).fetchone()
    ((was, is_now),) = [
        [row[1] for row in rows] for table, _, *rows in left["rows"] if table == "members"
    ]
    if not is_now <= credited <= was or (was - credited) % MOST_CREDIT and credited != is_now:
        raise doubtful("debited otherwise", member=words.member, moment=left["moment"])
    return debit(db, words.member, credited - is_now)


def debit(db, member, points):
    """Plans to take points back from a member, with as many commands as necessary."""
    plan = Plan()
    (balance,) = db.execute(
        "SELECT max(credited - used, 0) FROM members WHERE name = ?", [member]
    ).fetchone()
    if points > balance:
        raise refusal("balance is", member=member, balance=balance)
    plan.tell("balance of", member=member, before=balance, then=balance - points)
    for begin in range(0, points, MOST_CREDIT):
        part = min(MOST_CREDIT, points - begin)
        plan.order(["debit", member, part], Edit("members", (member,), adds={"credited": -part}))
    return plan


def plan_facility(db, words, now):
    wants_row(db, "facilities", words.facility)
    if words.price is None and words.places is None and words.hours is None:
        raise fault(USAGE, "nothing to set")
    (places, price, opens, shuts) = db.execute(
        "SELECT places, price, opens, shuts FROM facilities WHERE name = ?", [words.facility]
    ).fetchone()
    plan = Plan()
    if words.price is not None:
        plan.tell("price of", facility=words.facility, before=price, then=words.price)
        price = words.price
    if words.places is not None:
        plan.tell("places of", facility=words.facility, before=places, then=words.places)
        places = words.places
    if words.hours is not None:
        plan.tell(
            "hours of",
            facility=words.facility,
            before=f"{opens}-{shuts}",
            then=f"{words.hours[0]}-{words.hours[1]}",
        )
        opens, shuts = words.hours
    refuse_unfit(db, words.facility, places, opens, shuts, now)
    numbers = {"places": places, "price": price, "opens": opens, "shuts": shuts}
    plan.order(
        ["set-facility", words.facility, *numbers.values()],
        Edit("facilities", (words.facility,), numbers),
    )
    return plan


def refuse_unfit(db, facility, places, opens, shuts, now):
    """Refuses new hours that exclude a future booking. Also refuses too few places for the persons in a slot, even a past slot, because no slot of a
    sound club has more persons than places."""
    for it in bookings_of(db, "facility = ? AND day * 1440 + hour * 60 > ?", facility, now):
        if not opens <= it.hour < shuts:
            raise refusal(
                "is booked at", key=it.key, number=it.number, day=date_of(it.day), hour=it.hour
            )
    for on, hour, taken in db.execute(
        "SELECT day, hour, taken FROM slots WHERE facility = ? AND taken > ? ORDER BY day DESC, hour DESC LIMIT 1",
        [facility, places],
    ):
        raise refusal("persons booked", count=taken, day=date_of(on), hour=hour)


def plan_reopen(db, words, _now):
    wants_row(db, "facilities", words.facility)
    plan = Plan()
    begin, end = words.hours
    for hour in range(begin, end):
        where = (words.facility, words.day, hour)
        (closed,) = db.execute(
            "SELECT coalesce(max(closed), 0) FROM slots WHERE facility = ? AND day = ? AND hour = ?",
            where,
        ).fetchone()
        if closed:
            plan.tell("opens", slot=slot_text(*where))
            plan.order(["open-slot", *slot_words(*where)], Edit("slots", where, {"closed": 0}))
            plan.opened += 1
    if not plan.orders:
        raise nothing_left(
            "not closed" if end == begin + 1 else "none closed",
            slot=slot_text(words.facility, words.day, begin),
        )
    return plan


def plan_cancel(db, words, now):
    wants_row(db, "keys", words.key)
    if words.all == bool(words.number):
        raise fault(USAGE, "number or all")
    plan = Plan()
    if words.all:
        found = bookings_of(db, "pass_key = ? AND day * 1440 + hour * 60 > ?", words.key, now)
        if not found:
            raise nothing_left("none to come", key=words.key)
    else:
        found = bookings_of(db, "pass_key = ? AND number = ?", words.key, words.number)
        if not found:
            known = db.execute(
                "SELECT count(*) FROM bookings WHERE pass_key = ? AND number = ?",
                [words.key, words.number],
            ).fetchone()[0]
            raise (nothing_left if known else refusal)(
                "cancelled already" if known else "booking unknown",
                number=words.number,
                key=words.key,
            )
    plan.cancel(found)
    return plan


def plan_close(db, words, _now):
    """Plans to close slots on some days and to cancel their bookings."""
    begin, end = words.hours
    plan = Plan()
    facilities, days = unique(words.facilities), days_of(words)
    for facility in facilities:
        wants_row(db, "facilities", facility)
        opens, shuts = db.execute(
            "SELECT opens, shuts FROM facilities WHERE name = ?", [facility]
        ).fetchone()
        if not opens <= begin < end <= shuts:
            raise refusal("opens then", facility=facility, opens=opens, shuts=shuts)
    for day in days:
        for facility in facilities:
            plan.cancel(
                bookings_of(
                    db,
                    "facility = ? AND day = ? AND hour >= ? AND hour < ?",
                    facility,
                    day,
                    begin,
                    end,
                )
            )
    for day in days:
        for facility in facilities:
            close_hours(db, plan, facility, day, begin, end)
    if not plan.orders:
        raise nothing_left("all closed")
    # The desk closes each slot right after it cancels the slot's bookings. So members have almost no time to book the slot between the cancellation
    # and the closing.
    plan.orders.sort(key=lambda it: (it.edits[-1].key[1:], it.edits[-1].key[0]))
    return plan


def days_of(words):
    """Returns the days to close: all days of a span, or only the span's days with the given weekday."""
    found = [
        it for it in words.day if words.weekday is None or (it + THURSDAY) % 7 == words.weekday
    ]
    if not found:
        raise refusal("no such weekday")
    return found


def close_hours(db, plan, facility, day, begin, end):
    closed = {
        row[0]
        for row in db.execute(
            "SELECT hour FROM slots WHERE facility = ? AND day = ? AND closed = 1", [facility, day]
        )
    }
    for hour in range(begin, end):
        if hour not in closed:
            plan.tell("closes", slot=slot_text(facility, day, hour))
            plan.closed += 1
            plan.order(
                ["close-slot", *slot_words(facility, day, hour)],
                Edit("slots", (facility, day, hour), {"closed": 1}),
            )


def plan_rain(db, words, _now):
    plan = Plan()
    for facility in unique([words.facilities]):
        wants_row(db, "facilities", facility)
        for hour in sorted({hour for begin, end in words.hours for hour in range(begin, end)}):
            plan.cancel(
                bookings_of(db, "facility = ? AND day = ? AND hour = ?", facility, words.day, hour)
            )
    if not plan.orders:
        raise nothing_left("nobody booked")
    return plan


def plan_leave(db, words, now):
    """Plans the commands that revoke a member's keys, cancel the member's future bookings and set the member's quota to 0. Then SQL statements rename
    the member and the keys."""
    if not is_row(db, "members", words.member):
        raise nothing_left("no row members", name=words.member)
    plan = Plan()
    new = plan.new_name = free_number(db)
    keys = db.execute(
        "SELECT name, revoked FROM keys WHERE member = ? ORDER BY rowid", [words.member]
    ).fetchall()
    for key, revoked in keys:
        if not revoked:
            plan.order(["revoke-key", key], Edit("keys", (key,), {"revoked": 1}))
    plan.cancel(bookings_of(db, "member = ? AND day * 1440 + hour * 60 > ?", words.member, now))
    balance, quota = db.execute(
        "SELECT max(credited - used, 0), quota FROM members WHERE name = ?", [words.member]
    ).fetchone()
    if quota:
        plan.order(["set-quota", words.member, 0], Edit("members", (words.member,), {"quota": 0}))
    # SQLite tests references between rows at the end of the transaction.
    plan.change(-1, "PRAGMA defer_foreign_keys = ON")
    for place, (key, _) in enumerate(keys, 1):
        plan.tell("revokes", key=key, then=f"{new}-{place}")
        plan.change(
            1,
            "UPDATE keys SET name = ?, member = ? WHERE name = ? AND revoked = 1",
            f"{new}-{place}",
            new,
            key,
        )
        plan.change(
            None, "UPDATE bookings SET pass_key = ? WHERE pass_key = ?", f"{new}-{place}", key
        )
        plan.change(
            None, "UPDATE old_roots SET pass_key = ? WHERE pass_key = ?", f"{new}-{place}", key
        )
    plan.change(1, "UPDATE members SET name = ? WHERE name = ? AND quota = 0", new, words.member)
    plan.tell(
        "becomes",
        member=words.member,
        then=new,
        balance=balance + sum(it.charge for it in plan.cancelled),
    )
    return plan


def free_number(db):
    """Returns a number as the new name of a member who left. No member or key has a name that is this number, or that begins with this number and a
    hyphen."""
    taken = {
        row[0].split("-")[0]
        for row in db.execute("SELECT name FROM members UNION ALL SELECT name FROM keys")
    }
    return next(str(candidate) for candidate in range(1, 10**9) if str(candidate) not in taken)


def plan_new_year(db, words, now, club):
    """Plans to remove the bookings and slots of all days before a given day from the file. For each key, cancelled bookings with the same total cost
    replace the removed bookings."""
    before = now // 1440 if words.before is None else words.before
    if before > now // 1440:
        raise refusal("is to come", day=date_of(before))
    plan = Plan()
    (old,) = db.execute("SELECT count(*) FROM bookings WHERE day < ?", [before]).fetchone()
    (kept,) = db.execute("SELECT count(*) FROM bookings WHERE day >= ?", [before]).fetchone()
    (slots,) = db.execute("SELECT count(*) FROM slots WHERE day < ?", [before]).fetchone()
    plan.copy_to = f"{club.file}-until-{date_of(before - 1)}"
    plan.tell("copies to", path=plan.copy_to)
    plan.tell("takes out", bookings=old, slots=slots, day=date_of(before), kept=kept)
    plan.change(old, "DELETE FROM bookings WHERE day < ?", before)
    plan.change(slots, "DELETE FROM slots WHERE day < ?", before)
    carried = carry_forward(db, before)
    if (
        not slots
        and carried
        == db.execute(
            "SELECT * FROM bookings WHERE day < ? ORDER BY pass_key, number DESC", [before]
        ).fetchall()
    ):
        raise refusal("nothing carried", day=date_of(before))
    plan.tell(
        "carries", points=sum(row[6] for row in carried), keys=len({row[0] for row in carried})
    )
    for row in carried:
        plan.change(1, "INSERT INTO bookings VALUES (?, ?, ?, ?, ?, ?, ?, ?, ?, ?)", *row)
    plan.keeps = [
        (
            "SELECT pass_key, sum(charge - refund) FROM bookings GROUP BY pass_key HAVING sum(charge - refund) <> 0 ORDER BY pass_key",
            [],
        ),
        ("SELECT * FROM members ORDER BY name", []),
        ("SELECT * FROM bookings WHERE day >= ? ORDER BY pass_key, number", [before]),
        ("SELECT * FROM slots WHERE day >= ? ORDER BY facility, day, hour", [before]),
    ]
    return plan


def carry_forward(db, before):
    """Returns rows that replace the removed bookings, so that the sums of spent points stay the same. Each row is a cancelled booking without a
    refund, under one of the highest free numbers of its key."""
    rows = []
    for key, cost, facility in db.execute(
        "SELECT pass_key, sum(charge - refund), min(facility) FROM bookings WHERE day < ? GROUP BY pass_key HAVING sum(charge - refund) > 0"
        " ORDER BY pass_key",
        [before],
    ).fetchall():
        used = {
            row[0]
            for row in db.execute(
                "SELECT number FROM bookings WHERE pass_key = ? AND day >= ?", [key, before]
            )
        }
        place = MOST_NUMBER
        while cost:
            while place in used:
                place -= 1
            part = min(cost, MOST_CHARGE)
            rows.append((key, place, facility, before - 1, 0, 0, part, 0, 1, 0))
            cost, place = cost - part, place - 1
    return rows

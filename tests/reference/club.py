"""The club and its rules: the reply to a request with a pass, and the effect of an office command
(docs/DESK.md)."""

import re
from dataclasses import dataclass, replace

from . import passes
from .caveats import Ask, NAME, first_fault

DAY_MINUTES = 1440
AHEAD_MINUTES = 86_400
MOST_POINTS = 999_999_999

# The names of faults that a test can plant in the rules. A planted fault makes one rule wrong, so
# that the test must find a difference.
PLANTS = (
    "until_takes_its_minute",
    "cancels_without_a_refund",
    "counts_cancelled_as_open",
    "repeats_with_places_of_now",
    "spends_of_the_member",
    "rounds_refunds_up",
    "older_root_for_ever",
    "quota_by_key",
)


@dataclass
class Member:
    credited: int
    quota: int


@dataclass
class Facility:
    kind: str
    places: int
    price: int
    opens: int
    shuts: int


@dataclass
class Key:
    member: str
    root: bytes
    is_revoked: bool = False
    older: tuple | None = None  # the root before the last rotation, and the moment when it expires


@dataclass
class Booking:
    slot: tuple  # a facility, a day and an hour
    guests: int
    charge: int
    left: int
    is_cancelled: bool = False
    refund: int = 0


@dataclass
class Served:
    """A reply with status 200. `body` has the names and values of the JSON body, in order."""

    body: dict


@dataclass
class Refused:
    fault: int
    caveat: int | None = None


class CommandRefused(Exception):
    """Raised if the club refuses a command of the office. The message of the exception is the
    refusal, such as `exists`."""


@dataclass
class Request:
    action: str
    slot: tuple | None = None
    number: int | None = None
    guests: int = 0


def start_of(slot):
    return slot[1] * DAY_MINUTES + slot[2] * 60


class Club:
    def __init__(self, plant=None):
        if plant is not None and plant not in PLANTS:
            raise ValueError(plant)
        self.plant = plant
        self.members, self.facilities, self.keys = {}, {}, {}
        self.bookings = {}  # the bookings of each key, by their numbers
        self.closed = set()
        self.taken_in = {}  # the number of persons in each slot, without cancelled bookings

    # ---- sums

    def bookings_of(self, member):
        return [
            it
            for name, key in self.keys.items()
            if key.member == member
            for it in self.bookings[name].values()
        ]

    def spent(self, key):
        if self.plant == "spends_of_the_member":
            return sum(it.charge - it.refund for it in self.bookings_of(self.keys[key].member))
        return sum(it.charge - it.refund for it in self.bookings[key].values())

    def balance(self, member):
        return self.members[member].credited - sum(
            it.charge - it.refund for it in self.bookings_of(member)
        )

    def open_count(self, member, moment, key=None):
        rows = self.bookings_of(member)
        if self.plant == "quota_by_key" and key:
            rows = self.bookings[key].values()
        is_counted = self.plant == "counts_cancelled_as_open"
        return sum(
            1 for it in rows if (is_counted or not it.is_cancelled) and start_of(it.slot) > moment
        )

    def taken(self, slot):
        return self.taken_in.get(slot, 0)

    def most_taken(self, facility):
        """Returns the greatest number of persons that any slot of a facility has."""
        return max(
            (persons for slot, persons in self.taken_in.items() if slot[0] == facility), default=0
        )

    # ---- a request under a pass

    def ask(self, text, request, moment):
        """Carries out a request with the pass in `text`, and returns the reply."""
        try:
            given = passes.read(text)
        except passes.NoPass as fault:
            return Refused(fault.fault)
        name = re.fullmatch(rb"key:(%b)" % NAME.encode(), given.identifier)
        key = self.keys.get(name[1].decode()) if name else None
        if key is None or not any(given.is_signed(root) for root in self.good_roots(key, moment)):
            return Refused(9)
        name = name[1].decode()
        if key.is_revoked:
            return Refused(10)
        at_fault = first_fault(given.caveats, self.ask_of(name, request, moment))
        if at_fault:
            return Refused(*at_fault)
        return getattr(self, f"decide_{request.action}")(name, request, moment)

    def good_roots(self, key, moment):
        roots = [key.root]
        if key.older and (moment < key.older[1] or self.plant == "older_root_for_ever"):
            roots.append(key.older[0])
        return roots

    def ask_of(self, name, request, moment):
        facility = self.facilities.get(request.slot[0]) if request.slot else None
        owes = request.action == "book" and facility and request.number not in self.bookings[name]
        if self.plant == "until_takes_its_minute":
            moment -= 1
        return Ask(
            request.action,
            request.slot,
            facility.kind if facility else None,
            request.guests,
            moment,
            facility.price * (request.guests + 1) if owes else 0,
            self.spent(name),
        )

    def decide_view(self, _name, request, _moment):
        facility = self.facilities.get(request.slot[0])
        if not facility:
            return Refused(14)
        return Served(
            {
                "facility": request.slot[0],
                "day": request.slot[1],
                "hour": request.slot[2],
                "kind": facility.kind,
                "price": facility.price,
                "places": facility.places,
                "taken": self.taken(request.slot),
                "closed": request.slot in self.closed,
            }
        )

    def decide_account(self, name, _request, moment):
        member = self.keys[name].member
        return Served(
            {
                "member": member,
                "balance": self.balance(member),
                "quota": self.members[member].quota,
                "open": self.open_count(member, moment, name),
                "spent": self.spent(name),
            }
        )

    def booked(self, name, number, booking):
        left = booking.left
        if self.plant == "repeats_with_places_of_now":
            left = self.facilities[booking.slot[0]].places - self.taken(booking.slot)
        return Served({"booking": f"{name}/{number}", "charge": booking.charge, "left": left})

    def decide_book(self, name, request, moment):
        slot, persons = request.slot, request.guests + 1
        before = self.bookings[name].get(request.number)
        if before:
            is_same = before.slot == slot and before.guests == request.guests
            return self.booked(name, request.number, before) if is_same else Refused(13)
        facility = self.facilities.get(slot[0])
        member = self.keys[name].member
        charge = facility.price * persons if facility else 0
        lines = (
            (14, lambda: facility is None),
            (16, lambda: not facility.opens <= slot[2] < facility.shuts),
            (16, lambda: not moment < start_of(slot) <= moment + AHEAD_MINUTES),
            (17, lambda: slot in self.closed),
            (18, lambda: self.taken(slot) + persons > facility.places),
            (19, lambda: self.open_count(member, moment, name) >= self.members[member].quota),
            (20, lambda: self.balance(member) < charge),
        )
        for fault, fits in lines:
            if fits():
                return Refused(fault)
        left = facility.places - self.taken(slot) - persons
        self.taken_in[slot] = self.taken(slot) + persons
        self.bookings[name][request.number] = Booking(slot, request.guests, charge, left)
        return Served({"booking": f"{name}/{request.number}", "charge": charge, "left": left})

    def decide_cancel(self, name, request, moment):
        booking = self.bookings[name].get(request.number)
        if booking is None:
            return Refused(15 if request.slot[0] in self.facilities else 14)
        if booking.slot != request.slot:
            return Refused(13)
        if not booking.is_cancelled:
            if start_of(booking.slot) <= moment:
                return Refused(21)
            self.mark_cancelled(booking, self.refund(booking, moment))
        return Served({"booking": f"{name}/{request.number}", "refund": booking.refund})

    def mark_cancelled(self, booking, refund):
        booking.is_cancelled, booking.refund = True, refund
        self.taken_in[booking.slot] -= booking.guests + 1

    def refund(self, booking, moment):
        if self.plant == "cancels_without_a_refund":
            return 0
        if start_of(booking.slot) - moment >= DAY_MINUTES:
            return booking.charge
        return (booking.charge + (self.plant == "rounds_refunds_up")) // 2

    # ---- the office

    def command(self, words):
        """Carries out a command. `words` has the command's name and values. Raises CommandRefused
        if the club refuses the command."""
        name, *values = words
        return getattr(self, "command_" + name.replace("-", "_"))(*values)

    def command_add_member(self, name, quota):
        refuse_if("out of range", quota > 99)
        refuse_if("exists", name in self.members)
        self.members[name] = Member(0, quota)

    def command_credit(self, member, points):
        refuse_if("out of range", not 1 <= points <= 1_000_000)
        refuse_if("unknown", member not in self.members)
        refuse_if("out of range", self.members[member].credited + points > MOST_POINTS)
        self.members[member].credited += points

    def command_debit(self, member, points):
        refuse_if("out of range", not 1 <= points <= 1_000_000)
        refuse_if("unknown", member not in self.members)
        refuse_if("out of range", points > self.balance(member))
        self.members[member].credited -= points

    def command_set_quota(self, member, quota):
        refuse_if("out of range", quota > 99)
        refuse_if("unknown", member not in self.members)
        self.members[member].quota = quota

    def command_add_facility(self, name, kind, places, price, opens, shuts):
        refuse_if("out of range", not are_limits(places, price, opens, shuts))
        refuse_if("exists", name in self.facilities)
        self.facilities[name] = Facility(kind, places, price, opens, shuts)

    def command_set_facility(self, name, places, price, opens, shuts):
        refuse_if("out of range", not are_limits(places, price, opens, shuts))
        refuse_if("unknown", name not in self.facilities)
        refuse_if("slot in use", self.most_taken(name) > places)
        self.facilities[name] = replace(
            self.facilities[name], places=places, price=price, opens=opens, shuts=shuts
        )

    def command_add_key(self, name, member, root):
        refuse_if("unknown", member not in self.members)
        refuse_if("exists", name in self.keys)
        self.keys[name] = Key(member, root)
        self.bookings[name] = {}

    def command_revoke_key(self, name):
        refuse_if("unknown", name not in self.keys)
        self.keys[name].is_revoked = True

    def command_rotate_key(self, name, root, until):
        refuse_if("unknown", name not in self.keys)
        key = self.keys[name]
        refuse_if("exists", key.root == root)
        self.keys[name] = replace(key, root=root, older=(key.root, until))

    def command_close_slot(self, *slot):
        facility = self.facilities.get(slot[0])
        refuse_if("unknown", facility is None)
        refuse_if("out of range", not facility.opens <= slot[2] < facility.shuts)
        refuse_if("exists", slot in self.closed)
        refuse_if("slot in use", self.taken(slot) > 0)
        self.closed.add(slot)

    def command_open_slot(self, *slot):
        refuse_if("unknown", slot[0] not in self.facilities)
        self.closed.discard(slot)

    def command_cancel_booking(self, key, number):
        booking = self.bookings.get(key, {}).get(number)
        refuse_if("unknown", booking is None)
        if not booking.is_cancelled:
            self.mark_cancelled(booking, booking.charge)

    def sheet(self, day):
        """Returns the rows of a day sheet: facility, hour, key, number, persons and charge."""
        return sorted(
            (it.slot[0], it.slot[2], key, number, it.guests + 1, it.charge)
            for key, rows in self.bookings.items()
            for number, it in rows.items()
            if it.slot[1] == day and not it.is_cancelled
        )


def are_limits(places, price, opens, shuts):
    """Returns whether these numbers of a facility are within their limits."""
    return 1 <= places <= 50 and price <= 9999 and opens < shuts <= 24


def refuse_if(word, is_refused):
    if is_refused:
        raise CommandRefused(word)

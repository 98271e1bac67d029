#!/usr/bin/env python3
"""A client of the desk, written with Python's standard library.

    client.py book FACILITY DAY HOUR GUESTS [POINTS]
                                              books under a new random number, for at most POINTS
    client.py cancel NUMBER                   cancels the booking with this number
    client.py repeat                          sends again each request that has no reply yet
    client.py list                            shows the bookings on record
    client.py show FACILITY DAY HOUR          shows a slot
    client.py account                         shows the account

The environment variable DESK is the desk's address (by default http://127.0.0.1:8080), and PASS is
the path of the file with the pass (by default pass). Before the client sends a booking or
cancellation, it writes the request to the file RECORD (by default record). The client also writes
the reply to this file. If no reply comes, the client repeats the request for PATIENCE seconds (by
default 60). The client prints each reply. The client exits with status 1 after a refusal, and with
status 3 if no reply came. After status 3, the command `repeat` finishes the request.

The desk charges at most POINTS, by default the price that the slot has when the command begins. If
the price has risen, the desk refuses the booking, and the printed reply also has the new price for
one person. For this, the client narrows the pass, which must be in V2 (passtool convert --form v2).
"""
import fcntl
import json
import os
import random
import sys
import time
from http.client import HTTPConnection, HTTPException, HTTPSConnection
from urllib.parse import urlsplit

from narrow import narrow

CAVEAT_DENIES, NUMBER_USED, UNAVAILABLE = 12, 13, 22
LARGEST_NUMBER = MOST_POINTS = 999_999_999
TIMEOUT, FIRST_PAUSE, LONGEST_PAUSE = 10, 0.05, 5  # seconds


class NoReply(Exception):
    """Reports that no reply came, that the reply wasn't from the desk, or that the desk was
    unavailable."""


class Record:
    """Keeps bookings by number in a file. Each request and each reply adds a line to the file."""

    def __init__(self, path):
        self.bookings = {}
        self.file = open(path, "a+b")
        fcntl.flock(self.file, fcntl.LOCK_EX)  # only one program at a time uses the file
        self.file.seek(0)
        text = self.file.read()
        # If a request's line is truncated, the request was never sent. If a reply's line is
        # truncated, a repeated request gets the reply again.
        self.file.truncate(text.rfind(b"\n") + 1)
        for line in text.splitlines(keepends=True):
            if line.endswith(b"\n"):
                self._add(json.loads(line))

    def _add(self, line):
        booking = self.bookings.setdefault(line["number"], {})
        booking[line["action"]] = line.get("reply")
        booking.update(line.get("words", {}))

    def keep(self, **line):
        """Adds a line, and returns when the line is on the disk."""
        self.file.write(json.dumps(line).encode() + b"\n")
        self.file.flush()
        os.fsync(self.file.fileno())
        self._add(line)

    def unfinished(self):
        """Returns the number and the action of each request without a reply."""
        return [
            (number, action)
            for number, booking in self.bookings.items()
            for action in ("book", "cancel")
            if action in booking and booking[action] is None
        ]


class Client:
    """Sends requests to the desk. Each reply is a dict. If the desk refuses the request, the dict
    has the key `fault`."""

    def __init__(self, address, text, record, patience=60):
        self.address, self.text, self.record, self.patience = address, text, record, patience

    def _exchange(self, method, path, body, text):
        at = urlsplit(self.address)
        kind = HTTPSConnection if at.scheme == "https" else HTTPConnection
        connection = kind(at.hostname, at.port, timeout=TIMEOUT)
        try:
            fields = {"Authorization": b"Bearer " + text.encode()}
            connection.request(method, path, body, fields)
            response = connection.getresponse()
            reply = json.loads(response.read())
        except (OSError, HTTPException, ValueError) as fault:
            raise NoReply(repr(fault)) from fault
        finally:
            connection.close()
        fault = reply.get("fault") if isinstance(reply, dict) else None
        if fault == UNAVAILABLE or (fault is None and response.status != 200):
            raise NoReply(f"status {response.status}")
        return reply

    def _ask(self, method, path, body=None, text=None):
        """Sends a request until the desk replies. A repeated request has no second effect."""
        end, pause = time.monotonic() + self.patience, FIRST_PAUSE
        while True:
            try:
                return self._exchange(method, path, body, text or self.text)
            except NoReply:
                if time.monotonic() > end:
                    raise
            time.sleep(random.uniform(0, pause))
            pause = min(2 * pause, LONGEST_PAUSE)

    def _finish(self, number, action):
        """Sends a recorded request, and records its reply."""
        booking = self.record.bookings[number]
        path = "/slots/{facility}/{day}/{hour}/bookings/{number}".format(number=number, **booking)
        if action == "book":
            reply = self._book_at_price(path, booking)
        else:
            reply = self._ask("DELETE", path)
        self.record.keep(number=number, action=action, reply=reply)
        return reply

    def _book_at_price(self, path, booking):
        """Sends a booking so that the desk charges at most the recorded points. If the price has
        risen, the reply has the new price."""
        points, body = booking.get("points"), b'{"guests":%d}' % booking["guests"]
        before = None
        while True:
            spent = None if points is None else self.account().get("spent")
            if spent is None:  # no price was shown, or the pass doesn't show the account
                return self._ask("PUT", path, body)
            limit = f"spend <= {min(spent + points, MOST_POINTS)}"
            reply = self._ask("PUT", path, body, narrow(self.text, [limit]))
            if reply.get("fault") != CAVEAT_DENIES:
                return reply
            price = self.show(booking["facility"], booking["day"], booking["hour"]).get("price", 0)
            if price * (booking["guests"] + 1) > points:
                return {**reply, "price": price}
            if spent == before:  # another caveat of the pass denies the booking
                return reply
            before = spent  # the key spent points elsewhere in the meantime

    def price_of(self, facility, day, hour, guests):
        """Returns the points for a booking at the slot's present price, or None if the pass doesn't
        show the slot."""
        price = self.show(facility, day, hour).get("price")
        return None if price is None else price * (guests + 1)

    def book(self, facility, day, hour, guests, points=None):
        """Books under a new random number, for at most `points`, by default for the present price.
        Draws a new number if another program with a pass of the same key used the number."""
        narrow(self.text, [])  # fails if the pass isn't in V2
        if points is None:
            points = self.price_of(facility, day, hour, guests)
        while True:
            number = random.randint(1, LARGEST_NUMBER)
            if number in self.record.bookings:
                continue
            words = {
                "facility": facility,
                "day": day,
                "hour": hour,
                "guests": guests,
                "points": points,
            }
            self.record.keep(number=number, action="book", words=words)
            reply = self._finish(number, "book")
            if reply.get("fault") != NUMBER_USED:
                return reply

    def cancel(self, number):
        """Cancels a booking on record. If the booking has no reply yet, first sends the request for
        the booking again."""
        if self.record.bookings[number]["book"] is None:
            self._finish(number, "book")
        self.record.keep(number=number, action="cancel")
        return self._finish(number, "cancel")

    def repeat(self):
        """Repeats each request that has no reply, and returns the replies."""
        return [self._finish(number, action) for number, action in self.record.unfinished()]

    def show(self, facility, day, hour):
        return self._ask("GET", f"/slots/{facility}/{day}/{hour}")

    def account(self):
        return self._ask("GET", "/account")


def main(action="", *words):
    setting = os.environ.get
    with open(setting("PASS", "pass"), encoding="utf-8") as file:
        text = file.read().strip()
    record = Record(setting("RECORD", "record"))
    address, patience = setting("DESK", "http://127.0.0.1:8080"), int(setting("PATIENCE", "60"))
    client = Client(address, text, record, patience)
    match action, words:
        case "book", (facility, day, hour, guests):
            replies = [client.book(facility, day, hour, int(guests))]
        case "book", (facility, day, hour, guests, points):
            replies = [client.book(facility, day, hour, int(guests), int(points))]
        case "cancel", (number,) if int(number) in record.bookings:
            replies = [client.cancel(int(number))]
        case "repeat", ():
            replies = client.repeat()
        case "list", ():
            replies = [{"number": number, **booking} for number, booking in record.bookings.items()]
        case "show", (facility, day, hour):
            replies = [client.show(facility, day, hour)]
        case "account", ():
            replies = [client.account()]
        case _:
            sys.exit(__doc__)
    for reply in replies:
        print(json.dumps(reply, separators=(",", ":")))
    return any("fault" in reply for reply in replies)


if __name__ == "__main__":
    try:
        sys.exit(main(*sys.argv[1:]))
    except NoReply as fault:
        print(f"no reply: {fault}", file=sys.stderr)
        sys.exit(3)
    except ValueError as fault:
        sys.exit(f"client.py: {fault}")

#!/usr/bin/python3 -B
"""A desk with Flask and Python's sqlite3 under gunicorn with one worker. tests/peers/beside.py
compares the times of this desk with those of clubdesk. The desk has the same file, statements and
replies as beside_c/desk.c. The desk uses the package tests/reference to read and verify passes, to
read caveats, and to write refusals.

  beside_flask.py FILE MOMENT < STATEMENTS      beside.py explains these arguments
"""

import json
import sqlite3
import sys
from http import HTTPStatus
from pathlib import Path

from flask import Flask, Response, abort, request
from gunicorn.app.base import BaseApplication

sys.path[:0] = [str(Path(__file__).resolve().parents[1] / it) for it in ("lib", "")]
from reference import passes
from reference.caveats import ACTIONS, day_of, listed, moment_of, number_of
from reference.wire import STATUSES, TEXTS

DAY, WINDOW = 1440, 86_400
PRAGMAS = (
    "PRAGMA locking_mode = EXCLUSIVE; PRAGMA journal_mode = WAL; PRAGMA synchronous = FULL; PRAGMA"
    " foreign_keys = ON; PRAGMA cache_size = 2000"
)
(
    KEY,
    OLDER_ROOT,
    MEMBER,
    FACILITY,
    SLOT,
    BOOKING,
    COSTS,
    OPEN,
    ADD_BOOKING,
    ADD_TAKEN,
    CHARGE,
) = sys.stdin.read().splitlines()
app = Flask(__name__)
app.register_error_handler(404, lambda _fault: refusal(2))


def reply(status, body, **headers):
    return Response(
        json.dumps(body, separators=(",", ":")),
        f"{status} {HTTPStatus(status).phrase}",
        headers,
        mimetype="application/json",
    )


def refusal(number, caveat=None):
    body = {"fault": number, "text": TEXTS[number - 1]} | ({"caveat": caveat} if caveat else {})
    return reply(
        STATUSES[number],
        body,
        **({"WWW-Authenticate": "Bearer"} if STATUSES[number] == 401 else {}),
    )


def refuse(number, caveat=None):
    abort(refusal(number, caveat))


def row_of(statement, *values):
    return app.database.execute(statement, values).fetchone()


def verified():
    """Reads and verifies the request's pass. Returns the caveats, the name of the key, and the
    key's member."""
    scheme, _, text = request.headers.get("Authorization", "").partition(" ")
    if scheme.lower() != "bearer":
        refuse(4)
    try:
        given = passes.read(text.encode())
    except passes.NoPass as it:
        refuse(it.fault)
    row = row_of(KEY, given.identifier[4:].decode("ascii", "replace"))
    if not row or not given.identifier.startswith(b"key:"):
        refuse(9)
    name, member, root, revoked = row
    if not given.is_signed(root):
        older = row_of(OLDER_ROOT, name)
        if not older or app.moment >= older[1] or not given.is_signed(older[0]):
            refuse(9)
    if revoked:
        refuse(10)
    return given.caveats, name, member


def spent_by(key):
    return sum(charge - refund for charge, refund in app.database.execute(COSTS, (key,)))


def has_spent_above(key, member, most):
    """Returns whether a key has spent more than `most` points. Adds up the costs of the key's
    bookings only if the member has used more than `most` points."""
    return most < 0 or (row_of(MEMBER, member)[3] > most and spent_by(key) > most)


def open_of(member):
    return len(app.database.execute(OPEN, (member, app.moment, app.moment // DAY)).fetchall())


def test_caveats(caveats, key, member, action, guests=0, owed=0):
    """Understands only the caveats that beside.py writes: guests, until, spend, actions."""
    for number, caveat in enumerate(caveats, 1):
        match caveat.decode("ascii", "replace").split(" ", 2):
            case "guests", "<=", text if (most := number_of(text, 49)) is not None:
                allows = guests <= most
            case "until", "<", text if (until := moment_of(text)):
                allows = app.moment < until
            case "spend", "<=", text if (most := number_of(text, 999_999_999)) is not None:
                allows = not owed or not has_spent_above(key, member, most - owed)
            case "actions", "=", text if listed(text, ACTIONS):
                allows = action in text.split(",")
            case _:
                refuse(11, number)
        if not allows:
            refuse(12, number)


@app.get("/account")
def account():
    caveats, key, member = verified()
    test_caveats(caveats, key, member, "account")
    _, credited, quota, used = row_of(MEMBER, member)
    return reply(
        200,
        {
            "member": member,
            "balance": credited - used,
            "quota": quota,
            "open": open_of(member),
            "spent": spent_by(key),
        },
    )


def slot_of(name, day, hour):
    number = day_of(day)
    if number is None:
        refuse(2)
    return name, number, hour


@app.get("/slots/<name>/<day>/<int(fixed_digits=2, max=23):hour>")
def show(name, day, hour):
    slot = slot_of(name, day, hour)
    caveats, key, member = verified()
    facility = row_of(FACILITY, name)
    test_caveats(caveats, key, member, "view")
    if not facility:
        refuse(14)
    _, kind, places, price, _, _ = facility
    closed, taken = row_of(SLOT, *slot) or (0, 0)
    return reply(
        200,
        {
            "facility": name,
            "day": day,
            "hour": hour,
            "kind": kind,
            "price": price,
            "places": places,
            "taken": taken,
            "closed": bool(closed),
        },
    )


@app.put("/slots/<name>/<day>/<int(fixed_digits=2, max=23):hour>/bookings/<int(min=1):number>")
def book(name, day, hour, number):
    slot = slot_of(name, day, hour)
    body = request.get_json(force=True, silent=True)
    guests = body.get("guests") if isinstance(body, dict) else None
    if not isinstance(guests, int) or not 0 <= guests <= 49:
        refuse(1)
    caveats, key, member = verified()
    record = row_of(BOOKING, key, number)
    facility = None if record else row_of(FACILITY, name)
    charge = facility[3] * (guests + 1) if facility else 0
    test_caveats(caveats, key, member, "book", guests, charge)
    if record and record[2:6] != (*slot, guests):
        refuse(13)
    if not record and not facility:
        refuse(14)
    charge, left = (
        record[6:8]
        if record
        else (charge, book_anew(facility, slot, key, member, number, guests, charge))
    )
    return reply(200, {"booking": f"{key}/{number}", "charge": charge, "left": left})


def book_anew(facility, slot, key, member, number, guests, charge):
    """Writes a booking, and updates the sums of the slot and of the member. Returns how many places
    are left."""
    _, _, places, _, opens, shuts = facility
    _, day, hour = slot
    if not opens <= hour < shuts or not 0 < day * DAY + hour * 60 - app.moment <= WINDOW:
        refuse(16)
    closed, taken = row_of(SLOT, *slot) or (0, 0)
    left = places - taken - guests - 1
    if closed or left < 0:
        refuse(17 if closed else 18)
    _, credited, quota, used = row_of(MEMBER, member)
    if open_of(member) >= quota:
        refuse(19)
    if credited - used < charge:
        refuse(20)
    with app.database:
        app.database.execute(ADD_BOOKING, (key, number, *slot, guests, charge, left, 0, 0))
        app.database.execute(ADD_TAKEN, (*slot, guests + 1))
        if app.database.execute(CHARGE, (member, charge, key, *slot)).rowcount != 1:
            raise sqlite3.IntegrityError("not charged")
    return left


class Server(BaseApplication):
    """Runs gunicorn with one worker, which opens the file."""

    def load_config(self):
        self.cfg.set("bind", "127.0.0.1:0")
        self.cfg.set(
            "when_ready",
            lambda server: print(
                f"listening on 127.0.0.1:{server.LISTENERS[0].getsockname()[1]}", flush=True
            ),
        )

    def load(self):
        app.database = sqlite3.connect(sys.argv[1])
        app.database.executescript(PRAGMAS)
        app.moment = int(sys.argv[2])
        return app


if __name__ == "__main__":
    Server().run()

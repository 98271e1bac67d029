#!/usr/bin/env python3
"""`clubdesk` answers random requests and commands, many of them invalid, in the same way as the
rules in Python.

`tests/reference` has these rules. The test also compares all rows and totals of the club. With
`--self-test`, the test checks that it finds faults planted in the rules.

The test compares replies byte for byte. The test compares rows and totals each time a server has
ended. The rules in Python come only from the pages on the desk, passes and caveats, and not from
the desk's code. A seed determines the requests. The passes have three forms, and are signed with
current, older and unknown roots. A root is the secret of a key. Some passes are truncated, or have
one changed byte. Other passes have caveats with values at a limit. Some passes have a third-party
caveat. Heads and bodies vary in letter case, line ends, lengths, fields and paths. The test runs
many servers one after the other, each with its clock at a random moment. Before each server starts,
the test runs commands of the office.

    tests/desk/hostile.py [--seed N] [--count M] [--plant FAULT | --self-test]
"""
# pytestmark = [mark.programs, mark.quick("--count", "5000"), mark.programs("--self-test"), mark.needs("clubdesk")]

import argparse
import random
import sys
import tempfile
from pathlib import Path

sys.dont_write_bytecode = True
sys.path[:0] = [str(Path(__file__).resolve().parents[1] / it) for it in ("lib", "")]
import desk as programs
from both import Both, finds_each_plant, spelled_day, spelled_moment
from reference import caveats, club as rules, passes

AT_ONE_SERVER = 500  # requests
AT_ONE_CLUB = 10_000
COMMANDS_BETWEEN = 12
NOON = caveats.moment_of("2026-04-20T12:00")
MEMBERS = ("amy", "b", "c-2", "d" * 24, "eve", "0")
KEYS = ("amy-1", "k", "z" * 24, "b-2", "c--", "9", "amy-son", "eve-1")
FACILITIES = ("court-1", "room-1", "boat-1", "f" * 24, "x")
ENDS = (b"\r\n",) * 30 + (b"\n",)


class World(Both):
    """The club in a file and the same club in the reference. A seed determines the random requests
    and commands."""

    def __init__(self, seed, desk, folder, plant=None):
        super().__init__(desk, Path(folder) / f"club-{seed}", plant)
        self.draw = random.Random(seed)
        self.moment = NOON

    # ---- commands

    def root(self):
        return self.draw.randbytes(self.draw.choice((16, 16, 32, 63, 64)))

    def slot(self):
        """Draws a slot. Members can book most of the drawn slots."""
        draw = self.draw
        ahead = (
            draw.choice((0, 1, 2, 2, 11)) if draw.random() < 0.9 else draw.choice((-1, 59, 60, 61))
        )
        hour = (
            draw.choice((8, 9, 18, 19, 20, 21))
            if draw.random() < 0.9
            else draw.choice((0, 7, 22, 23))
        )
        return (
            draw.choice(FACILITIES),
            min(max(self.moment // 1440 + ahead, caveats.FIRST_DAY), caveats.LAST_DAY),
            hour,
        )

    def booked(self):
        """Draws a key and one of its bookings, which may be cancelled. Returns the key, the
        booking's number and the booking. Returns None if the key has no booking."""
        key = self.draw.choice(KEYS)
        rows = self.club.bookings.get(key)
        if not rows:
            return None
        number = self.draw.choice(list(rows)[-40:])
        return key, number, rows[number]

    def words_of_command(self):
        draw = self.draw
        kind = draw.choice(
            (
                "add-member",
                "credit",
                "credit",
                "add-facility",
                "add-key",
                "add-key",
                "revoke-key",
                "rotate-key",
                "close-slot",
                "open-slot",
                "set-quota",
                "debit",
                "set-facility",
                "cancel-booking",
                "cancel-booking",
            )
        )
        if kind == "add-member":
            return kind, draw.choice(MEMBERS), draw.choice((0, 1, 3, 99, 99, 100))
        if kind == "credit":
            return (
                kind,
                draw.choice(MEMBERS),
                draw.choice((0, 1, 600, 49_999, 1_000_000, 1_000_001)),
            )
        if kind == "debit":
            member = draw.choice(MEMBERS)
            balance = self.club.balance(member) if member in self.club.members else 0
            return (
                kind,
                member,
                draw.choice((0, 1, 600, balance, balance + 1, 1_000_000, 1_000_001)),
            )
        if kind == "set-quota":
            return kind, draw.choice(MEMBERS), draw.choice((0, 1, 3, 99, 100))
        if kind == "add-facility":
            opens, shuts = draw.choice(((8, 22), (0, 24), (18, 19), (9, 9), (0, 25)))
            return (
                kind,
                draw.choice(FACILITIES),
                draw.choice(caveats.KINDS),
                draw.choice((0, 1, 4, 50, 51)),
                draw.choice((0, 1, 200, 601, 9999, 10000)),
                opens,
                shuts,
            )
        if kind == "set-facility":
            opens, shuts = draw.choice(((8, 22), (8, 22), (0, 24), (18, 20), (9, 9), (0, 25)))
            return (
                kind,
                draw.choice(FACILITIES),
                draw.choice((0, 1, 2, 4, 50, 51)),
                draw.choice((0, 1, 200, 601, 9999, 10000)),
                opens,
                shuts,
            )
        if kind == "cancel-booking":
            key, number, _ = self.booked() or (draw.choice(KEYS), 1, None)
            return (
                (kind, key, number)
                if draw.random() < 0.8
                else (
                    kind,
                    draw.choice((*KEYS, "none-such")),
                    draw.choice((1, 7, number, 999_999_999)),
                )
            )
        if kind == "add-key":
            return kind, draw.choice(KEYS), draw.choice(MEMBERS), self.root()
        if kind == "revoke-key":
            return kind, draw.choice(KEYS if draw.random() < 0.2 else ("none-such",))
        if kind == "rotate-key":
            name = draw.choice(KEYS)
            root = (
                self.root()
                if draw.random() < 0.9 or name not in self.club.keys
                else self.club.keys[name].root
            )
            return kind, name, root, self.moment + draw.choice((-1, 0, 1, 1440, 40_000))
        return kind, *self.slot()

    # ---- passes

    def caveat(self):
        """Draws a caveat, often with a value at a limit. In about one case in eight, draws a caveat
        that the desk doesn't understand."""
        draw = self.draw
        day = self.moment // 1440
        first, last = (
            spelled_day(day + it) for it in sorted(draw.choices((0, 1, 11, 60, 1000), k=2))
        )
        lines = (
            f"facility = {','.join(draw.choices(FACILITIES, k=draw.choice((1, 2, 8))))}",
            f"kind = {draw.choice(caveats.KINDS)}",
            f"hours = {draw.choice(('00-24', '08-22', '18-19', '18-20', '23-24'))}",
            f"days = {first}..{last}",
            "days = 2000-01-01..2099-12-31",
            f"weekday = {draw.choice(('mon', 'sat,sun', 'fri', 'mon,tue,wed,thu,fri,sat,sun'))}",
            f"until < {spelled_moment(self.moment + draw.choice((-1, 0, 1, 1440)))}",
            "until < 2099-12-31T23:59",
            f"guests <= {draw.choice((0, 1, 2, 49))}",
            f"spend <= {draw.choice((0, 199, 200, 600, 601, 1803, 9999, 999_999_999))}",
            (
                "actions ="
                f" {draw.choice(('view', 'book', 'view,book', 'book,cancel', 'cancel,account', 'view,book,cancel,account'))}"
            ),
        )
        odd = (
            "hours = 20-18",
            "hours = 8-10",
            "hours = 00-25",
            "hours =  18-20",
            f"days = {last}..{first}x",
            "days = 2026-02-29..2026-03-01",
            "weekday = tue,mon",
            "weekday = Fri",
            "weekday = ",
            "until < 2026-05-01T24:00",
            "guests <= 50",
            "guests <= 01",
            "guests <= ",
            "spend <= 1000000000",
            "spend <= 0600",
            "actions = book,view",
            "actions = ",
            "kind = hall",
            "kind = court ",
            "shoe = red",
            "",
            f"facility = {','.join(draw.choices(FACILITIES, k=9))}",
            "facility = ",
            "guests <= 2\n",
            "kind = caf\u00e9",
        )
        return draw.choice(odd if draw.random() < 0.12 else lines).encode()

    def given_pass(self, key):
        """Draws a text of the key's pass. Most of the drawn texts are valid."""
        draw = self.draw
        roots = self.roots.get(key) or [b"no root of the club"]
        root = roots[-1] if draw.random() < 0.8 else draw.choice([*roots, b"another root...."])
        identifier = b"key:" + key.encode()
        if draw.random() < 0.04:
            identifier = draw.choice(
                (
                    key.encode(),
                    b"key:",
                    b"key:" + key.encode() + b"x",
                    b"Key:" + key.encode(),
                    b"\xff\xfe",
                )
            )
        given = passes.minted(
            root, identifier, draw.choice((b"club-desk", b"club-desk", b"", b"http://elsewhere/"))
        )
        for _ in range(draw.choice((0, 0, 0, 1, 1, 2, 3))):
            given = given.narrowed(self.caveat())
        if draw.random() < 0.005:
            for _ in range(draw.choice((62, 63, 64, 65)) - len(given.caveats)):
                given = given.narrowed(b"guests <= 49")
        form = draw.choice(("v1", "v2", "v2", "json"))
        text = (
            self.third_partys(given, form) if draw.random() < 0.03 else passes.text_of(given, form)
        )
        return self.damaged(text) if draw.random() < 0.06 else text

    def third_partys(self, given, form):
        """Returns the pass with a third-party caveat at its end."""
        if form == "v1":
            tail = passes.packet(b"signature", given.signature)
            extra = passes.packet(b"cid", b"who") + self.draw.choice(
                (passes.packet(b"vid", b"x"), passes.packet(b"cl", b""))
            )
            return passes.to_base64(passes.v1_bytes(given)[: -len(tail)] + extra + tail)
        if form == "v2":
            tail = b"\0" + passes.v2_field(passes.SIGNATURE, given.signature)
            extra = self.draw.choice(
                (
                    passes.v2_field(1, b"") + passes.v2_field(2, b"who"),
                    passes.v2_field(2, b"who") + passes.v2_field(4, b"x"),
                )
            )
            return passes.to_base64(passes.v2_bytes(given)[: -len(tail)] + extra + b"\0" + tail)
        return passes.text_of(given, "json").replace(
            b'"c":[', b'"c":[{"i":"who","v64":"_w"}' + (b"," if given.caveats else b""), 1
        )

    def damaged(self, text):
        draw = self.draw
        at = draw.randrange(len(text))
        return draw.choice(
            (
                lambda: text[:at],
                lambda: text[:at] + text[at + 1 :],
                lambda: text[:at] + draw.choice(b'A-_+/=d{}"\\,').to_bytes() + text[at:],
                lambda: text + b"=",
                lambda: text + b"==",
                lambda: text.replace(b"-", b"+"),
                lambda: text + b"A" * draw.choice((1, 2, 3, 4, 8192)),
                lambda: text.translate(bytes.maketrans(b"-_", b"+/")),
                lambda: passes.to_base64(text),
                lambda: text.replace(b'"v":2', b'"v":3'),
                lambda: text.replace(b'"v":2', b'"v":2.0'),
                lambda: text.replace(b'{"c"', b'{"i":"x","c"'),
                lambda: b" " + text,
            )
        )()

    # ---- requests

    def request(self):
        """Draws the bytes of a request. Most of the drawn requests are complete."""
        draw = self.draw
        key, method, path, body = self.target()
        fields = [b"Authorization: Bearer " + self.given_pass(key), b"Host: club.example"]
        if body or draw.random() < 0.1:
            fields.append(b"Content-Length: %d" % len(body))
        if draw.random() < 0.08:
            fields = self.odd_fields(fields)
        draw.shuffle(fields)
        version = (
            b"HTTP/1.1"
            if draw.random() < 0.98
            else draw.choice((b"HTTP/1.0", b"HTTP/2.0", b"HTTP/1.1 ", b"http/1.1"))
        )
        lines = [method + b" " + path + b" " + version, *fields]
        end = (
            b"\r\n\r\n"
            if draw.random() < 0.99
            else draw.choice((b"\n\n", b"\r\n\n", b"\n\r\n", b"\r\n"))
        )
        head = b"".join(line + draw.choice(ENDS) for line in lines[:-1]) + lines[-1] + end
        front = (
            b""
            if draw.random() < 0.98
            else draw.choice((b"\r\n", b"\n", b"\n\n", b"\r\n\r\n", b" "))
        )
        data = front + head + body
        return self.spoiled(data) if draw.random() < 0.05 else data

    def target(self):
        """Draws a request's key, method, path and body. The request may repeat or cancel an
        existing booking."""
        draw = self.draw
        kind = draw.choice(("view", "book", "book", "book", "cancel", "cancel", "account"))
        key, (facility, day, hour), guests = (
            draw.choice(KEYS),
            self.slot(),
            draw.choice((0, 0, 1, 2, 3, 49)),
        )
        number = (
            draw.choice((1, 2, 7, 999_999_999))
            if draw.random() < 0.2
            else draw.randrange(1, 10**9)
        )
        before = (
            self.booked()
            if kind in ("book", "cancel") and draw.random() < (0.8 if kind == "cancel" else 0.25)
            else None
        )
        if before:
            key, number, booking = before
            if draw.random() < 0.85:
                (facility, day, hour), guests = booking.slot, booking.guests
        slot = f"/slots/{facility}/{spelled_day(day)}/{hour:02d}"
        if draw.random() < 0.03:
            slot = self.odd_slot(facility, spelled_day(day), hour)
        method, path, body = {
            "view": ("GET", slot, b""),
            "book": ("PUT", f"{slot}/bookings/{number}", b'{"guests":%d}' % guests),
            "cancel": ("DELETE", f"{slot}/bookings/{number}", b""),
            "account": ("GET", "/account", b""),
        }[kind]
        if draw.random() < 0.02:
            method = draw.choice(
                ("GET", "PUT", "DELETE", "POST", "HEAD", "OPTIONS", "get", "P@T", "X" * 40)
            )
        if draw.random() < 0.02:
            path += draw.choice(
                (
                    "?x=1",
                    "/",
                    "%20",
                    "#a",
                    "/bookings/0",
                    "/bookings/01",
                    "0000000000",
                    "\u00e9",
                    "/bookings",
                )
            )
        if kind == "book" and draw.random() < 0.06:
            body = self.odd_body(guests)
        return key, method.encode(), path.encode(), body

    def odd_slot(self, facility, day, hour):
        return self.draw.choice(
            (
                f"/slots/{facility}/{day}/{hour}",
                f"/slots/{facility}/2026-02-29/18",
                f"/slots/{facility}/1999-12-31/18",
                f"/slots/{facility}/{day}/24",
                f"/slots/-x/{day}/18",
                f"/slots//{day}/18",
                f"/slots/{facility}/{day}/18/",
                f"/slots/{'g' * 25}/{day}/18",
                f"/SLOTS/{facility}/{day}/18",
                f"slots/{facility}/{day}/18",
                f"/slots/none-such/{day}/18",
            )
        )

    def odd_body(self, guests):
        return self.draw.choice(
            (
                b"",
                b"{}",
                b'{"guests":50}',
                b'{"guests":-1}',
                b'{"guests":-0}',
                b'{"guests":1.0}',
                b'{"guests":1e0}',
                b'{"guests":"1"}',
                b'{"guests":true}',
                b'{"guests":null}',
                b'{"guests":01}',
                b'[{"guests":1}]',
                b'{"guests":1,"x":2}',
                b'{"guests":1,}',
                b'{"guests":3,"guests":%d}' % guests,
                b'{"\\u0067uests":%d}' % guests,
                b' {\t"guests" :\r\n%d } ' % guests,
                b'{"guests":1}x',
                b'\xef\xbb\xbf{"guests":1}',
                b'{"guests":"\\ud800","guests":1}',
                b'{"guests":1e999,"guests":1}',
                b'{"guests":1e9}',
                b'{"guests":' + b" " * 240 + b"1}",
                b'{"guests":' + b" " * 250 + b"1}",
                b'{"guests":18446744073709551616}',
                b'{"guests":' + b"[" * 110 + b"]" * 110 + b',"guests":1}',
                b'{"guests":NaN}',
                b'{"gu\xffests":1}',
                b"{'guests':1}",
            )
        )

    def odd_fields(self, fields):
        draw = self.draw
        bearer = fields[0]
        return draw.choice(
            (
                lambda: fields[1:],
                lambda: [bearer, *fields],
                lambda: [bearer.replace(b"Bearer", b"bEARER"), *fields[1:]],
                lambda: [bearer.replace(b"Bearer ", b"Bearer  "), *fields[1:]],
                lambda: [bearer.replace(b"Bearer ", b"Basic "), *fields[1:]],
                lambda: [bearer.replace(b"Authorization", b"AUTHORIZATION"), *fields[1:]],
                lambda: [bearer.replace(b": ", b":\t "), *fields[1:]],
                lambda: [bearer + b" \t", *fields[1:]],
                lambda: [b"Authorization: Bearer", *fields[1:]],
                lambda: [bearer.replace(b":", b" :"), *fields[1:]],
                lambda: [*fields, b"Transfer-Encoding: chunked"],
                lambda: [*fields, b"Transfer-Encoding:"],
                lambda: [*fields, b"Content-Length: 0"],
                lambda: [*fields, b"Content-Length: 12", b"Content-Length: 12"],
                lambda: [
                    *(it for it in fields if not it.startswith(b"Content")),
                    b"Content-Length: 00012",
                ],
                lambda: [
                    *(it for it in fields if not it.startswith(b"Content")),
                    b"content-length: 0012",
                ],
                lambda: [
                    *(it for it in fields if not it.startswith(b"Content")),
                    b"Content-Length: 257",
                ],
                lambda: [
                    *(it for it in fields if not it.startswith(b"Content")),
                    b"Content-Length: +12",
                ],
                lambda: [
                    *fields,
                    *(b"X-%d: %d" % (it, it) for it in range(draw.choice((28, 29, 30, 31)))),
                ],
                lambda: [*fields, b"X: a\rb"],
                lambda: [*fields, b"X: a\x00b"],
                lambda: [*fields, b"X: \xff\xfe\x80"],
                lambda: [*fields, b"X"],
                lambda: [*fields, b": x"],
                lambda: [*fields, b" folded"],
                lambda: [*fields, b"X: " + b"y" * draw.choice((8000, 16_000, 17_000))],
                lambda: [*fields, b"Expect: 100-continue"],
            )
        )()

    def spoiled(self, data):
        draw = self.draw
        at = draw.randrange(len(data))
        return draw.choice(
            (
                lambda: data[:at],
                lambda: data[:at] + draw.randbytes(1) + data[at + 1 :],
                lambda: data[:at] + data[at + 1 :],
                lambda: data[:at] + draw.choice((b"\r", b"\n", b"\r\n", b" ", b"\0")) + data[at:],
                lambda: data + draw.randbytes(40),
                lambda: draw.randbytes(draw.choice((0, 1, 40, 400))),
                lambda: data + data,
                lambda: b"\r\n\r\n" + data,
            )
        )()

    # ---- rounds

    def round(self, count):
        """Runs commands, sends requests to a server whose clock shows a random moment, and compares
        the rows of the file."""
        self.moment = (
            NOON
            + self.draw.choice((0, 0, 1, 360, 361, 1440, 11 * 1440, 30_000))
            + self.draw.randrange(3)
        )
        for _ in range(COMMANDS_BETWEEN):
            self.give(self.words_of_command())
        with programs.Server(
            self.desk, self.file, count, "--at", spelled_moment(self.moment)
        ) as server:
            for _ in range(count):
                self.ask(server, self.request(), self.moment)
        self.compare_rows()


def begin(world):
    """Adds the first members, facilities and keys of a club."""
    for member in MEMBERS[:5]:
        world.give(("add-member", member, 99 if member == "amy" else 3))
        world.give(("credit", member, 1_000_000 if member == "amy" else 4_000))
    for name, kind, places, price in zip(
        FACILITIES, ("court", "room", "boat", "court"), (4, 1, 50, 2), (200, 601, 9999, 0)
    ):
        world.give(("add-facility", name, kind, places, price, 8, 22))
    for key, member in zip(KEYS, (*MEMBERS[:5], "amy", "amy", "eve")):
        world.give(("add-key", key, member, world.root()))


def run(seed, count, desk, plant=None):
    """Sends `count` requests. After every 10,000 requests, continues with a new club."""
    with tempfile.TemporaryDirectory(dir=programs.IN_MEMORY) as folder:
        for done in programs.paced(count, AT_ONE_SERVER, "requests"):
            if done % AT_ONE_CLUB == 0:
                world = World(f"{seed}-{done // AT_ONE_CLUB}", desk, folder, plant)
                begin(world)
            world.round(min(AT_ONE_SERVER, count - done))


def main():
    parser = argparse.ArgumentParser(description=__doc__.partition("\n\n")[0])
    parser.add_argument("--seed", type=int, default=1)
    parser.add_argument(
        "--count",
        type=int,
        default=250_000,
        help="the number of requests; the default takes about ten minutes",
    )
    parser.add_argument(
        "--plant",
        choices=rules.PLANTS,
        help="plants this fault in the reference; the test must find it",
    )
    parser.add_argument("--self-test", action="store_true", help="plants each fault in turn")
    given = parser.parse_args()
    desk = programs.program("clubdesk")
    if given.self_test:
        return (
            0
            if finds_each_plant(
                lambda plant: run(given.seed, min(given.count, 20_000), desk, plant)
            )
            else 1
        )
    run(given.seed, given.count, desk, given.plant)
    print(f"{given.count} requests, seed {given.seed}: each reply matches the reference")
    return 0


if __name__ == "__main__":
    sys.exit(main())

#!/usr/bin/env -S /usr/bin/python3 -B
"""The desk replies to 1,500 requests as the rules in Python demand. pymacaroons narrowed the passes
of half of the requests.

The passes are in V1, V2 and JSON.

The rules are in tests/reference. As in tests/desk/hostile.py, a fixed seed determines the club, the
requests and the caveats. passtool narrows the passes of the other requests. From each key's root,
pymacaroons must also make the same pass as our programs.
"""
# pytestmark = [mark.programs, mark.needs("clubdesk passtool"), mark.wants("python3-pymacaroons")]

import subprocess
import sys
import tempfile
from collections import Counter
from pathlib import Path

from pymacaroons import Macaroon
from pymacaroons.serializers import JsonSerializer

sys.path[:0] = [str(Path(__file__).resolve().parents[1] / it) for it in ("lib", "desk", "")]
import desk as programs
import hostile
from both import expect
from reference import caveats, passes, wire

DESK, TOOL = programs.program("clubdesk"), programs.program("passtool")
REQUESTS = 1500
# The test runs a server at each of these moments, one after the other.
MOMENTS = [
    "2026-04-20T12:00",
    "2026-04-30T18:01",
    "2026-05-01T17:59",
    "2026-05-01T18:00",
    "2026-05-02T10:30",
]
FORMS = ["v1", "v2", "json"]
NOT_UNDERSTOOD = [
    "kind = Court",
    "days = now",
    "actions = cancel,book",
    "weekday = sun,sat",
    " guests <= 1",
]
REVOKED, CLOSED = "c--", ("boat-1", caveats.day_of("2026-05-03"), 9)


def passtool(*words, given):
    return subprocess.run(
        [TOOL, *words], input=given, capture_output=True, check=True, text=True
    ).stdout.rstrip("\n")


def read(text):
    return (
        Macaroon.deserialize(text, JsonSerializer())
        if text.startswith("{")
        else Macaroon.deserialize(text)
    )


def write(macaroon, form):
    return macaroon.serialize(JsonSerializer()) if form == "json" else macaroon.serialize()


def add_caveats(macaroon, *texts):
    for each in texts:
        macaroon.add_first_party_caveat(each)


class World(hostile.World):
    """Keeps a club in clubdesk and in Python, and draws random requests from a seed. The club's
    keys have passes in V1, V2 and JSON."""

    def __init__(self, folder):
        super().__init__("pymacaroons", DESK, folder)
        hostile.begin(self)
        self.give(("revoke-key", REVOKED))
        self.give(("close-slot", *CLOSED))
        self.texts = {
            (key, form): self.text_of(key, form) for key in hostile.KEYS for form in FORMS
        }

    # clubdesk prints the first key's pass in V1, the second key's pass in V2, the third key's pass
    # in JSON, and so on.

    def words_of(self, command):
        return [
            *super().words_of(command),
            *(["--form", self.form_of(command[1])] if command[0] == "add-key" else []),
        ]

    def answer_of(self, command):
        status, printed, fault = super().answer_of(command)
        if command[0] == "add-key":
            printed = (
                passes.text_of(
                    passes.read(printed.strip().encode()), self.form_of(command[1])
                ).decode()
                + "\n"
            )
        return status, printed, fault

    def form_of(self, key):
        return FORMS[hostile.KEYS.index(key) % 3]

    def text_of(self, key, form):
        """Returns a key's pass that passtool has converted into this form. pymacaroons must make
        the same pass from the root."""
        (root,) = self.roots[key]
        minted = passes.minted(root, f"key:{key}".encode())
        text = passtool(
            "convert", "--form", form, given=passes.text_of(minted, self.form_of(key)).decode()
        )
        ours, theirs = Macaroon(
            location="club-desk",
            identifier=f"key:{key}",
            key=root,
            version=1 if form == "v1" else 2,
        ), read(text)
        expect(
            (key, form),
            (theirs.location, theirs.identifier_bytes, theirs.signature),
            (ours.location, ours.identifier_bytes, ours.signature),
        )
        expect((key, form), form == "json" or text == ours.serialize(), True)
        return text

    def slot(self):
        return CLOSED if self.draw.random() < 0.1 else super().slot()

    def caveats(self):
        count = self.draw.choice([0, 0, 1, 1, 2, 3])
        return [
            (
                self.draw.choice(NOT_UNDERSTOOD)
                if self.draw.random() < 0.02
                else self.caveat().decode()
            )
            for _ in range(count)
        ]

    def narrowed(self, text, form, by_pymacaroons):
        """Returns the pass with random caveats. Also returns the number of the expected fault if
        the test spoiled the pass, and None otherwise."""
        more = self.caveats()
        if not by_pymacaroons:
            return passtool("narrow", "--any", "--", *more, given=text) if more else text, None
        macaroon = read(text)
        add_caveats(macaroon, *more)
        return (
            self.spoiled_pass(macaroon, form)
            if self.draw.random() < 0.12
            else (write(macaroon, form), None)
        )

    def spoiled_pass(self, macaroon, form):
        what = self.draw.randrange(5)
        if what == 0:
            macaroon.add_third_party_caveat("http://elsewhere.example/", "a key of theirs", "an id")
            return write(macaroon, form), 7
        if what == 1:
            last = macaroon.signature[-1]
            macaroon.signature = macaroon.signature[:-1] + ("0" if last != "0" else "1")
            return write(macaroon, form), 9
        if what == 2:
            add_caveats(macaroon, "guests <= 49")
            macaroon.caveats.pop()
            return write(macaroon, form), 9
        if what == 3:
            add_caveats(macaroon, *["guests <= 49"] * (65 - len(macaroon.caveats)))
            return write(macaroon, form), 8
        return write(macaroon, form)[:-1], 6

    def ask_under(self, server, form, by_pymacaroons):
        """Sends a request. Returns the fault number of the refusal, or 0 if the desk carries out
        the request."""
        key, method, path, body = self.target()
        text, spoil = self.narrowed(self.texts[key, form], form, by_pymacaroons)
        data = (
            b"%s %s HTTP/1.1\r\nHost: club\r\nAuthorization: Bearer %s\r\nContent-Length:"
            b" %d\r\n\r\n%s" % (method, path, text.encode(), len(body), body)
        )
        fault = wire.json_value(self.ask(server, data, self.moment).partition(b"\r\n\r\n")[2]).get(
            "fault", 0
        )
        expect(data, fault in (1, 2, 3) or spoil in (None, fault), True)
        return fault


def main(folder):
    world, counted = World(folder), Counter()
    count = REQUESTS // len(MOMENTS)
    for moment in MOMENTS:
        world.moment = caveats.moment_of(moment)
        with programs.Server(DESK, world.file, count, "--at", moment) as server:
            for index in range(count):
                maker, form = ("passtool", "pymacaroons")[index % 2], FORMS[index // 2 % 3]
                counted[maker, form, world.ask_under(server, form, maker == "pymacaroons")] += 1
    world.compare_rows()
    for maker, form in dict.fromkeys(it[:2] for it in counted):
        row = {fault: n for (*its, fault), n in sorted(counted.items()) if its == [maker, form]}
        refused = ", ".join(f"{fault}: {n}" for fault, n in row.items() if fault)
        print(
            f"{sum(row.values())} in {form} by {maker}: {row.get(0, 0)} served; refused as"
            f" {refused}"
        )
    print(f"{sum(counted.values())} replies match the rules")


with tempfile.TemporaryDirectory() as room:
    main(room)

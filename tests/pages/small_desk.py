#!/usr/bin/env -S /usr/bin/python3 -B -m pytest -q -p no:cacheprovider
"""The small desk in web/demo.html replies to 8,000 random requests as the rules in Python demand.

The small desk is written in JavaScript. The test runs four times with the same club, each time with 2,000 requests.

The requests look at slots and accounts, book, repeat and cancel. Some passes are narrowed or invalid.
"""

import json
import random
import subprocess
from datetime import timedelta

import pytest

import desk
from reference import passes
from reference.caveats import EPOCH, day_of
from reference.club import Club, Request, Served
from reference.wire import STATUSES, TEXTS

pytestmark = [pytest.mark.browser, pytest.mark.quick, pytest.mark.wants("nodejs")]

COUNT = 2000
ROOTS = {
    "amy-1": bytes(range(16)),
    "amy-2": bytes(range(1, 33)),
    "bob-1": bytes(range(2, 66)),
    "constructor": bytes(range(3, 19)),
}
OWNERS = {"amy-1": "amy", "amy-2": "amy", "bob-1": "bob", "constructor": "bob"}
FACILITIES = [
    ("court-1", "court", 4, 200, 8, 22),
    ("court-2", "court", 2, 301, 8, 20),
    ("boat-1", "boat", 3, 0, 6, 24),
    ("tostring", "room", 1, 601, 0, 24),
]
MEMBERS = {"amy": (6, 99000), "bob": (60, 5000)}
DAYS = ["2026-05-01", "2026-05-02", "2026-06-30", "2026-07-01", "2026-07-02"]
LINES = [
    "kind = court",
    "facility = court-1,boat-1",
    "hours = 10-12",
    "days = 2026-05-01..2026-05-02",
    "weekday = fri",
    "until < 2026-05-02T09:00",
    "guests <= 1",
    "spend <= 900",
    "spend <= 0",
    "actions = view,book",
    "actions = account",
    "colour = red",
    "guests <= 01",
    "spend <= 1000000000",
]


def club_of():
    club = Club()
    for member, (quota, points) in MEMBERS.items():
        club.command(("add-member", member, quota))
        club.command(("credit", member, points))
    for row in FACILITIES:
        club.command(("add-facility", row[0].lower(), *row[1:]))
    for key, root in ROOTS.items():
        club.command(("add-key", key, OWNERS[key], root))
    club.command(("close-slot", "court-1", day_of("2026-05-02"), 11))
    return club


def as_given():
    """Returns the club in the form that the small desk reads."""
    return {
        "members": {
            member: {"credited": points, "quota": quota}
            for member, (quota, points) in MEMBERS.items()
        },
        "facilities": {
            name.lower(): dict(zip(("kind", "places", "price", "opens", "shuts"), rest))
            for name, *rest in FACILITIES
        },
        "keys": {
            key: {"member": OWNERS[key], "root": root.hex(), "revoked": False}
            for key, root in ROOTS.items()
        },
        "closed": ["court-1 2026-05-02 11"],
    }


def key_drawn(draw):
    return draw.choice([*ROOTS, "amy-1"] * 4 + ["nobody", "prototype"])


def text_drawn(draw, key):
    """Draws a key's pass in one of the forms. Most passes are valid, with or without caveats. Some passes have another root, or are cut off."""
    caveats = [line.encode() for line in draw.choices(LINES, k=draw.choice([0] * 9 + [1, 1, 2]))]
    root = ROOTS.get(key, b"x" * 16) if draw.random() < 0.97 else b"y" * 16
    text = passes.text_of(
        passes.minted(root, f"key:{key}".encode(), b"", caveats),
        draw.choice(["v1", "v2", "v2", "json"]),
    )
    return text[:-3] if draw.random() < 0.02 else text


def asked_drawn(draw, before):
    """Draws a key and a request under this key. The request is new, or repeats an earlier request completely or in part."""
    key = key_drawn(draw)
    action = draw.choice(["view", "book", "book", "book", "cancel", "cancel", "cancel", "account"])
    if before and action in ("book", "cancel") and draw.random() < 0.7:
        key, slot, number, guests = draw.choice(before[-8:])
        if draw.random() < 0.2:
            number = draw.randrange(1, 300)
    else:
        slot = {
            "facility": draw.choice(
                ["court-1", "court-2", "boat-1", "tostring"] * 3 + ["none", "hasownproperty"]
            ),
            "day": draw.choice(DAYS[:2] * 3 + DAYS),
            "hour": draw.choice([5, 8, 10, 11, 11, 19, 19, 20, 23]),
        }
        number, guests = draw.randrange(1, 300), draw.choice([0, 0, 0, 1, 2, 3])
        before.append((key, slot, number, guests))
    if action == "account":
        return key, {"action": action}
    return key, {
        "action": action,
        "slot": slot,
        "number": number,
        "guests": guests if action == "book" else 0,
    }


def wanted_of(club, text, asked, moment):
    slot = asked.get("slot")
    request = Request(
        asked["action"],
        (slot["facility"], day_of(slot["day"]), slot["hour"]) if slot else None,
        asked.get("number"),
        asked.get("guests", 0),
    )
    reply = club.ask(text, request, moment)
    if isinstance(reply, Served):
        body = dict(reply.body)
        if "day" in body:
            body["day"] = str(EPOCH + timedelta(days=body["day"]))
        return {"status": 200, "body": body}
    body = {
        "fault": reply.fault,
        "text": TEXTS[reply.fault - 1],
        **({} if reply.caveat is None else {"caveat": reply.caveat}),
    }
    return {"status": STATUSES[reply.fault], "body": body}


@pytest.mark.parametrize("seed", range(4))
def test_answers_as_the_rules_do(seed):
    draw, club, before, given, wanted = random.Random(seed), club_of(), [], [], []
    for _ in range(COUNT):
        key, asked = asked_drawn(draw, before)
        text = text_drawn(draw, key)
        day, minute = draw.choice(DAYS[:2]), draw.randrange(1440)
        if (
            asked["action"] == "cancel" and draw.random() < 0.4
        ):  # at a moment on the slot's day, before the slot begins
            day, minute = asked["slot"]["day"], draw.randrange(60 * asked["slot"]["hour"])
        given.append(
            {
                "text": text.decode(),
                "asked": asked,
                "moment": f"{day}T{minute // 60:02}:{minute % 60:02}",
            }
        )
        wanted.append(wanted_of(club, text, asked, day_of(day) * 1440 + minute))
    lines = "\n".join(map(json.dumps, [as_given(), *given]))
    done = subprocess.run(
        ["node", desk.ROOT / "web/tests/small_desk_answers.mjs"],
        input=lines,
        capture_output=True,
        text=True,
        check=True,
    )
    found = list(map(json.loads, done.stdout.splitlines()))
    assert len(found) == COUNT
    for place, (one, other) in enumerate(zip(found, wanted)):
        assert one == other, (place, given[place])
    met = {it["body"].get("fault", 0) for it in wanted}
    assert {150, 300} & {
        it["body"].get("refund") for it in wanted
    }, "no refund of half an odd charge"
    missing = {0, 6, 9, 11, 12, 13, 14, 15, 16, 17, 18, 19, 20} - met
    assert not missing, missing

#!/usr/bin/env -S /usr/bin/python3 -B -m pytest -q -p no:cacheprovider
"""A mail about cancelled bookings greets the member by first name and surname, and names each slot by title, weekday and hour.

The mail is in the clerk's language."""

import sys
from types import SimpleNamespace

import pytest

import desk

sys.path.append(str(desk.ROOT / "deploy"))
from club_office.people import greeted, mail_of

pytestmark = [pytest.mark.quick]

DAY = 20579  # 2026-05-06, a Wednesday
ENGLISH = """Dear Bob Müller,

the office had to cancel the following bookings:

- Court 1, Wednesday 6 May 2026, 08:00
- boat-1, Wednesday 6 May 2026, 18:00

You get 900 points back.

Lakeside Club
"""
GERMAN = """Hallo Bob Müller,

das Büro musste deine Buchung absagen:

- Court 1, Mittwoch, 6. Mai 2026, 8 Uhr

Du bekommst 600 Punkte zurück.

Lakeside Club
"""


@pytest.fixture
def club(tmp_path):
    titles = tmp_path / "titles"
    titles.write_text("\ufeff# titles\ncourt-1 Court 1 | Clay, flat soles\n\nroom-1\n", "utf-8")
    return SimpleNamespace(title="Lakeside Club", settings={"titles": str(titles)})


def booking(facility, hour, charge):
    return SimpleNamespace(facility=facility, day=DAY, hour=hour, charge=charge)


def test_several_bookings(club, monkeypatch):
    monkeypatch.setenv("LC_ALL", "C.UTF-8")
    subject, text = mail_of(
        club, "Müller, Bob", [booking("court-1", 8, 600), booking("boat-1", 18, 300)]
    )
    assert (subject, text) == ("Lakeside Club: your bookings were cancelled", ENGLISH)


def test_one_booking_in_german(club, monkeypatch):
    monkeypatch.setenv("LC_ALL", "de_DE.UTF-8")
    subject, text = mail_of(club, "Müller, Bob", [booking("court-1", 8, 600)])
    assert (subject, text) == ("Lakeside Club: Deine Buchung wurde abgesagt", GERMAN)


@pytest.mark.parametrize("titles", [None, "/nonexistent"])
def test_without_titles(club, titles, monkeypatch):
    monkeypatch.setenv("LC_ALL", "C.UTF-8")
    club.settings["titles"] = titles
    assert "- court-1, Wednesday" in mail_of(club, "Amy", [booking("court-1", 8, 600)])[1]


def test_names():
    for name, wanted in (
        ("Müller, Bob", "Bob Müller"),
        ("Bob Müller", "Bob Müller"),
        ("Müller,", "Müller"),
        ("de la Cruz, Ana María", "Ana María de la Cruz"),
    ):
        assert greeted(name) == wanted, name

#!/usr/bin/env -S /usr/bin/python3 -B -m pytest -q -p no:cacheprovider
"""The server answers while its clock shows a moment from 2000 to 2099, and ends with status 6 at
any other moment.

When the server ends with status 6, it leaves the club unchanged.

The test sets the clock to moments inside and outside these years, in three time zones. If the clock
shows a moment from 2000 to 2099, each client gets its reply. If the clock shows another moment or
can't be read, the first client gets no byte. The server then prints a line on standard error and
ends without waiting for a second client. The club is unchanged.
"""

from datetime import datetime, timezone

import pytest

import desk
from kinds import account

pytestmark = [pytest.mark.faults, pytest.mark.needs("clubdesk"), pytest.mark.wants("gcc libc6-dev")]

CENTRAL, WESTERN = "CET-1CEST,M3.5.0,M10.5.0/3", "EST5"


@pytest.fixture
def clock(library, club):
    """Returns a function that starts a server for two connections. The server's clock always shows
    the same UTC time, or can't be read."""

    def server_at(zone, time, status=0):
        second = (
            "unreadable"
            if time is None
            else str(int(datetime.fromisoformat(time).replace(tzinfo=timezone.utc).timestamp()))
        )
        return desk.Server(
            club.program,
            club.file,
            2,
            "--zone",
            zone,
            "--log",
            status=status,
            variables={"CLOCK_SECOND": second, "LD_PRELOAD": library("set_clock")},
        )

    return server_at


@pytest.mark.parametrize(
    "zone, time, minute",
    [
        ("UTC0", "2000-01-01T00:00:00", "2000-01-01T00:00"),
        ("UTC0", "2099-12-31T23:59:59", "2099-12-31T23:59"),
        (CENTRAL, "1999-12-31T23:00:00", "2000-01-01T00:00"),
        (CENTRAL, "2099-12-31T22:59:59", "2099-12-31T23:59"),
        (WESTERN, "2100-01-01T04:59:59", "2099-12-31T23:59"),
    ],
)
def test_moment_of_the_club(clock, zone, time, minute):
    with clock(zone, time) as it:
        it.serves(account(), account())
    assert [
        line.startswith(f"{minute} GET /account 200 ") for line in it.log.read_text().splitlines()
    ].count(True) == 2


@pytest.mark.parametrize(
    "zone, time",
    [
        ("UTC0", "1999-12-31T23:59:59"),
        ("UTC0", "2100-01-01T00:00:00"),
        ("UTC0", "1970-01-01T00:00:00"),
        ("UTC0", "9999-12-31T23:59:59"),
        (CENTRAL, "1999-12-31T22:59:59"),
        (CENTRAL, "2099-12-31T23:00:00"),
        (WESTERN, "2000-01-01T04:59:59"),
        ("UTC0", None),
    ],
)
def test_no_moment_of_the_club(clock, club, zone, time):
    before = club.file.read_bytes()
    with clock(zone, time, status=6) as it:
        assert not it.exchange(account().data)
    assert it.log.read_text().splitlines()[-1] == "clock out of range"
    assert club.file.read_bytes() == before

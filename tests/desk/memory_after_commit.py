#!/usr/bin/env -S /usr/bin/python3 -B -m pytest -q -p no:cacheprovider
"""The server allocates no memory between a commit and its reply.

In the test, the server makes six bookings and three cancellations, with passes in the forms V1, V2
and JSON.

Tests that compare the bytes of replies can't notice an unnecessary allocation, because such an
allocation changes no byte. A commit ends with the last call that syncs the file before the server
sends the reply.
"""

import pytest

from conftest import Reply
from kinds import AMY, ONE, book, cancel, slot, text
from reference import passes

pytestmark = [pytest.mark.faults, pytest.mark.needs("clubdesk"), pytest.mark.wants("gcc libc6-dev")]


@pytest.mark.parametrize("form", passes.FORMS)
def test_no_allocation_after_a_commit(club, library, tmp_path, form):
    calls = tmp_path / "calls"
    with club.served(
        count=3, variables={"CALLS_TOLD": str(calls), "LD_PRELOAD": library("refused_memory")}
    ) as it:
        for row in (book(1, ONE), book(2, ONE, slot("19")), cancel(1)):
            calls.write_text("")
            assert Reply(it.exchange(row.under(text(AMY, form=form)).data)).status == 200
            lines = [line.split() for line in calls.read_text().splitlines()]
            sent = [name for name, _ in lines].index("send")
            assert sent > 0, "no commit before the reply"
            assert {name for name, _ in lines[:sent]} == {"sync"}
            assert (
                int(lines[sent][1]) - int(lines[sent - 1][1]) == 0
            ), "allocations after the commit"
            assert int(lines[sent][1]) > 0, "no allocation was counted"

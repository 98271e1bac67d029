#!/usr/bin/env -S /usr/bin/python3 -B
"""`office` carries out the clerks' commands, lists, corrections and restores, and resists a hostile clerk.

The test compares each result with the desk's data, and checks refusals, passes and the book of
commands. The test needs root, because it covers the machine's folders with temporary overlays
(tests/lib/office_room.sh).

The test runs deploy/office as a clerk without root, under the rules of deploy/office.sudoers. The test's own
small service manager runs the server. The test has these parts:
- office_orders.py: commands and lists, compared with the desk's replies; passes in files; the log of commands (the book), in a file and in the journal
- office_corrections.py: corrections, compared with show-account, the day sheet and the totals; restores, even over a damaged file
- office_season.py: a season's points, closures and letters, members' full names, undo, and the files of old years
- office_findings.py: forged lines, a clerk's own programs, a stopped terminal, a journal that reads nothing, full memory, and a full disk

  tests/office/office_holds.py [findings|season]    findings, season: only this part, after the first steps
"""
# pytestmark = [mark.package, mark.root, mark.needs("clubdesk passtool"),
#     mark.wants("sudo sqlite3 openssl util-linux bsdutils iproute2 systemd python3-psutil")]

import sys
from pathlib import Path

sys.path[:0] = [str(Path(__file__).resolve().parents[1] / it) for it in ("lib", "")]
import office_corrections as corrections
import office_findings as findings
import office_orders as orders
import office_season as season
from office_room import Service, leave


def of_a_season():
    server, pages, lines_of, tomorrow = season.make_season_club()
    season.for_callers(server, tomorrow)
    season.for_hours(tomorrow)
    season.in_use_of_persons(server, lines_of, tomorrow)
    season.undone(server, tomorrow)
    season.season(pages, tomorrow)
    season.letters_and_records(tomorrow)
    season.spare_passes(lines_of)
    season.lists_as_they_are_written()
    season.old_years(server)


orders.manual()
orders.before_there_is_a_club()
orders.as_nobody_else()
orders.commands_and_looks()
amy, bob = orders.passes()
part = sys.argv[1:]
if part == ["findings"]:
    findings.findings()
    leave()
if part == ["season"]:
    of_a_season()
    leave()
server = Service()
orders.looks(server, amy)
orders.lists(server, amy, bob)
corrections.corrections(server, amy, bob)
corrections.tournament_and_rain(server, bob)
corrections.member_leaves(server, bob)
corrections.breaks_no_total(server)
orders.takes_turns()
corrections.booked_meanwhile(server)
corrections.back_ups()
orders.in_the_book()
orders.in_the_journal()
corrections.restores(server)
findings.findings()
of_a_season()
leave()

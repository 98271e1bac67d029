"""Lists faults for each test. The test must fail if one of its faults is planted. `tests/run
--planted` reads this module.

A fault replaces some bytes in a copy of a built program or of a file in the repository. A fault may
also be a shell script that replaces a program. In the script, $PROGRAM is the path of the replaced
program. The log of the failed test must contain the words that the fault states, so that a failure
for another reason doesn't count."""

import os
import shutil
import subprocess
import sys
from pathlib import Path

sys.path.insert(0, str(Path(__file__).resolve().parent / "lib"))
import desk

PROGRAMS = ("clubdesk", "passtool")
BY_HAND = "#!/bin/sh\n"
# Each key is the name of a test, or TEST:FAULT if the test has several faults. The value of a key
# is the file, the bytes, their replacement, the words in the log, and the arguments for a shorter
# run of the test.
PLANTS = {
    "beside": (
        "tests/peers/beside_go/desk.go",
        '"left":',
        '"lost":',
        "booking: the replies differ",
        "10",
        "1",
        "100",
    ),
    "bookings_survive_kill": (
        "clubdesk",
        BY_HAND,
        '[ "$1" != sheet ] || rm -f "$2-wal"; exec "$PROGRAM" "$@"',
        "'sheet ",
    ),
    "arguments_taken": ("clubdesk", "storage failed", "storage failex", "test_each_hour"),
    "audit": ("docs/proofs/PROMISES.md", "`opens`", "`openz`", "no contract Tables::open: openz"),
    "builds_side_by_side": (
        "bin/proved",
        '[ ! -e "$out/build.started" ] || return 0',
        ":",
        "not ok 12 a build that is killed",
    ),
    "check_tells": (
        "bin/check",
        '[ "$more" != 0 ] || failed=$((failed + 1))',
        "",
        "not ok 6 a part that prints no counts",
    ),
    "client_survives": (
        "examples/client.py",
        "        self.file.flush()\n        os.fsync(self.file.fileno())\n",
        "",
        "test_servers_and_clients_that_are_killed",
    ),
    "client_survives:price": (
        "examples/client.py",
        "min(spent + points, MOST_POINTS)",
        "MOST_POINTS",
        "test_a_price_that_rose",
    ),
    "clock_out_of_range": (
        "clubdesk",
        BY_HAND,
        '"$PROGRAM" "$@" || exit 0',
        "the server ended with status 0",
    ),
    "club_stays_whole": (
        "tests/desk/club_stays_whole.py",
        "VALUES ('amy', 0, 5, 0)",
        "VALUES ('amy', 0, 4, 0)",
        "assert found in wanted",
    ),
    "completions_hold": (
        "bin/completions",
        'compgen -W "$values"',
        'compgen -W ""',
        "test_completions[clubdesk-Bash]",
    ),
    "demo_tells": ("bin/demo", 'kill "$server" 2>/dev/null', "true", "not ok 6 a signal"),
    "docs_hold-quick": ("docs/TOUR.md", "`is_signed_by`", "`is_sygned_by`", "is_sygned_by"),
    "field_outlives_bytes": (
        "tests/peers/field_outlives_bytes.bats",
        "'drop(held);'",
        "''",
        "not ok 1 a field of V1",
    ),
    "header_holds": (
        "include/clubpass.h",
        "size_t index, uint8_t *out",
        "uint32_t index, uint8_t *out",
        "test_functions",
    ),
    "header_holds:members": (
        "include/clubpass.h",
        "    uint8_t hour; ",
        "    uint16_t hour;",
        "test_members",
    ),
    "header_holds:codes": (
        "include/clubpass.h",
        "CLUBPASS_DENIED = 11",
        "CLUBPASS_DENIED = 10",
        "test_codes",
    ),
    "hostile-quick": ("clubdesk", "quota reached", "quota reachex", "quota reachex"),
    "jobs_hold": ("deploy/old_copies", "now - its_day < 14", "now - its_day < 13", "too few"),
    "keys_and_days": ("clubdesk", "No bookings.", "No bookingx.", "test_sheets_of_a_leap_year"),
    "keys_and_days:keys": (
        "tests/reference/passes.py",
        'b"macaroons-key-generator"',
        'b"macaroons-key-generatox"',
        "test_keys_beyond_the_cache",
    ),
    "lint": ("CHANGELOG.md", "## 0.1.0,", "## 0.1.1,", "differs from version"),
    "lint:spelling": (
        "docs/TOUR.md",
        "Where is the signature compared",
        "Where is the signatture compared",
        "misspelt: docs/TOUR.md",
    ),
    "lint:plants": (
        "deploy/old_copies",
        "now - its_day < 14",
        "now - its_day < 15",
        "a planted fault doesn't apply: jobs_hold",
    ),
    "lint_tells": ("tests/lib/prose.py", "exactly if", "exactlyif", "nothing is left.-exactly if]"),
    "linters": (
        "tests/lib/desk.py",
        "import errno\n",
        "import errno\nimport ast\n",
        "'ast' imported but unused",
    ),
    "mails_tell": (
        "deploy/club_office/people.py",
        'return f"{first} {surname}" if first',
        'return f"{surname} {first}" if first',
        "test_names",
    ),
    "man_pages": (
        "man/clubdesk.1",
        ".It Cm revoke-key Ar FILE KEY",
        ".It Cm revoke-key Ar FILE",
        "revoke-key KEY",
    ),
    "memory_after_commit": (
        "tests/lib/refused_memory.c",
        'O_APPEND, "send ");',
        'O_APPEND, (seen++, "send "));',
        "allocations after the commit",
    ),
    "modules_hold": ("web/src/dates.mjs", '"mon", "tue"', '"tue", "mon"', "not ok"),
    "modules_hold:no-cancellation": (
        "web/src/sender.mjs",
        "await this.replacedBy(next) : null;",
        "null : null;",
        "a changed booking is made first",
    ),
    "modules_hold:dearer-than-shown": (
        "web/src/points.mjs",
        "view.price * (guests + 1)",
        "view.price",
        "a booking costs the price for each person",
    ),
    "modules_hold:caches-the-account": (
        "web/src/worker.js",
        " || !PAGES.includes(path)",
        "",
        "the worker leaves the desk's requests",
    ),
    "modules_hold:lists-doubt": (
        "web/src/state.mjs",
        '(stateOf(each) === "listed" && stateOf(entry) === "listed")',
        'stateOf(each) === "listed"',
        "2 of 2",
    ),
    "modules_hold:lists-doubt-points": (
        "web/src/record.mjs",
        "(!isOfLists || entry.listed !== undefined)",
        "true",
        "made up, 901",
    ),
    "modules_hold:lists-book-twice": (
        "web/src/record.mjs",
        " && !entry.ofList",
        "",
        "another booking of that number",
    ),
    "modules_hold:lists-erase": (
        "web/src/record.mjs",
        "{ ...own, guests: other.guests ?? own.guests, listed: other.listed }",
        "other",
        "a list after cancelling",
    ),
    "modules_hold:price-rises": (
        "web/src/price.mjs",
        "Math.min(most, MOST_POINTS)",
        "MOST_POINTS",
        "charged the new price",
    ),
    "modules_hold:price-of-repeat": (
        "web/src/replies.mjs",
        " && !isOfPrice(reply)",
        "",
        "the refusal shows that nothing is booked",
    ),
    "modules_hold:lists-without-end": (
        "web/src/lists.mjs",
        "latestFirst.slice(0, MOST_AT_ONCE)",
        "latestFirst",
        "bookings at once",
    ),
    "modules_hold:searches-for-each-card": (
        "web/src/state.mjs",
        "  if (own.all === state.entries && own.key === state.key) return own;\n",
        "",
        "searches of a long record",
    ),
    "modules_hold:titles-break-lines": (
        "web/src/calendar.mjs",
        "\\u0085\\u2028",
        "",
        "a line that a title brought",
    ),
    "modules_hold:spares-of-others": (
        "web/src/lend.mjs",
        " || account.member !== member",
        "",
        "whose spare passes",
    ),
    "modules_hold:friday-means-monday": (
        "web/src/lend.mjs",
        "lines.push(`days = ${first}..${last}`)",
        "lines.push()",
        "the days of a loan",
    ),
    "modules_hold:refund-after-the-end": (
        "web/src/lend.mjs",
        "end !== null && end < dayBefore ? end : dayBefore",
        "dayBefore",
        "the end of a refund",
    ),
    "modules_hold:lends-an-ended-loan": (
        "web/src/lend.mjs",
        "(ended === true || goesOn(passOrNull(text)))",
        "goesOn(passOrNull(text))",
        "an ended loan's spare pass",
    ),
    "modules_hold:begins-with-an-empty-day": (
        "web/src/club.mjs",
        "`${hourText(shuts - 1)}:00` > time",
        "true",
        "the first day",
    ),
    "modules_hold:counts-facilities": (
        "web/src/points.mjs",
        "sum + Math.max(0, places - taken)",
        "sum + 1",
        "places of several facilities",
    ),
    "modules_hold:keeps-refused-passes": (
        "web/src/replies.mjs",
        "fault >= PASS_TOO_LONG && fault <= CAVEAT_NOT_UNDERSTOOD",
        "fault > CAVEAT_NOT_UNDERSTOOD",
        "refusals of the pass",
    ),
    "modules_hold:second-half-is-lost": (
        "web/src/sender.mjs",
        "    return withCancellation(old);\n",
        "    return null;\n",
        "the second half is recorded with the first reply",
    ),
    "modules_hold:two-tabs-change-twice": (
        "web/src/sender.mjs",
        '(isReplaced || old === undefined || stateOf(old) !== "booked")',
        "false",
        "two tabs",
    ),
    "modules_hold:series-books-twice": (
        "web/src/sender.mjs",
        "        if (second !== undefined) return { second };\n        const made",
        "        const made",
        "a second tab",
    ),
    "modules_hold:series-without-a-rest": (
        "web/src/choice_dialog.mjs",
        "plan.filter(({ why }) => why === null).map",
        "plan.map",
        "the honest rest",
    ),
    "modules_hold:rings-for-ever": (
        "web/src/watch.mjs",
        "if (isFree || view.fault !== undefined) this.drop(slot);",
        "if (view.fault !== undefined) this.drop(slot);",
        "one ring",
    ),
    "modules_hold:rounds-overlap": (
        "web/src/watch.mjs",
        "    if (this.isLooking) return;\n",
        "",
        "looks in two rounds at once",
    ),
    "machine_lives": (
        "deploy/Caddyfile",
        "respond @large 413",
        "respond @large 414",
        "a large body: wanted and found",
    ),
    "narrowing_elsewhere": (
        "examples/narrow.mjs",
        "signature = await hmac(signature, data)",
        "await hmac(signature, data)",
        "'Node.js, v2'",
    ),
    "office_asks": (
        "deploy/club_office/reading.py",
        "(place - today.weekday()) % 7)",
        "(place - today.weekday()) % 7 + 7)",
        "the day '",
    ),
    "office_by_commands": (
        "deploy/club_office/by_commands.py",
        "held=[turn.file]",
        "held=[]",
        "waits for its command: wanted",
        "debit",
    ),
    "office_by_commands:seen": (
        "deploy/club_office/by_commands.py",
        "                turn.order(self.words.given, act)\n",
        "                turn.order(self.words.given, act)\n                self.record.finish()\n",
        "killed output and repeated: the club: wanted",
        "debit",
    ),
    "office_beside_desk": (
        "clubdesk",
        BY_HAND,
        '[ "$1" != close-slot ] || { echo done; exit; }; exec "$PROGRAM" "$@"',
        "closed no",
    ),
    "office_beside_desk:removed": (
        "clubdesk",
        BY_HAND,
        '[ "$1" != serve ] || ln -f "$2" "$2.kept"; exec "$PROGRAM" "$@"',
        "test_file_that_is_gone",
        "-k",
        "is_gone",
    ),
    "office_door": (
        "clubdesk",
        BY_HAND,
        '[ "$1" != credit ] || "$PROGRAM" "$@"; exec "$PROGRAM" "$@"',
        "test_fifty_at_once",
    ),
    "office_door:stranger": (
        "clubdesk",
        BY_HAND,
        '[ "$1" != add-key ] || chown 0 "$2-office"; exec "$PROGRAM" "$@"',
        "test_a_door_of_a_stranger",
        "-k",
        "stranger",
    ),
    "office_door:files": (
        "clubdesk",
        BY_HAND,
        '[ "$1" != serve ] || rm -f "$2-paused"; exec "$PROGRAM" "$@"',
        "test_a_file_beside_the_club_stays",
        "-k",
        "file_beside",
    ),
    "office_door:stopped": (
        "clubdesk",
        BY_HAND,
        (
            '[ "$1" != serve ] || (while sleep 0.1 && [ -e /proc/$$ ]; do ! grep -q "^State:.T"'
            ' /proc/$$/status || kill -9 $$; done) >/dev/null 2>&1 & exec "$PROGRAM" "$@"'
        ),
        "test_a_server_that_is_stopped_while_a_command_comes",
        "-k",
        "is_stopped",
    ),
    "office_door:ends": (
        "clubdesk",
        BY_HAND,
        (
            '[ "$1" != credit ] || [ ! -S "$2-office" ] || /usr/bin/python3 -c "import socket, sys;'
            " it = socket.socket(socket.AF_UNIX); it.connect(sys.argv[1]); it.recv(1) or"
            ' sys.exit(5)" "$2-office" || exit 5; exec "$PROGRAM" "$@"'
        ),
        "test_a_server_that_ends_before_it_greets",
        "-k",
        "ends_before",
    ),
    "office_door:end": (
        "clubdesk",
        "nothing was done",
        "nothing was donx",
        "test_a_silent_sender",
        "-k",
        "silent",
    ),
    "office_door:stale": (
        "clubdesk",
        BY_HAND,
        (
            '[ "$1" != credit ] || [ ! -S "$2-office" ] || [ -w "$2-office" ] || exit 5; exec'
            ' "$PROGRAM" "$@"'
        ),
        "test_a_stale_door_of_root",
        "-k",
        "stale",
    ),
    "office_holds": (
        "deploy/club_office/plans.py",
        'plan.order(["debit", member',
        'plan.order(["credit", member',
        "the balance: wanted",
    ),
    "office_holds:copies": (
        "deploy/club_office/copies.py",
        "if is_named(made, named):",
        "if os.replace(made, named) is None:",
        "a copy for each correction within one second: wanted",
        "findings",
    ),
    "office_holds:to-come": (
        "deploy/club_office/clubs.py",
        "words.at > clock()",
        "words.at < 0",
        "office new-year --yes --at 2099",
        "findings",
    ),
    "office_holds:forged": (
        "deploy/club_office/begin.py",
        "if it.isprintable() or it in kept",
        'if it.isprintable() or it in kept + "\\u2028"',
        "each line: wanted",
        "findings",
    ),
    "office_holds:long": (
        "deploy/club_office/commands.py",
        "MOST_WORDS = 200",
        "MOST_WORDS = 200_000",
        "no lines for these commands: wanted",
        "findings",
    ),
    "office_holds:broken-off": (
        "deploy/club_office/book.py",
        "if not BEGUN.fullmatch(text):",
        "if False:",
        "the rest of a line",
        "findings",
    ),
    "office_holds:unconfirmed": (
        "deploy/club_office/by_commands.py",
        "        plans = []\n",
        "        plans = []\n        if isinstance(shown, Fault):\n            raise shown\n",
        "a correction that isn't confirmed: wanted",
        "findings",
    ),
    "office_holds:silent": (
        "deploy/club_office/book.py",
        "settimeout(WAITS_FOR_JOURNAL)",
        "settimeout(None)",
        "a command while the journal is silent: wanted",
        "findings",
    ),
    "office_holds:programs": (
        "deploy/club_office/commands.py",
        'begin(kept=KEPT if given[:1] == ["--desk"] else None)',
        "begin()",
        "a clerk's programs that ran as the desk's user: wanted",
        "findings",
    ),
    "office_holds:own-path": (
        "deploy/office.sudoers",
        ', secure_path="/usr/local/sbin:/usr/local/bin:/usr/sbin:/usr/bin:/sbin:/bin"',
        "",
        "sudo has its own path: wanted",
        "findings",
    ),
    "office_holds:inner": (
        "deploy/club_office/importing.py",
        "        or not roots\n",
        "",
        "the roots : wanted",
        "findings",
    ),
    "office_holds:stopped": (
        "deploy/club_office/book.py",
        "signal.signal(number, signal.SIG_IGN) for",
        "signal.getsignal(number) for",
        "a command at signal",
        "findings",
    ),
    "office_holds:takes-nothing": (
        "deploy/club_office/book.py",
        "self.said = sys.stderr = io.StringIO()",
        "self.said = io.StringIO()",
        "that accepts no output: wanted",
        "findings",
    ),
    "office_holds:folder": (
        "deploy/club_office/begin.py",
        'os.environ["HOME"] = pwd',
        "_ = pwd",
        "the folder of the desk's user: wanted",
        "findings",
    ),
    "office_holds:came-since": (
        "deploy/club_office/counter.py",
        "named = name_new(written(words.to, text.decode()), words.to)",
        "named = os.rename(written(words.to, text.decode()), words.to) or words.to",
        "a file made in the meantime: wanted",
        "findings",
    ),
    "office_holds:page-came-since": (
        "deploy/club_office/counter.py",
        "made if is_named(printed, made) else None",
        "made if not os.rename(printed, made) else None",
        "a page made in the meantime: wanted",
        "findings",
    ),
    "office_holds:clubs-beside": (
        "deploy/club_office/clubs.py",
        "        if is_beside(file, path):",
        "        if False:",
        "the file of other-orders: wanted",
        "findings",
    ),
    "office_holds:memory": (
        "deploy/club_office/copies.py",
        "found = [beside]",
        "found = [MEMORY]",
        "a list without memory: wanted",
        "findings",
    ),
    "office_holds:memory-of-files": (
        "deploy/club_office/copies.py",
        "room.f_favail > FILES_FREE",
        "True",
        "a list without free inodes in memory: wanted",
        "findings",
    ),
    "office_holds:left": (
        "deploy/club_office/copies.py",
        "owner and begun_at(owner[1]) == owner[2]",
        "owner",
        "copies that killed commands left: wanted",
        "findings",
    ),
    "office_holds:left-to-an-order": (
        "deploy/club_office/commands.py",
        "    clear_left(club)\n",
        "",
        "copies that killed commands left: wanted",
        "findings",
    ),
    "office_holds:titles": (
        "deploy/club_office/page.py",
        "if name in found:",
        "if False:",
        "titles b'court-1 A",
        "findings",
    ),
    "office_killed": (
        "deploy/club_office/importing.py",
        "not key and (not member or member[0] == 0):",
        "not key:",
        "killed after command 2: the members: wanted",
        "1",
    ),
    "office_offsite": (
        "deploy/club_office/places.py",
        '[ "$(sha256sum <"$new" | cut -c 1-64)" = "$3" ] ||',
        "true ||",
        "a transfer that is changed: wanted",
    ),
    "office_neighbours": (
        "deploy/club_office/desk_requests.py",
        "if uid not in (0, os.geteuid(), os.stat(os.path.dirname(club.file)).st_uid):",
        "if False:",
        "bytes that the thief got: wanted",
    ),
    "office_neighbours:health": (
        "deploy/check_health",
        'stranger=$(strangers "$2" | head -n 1)',
        "stranger=",
        "the health check with a thief: wanted",
    ),
    "office_neighbours:narrow": (
        "deploy/club_office/desk_requests.py",
        'f"hours = {slot.hour:02d}-{slot.hour + 1:02d}",',
        '"hours = 00-24",',
        "the caveats of a booking: wanted",
    ),
    "office_neighbours:minutes": (
        "deploy/club_office/desk_requests.py",
        'f"until < {moment_text(soon())}",',
        "",
        "its time: wanted",
    ),
    "office_neighbours:believed": (
        "deploy/club_office/phoning.py",
        '    if not cancelled:\n        raise storage_failed("reply untrue", slot=slot_text(*slot))\n',
        "",
        "cancel-for: an untrue reply: wanted",
    ),
    "office_neighbours:price": (
        "deploy/club_office/phoning.py",
        "spend <= {min(spent + offer.price * persons, MOST_SPENT)}",
        "spend <= {MOST_SPENT}",
        "a price that rose: wanted",
    ),
    "office_neighbours:signals": (
        "deploy/club_office/begin.py",
        "signal.signal(number, signal.SIG_DFL)",
        "pass",
        "open, sudo ['credit', 'nobody', '1']: refused: wanted",
    ),
    "office_neighbours:formulas": (
        "deploy/club_office/people.py",
        "[member, *map(cell_of, person)]",
        "[member, *person]",
        "cells that begin a formula: wanted",
    ),
    "office_neighbours:pdf": (
        "deploy/club_office/counter.py",
        "        os.chmod(printed, 0o600)  # the page has members' names\n",
        "",
        "modes of a report: wanted",
    ),
    "office_hostile_place": (
        "deploy/club_office/places.py",
        "if there.get(name) != about:",
        "if name not in there:",
        "a place with ",
    ),
    "office_hostile_place:unrun": (
        "deploy/club_office/places.py",
        "if not begun or not ended:",
        "if False:",
        "a place with ",
    ),
    "office_hostile_place:again": (
        "deploy/club_office/offsite.py",
        "and not is_due:",
        "and True:",
        "a lost copy: wanted",
    ),
    "office_hostile_place:escapes": (
        "deploy/club_office/places.py",
        "said=printable(said) or",
        "said=said or",
        "the copy isn't noted as stored: wanted",
    ),
    "office_hostile_place:settings": (
        "deploy/club_office/configuration.py",
        "            if what in TESTS:\n",
        "            if what not in TESTS:\n                self.found.setdefault(what, value)\n            if what in TESTS:\n",
        "the settings: wanted",
    ),
    "office_hostile_place:clerks": (
        "deploy/clubdesk-setup",
        "            refuse_system_user(clerk)\n        except Fault as fault:",
        "            pass\n        except Fault as fault:",
        "the restore at a terminal",
    ),
    "office_hostile_place:system-user": (
        "deploy/clubdesk-setup",
        "def make_clerk(clerk):\n    refuse_system_user(clerk)\n",
        "def make_clerk(clerk):\n",
        "the clerk www-data: wanted",
    ),
    "office_hostile_place:people": (
        "deploy/club_office/beside.py",
        'if not NAME.fullmatch(row["member"] or "")',
        "if not row",
        "the file people.csv: wanted",
    ),
    "office_hostile_place:compressed": (
        "deploy/club_office/bringing.py",
        'mode="r:"',
        'mode="r"',
        "an archive compressed",
    ),
    "office_year": (
        "deploy/club_office/plans.py",
        "plan.keeps = [",
        'plan.change(None, "DELETE FROM old_roots")\n    plan.keeps = [',
        "older roots: wanted",
        "60",
    ),
    "openapi": (
        "docs/openapi.yaml",
        '"charge":600,"left":1}',
        '"charge":600,"left":2}',
        "test_each_example_is_a_reply",
    ),
    "package_lives": (
        "bin/package",
        "TZ=UTC0\nexport LC_ALL TZ",
        "export LC_ALL",
        ", again: wanted and found",
    ),
    "page_books": (
        "web/src/points.mjs",
        "view.price * (guests + 1)",
        "view.price * guests",
        "what a booking costs",
        ".",
        "books_and_cancels",
    ),
    "page_books:lists-are-sent": (
        "web/src/record.mjs",
        'return entry.cancel === null ? "cancel" : null;',
        'return entry.cancel === null || entry.listed?.cancel ? "cancel" : null;',
        "requests that a list sent by itself",
        ".",
        "lists_send_nothing",
    ),
    "page_books:lists-hide": (
        "web/src/record.mjs",
        "return isNews ? { ...own, saidCancelled: true } : own;",
        "return isNews ? { ...own, cancel: { refund: other.listed.refund } } : own;",
        "a list can't show a standing booking as cancelled",
        ".",
        "lists_send_nothing",
    ),
    "page_books:lists-join": (
        "web/src/state.mjs",
        'live.filter((entry) => stateOf(entry) !== "listed") : live',
        "live : live",
        "the slot of her own booking",
        ".",
        "lists_send_nothing",
    ),
    "page_books:links-are-kept": (
        "web/src/passes_view.mjs",
        "      isAsked = !state.isKept;\n",
        "      keepThis();\n",
        "no button Keep it",
        ".",
        "nothing_by_itself",
    ),
    "page_books:odd-entries-are-sent": (
        "web/src/record.mjs",
        'if (typeof value !== "object" || value === null) return false;',
        "return true;",
        "odd entries",
        ".",
        "nothing_by_itself",
    ),
    "page_books:screen-takes-the-pass": (
        "web/src/screen_view.mjs",
        "if (state.pass !== null && state.text !== screenPass()) askToKeep();",
        "if (state.pass !== null) keepScreenPass(state.text);",
        "the screen asks",
        ".",
        "keeps_each_pass",
    ),
    "page_books:keeps-one-pass": (
        "web/src/keeping.mjs",
        "JSON.stringify([{ text, name }, ...others])",
        "JSON.stringify([{ text, name }])",
        "both are kept",
        ".",
        "keeps_each_pass",
    ),
    "page_books:a-flood-slows-others": (
        "deploy/nginx.conf",
        "$clubdesk_client zone=",
        "$server_name zone=",
        "another address in a flood",
        ".",
        "days_at_once",
    ),
    "page_books:spends-from-nothing": (
        "web/src/lend.mjs",
        "spend <= ${Math.min(spent + points, MOST_POINTS)}",
        "spend <= ${Math.min(points, MOST_POINTS)}",
        "a second loan",
        ".",
        "lends",
    ),
    "page_books:a-reason-for-all-day": (
        "web/src/club.mjs",
        "each.from <= hour && hour < each.until)",
        "each.from <= hour)",
        "the day",
        ".",
        "says_why_it_is_closed",
    ),
    "page_books:any-address": (
        "deploy/nginx.conf",
        "connect-src $list; ",
        "",
        "what the page that narrows can request",
        ".",
        "shows_the_club",
    ),
    "page_books:shows-refused-buttons": (
        "web/src/points.mjs",
        "{ guests, owed: owedFor(view, guests) }",
        "{ guests }",
        "no more guests than its points allow",
        ".",
        "lends",
    ),
    "page_books:worker-keeps-old-pages": (
        "web/src/worker.js",
        "names.filter((name) => name !== CACHE)",
        "names.filter((name) => name === null)",
        "only the new worker's pages",
        ".",
        "at_hand",
    ),
    "page_books:counts-nothing": (
        "web/src/record.mjs",
        "if (points < 0) return",
        "if (points !== 0) return",
        "a booking that was cancelled elsewhere",
        ".",
        "tells_what_is_missing",
    ),
    "page_books:lends-any-spare": (
        "web/src/lend_view.mjs",
        "reply.fault === undefined && reply.member === member",
        "true",
        "which spare pass is used",
        ".",
        "club_to_try",
    ),
    "page_books:forgets-a-loan": (
        "web/src/keeping.mjs",
        "  if (!isKept) loansOfPage = [loan, ...loansOfPage];\n",
        "",
        "no spare pass twice",
        ".",
        "club_to_try",
    ),
    "page_books:forgets-the-end": (
        "web/src/choice_dialog.mjs",
        "end === null || end > startOf(slot)",
        "end === null || end < startOf(slot)",
        "a slot after the pass's end",
        ".",
        "club_to_try",
    ),
    "page_books:breaks-words": (
        "web/src/book.css",
        "  .day-bar h2 { order: -1; flex-basis: 100%; }\n",
        "",
        "words that are broken",
        ".",
        "large_letters",
    ),
    "page_narrows": (
        "web/src/caveats.mjs",
        '[1-4][0-9])", (most)',
        '[1-5][0-9])", (most)',
        "understood differently",
    ),
    "library_package": (
        "bindings/c/lend.c",
        '"kind = court"',
        '"kind = boat"',
        "/root/lend: wanted",
    ),
    "pass_texts": (
        "tests/reference/passes.py",
        'b"macaroons-key-generator"',
        'b"macaroons-key-generatox"',
        "test_json_of_each_length",
    ),
    "passes_beside": (
        "tests/peers/passes_beside.c",
        "satisfy_exact(verifier, (const unsigned char *)CAVEATS[i]",
        "satisfy_exact(verifier, ROOT",
        "libmacaroons failed",
        "1",
        "100",
    ),
    "passes_from_c": (
        "include/clubpass.h",
        "CLUBPASS_DENIED = 11",
        "CLUBPASS_DENIED = 12",
        "not so: clubpass_first_fault",
    ),
    "passes_from_python": (
        "bindings/python/clubpass/__init__.py",
        "3: ThirdParty, 4: TooMany",
        "3: TooMany, 4: TooMany",
        "'fault 4:')",
        "--count",
        "3000",
    ),
    "passes_fuzzed": (
        "include/clubpass.h",
        "CLUBPASS_TOO_LONG = 1",
        "CLUBPASS_TOO_LONG = 9",
        "not so, line",
        "60",
    ),
    "passes_in_languages": (
        "bindings/node/clubpass.js",
        "place + 3",
        "place + 4",
        "test_vectors[node]",
    ),
    "passes_in_languages:nothing-was-spent": (
        "bindings/go/clubpass/clubpass.go",
        "spent: C.uint64_t(ask.Spent), ",
        "",
        "test_vectors[go]",
    ),
    "passes_exchanged": (
        "bindings/python/clubpass/__init__.py",
        "made = _made(Pass)\n",
        "made, caveats = _made(Pass), caveats[:7]\n",
        "test_pymacaroons_narrows_as_the_library_does",
    ),
    "passes_of_odd_types": (
        "bindings/python/clubpass/__init__.py",
        "if type(value) is bytes:",
        "if isinstance(value, bytes):",
        "'bytes that state a greater length', 'type'",
    ),
    "passes_of_odd_types:signs-foreign-memory": (
        "bindings/python/clubpass/__init__.py",
        "if type(value) is not bytes:",
        "if not isinstance(value, bytes):",
        "'root', 'bytes that state a greater length', 'type'",
    ),
    "passes_of_odd_types:a-pool-of-objects": (
        "bindings/python/clubpass/__init__.py",
        "    made._at = ctypes.byref(Object())\n",
        (
            "    made._at = POOL.pop() if POOL else ctypes.byref(Object())\n"
            "    return made\n\n\nPOOL = []\nPass.__del__ = lambda it: POOL.append(it._at)\n\n\n"
            "def unused(made):\n"
        ),
        "test_a_pass_that_outlives_its_deletion",
    ),
    "passes_of_odd_types:an-object-with-a-length": (
        "bindings/node/clubpass.js",
        'throw new TypeError("a text must be a string or a Buffer");',
        "return Buffer.from(text);",
        "'an object that states a length of 50,000,000', 'type'",
    ),
    "passes_of_odd_types:memory-of-threads": (
        "bindings/node/clubpass.c",
        "napi_is_arraybuffer(env, memory, &is) != napi_ok || !is)",
        "false)",
        "'memory that threads share', 'type'",
    ),
    "passes_by_pymacaroons": ("clubdesk", "caveat denies", "caveat deniex", "caveat deniex"),
    "proxies": (
        "deploy/nginx.conf",
        "limit_req_zone $clubdesk_client",
        "limit_req_zone $http_authorization",
        "test_an_address_has_one_limit",
    ),
    "proxies:a-network-has-many-limits": (
        "deploy/nginx.conf",
        "limit_req_zone $clubdesk_client",
        "limit_req_zone $binary_remote_addr",
        "test_a_network_of_ipv6_counts_as_one_address",
    ),
    "proxies:the-visitor-names-the-site": (
        "deploy/nginx.conf",
        "https://$server_name:$server_port/club.json",
        "https://$http_host/club.json",
        "test_the_policy_names_the_site",
    ),
    "proxies:chunks-reach-the-desk": (
        "deploy/Caddyfile",
        "respond @chunked",
        "# respond @chunked",
        "test_caddy_says_that_it_takes_no_chunks",
    ),
    "pictures": (
        "docs/pictures.sums",
        "  booking-page.png",
        "  booking-pale.png",
        "docs/booking-page.png shows other words",
    ),
    "proxy_holds": (
        "deploy/nginx.conf",
        "limit_req_status 429;",
        "limit_req_status 503;",
        "were limited",
    ),
    "refused_memory": ("tests/lib/refused_memory.c", "errno = ENOMEM;", "abort();", "(-6, "),
    "requests_of_pages": ("docs/CLIENT.md", '"refund":300', '"refund":301', "test_page[CLIENT.md]"),
    "run_tells": (
        "tests/lib/scripts.py",
        "os.kill(it, signal.SIGKILL)",
        "pass",
        "assert all_are_gone",
        "-k",
        "too_long",
    ),
    "running_holds": (
        "deploy/back_up",
        'cp -- "$1-wal" "$work/copy-wal"',
        ":",
        "a copy: wanted and found",
    ),
    "running_holds:full-disk": (
        "deploy/back_up",
        'said=$(LC_ALL=C cp -- "$1" "$work/copy" 2>&1) || fail "$said"',
        'cp -- "$1" "$work/copy" || :',
        "the lines of a refused copy",
    ),
    "scenarios": ("clubdesk", "quota reached", "quota reachex", "quota reachex"),
    "scenarios_beside": (
        "tests/peers/beside_c/desk.c",
        "number used",
        "number usex",
        "number usex",
        "bookings",
    ),
    "setup_holds:clubs-beside": (
        "deploy/club_office/configuration.py",
        "(file == path or is_beside(file, path) or is_beside(path, file))",
        "False",
        "-orders next to it: wanted",
    ),
    "setup_holds": (
        "deploy/clubdesk-setup",
        "SITE=https://{domain}",
        "SITE=http://{domain}",
        "the configuration has SITE=https",
    ),
    "stack_bounds": (
        "docs/TRUST.md",
        "at most 256 KiB of stack",
        "at most 64 KiB of stack",
        "test_commands",
    ),
    "small_desk": (
        "web/src/small_desk.mjs",
        "Math.floor(booking.charge / 2)",
        "Math.ceil(booking.charge / 2)",
        "assert one == other",
    ),
    "slow_clients": (
        "clubdesk",
        BY_HAND,
        'exec "$PROGRAM" $(echo "$@" | sed "s/--patience 2/--patience 6/")',
        "test_client_behind_one_that_dawdles[silent]",
    ),
    "spares_hold": (
        "deploy/club_office/spares.py",
        "range(1, count + 1)",
        "range(1, count)",
        "keys of an import",
    ),
    "tables_by_sqlite3": (
        "clubdesk",
        "quota BETWEEN 0 AND 99)",
        "quota BETWEEN 0 AND 98)",
        "test_limit[members quota 0 99]",
    ),
    "vectors": ("docs/vectors.json", '\\"left\\":1}', '\\"left\\":2}', "test_replies_of_a_run"),
    "vectors:office": (
        "docs/vectors.json",
        '"refused: slot in use"',
        '"done"',
        "test_commands_between_requests",
    ),
    "year-quick": ("clubdesk", "quota reached", "quota reachex", "quota reachex"),
}


def plants_of(test):
    """Returns the names of a test's faults."""
    return [it for it in PLANTS if it.partition(":")[0] == test]


def copied_tree(folder):
    """Copies the files of the repository, without built files, to a folder."""
    names = subprocess.run(
        ["git", "-C", desk.ROOT, "ls-files", "-co", "--exclude-standard", "-z"],
        check=True,
        capture_output=True,
        text=True,
    ).stdout
    for name in filter(None, names.split("\0")):
        if (desk.ROOT / name).is_file():
            (folder / name).parent.mkdir(parents=True, exist_ok=True)
            shutil.copy2(desk.ROOT / name, folder / name)


def spoil(path, old, new):
    if old == BY_HAND:
        path.rename(path.with_suffix(".whole"))
        path.write_text(f"{BY_HAND}PROGRAM={path.with_suffix('.whole')}\n{new}\n", encoding="utf-8")
        path.chmod(0o755)
        return
    data = path.read_bytes()
    if old.encode() not in data:
        raise ValueError(f"{path.name} has no {old}")
    path.write_bytes(data.replace(old.encode(), new.encode()))


def plant(name, folder):
    """Makes a copy of the tree and plants a fault in it. Returns the environment variables with the
    paths of the copy's programs."""
    file, old, new = PLANTS[name][:3]
    folder.chmod(0o755)  # so that tests can use the folder as other users
    copied_tree(folder)
    variables = {}
    for program in PROGRAMS:
        copy = folder / "crates" / program / "out" / program
        copy.parent.mkdir(parents=True)
        shutil.copy(desk.program(program), copy)
        variables[program.upper()] = str(copy)
    for archive in desk.ROOT.glob(
        "crates/pass_c/out/libpass_c-*.a"
    ):  # bin/library makes the library from these archives
        copy = folder / archive.relative_to(desk.ROOT)
        copy.parent.mkdir(exist_ok=True)
        shutil.copy(archive, copy)
    for built in (
        desk.ROOT.glob("crates/pass_[fm]*/out/rlib") if name == "field_outlives_bytes" else ()
    ):  # the results of earlier checks
        shutil.copytree(built, folder / built.relative_to(desk.ROOT))
    spoil(Path(variables[file.upper()]) if file in PROGRAMS else folder / file, old, new)
    if file.startswith("web/src/"):
        subprocess.run([folder / "bin" / "pages"], check=True)
    for program in PROGRAMS:
        os.utime(variables[program.upper()])
    return variables


def is_found(name, status, log):
    """Returns whether a test failed because of its planted fault."""
    return status not in (0, 77) and PLANTS[name][3] in log

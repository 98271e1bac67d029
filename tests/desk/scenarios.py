#!/usr/bin/env -S /usr/bin/python3 -B
"""Each line of a scenario (crates/scenarios/README.md) gets its stated answer from the rules in
Python and from `clubdesk`.

`tests/reference` has the rules in Python. For `clubdesk`, the club is in a file, and a server
receives the requests over a socket. The test tries passes in all three forms. With `--self-test`,
the test checks that it finds eight faults planted in the rules.

The test refuses a file if a line can't be read or has no answer, or if the commands that make a
club fail. The test also refuses a file without any line. The test prints the place of each fault.
The self-test tries faulty files of all these kinds.

    tests/desk/scenarios.py [--player rules|programs] [FILE ..]     plays all files, or the named files
    tests/desk/scenarios.py --self-test                             reads faulty files, and plants each fault in the rules
    tests/desk/scenarios.py --fill FILE                             prints the file, with missing answers filled in from the rules in Python
    tests/desk/scenarios.py --counts                                writes how many clubs and lines each file has into crates/scenarios/stdout
"""
# pytestmark = [mark.programs, mark.quick, mark.programs("--self-test"), mark.needs("clubdesk")]

import argparse
import os
import sys
import tempfile
from concurrent.futures import ThreadPoolExecutor
from pathlib import Path

sys.dont_write_bytecode = True
sys.path[:0] = [str(Path(__file__).resolve().parents[1] / it) for it in ("lib", "")]
import desk as programs
import scenario_lines as lines
from both import finds_each_plant
from reference import wire
from scenario_lines import AGAIN, Crash, Fault, Listing, Office, Request, inner
from scenario_players import Difference, Programs, Rules, run_as_test, status_of


COLUMN = 64  # the column at which a filled-in reply begins
STDOUT = lines.FOLDER.parent / "stdout"


def expectations(scenarios):
    return sum(
        1
        for it in scenarios
        for event in it.events
        if isinstance(inner(event), (Request, Office, Listing))
    )


def whole(path):
    """Returns the scenarios of a file. Raises Fault if a line has no answer."""
    found = lines.read(path)
    for event in (inner(it) for scenario in found for it in scenario.events):
        has = (
            event.reply
            if isinstance(event, Request)
            else event.outcomes
            if isinstance(event, Office)
            else getattr(event, "lines", True)
        )
        if not has:
            raise Fault(f"{event.place}: no expectation")
    return found


def counts(path, scenarios):
    return f"{path.name}: {len(scenarios)} clubs, {expectations(scenarios)} lines"


def write_counts():
    """Writes the output that the program `scenarios` must print."""
    told = [
        "odd texts: refused",
        *(counts(path, whole(path)) for path in lines.files() if path != lines.PAGE),
    ]
    STDOUT.write_text("".join(f"{it}\n" for it in told), encoding="utf-8")


def play_file(path, player, prints):
    """Runs the scenarios of a file in each form of passes. Prints the counts if `prints` is true.
    Returns the number of lines with an answer."""
    scenarios = whole(path)
    for scenario in scenarios:
        for form in scenario.forms:
            player().play(scenario, form)
    if prints:
        print(counts(path, scenarios), flush=True)
    return expectations(scenarios)


def played(paths, player, jobs, prints=True):
    """Runs the scenarios of several files at the same time. Returns the number of lines with an
    answer. Also returns a text for each file with a wrong answer or a fault."""
    count, faults = 0, []
    with ThreadPoolExecutor(jobs) as pool:
        for it in [pool.submit(play_file, path, player, prints) for path in paths]:
            try:
                count += it.result()
            except (Difference, Fault) as fault:
                faults.append(str(fault))
    return count, faults


def outcome_of(answer):
    return answer if answer.removeprefix("refused: ") in lines.REFUSALS else "done"


def filled(path):
    """Returns the text of a file. Fills in the answer of the rules in Python where a line has no
    answer."""
    text = path.read_text(encoding="utf-8").split("\n")
    for scenario in lines.read(path):
        player = Rules()
        player.club, player.form = lines.made(scenario), "v2"
        for event in scenario.events:
            is_crash, event = isinstance(event, Crash), inner(event)
            at = event.place.line - 1
            found = player.found(event) if isinstance(event, (Request, Office, Listing)) else None
            if isinstance(event, Request) and event.reply is None:
                text[at] = padded(text[at], reply_in(found))
            elif isinstance(event, Office) and not event.outcomes:
                text[at] = padded(
                    text[at],
                    " or ".join(
                        dict.fromkeys(
                            map(outcome_of, [found, player.found(event)] if is_crash else [found])
                        )
                    ),
                )
            elif isinstance(event, Listing) and event.lines is None:
                text[at] += (
                    "".join(f"\n        {it}" for it in found[1:])
                    if event.words[0] == "sheet"
                    else f"  {', '.join(found)}"
                )
    return "\n".join(text)


def padded(line, answer):
    return f"{line:<{COLUMN - 2}}  {answer}"


def reply_in(data):
    """Returns a reply as a line of a scenario states it."""
    head, _, body = data.decode().partition("\r\n\r\n")
    methods = next((it[7:] for it in head.split("\r\n") if it.startswith("Allow: ")), None)
    reply = lines.Reply(int(head.split(" ")[1]), body.encode(), methods)
    assert reply.data == data and reply.status in wire.PHRASES
    return str(reply)


CLUB = "club  members amy 5 100; court-1 court 4 200 8-22; keys amy-1\nat  2026-04-20T12:00\n"
ACCOUNT = 'amy-1  GET account  200 {"member":"amy","balance":100,"quota":5,"open":0,"spent":0}'
# Faulty files: the text after CLUB, the line of the fault, and words of the message. If the line is
# None, the file is valid. The texts of FAULTY_CLUBS are complete files, so CLUB isn't added to
# them.
FAULTY = (
    ("", 2, "no expectation"),
    ("amy-1", 3, "not understood"),
    ("amy-1  GET", 3, "a request has"),
    ("offce  revoke-key amy-1  done", 3, "is unknown"),
    ("bob-1  GET account  200 {}", 3, "the key bob-1 is unknown"),
    ("amy-1 [unknown]  GET account  200 {}", 3, "the key amy-1 is known"),
    ("amy-1  GET account", 3, "no expectation"),
    ("amy-1  GET account  200", 3, "a status and a body"),
    ("amy-1  GET account  299 {}", 3, "not a status"),
    ("amy-1  GET account  200 {", 3, "Expecting"),
    ("amy-1  POST account  405 {}", 3, "the path's methods"),
    (ACCOUNT + "  50 bytes", 3, "59, not 50 bytes"),
    ("amy-1  GET account  200 {}  allows GET", 3, "only if its status is 405"),
    ("amy-1 [\\q]  GET account  200 {}", 3, "isn't an escape"),
    ("text none  GET account  400 {}", 3, "undefined: text"),
    ("office  fly amy-1  done", 3, "not a command"),
    ("office  revoke-key  done", 3, "not a command"),
    ("office  revoke-key Amy  done", 3, "invalid name"),
    ("office  close-slot court-1 2026-02-29 18  done", 3, "invalid day"),
    ("office  add-key k amy 00  done", 3, "a root has"),
    ("office  revoke-key amy-1  dome", 3, "not an outcome"),
    ("office  revoke-key amy-1", 3, "no expectation"),
    ("sheet  2026-05-01", 3, "no expectation"),
    ("account  amy-1", 3, "no expectation"),
    ("slot  court-1 2026-05-01", 3, "wrong number"),
    ("at  2026-04-20", 3, "not a moment"),
    ("crash  at noon", 3, "a crash line must be"),
    (f"crash  {AGAIN}\nreopen", 4, "a request or a command"),
    (f"{ACCOUNT}\ncrash  {AGAIN}", 4, "without a line after it"),
    ("reopen  as version 7", 3, "may only have"),
    (f"{ACCOUNT}\n  more", 3, "no indented lines"),
    ("root  third", 3, "a name and its bytes"),
    (f"text  x\n  AgEJ\n{ACCOUNT}\n", None, ""),
    (ACCOUNT, None, ""),
)
FAULTY_CLUBS = (
    (ACCOUNT, 1, "the key amy-1 is unknown"),
    ("club  again", 1, "no club before"),
    ("club  members amy 100 5; keys amy-1", 1, "refused: out of range"),
    ("club  members amy 5", 1, "a quota and points"),
    ("club  keys amy-1", 1, "refused: unknown"),
    ("club  members amy 5 0, amy 5 0", 1, "refused: exists"),
    ("club  members amy 5 0; court 4 200", 1, "a facility has"),
    ("club  members amy 5 0; keys amy-1 under x", 1, "a root has"),
    (" club", 1, "belongs to no other line"),
    ("club  empty\nnobody  GET account  200 {}", 2, "no moment before it"),
)


def is_refused(text, line, words):
    """Returns whether the reader refuses the text at this line, with these words. If `line` is
    None, returns whether the reader accepts the text."""
    with tempfile.TemporaryDirectory() as folder:
        path = Path(folder, "odd.txt")
        path.write_text(text, encoding="utf-8")
        try:
            whole(path)
            found = ""
        except Fault as fault:
            found = str(fault)
    is_so = found.startswith(f"odd.txt:{line}: ") and words in found if line else not found
    if not is_so:
        print(f"{text!r}: wanted {line}: {words}, found {found}")
    return is_so


def self_test(paths):
    """Checks that the reader refuses each faulty file, and that the test finds each fault planted
    in the rules."""
    are_refused = [is_refused(CLUB + text, line, words) for text, line, words in FAULTY] + [
        is_refused(*it) for it in FAULTY_CLUBS
    ]
    print(f"{sum(are_refused)} of {len(are_refused)} odd files are refused or accepted as expected")

    def run(plant):
        _, faults = played(paths, lambda: Rules(plant), 1, prints=False)
        if faults:
            raise AssertionError(faults[0])

    return 0 if finds_each_plant(run) and all(are_refused) else 1


def main():
    parser = argparse.ArgumentParser(description=__doc__.partition("\n\n")[0])
    parser.add_argument(
        "files",
        nargs="*",
        metavar="FILE",
        help="files of crates/scenarios/data, by their names without `.txt`",
    )
    parser.add_argument(
        "--player",
        choices=("rules", "programs"),
        help="plays the files with only this player; the default is both",
    )
    parser.add_argument(
        "--fill", action="store_true", help="prints files, and fills in missing answers"
    )
    parser.add_argument(
        "--self-test", action="store_true", help="plants each fault of the rules in turn"
    )
    parser.add_argument(
        "--counts",
        action="store_true",
        help="writes the counts of each file into crates/scenarios/stdout",
    )
    given = parser.parse_args()
    if given.counts:
        write_counts()
        return 0
    paths = lines.files([it.rpartition("/")[2].removesuffix(".txt") for it in given.files])
    if given.fill:
        print(*map(filled, paths), sep="\n", end="")
        return 0
    if given.self_test:
        return self_test(paths)
    faults = []
    if given.player != "programs":
        count, faults = played(paths, Rules, 1)
        print(f"{Rules.name}: {count} lines in {len(paths)} files, {len(faults)} faults")
    if given.player != "rules" and not faults:
        desk = programs.program("clubdesk")
        with tempfile.TemporaryDirectory(dir=programs.IN_MEMORY) as folder:
            count, faults = played(
                paths, lambda: Programs(desk, folder), len(os.sched_getaffinity(0))
            )
        print(f"{Programs.name}: {count} lines in {len(paths)} files, {len(faults)} faults")
    return status_of(faults)


if __name__ == "__main__":
    run_as_test(main)

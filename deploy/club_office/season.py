"""Credits the season's points. A credit has a name, and each member gets the credit with a given name only once.

The office writes a line to the ledger FILE-seasons before and after each member's credit. So a repeated command continues where the interrupted run
stopped."""

import collections
import contextlib
import os

from club_office.asking import confirms, show_lines
from club_office.book import Turn, add_line, refuse
from club_office.clubs import clubdesk, wants_file
from club_office.copies import snapshot, synced
from club_office.faults import STORAGE, Fault, fault, refusal
from club_office.texts import say

Step = collections.namedtuple("Step", "label member points before is_done")
WHOLE = "*"


def ledger_of(club):
    return club.file + "-seasons"


def steps_of(club, label):
    """Returns the last step of each member for the credit with this name. An entry for WHOLE means that all members have the credit."""
    found = {}
    try:
        with open(ledger_of(club), encoding="ascii") as lines:
            for line in lines:
                words = line.split()
                if len(words) == 5 and words[0] == label:
                    found[words[1]] = Step(
                        *words[:2], int(words[2]), int(words[3]), words[4] == "done"
                    )
    except FileNotFoundError:
        pass
    return found


def note(club, label, member, points, before, state):
    add_line(ledger_of(club), f"{label} {member} {points} {before} {state}")


def wanted(club, words):
    """Returns the members who still need the credit, each with the sum of the member's credits. Also returns the number of all members who may book.
    Members with a quota of 0 have left the club, or exist only for a screen."""
    steps = steps_of(club, words.label)
    if WHOLE in steps:
        raise refusal(
            "given already",
            label=words.label,
            points=steps[WHOLE].points,
            members=steps[WHOLE].before,
        )
    other = next((it.points for it in steps.values() if it.points != words.points), None)
    if other:
        raise refusal("begun otherwise", label=words.label, points=other)
    with snapshot(club) as db:
        rows = db.execute(
            "SELECT name, credited FROM members WHERE quota > 0 ORDER BY name"
        ).fetchall()
    left = []
    for member, credited in rows:
        step = steps.get(member)
        if step and not step.is_done and credited not in (step.before, step.before + words.points):
            raise refusal(
                "credited otherwise", member=member, label=words.label, path=ledger_of(club)
            )
        if not step or not step.is_done and credited == step.before:
            left.append((member, credited))
    return left, len(rows)


def credit_all(club, words):
    """Credits each member who may book. An interrupted run continues when the clerk repeats the command. The office refuses the command when all
    members have the credit."""
    wants_file(club)
    try:
        left, count = wanted(club, words)
    except Fault as failure:
        refuse(club, words, failure)
    if not words.yes:
        show_lines(
            [
                say(
                    "credits all",
                    members=len(left),
                    points=words.points,
                    total=len(left) * words.points,
                    label=words.label,
                )
            ]
        )
        if len(left) < count:
            show_lines([say("credited before", count=count - len(left))])
        if not confirms():
            refuse(club, words, refusal("not confirmed"))
    with Turn(club) as turn:
        left, count = wanted(club, words)
        for member, credited in left:
            give(club, turn, words, member, credited)
        note(club, words.label, WHOLE, words.points, count, "done")
        status = turn.order(words.given, lambda: 0)
    print(say("credited", count=len(left), points=words.points, label=words.label))
    return status


def give(club, turn, words, member, credited):
    """Credits a member, and writes a line to the ledger before and after the credit."""
    note(club, words.label, member, words.points, credited, "begun")
    line = ["credit", member, str(words.points)]
    status = turn.order(line, lambda: clubdesk(club, line[0], line[1:])[0])
    if status:
        raise fault(
            status if status != 1 else STORAGE, "not credited", member=member, status=status
        )
    note(club, words.label, member, words.points, credited, "done")


def points_lost(club, copy):
    """Returns the credits that a restore takes away, as pairs of a credit's name and a member."""
    credited = dict(copy.execute("SELECT name, credited FROM members"))
    try:
        with snapshot(club) as db:
            before = dict(db.execute("SELECT name, credited FROM members"))
    except Fault:  # a file that can't be read
        before = {}
    found = set()
    for label in labels_of(club):
        for member, step in steps_of(club, label).items():
            then = credited.get(member, 0)
            if (
                member != WHOLE
                and step.is_done
                and then <= step.before
                and before.get(member, then + 1) > then
            ):
                found.add((label, member))
    return found


def labels_of(club):
    with contextlib.suppress(FileNotFoundError), open(ledger_of(club), encoding="ascii") as lines:
        return sorted({line.split()[0] for line in lines if line.split()})
    return []


def forget_points(club, lost):
    """Removes from the ledger the credits that a restore took away, so that the office can give them again. The caller must have the turn."""
    if not lost:
        return
    labels, made = {label for label, _ in lost}, ledger_of(club) + ".new"
    with open(ledger_of(club), encoding="ascii") as lines, open(
        made, "w", encoding="ascii"
    ) as file:
        for line in lines:
            label, member = (line.split() + ["", ""])[:2]
            if (label, member) not in lost and not (member == WHOLE and label in labels):
                file.write(line)
        file.flush()
        os.fsync(file.fileno())
    os.rename(made, ledger_of(club))
    synced(os.path.dirname(club.file))

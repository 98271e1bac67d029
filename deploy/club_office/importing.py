"""Imports members from a list. For each row of the list, plans the commands, and makes the member, key and passes on the desk's side."""

import collections
import contextlib
import hashlib
import json
import os
import re
import secrets
import sys

from club_office.book import Turn
from club_office.clubs import clubdesk, show
from club_office.copies import snapshot
from club_office.asking import confirms, show_lines
from club_office.counter import as_desk, write_again, write_new
from club_office.faults import BAD_VALUE, OUTPUT, REFUSED, Fault, bad_value, fault, refusal
from club_office.lists import aligned
from club_office.member_list import Row, rows_of
from club_office.people import NOBODY, keep_person, person_of, read_people
from club_office.spares import PASSES, spare_keys
from club_office.texts import say
from club_office.values import NAME

ROOT = re.compile("[0-9a-f]{64}")


def read_given():
    """Reads roots and a person's data from standard input."""
    try:
        given = json.loads(sys.stdin.buffer.read(100_000))
        roots, person = given["roots"], given["person"]
    except (ValueError, TypeError, KeyError):
        roots = []
    if (
        not isinstance(roots, list)
        or not roots
        or not all(isinstance(root, str) and ROOT.fullmatch(root) for root in roots)
    ):
        raise bad_value("roots")
    return roots, person_of(person if isinstance(person, dict) else {})


def import_row(club, words):
    """Imports a row, which has a member, a credit, a key and the member's personal data. Adds only those parts that are missing. Prints the pass of a
    new key.

    Standard input has the personal data, and the roots that this import generated for the key. The newest root comes last. If the key already has one
    of these roots, this import made the key, and nobody has a pass of the key yet. In this case, the key gets the newest root.
    """
    roots, person = read_given()
    passes = []
    with Turn(club) as turn:
        with snapshot(club) as db:
            member = db.execute(
                "SELECT credited + (SELECT count(*) FROM keys WHERE member = members.name) FROM members WHERE name = ?",
                [words.member],
            ).fetchone()
            key = db.execute(
                "SELECT member, lower(hex(root)) FROM keys WHERE name = ?", [words.key]
            ).fetchone()
        if key and key[0] != words.member:
            raise refusal("key of another", key=words.key, member=key[0])

        def order(command, line, options=(), root=None):
            found = []

            def act():
                status, text = clubdesk(club, command, line, options, root)
                found.append(text)
                return status

            status = turn.order([command, *line], act)
            if status:
                raise fault(
                    status, "order failed", order=f"{command} {' '.join(line)}", status=status
                )
            return found[0]

        if not member:
            order("add-member", [words.member, str(words.quota)])
        if words.points and not key and (not member or member[0] == 0):
            order("credit", [words.member, str(words.points)])
        if not key:
            passes.append(
                order("add-key", [words.key, words.member], ["--root-stdin"], roots[-1].encode())
            )
        elif key[1] in roots:
            passes.append(
                order(
                    "rotate-key",
                    [words.key, "2000-01-01T00:00"],
                    ["--root-stdin"],
                    roots[-1].encode(),
                )
            )
        if person != NOBODY and words.member not in read_people(club):
            keep_person(club, words.member, person)
    for each in passes:
        show(each)
    return 0


def refuse_twins(path, rows, columns=("member", "key")):
    for column in columns:
        lines = collections.defaultdict(list)
        for row in rows:
            lines[getattr(row, column)].append(str(row.line))
        for value, at in lines.items():
            if len(at) > 1:
                raise fault(
                    BAD_VALUE,
                    "twins",
                    path=path,
                    lines=say("and").join(at),
                    column=column,
                    value=value,
                )


def spare_rows(club, path, rows):
    """Returns a row for each spare key of the members. These rows have no points, so no member gets a credit twice."""
    spares = [
        row._replace(points=0, key=key) for row in rows for key in spare_keys(club, row.member)
    ]
    refuse_twins(path, [*rows, *spares], ["key"])
    return spares


def import_members(club, words):
    """Shows the plan for each row, asks the clerk, and gives the commands. Skips the rows that an earlier run completed."""
    rows, understood = rows_of(words)
    show_lines([understood])
    refuse_twins(words.file, rows)
    spares = spare_rows(club, words.file, rows)
    members, keys = already(club)
    shown = [
        [
            row.line,
            row.written,
            row.member,
            row.quota,
            row.points,
            row.key,
            state(row, members, keys, words.passes),
        ]
        for row in rows
    ]
    show_lines(aligned(["line", "as written", "member", "quota", "points", "key", "is"], shown))
    done = [row for row, line in zip(rows, shown) if line[-1] == say("there")]
    wanted = [
        row
        for row in [*rows, *spares]
        if row not in done and state(row, members, keys, words.passes) != say("there")
    ]
    if not wanted:
        print(say("nothing to do"))
        return 0
    for row in wanted:
        if os.path.lexists(os.path.join(words.passes, row.key)) and not os.path.exists(
            mark_of(words.passes, row.key)
        ):
            raise refusal(
                "at line",
                line=row.line,
                why=say("file there", path=os.path.join(words.passes, row.key)),
            )
    asked = [row for row in wanted if row not in spares]
    points = sum(
        row.points
        for row in asked
        if row.key not in keys and not members.get(row.member) and row.member not in keys.values()
    )
    print(say("import in all", count=len(asked), rows=len(rows), points=points))
    if not words.yes and not confirms():
        raise refusal("not confirmed")
    os.makedirs(words.passes, 0o700, exist_ok=True)
    for row in wanted:
        import_one(club, row, words.passes)
        print(
            f"{row.member}: {say('spare pass', key=row.key) if row in spares else say('done')}",
            flush=True,
        )
    print(
        say(
            "imported",
            done=len(rows) - len(done),
            rows=len(rows),
            there=len(done),
            folder=words.passes,
        )
    )
    return 0


def refuse_spare_files(club, member):
    """Refuses a new member if a file has the name of one of the member's spare passes."""
    keys = spare_keys(club, member) if NAME.fullmatch(member) else []
    for path in (os.path.join(PASSES, key) for key in keys):
        if os.path.lexists(path):
            raise refusal("file there", path=path)


def make_spares(club, member, quota):
    """Makes a new member's spare keys. Writes each key's pass to the folder of passes."""
    for key in spare_keys(club, member):
        try:
            os.makedirs(PASSES, 0o700, exist_ok=True)
            import_one(club, Row(None, member, member, quota, 0, key, NOBODY), PASSES)
        except (Fault, OSError) as failure:
            raise fault(
                OUTPUT,
                "spare undone",
                key=key,
                member=member,
                path=os.path.join(PASSES, key),
                fault=failure,
            ) from None
        print(f"{member}: {say('spare pass', key=key)}", flush=True)


def already(club):
    """Returns the credited points of each member, and the member of each key."""
    status, text = as_desk(club, ["import-state"])
    if status:
        raise fault(status, "club unread")
    found = json.loads(text)
    return found["members"], found["keys"]


def import_state(db, _words, _now):
    members = dict(db.execute("SELECT name, credited FROM members").fetchall())
    keys = dict(db.execute("SELECT name, member FROM keys").fetchall())
    json.dump({"members": members, "keys": keys}, sys.stdout)


def state(row, members, keys, folder):
    if row.key in keys:
        if keys[row.key] != row.member:
            raise refusal(
                "at line",
                line=row.line,
                why=say("key of another", key=row.key, member=keys[row.key]),
            )
        return say("begun" if os.path.exists(mark_of(folder, row.key)) else "there")
    if row.member in members:
        return (
            say("begun credited", points=members[row.member])
            if members[row.member]
            else say("begun")
        )
    return say("new")


def mark_of(folder, key):
    """Returns the path of a key's mark: a file with the roots generated for the key, and the digest of the key's pass. The import writes the mark
    before it makes the key, and removes the mark when the file of the pass has its final name."""
    return os.path.join(folder, f".{key}.roots")


def read_mark(mark):
    """Returns the roots in a mark, and the digest of the pass made from the last root. The digest is empty if no pass was made."""
    words = []
    with contextlib.suppress(FileNotFoundError), open(mark, encoding="ascii") as file:
        words = file.read().split()
    return [it for it in words if ROOT.fullmatch(it)], "".join(
        it.removeprefix("pass:") for it in words if it.startswith("pass:")
    )


def write_mark(mark, roots, digest=None):
    write_again(mark, "\n".join([*roots, *([f"pass:{digest}"] if digest else [])]) + "\n")


def row_fault(status, row, text, **values):
    """Returns a row's fault, with the line number if the row is from a list."""
    if row.line is None:
        return fault(status, text, **values)
    return (
        refusal("at line", line=row.line, why=say(text, **values))
        if status == REFUSED
        else fault(status, "at line", line=row.line, why=say(text, **values))
    )


def import_one(club, row, folder):
    """Imports a row, and removes its mark when the file of the pass has its final name. If another program has made a file with that name, raises a
    fault and keeps the file."""
    place, mark = os.path.join(folder, row.key), mark_of(folder, row.key)
    taken = row_fault(REFUSED, row, "other's file", path=place)
    roots, digest = read_mark(mark)
    if os.path.lexists(place):
        with open(place, "rb") as file:
            if hashlib.sha256(file.read(100_000)).hexdigest() != digest:
                raise taken
        os.unlink(mark)
        return
    roots.append(secrets.token_hex(32))
    write_mark(mark, roots)
    given = json.dumps({"roots": roots, "person": row.person._asdict()}).encode()
    status, text = as_desk(
        club, ["import-row", row.member, str(row.quota), str(row.points), row.key], given
    )
    if status:
        raise row_fault(status, row, "row undone", member=row.member)
    if text:
        write_mark(mark, roots, hashlib.sha256(text).hexdigest())
        try:
            write_new(place, text.decode())
        except FileExistsError:
            raise taken from None
    os.unlink(mark)

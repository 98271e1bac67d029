"""Restores a club by replacing it with a copy."""

import calendar
import collections
import contextlib
import os
import shutil
import sqlite3
import subprocess
import sys
import time

from club_office.asking import confirms, show_lines
from club_office.book import Turn, refuse
from club_office.clubs import now_of, program, refuse_to_come
from club_office.copies import (
    address,
    homes,
    is_run,
    keep_before,
    lost_name,
    scratch,
    snapshot,
    synced,
)
from club_office.corrections import ended, file_taken
from club_office.faults import REFUSED, Fault, refusal, storage_failed
from club_office.lists import faults, table
from club_office.people import show_concerned
from club_office.places import given_by, kept_in, place_of, refuse_own_disk
from club_office.plans import bookings_of, persons_text, slot_text
from club_office.season import forget_points, points_lost
from club_office.texts import say
from club_office.undoing import forget_undo
from club_office.values import COPY


Copy = collections.namedtuple("Copy", "called kind path size moment tested")


def copies_of(club):
    """Returns the copies on this machine: the nightly copies, which clubdesk has opened, and the copies from before corrections, which SQLite has
    tested."""
    found = []
    for folder, kind, tested in (
        (club.back_ups, "back-up", "opened"),
        (club.file + "-before", "before a correction", "whole"),
    ):
        with contextlib.suppress(FileNotFoundError):
            for called in sorted(it for it in os.listdir(folder) if COPY.fullmatch(it)):
                path = os.path.join(folder, called)
                with contextlib.suppress(FileNotFoundError):
                    it = os.stat(path)
                    found.append(
                        Copy(
                            called, kind, path, it.st_size, moment_of(called) or it.st_mtime, tested
                        )
                    )
    return found


def copies_off_site(club):
    """Returns the copies at the place of OFFSITE. Returns no copies if the configuration has no line OFFSITE. Prints a line if the place doesn't
    answer."""
    if not club.settings.get("offsite"):
        return []
    try:
        place = place_of(club.settings["offsite"])
        refuse_own_disk(place, club.file)
        return [
            Copy(it.name, "off-site", None, it.size, moment_of(it.name), it.tested)
            for it in kept_in(place)
            if moment_of(it.name)
        ]
    except Fault as fault:
        print(say("not asked", fault=fault), file=sys.stderr)
        return []


def moment_of(called):
    """Returns the UTC time in a copy's name, or None if the name has no such time."""
    try:
        return calendar.timegm(time.strptime(called, "%Y-%m-%dT%H%M%SZ"))
    except ValueError:
        return None


def age_text(seconds):
    """Returns a copy's age in the largest suitable unit."""
    for unit, size in (("days", 86_400), ("hours", 3_600), ("minutes", 60)):
        if seconds >= 2 * size or unit == "minutes":
            count = int(max(seconds, 0) // size)
            return say(
                "age minute" if (unit, count) == ("minutes", 1) else f"age {unit}", count=count
            )
    return None


def list_copies(club, words):
    found = sorted(
        [*copies_of(club), *copies_off_site(club)], key=lambda it: (it.moment, it.called)
    )
    if words.csv:
        table(
            ["copy", "is", "bytes", "minutes", "tested"],
            [
                [it.called, it.kind, it.size, int((time.time() - it.moment) // 60), it.tested]
                for it in found
            ],
            True,
        )
        return 0
    rows = [
        [
            it.called,
            say(it.kind),
            age_text(time.time() - it.moment),
            it.size,
            say(f"tested {it.tested}"),
        ]
        for it in found
    ]
    table(["copy", "is", "age", "bytes", "tested"], rows, False)
    return 0


def copy_named(club, called):
    """Returns the copy with this name. Looks on this machine first, and then at the place of OFFSITE."""
    found = [it for it in copies_of(club) if it.called == called]
    found += [it for it in ([] if found else copies_off_site(club)) if it.called == called]
    if not found:
        raise refusal("no copy", called=called, club=club.name)
    return found[0]


def brought(place, called, path, asks=False):
    """Fetches a copy from a place into a file."""
    kept = next((it for it in kept_in(place, asks) if it.name == called), None)
    if not kept:
        raise refusal("place without copy", place=place.text, called=called)
    data = given_by(place, kept, asks)
    with open(path, "wb") as file:
        file.write(data)
    return path


@contextlib.contextmanager
def copy_opened(club, called):
    """Yields a copy in memory. Before that, opens the copy with clubdesk, which may update the copy's tables, and checks the totals in the copy."""
    memory = sqlite3.connect(":memory:", isolation_level=None)
    found = copy_named(club, called)
    with scratch(club, homes(club, found.size)[0]) as folder:
        copy = os.path.join(folder, "copy")
        if found.path:
            shutil.copyfile(found.path, copy)
        else:
            brought(place_of(club.settings["offsite"]), called, copy)
        done = subprocess.run(
            [program("CLUBDESK", "clubdesk"), "sheet", "--", copy, "2000-01-01"],
            capture_output=True,
            text=True,
            check=False,
        )
        if done.returncode:
            raise refusal("copy unopened", called=called, said=done.stderr.strip())
        with contextlib.closing(sqlite3.connect(address(copy, "ro"), uri=True)) as disk:
            disk.backup(memory)
    wrong = sorted(faults(memory))
    if wrong:
        raise refusal("copy unsound", called=called, fault=wrong[0])
    yield memory
    memory.close()


def what_changes(copy, db, now):
    """Returns the changes that a restore would make, one per line. Leaves out past slots."""
    members, then = (
        dict(it.execute("SELECT name, max(credited - used, 0) FROM members ORDER BY name"))
        for it in (db, copy)
    )
    lines = [say("forgets member", name=it) for it in members if it not in then]
    lines += [say("has member", name=it) for it in then if it not in members]
    lines += [
        say("balance of", member=it, before=members[it], then=then[it])
        for it in members
        if then.get(it, members[it]) != members[it]
    ]
    quotas, then = (
        dict(it.execute("SELECT name, quota FROM members ORDER BY name")) for it in (db, copy)
    )
    lines += [
        say("quota of", member=it, before=quotas[it], then=then[it])
        for it in quotas
        if then.get(it, quotas[it]) != quotas[it]
    ]
    lines += keys_changed(
        *(
            {
                row[0]: row[1:]
                for row in it.execute("SELECT name, root, revoked FROM keys ORDER BY name")
            }
            for it in (db, copy)
        )
    )
    facilities, then = (
        {row[0]: row[1:] for row in it.execute("SELECT * FROM facilities ORDER BY name")}
        for it in (db, copy)
    )
    lines += [
        say("facility as was", facility=it)
        for it in sorted({*facilities, *then})
        if facilities.get(it) != then.get(it)
    ]
    closed, then = (
        set(
            it.execute(
                "SELECT facility, day, hour FROM slots WHERE closed = 1 AND day >= ?", [now // 1440]
            )
        )
        for it in (db, copy)
    )
    lines += [say("opens", slot=slot_text(*it)) for it in sorted(closed - then)]
    lines += [say("closes", slot=slot_text(*it)) for it in sorted(then - closed)]
    booked, then = (
        {it[:6]: it for it in bookings_of(each, "day * 1440 + hour * 60 > ?", now)}
        for each in (db, copy)
    )
    for what, bookings in (
        ("loses", [booked[it] for it in booked if it not in then]),
        ("books again", [then[it] for it in then if it not in booked]),
    ):
        for it in bookings:
            slot = slot_text(it.facility, it.day, it.hour)
            lines.append(
                say(
                    what,
                    slot=slot,
                    persons=persons_text(it),
                    points=it.charge,
                    key=it.key,
                    number=it.number,
                    member=it.member,
                )
            )
    if len(lines) > 1:
        lines.append(say("in all", what=say("changes", count=len(lines))))
    return lines or [say("nothing to come")]


def keys_changed(keys, then):
    lines = [say("forgets key", key=it) for it in keys if it not in then]
    lines += [say("has key", key=it) for it in then if it not in keys]
    for it in keys:
        root, revoked = then.get(it, keys[it])
        if root != keys[it][0]:
            lines.append(say("rotated back", key=it))
        if revoked != keys[it][1]:
            lines.append(say("revoked again" if revoked else "revoked now", key=it))
    return lines


def of_whom(lines):
    """Returns the members whose bookings a restore changes. Each member's name is the last word of a line about a booking."""
    begin = [
        say(
            it, **dict.fromkeys(("slot", "persons", "points", "key", "number", "member"), "")
        ).split()[0]
        for it in ("loses", "books again")
    ]
    return [line.split()[-1] for line in lines if line.split()[0] in begin and "," in line]


def restore(club, words):
    """Restores a copy: shows the changes, asks the clerk, and replaces the club. Keeps the old club."""
    shown = preview_of_copy(club, words)
    if not words.yes:
        show_lines(shown)
        if not confirms():
            refuse(club, words, refusal("not confirmed"))
    lines, lost = [], set()
    with Turn(club) as turn:
        forget_undo(club)
        status = turn.order(
            words.given,
            lambda: put_in_place(club, words, lines, None if words.yes else shown, lost),
        )
    if words.yes:
        show_lines(lines)
    print(
        say("done"),
        *(say("points lost", label=it) for it in sorted({label for label, _ in lost})),
        sep="\n",
    )
    show_concerned(club, of_whom(lines))
    return status


def preview_of_copy(club, words):
    """Returns the changes that a restore would make, computed on a copy of the club. The book gets a line for a refusal."""
    try:
        refuse_to_come(words)
        with copy_opened(club, words.copy) as copy:
            try:
                with snapshot(club) as db:
                    return what_changes(copy, db, now_of(words))
            except Fault as fault:
                return [say("file unread", fault=fault)]
    except Fault as fault:
        refused = fault
    refuse(club, words, refused)
    return None


def put_in_place(club, words, lines, shown, lost):
    """Replaces the club with a copy. If the changes differ from the shown changes, doesn't change the club. Adds the changes to `lines`. Adds to
    `lost` the season's credits that the restore takes away."""
    try:
        with copy_opened(club, words.copy) as copy:
            lost |= points_lost(club, copy)
            write_over(club, words, copy, lines, shown)
            forget_points(club, lost)
    except OSError as failure:
        raise storage_failed("said", said=failure) from None
    return 0


def write_over(club, words, copy, lines, shown):
    """Writes a copy over the club's file in one transaction. If the file is missing or SQLite can't open it, replaces the file with the copy."""
    try:
        if not os.path.exists(club.file):
            raise sqlite3.DatabaseError(f"there is no file {club.file}")
        with contextlib.closing(file_taken(club)) as db:
            keep_or_put_away(club, db, words, copy, lines, shown)
            copy.backup(db)
    except sqlite3.DatabaseError as fault:
        if isinstance(fault, sqlite3.OperationalError) and "no such table" not in str(fault):
            raise storage_failed("nothing changed", why=fault) from None
        lines[:] = [say("file unread", fault=fault)]
        put_new_file(club, copy)
        # A server may have opened the old file in the meantime. Such a server still uses the old file, which now has another name.
        ended(club)


def keep_or_put_away(club, db, words, copy, lines, shown):
    """Copies the current club before a restore, as the office does before a correction. If the club is damaged, copies the file and its log byte for
    byte instead."""
    try:
        lines += what_changes(copy, db, now_of(words))
        if shown is not None and lines != shown:
            raise refusal("changed since")
        keep_before(club, db, words.command)
    except (sqlite3.DatabaseError, Fault) as fault:
        if isinstance(fault, Fault) and fault.status == REFUSED:
            raise
        lines[:] = [say("file unsound", fault=fault)]
        lost = lost_name(club)
        for ending in ("", "-wal"):
            if os.path.exists(club.file + ending):
                # Another process makes this copy, because this process would lose its locks if it opened and closed the file.
                if not is_run(["cp", "--", club.file + ending, lost + ending]):
                    raise storage_failed("unkept", path=club.file) from None


def put_new_file(club, copy):
    """Renames a file that SQLite can't open, and the file's log. Then gives the file's old name to a copy."""
    made = club.file + "-new"
    with contextlib.suppress(FileNotFoundError):
        os.unlink(made)
    with contextlib.closing(sqlite3.connect(address(made, "rwc"), uri=True)) as target:
        copy.backup(target)
    synced(made)
    lost = lost_name(club)
    for ending in ("", "-wal"):
        if os.path.exists(club.file + ending):
            os.rename(club.file + ending, lost + ending)
    os.rename(made, club.file)
    synced(os.path.dirname(club.file))

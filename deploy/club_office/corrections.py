"""Makes corrections that write into the club's file. Shows a correction, asks the clerk, and carries out the correction while no server has the file
open."""

import contextlib
import sqlite3
import subprocess
import time

from club_office.asking import confirms, show_lines
from club_office.book import Turn, refuse
from club_office.clubs import now_of, refuse_to_come, wants_file
from club_office.copies import address, copy_file, keep_before, snapshot
from club_office.faults import Fault, refusal, storage_failed
from club_office.lists import faults
from club_office.texts import say
from club_office.undoing import attach_before, forget_undo, write_undo


WAITS_FOR_FILE = 20


def correct(club, words, planned):
    """Shows the effect of a correction, asks the clerk, and makes exactly the shown changes in one transaction."""
    shown = preview(club, words, planned)
    if not words.yes:
        show_lines(shown.all_lines())
        if not confirms():
            refuse(club, words, refusal("not confirmed"))
    plans = []
    with Turn(club) as turn:
        wants_file(club)
        status = turn.order(
            words.given,
            lambda: carry_out(club, words, planned, plans, None if words.yes else shown),
        )
    if words.yes:
        show_lines(plans[0].all_lines())
    print(say("done"))
    return status


def preview(club, words, planned):
    """Returns the effect of a correction on the current club, computed on a copy. The book gets a line for a refusal."""
    wants_file(club)
    try:
        refuse_to_come(words)
        with snapshot(club) as db:
            return planned(db, words, now_of(words))
    except Fault as fault:
        refused = fault
    refuse(club, words, refused)
    return None


def carry_out(club, words, planned, plans, shown):
    """Carries out a correction on the club. If the correction's effect differs from the shown effect, changes nothing. Adds the plan to `plans`."""
    try:
        with contextlib.closing(file_taken(club)) as db:
            plan = planned(db, words, now_of(words))
            plans.append(plan)
            if shown and plan.changes != shown.changes:
                raise refusal("changed since")
            attach_before(db, keep_before(club, db, words.command))
            if plan.copy_to:
                copy_file(club, db, plan.copy_to)
            change(db, plan, lambda: write_undo(club, db, words))
            if words.command == "undo":
                forget_undo(club)
            if plan.copy_to:
                with contextlib.suppress(sqlite3.Error):
                    db.execute("VACUUM")
    except (sqlite3.Error, OSError) as failure:
        raise storage_failed("nothing changed", why=failure) from None
    return 0


def file_taken(club):
    """Returns a connection to the file that excludes all other connections. If a server has the file open, this function stops the server, and the
    club's service restarts the server after a second. The restarted server waits for the file until this connection ends, even if a signal kills this
    process."""
    db = sqlite3.connect(address(club.file, "rw"), uri=True, timeout=0, isolation_level=None)
    try:
        db.execute("PRAGMA locking_mode = EXCLUSIVE")
        db.execute("PRAGMA foreign_keys = ON")
        # With this setting, SQLite overwrites deleted values in the file, such as a leaving member's name.
        db.execute("PRAGMA secure_delete = ON")
        take(club, db)
    except BaseException:
        db.close()
        raise
    return db


def take(club, db):
    stopped, said = 0.0, ""
    end = time.monotonic() + WAITS_FOR_FILE
    while time.monotonic() < end:
        try:
            db.execute("BEGIN EXCLUSIVE")
            db.execute("SELECT version FROM desk").fetchall()
            db.execute("ROLLBACK")
            return
        except sqlite3.OperationalError as fault:
            if "locked" not in str(fault) and "busy" not in str(fault):
                raise
        if time.monotonic() - stopped > 2:
            said = ended(club)
            stopped = time.monotonic()
        time.sleep(0.002)
    raise storage_failed("file taken", path=club.file, seconds=WAITS_FOR_FILE, said=said)


def ended(club):
    """Stops the club's server. Returns the error message, for example if the service doesn't exist. Returns an empty text if there was no error."""
    try:
        done = subprocess.run(
            club.stop,
            stdin=subprocess.DEVNULL,
            capture_output=True,
            text=True,
            errors="replace",
            check=False,
            timeout=WAITS_FOR_FILE,
        )
    except (OSError, subprocess.TimeoutExpired) as fault:
        return str(fault)
    return done.stderr.strip()


def change(db, plan, keep):
    """Runs the statements of a plan in one transaction. Commits only if the club has no new faults. Calls `keep` just before the commit."""
    db.execute("BEGIN EXCLUSIVE")
    try:
        before, kept = faults(db), rows_kept(db, plan)
        for rows, sql, values in plan.changes:
            done = db.execute(sql, values).rowcount
            if rows is not None and done != rows:
                raise refusal("other rows", done=done, rows=rows)
        new = faults(db) - before
        if new:
            raise refusal("nothing changed", why=sorted(new)[0])
        if rows_kept(db, plan) != kept:
            raise refusal("other sums")
        keep()
        db.execute("COMMIT")
    except BaseException:
        if db.in_transaction:
            db.execute("ROLLBACK")
        raise


def rows_kept(db, plan):
    return [db.execute(sql, values).fetchall() for sql, values in plan.keeps]

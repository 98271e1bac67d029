"""Makes copies of a club. Lists read a copy in memory. A correction first makes a copy in a folder. The command new-year copies the file byte for
byte."""

import contextlib
import glob
import itertools
import os
import re
import shutil
import sqlite3
import subprocess
import sys
import tempfile
import time
import urllib.parse

from club_office.clubs import back_up_program, wants_file
from club_office.faults import storage_failed

BACK_UPS_KEPT = 30
MEMORY = "/dev/shm"
# A copy in memory requires this number of free inodes. The copy needs inodes for its folder, its file and its log, and other programs need a few
# more.
FILES_FREE = 20


# ---- Folders for temporary copies.


def begun_at(process):
    """Returns the time when a process began, in ticks. Returns None if the process doesn't exist or is a zombie."""
    try:
        with open(f"/proc/{process}/stat", encoding="utf-8", errors="replace") as stat:
            state, *rest = stat.read().rpartition(")")[2].split()
            return None if state in "ZX" else rest[18]
    except OSError:
        return None


def clear_killed(home):
    """Removes this user's temporary folders whose processes have ended. The name of each folder contains the number and the start time of its
    process."""
    for stale in glob.glob(os.path.join(glob.escape(home), ".office-*")):
        owner = re.match(r"\.office-([0-9]+)-([0-9]+)-", os.path.basename(stale))
        with contextlib.suppress(OSError):
            if os.stat(stale, follow_symlinks=False).st_uid == os.geteuid() and not (
                owner and begun_at(owner[1]) == owner[2]
            ):
                shutil.rmtree(stale)


def clear_left(club):
    """Removes the temporary copies that killed commands left behind."""
    for home in {MEMORY, os.path.dirname(club.file)}:
        clear_killed(home)


def homes(club, size=None):
    """Returns the folders that can hold a temporary copy of the club, or of a file of this size. If the memory has room, the first folder is in
    memory. The last folder is the folder of the club's file."""
    beside = os.path.dirname(club.file)
    if size is None:
        size = sum(
            os.path.getsize(club.file + it) for it in ("", "-wal") if os.path.exists(club.file + it)
        )
    found = [beside]
    if os.access(MEMORY, os.W_OK | os.X_OK):
        room = os.statvfs(MEMORY)
        # The memory needs room for the copy, its log, and the pages that SQLite copies from the log. A file system without a fixed number of inodes
        # reports 0 inodes.
        if room.f_bavail * room.f_frsize > 3 * size + 1_000_000 and (
            room.f_files == 0 or room.f_favail > FILES_FREE
        ):
            found.insert(0, MEMORY)
    return found


@contextlib.contextmanager
def scratch(club, home=None):
    """Yields a folder, and removes it at the end. First removes the folders that killed commands left behind."""
    clear_left(club)
    prefix = f".office-{os.getpid()}-{begun_at('self')}-"
    with tempfile.TemporaryDirectory(
        prefix=prefix, dir=home or homes(club)[0], ignore_cleanup_errors=True
    ) as folder:
        yield folder


@contextlib.contextmanager
def snapshot(club):
    """Yields a copy of the current club in memory. back_up makes the copy in a temporary folder, and this process then removes the folder."""
    wants_file(club)
    memory = sqlite3.connect(":memory:", isolation_level=None)
    said = ""
    for home in homes(club):
        with scratch(club, home) as folder:
            copy = os.path.join(folder, "copy")
            done = subprocess.run(
                [back_up_program(), club.file, copy],
                capture_output=True,
                text=True,
                errors="replace",
                check=False,
            )
            if done.returncode == 0:
                with contextlib.closing(sqlite3.connect(address(copy, "ro"), uri=True)) as disk:
                    disk.backup(memory)
                break
            said = done.stderr.strip()
    else:
        raise storage_failed("said", said=said)
    yield memory
    memory.close()


def address(path, mode):
    return f"file:{urllib.parse.quote(path)}?mode={mode}"


# ---- Copies that stay.


def keep_before(club, db, command):
    """Copies the club to the folder FILE-before before a correction, and returns the copy's path. The folder keeps only the newest copies."""
    folder = club.file + "-before"
    os.makedirs(folder, 0o700, exist_ok=True)
    called = time.strftime("%Y-%m-%dT%H-%M-%S-") + command
    made = os.path.join(folder, f".{called}.new")
    try:
        with contextlib.closing(sqlite3.connect(address(made, "rwc"), uri=True)) as copy:
            db.backup(copy)
            if copy.execute("PRAGMA integrity_check").fetchall() != [("ok",)]:
                raise storage_failed("back-up unsound")
        synced(made)
        named = name_new(made, os.path.join(folder, called))
    finally:
        with contextlib.suppress(FileNotFoundError):
            os.unlink(made)
    synced(folder)
    found = sorted(
        (os.stat(path).st_mtime_ns, path)
        for path in glob.glob(os.path.join(glob.escape(folder), "2*"))
    )
    for _, old in found[:-BACK_UPS_KEPT]:
        os.unlink(old)
    return named


def name_new(made, path):
    """Gives a file an unused name: the given name, or the name with a number from 2 on. Returns the name."""
    for number in itertools.count(1):
        named = path if number == 1 else f"{path}-{number}"
        if is_named(made, named):
            return named
    return None


def is_named(made, path):
    """Gives a file a name if no other file has the name. On a disk without hard links, the function first creates an empty file with the name. Then
    the given file replaces the empty file. Returns whether the file got the name."""
    try:
        os.link(made, path)
    except FileExistsError:
        return False
    except OSError:
        try:
            os.close(os.open(path, os.O_WRONLY | os.O_CREAT | os.O_EXCL, 0o600))
        except FileExistsError:
            return False
        os.rename(made, path)
        return True
    os.unlink(made)
    return True


def clear_unnamed(club):
    """Removes the unfinished copies that a killed command left behind. The caller must have the turn."""
    folder = glob.escape(club.file)
    for stale in [*glob.glob(f"{folder}-before/.*.new*"), *glob.glob(f"{folder}-until-*.new")]:
        with contextlib.suppress(OSError):
            os.unlink(stale)


def synced(path):
    file = os.open(path, os.O_RDONLY)
    try:
        os.fsync(file)
    finally:
        os.close(file)


def is_run(words):
    """Runs another program, and returns whether it succeeded. The program's error messages appear on this process's standard error when the turn
    ends."""
    done = subprocess.run(
        words,
        check=False,
        stdin=subprocess.DEVNULL,
        stdout=subprocess.DEVNULL,
        stderr=subprocess.PIPE,
        text=True,
        errors="replace",
    )
    print(done.stderr, end="", file=sys.stderr)
    return done.returncode == 0


def copy_file(club, db, to):
    """Moves the log into the file, and copies the file byte for byte. Another process makes the copy, because this process would lose its locks if it
    opened and closed the file."""
    if db.execute("PRAGMA wal_checkpoint(TRUNCATE)").fetchone()[0]:
        raise storage_failed("log uncopied")
    place = next(
        path
        for path in [to, *(f"{to}-{more}" for more in range(2, 1000))]
        if not os.path.exists(path)
    )
    for words in (
        ["cp", "--", club.file, place + ".new"],
        ["sync", "--", place + ".new"],
        ["mv", "-nT", "--", place + ".new", place],
    ):
        if not is_run(words):
            raise storage_failed("uncopied", path=club.file, to=place)
    synced(os.path.dirname(place))


def lost_name(club):
    """Returns an unused name for a file that another file will replace."""
    called = f"{club.file}-lost-{time.strftime('%Y-%m-%dT%H-%M-%S')}"
    names = itertools.chain([called], (f"{called}-{more}" for more in itertools.count(2)))
    return next(it for it in names if not os.path.lexists(it) and not os.path.lexists(it + "-wal"))

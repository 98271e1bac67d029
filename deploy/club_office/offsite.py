"""Copies a club, and the files next to it, to another place within a minute of a change. So the club survives the loss of its machine.

The script back_up makes a copy, and clubdesk opens it as a test. Then the copy is sent to the place and tested there. FILE-offsite has the name of
the last copy. If copying fails, FILE-offsite also has the reason and the time of the first failure. deploy/check_health and deploy/metrics read this
file."""

import glob
import grp
import hashlib
import io
import os
import subprocess
import sys
import tarfile
import time

from club_office.clubs import back_up_program, program
from club_office.copies import homes, scratch
from club_office.faults import STORAGE, Fault, fault
from club_office.places import (
    BESIDE,
    NAME,
    OLD_YEAR,
    looked_up,
    place_of,
    refuse_own_disk,
    remove,
    take,
)

# The number of seconds until the next check of the file: normally, after a copy, and after a failure.
LOOKS, RESTS, RETRIES = 3, 15, 20
# The greatest number of tries for a copy, if the files next to the club change during each try.
TRIES = 5
# The number of seconds between two notes that the service is still running.
NOTES = 30
# The number of seconds until the service looks again whether the place still has the newest copy.
LOOKS_THERE = 3_600
# The files next to the club, named by their suffixes.
BESIDE_FILES = ("-people.csv", "-seasons", "-reasons", "-book")


def state_of(club):
    return club.settings["file"] + "-offsite"


def read_state(club):
    """Returns the lines of FILE-offsite. Maps the first word of each line to the rest of the line."""
    try:
        with open(state_of(club), encoding="utf-8") as file:
            return {
                word: rest for word, _, rest in (line.rstrip("\n").partition(" ") for line in file)
            }
    except FileNotFoundError:
        return {}


def write_state(club, state):
    made = state_of(club) + ".new"
    with open(
        os.open(made, os.O_WRONLY | os.O_CREAT | os.O_TRUNC, 0o600), "w", encoding="utf-8"
    ) as file:
        file.writelines(f"{word} {rest}\n" for word, rest in state.items())
    os.rename(made, state_of(club))


def signature(paths):
    """Returns a text that changes whenever one of these files changes."""
    found = []
    for path in paths:
        try:
            it = os.stat(path)
            found.append(f"{it.st_ino}:{it.st_size}:{it.st_mtime_ns}")
        except OSError:
            found.append("none")
    return ",".join(found)


# ---- The files next to the club: its configuration, persons, reasons, season points, book, and the clerks' names.


def beside_paths(club):
    """Returns the path of each file for the archive, by the file's name in the archive."""
    folder = os.environ.get("OFFICE_CONF", "/etc/clubdesk")
    found = {
        f"conf/{os.path.basename(path)}": path
        for path in sorted(glob.glob(os.path.join(glob.escape(folder), f"{club.name}.*")))
        if os.path.isfile(path) and os.access(path, os.R_OK)
    }
    found |= {
        f"beside/{end[1:]}": club.file + end
        for end in BESIDE_FILES
        if os.path.isfile(club.file + end)
    }
    for what in ("titles", "logo"):
        path = club.settings.get(what, "")
        if os.path.isfile(path) and os.access(path, os.R_OK) and path not in found.values():
            found[f"{what}/{os.path.basename(path)}"] = path
    return found


def clerks():
    try:
        return sorted(grp.getgrnam("office").gr_mem)
    except KeyError:
        return []


def beside_of(club):
    """Returns an archive of the files next to the club. The same files always make the same bytes."""
    made = io.BytesIO()
    with tarfile.open(fileobj=made, mode="w", format=tarfile.USTAR_FORMAT) as archive:
        files = {name: open(path, "rb").read() for name, path in beside_paths(club).items()}
        for name, data in {
            **files,
            "clerks": "".join(f"{it}\n" for it in clerks()).encode(),
        }.items():
            about = tarfile.TarInfo(name)
            about.size, about.mode = len(data), 0o600
            archive.addfile(about, io.BytesIO(data))
    return made.getvalue()


# ---- A copy.


def made_copy(club, folder):
    """Makes a copy of the current club, and opens the copy with clubdesk as a test."""
    copy, opened = os.path.join(folder, "copy"), os.path.join(folder, "opened")
    for line in (
        [back_up_program(), club.file, copy],
        ["cp", "--", copy, opened],
        [program("CLUBDESK", "clubdesk"), "sheet", "--", opened, "2000-01-01"],
    ):
        done = subprocess.run(
            line,
            capture_output=True,
            text=True,
            errors="replace",
            check=False,
            stdin=subprocess.DEVNULL,
        )
        if done.returncode:
            raise fault(STORAGE, "no copy made", said=done.stderr.strip())
    with open(copy, "rb") as file:
        return file.read()


def too_old(names, day):
    """Returns the names of copies to remove, according to the rules of deploy/old_copies for copies that may be a minute apart."""
    rules = os.path.join(os.path.dirname(back_up_program()), "old_copies")
    done = subprocess.run(
        [rules, "-", day],
        input="".join(f"{it}\n" for it in names),
        capture_output=True,
        text=True,
        check=True,
    )
    return done.stdout.split()


def made_together(club):
    """Makes a copy of the club and, from the same time, an archive of the files next to the club. Tries again if a file next to the club has changed
    in the meantime."""
    for _ in range(TRIES):
        beside = beside_of(club)
        with scratch(club, homes(club)[0]) as folder:
            data = made_copy(club, folder)
        if beside_of(club) == beside:
            break
    return data, beside


def about(data):
    """Returns the size and the digest of a file's bytes."""
    return len(data), hashlib.sha256(data).hexdigest()


def copy_now(club, place, state):
    """Copies the club and the files next to it, if the place doesn't have them. Returns messages about what it copied and removed. Stores the archive
    at the place before the copy of the same name. So a copy always has its archive. Then looks up in the place's list whether the place has what was
    sent."""
    refuse_own_disk(place, club.file)
    data, beside = made_together(club)
    (size, digest), archive = about(data), about(beside)
    is_new = digest != state.get("sum")
    moment = (
        time.strftime("%Y-%m-%dT%H%M%SZ", time.gmtime())
        if is_new
        else state["copied"].split(" ")[1]
    )
    said, tested = [], state.get("copied", "").split(" ")[-1]
    if is_new or archive[1] != state.get("beside"):
        take(place, f"{moment}.tar", beside, archive[1], "other")
        said = [f"{moment}: the files next to the club"]
    if is_new:
        tested = take(place, moment, data, digest, "club")
        said = [f"{moment}: {'tested there' if tested == 'whole' else 'compared there'}"]
    try:
        there = looked_up(place, {moment: (size, digest), f"{moment}.tar": archive})
    except Fault:  # the next try sends the files again
        state.pop("sum", None)
        raise
    if is_new:
        state.update(copied=f"{int(time.time())} {moment} {tested}", sum=digest)
    state["beside"] = archive[1]
    return said + keep_in_order(club, place, moment if said else None, there)


def keep_in_order(club, place, newest, there):
    """Sends the files of old years that the place doesn't have. If there is a new archive, removes copies that are too old, and all archives except
    the newest."""
    years = {
        path[len(club.file) + 1 :]: path for path in glob.glob(glob.escape(club.file) + "-until-*")
    }
    years = {name: path for name, path in sorted(years.items()) if OLD_YEAR.fullmatch(name)}
    said, sizes = [], {it.name: it.size for it in there}
    for name, path in years.items():
        if sizes.get(name) != os.path.getsize(path):
            with open(path, "rb") as file:
                data = file.read()
            take(place, name, data, about(data)[1], "club")
            looked_up(place, {name: about(data)})
            said.append(name)
    if newest is None and not said:
        return []
    old = too_old(
        [it for it in sizes if NAME.fullmatch(it)], time.strftime("%Y-%m-%d", time.gmtime())
    )
    said += [f"removed {it}" for it in old]
    remove(
        place,
        [*old, *(it for it in sizes if newest and BESIDE.fullmatch(it) and it != f"{newest}.tar")],
    )
    return said


def look(club, state, is_first):
    """Checks the club once, and copies it if it has changed. Returns whether the place has the current club. Prints a fault at the first check, and
    later only if the fault differs from the last one."""
    where = club.settings["offsite"]
    seen = (
        f"{where} "
        + signature([club.file, club.file + "-wal", *beside_paths(club).values()])
        + f" {','.join(clerks())}"
    )
    is_due = time.time() - int(state.get("looked", "0")) >= LOOKS_THERE
    if state.get("of") == seen and "failing" not in state and not is_due:
        return True
    if state.get("of", "").split(" ")[0] != where:
        state.pop("sum", None)
        state.pop("beside", None)
    try:
        said = copy_now(club, place_of(where), state)
    except (Fault, OSError, subprocess.CalledProcessError) as failure:
        why = " ".join(str(getattr(failure, "why", failure)).split())
        since, _, before = state.get("failing", f"{int(time.time())} ").partition(" ")
        state["failing"] = f"{since} {why}"
        if is_first or why != before:
            print(f"copy_offsite: {why}; the service will try again", file=sys.stderr, flush=True)
        return False
    if state.pop("failing", None):
        print(f"{where} accepts copies again", flush=True)
    state.update(of=seen, looked=str(int(time.time())))
    for it in said:
        print(f"{where}: {it}", flush=True)
    return True


def watch(club, named, is_once=False):
    """Checks the club repeatedly. Calls `named` after each check to read the configuration again, so that a changed configuration has an effect."""
    noted, before = 0.0, None
    state = read_state(club)
    while True:
        begun = time.monotonic()
        was = dict(state)
        is_there = look(club, state, before is None)
        if state != was or begun - noted > NOTES or before is None:
            write_state(club, state)
            noted, before = begun, state
        if is_once:
            return 0 if is_there else STORAGE
        time.sleep(RETRIES if not is_there else RESTS if state != was else LOOKS)
        club = named()
        if not club.settings.get("offsite"):
            return 0

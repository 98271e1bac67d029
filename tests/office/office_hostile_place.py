#!/usr/bin/env -S /usr/bin/python3 -B
"""The place of a club's copies gets no rights on the club's machine, even if it sends nothing, lies, or sends a forged archive.

The test needs root, because it covers the machine's folders with temporary overlays (tests/lib/office_room.sh). A script replaces ssh.

- A place answers without storing anything, or sends an odd or endless list. The service reports a fault, and the health check fails. No escape byte
  of the place reaches a terminal. If the place loses a copy, the service notices it and sends the copy again.
- `clubdesk-setup --from` reads a forged archive as data. It writes known settings with tested values, and files at fixed places. It asks about each
  clerk, and never makes a user of the system a clerk.
"""
# pytestmark = [mark.package, mark.root, mark.needs("clubdesk passtool"),
#     mark.wants("sudo sqlite3 openssl util-linux bsdutils iproute2 systemd curl python3-psutil python3-pexpect")]

import gzip
import hashlib
import io
import re
import shutil
import subprocess
import sys
import tarfile
from pathlib import Path

import pexpect

sys.path[:0] = [str(Path(__file__).resolve().parents[1] / it) for it in ("lib", "")]
from desk import free_port
from office_room import (
    CLUB,
    HOME,
    Service,
    configure,
    done,
    everything,
    leave,
    mode,
    office,
    run_as,
    same,
)

CONF, AWAY = Path("/etc/clubdesk"), Path("/srv/away")
FOLDER = AWAY / "clubs" / "club"
MINUTE = re.compile(r"20[0-9]{2}-[0-9]{2}-[0-9]{2}T[0-9]{6}Z")
# A script in place of ssh. It runs the last argument in the home folder of the place.
SSH = f'for last; do :; done; cd {AWAY}; exec sh -c "$last"'
# The files of the site in nginx or caddy.
SITE = re.compile(r"/etc/(nginx/sites-[a-z]+/(club|challenge)|caddy/(Caddyfile|clubs/club.caddy))$")
LIES = f'for last; do :; done; cd {AWAY}; sh -c "$last" >"$HOME/lies" || exit; '
BOUND = "doesn't run the commands"


def ssh(script):
    """Replaces ssh with a script."""
    path = Path("/usr/bin/ssh")
    path.unlink(missing_ok=True)
    path.write_text(f"#!/bin/sh\n{script}\n", encoding="utf-8")
    path.chmod(0o755)


def once():
    """Runs copy_offsite once. Returns the exit status, the output and the errors."""
    return run_as("clubdesk", "/usr/lib/clubdesk/copy_offsite", "club", "--once", folder="/")


def copies():
    return sorted(it.name for it in FOLDER.iterdir() if MINUTE.fullmatch(it.name))


def health(patience):
    line = [
        "env",
        f"PATIENCE={patience}",
        "/usr/lib/clubdesk/check_health",
        CLUB,
        PORT,
        "",
        "",
        PLACE,
    ]
    return run_as("clubdesk", *map(str, line), folder="/")


def places_that_store_nothing():
    for script, said in (
        ("cat >/dev/null; exit 0", BOUND),
        ("cat >/dev/null; echo Welcome; exit 0", BOUND),
        (r"cat >/dev/null; printf '\033[2Jgo away\n' >&2; exit 3", r"\x1b[2Jgo away"),
        ("yes Welcome", "sends more than"),
        (LIES + "sed 's/^file [0-9]*/file 7/' $HOME/lies", "the place doesn't have"),
        (LIES + "sed 's/^sum ....../sum 000000/' $HOME/lies", "the place doesn't have"),
        (LIES + "sed 's/^file/\x1b[2J/' $HOME/lies", "has a line that isn't about a copy"),
        (LIES + "sed 's/^file [0-9]*/file x/' $HOME/lies", "has a line that isn't about a copy"),
        (LIES + "grep -v '^file\\|^sum ' $HOME/lies", "the place doesn't have"),
    ):
        done("credit", "amy", "1")
        ssh(script)
        status, out, errors = once()
        same(f"a place with {script[-40:]!r}: {errors}", (status, said in errors), (5, True))
        listed = office("copies")
        same("no escape byte", "\x1b" in out + errors + listed[1] + listed[2], False)
        state = (HOME / "club-offsite").read_bytes()
        same(
            "the copy isn't noted as stored",
            (b"failing " in state, b"\x1b" in state),
            (True, False),
        )
        found = health(0)
        same("the health check", (found[0], "\x1b" in found[2]), (1, False))
    ssh(SSH)
    same("the place stores copies again", once()[0], 0)
    same("the health check", health(600)[0], 0)


def lost_there():
    """If the place loses the newest copy, the service notices it within an hour, and sends the copy again."""
    (FOLDER / copies()[-1]).unlink()
    state = HOME / "club-offsite"
    same("no look within an hour", once()[0], 0)
    text = state.read_text(encoding="utf-8")
    state.write_text(re.sub("(?m)^looked .*$", "looked 0", text), encoding="utf-8")
    status, _, errors = once()
    same("a lost copy", (status, "the place doesn't have" in errors), (5, True))
    same("it is sent again", (once()[0], len(copies()) > 0), (0, True))
    for wrong, status in (("elsewhere:~/clubs/club", 0), ("elsewhere:~carl/clubs", 5)):
        configure(**{**SETTINGS, "OFFSITE": wrong})
        same(f"the place {wrong}", once()[0], status)
    same("no folder named ~", list(AWAY.glob("*~*")), [])
    configure(**SETTINGS)


# ---- A forged archive.

CONFIGURATION = """FILE=/etc/evil
ZONE=UTC0
ZONE_NAME=Etc/UTC
PORT=22
STOP=/bin/sh -c evil
BACK_UPS=/etc/evil
BOOK=/etc/evil
LD_PRELOAD=/tmp/evil.so
PATH=/tmp/evil
CLUBDESK=/tmp/evil
METRICS=/etc/evil
SPARES=2
SHEET_HOUR=99
TITLE="Our club"
SITE=https://desk.example.org
PAGES=/etc/evil
TITLES=/etc/cron.d/evil
LOGO=/etc/evil.svg
CONTACT="$(evil)"
IMPRINT="javascript:evil"
MAIL=it@example.org
OFFSITE=evil:clubs/evil
"""
PEOPLE = """member,name,mail,telephone
amy,Amy Möller,amy@example.org,+49 1
evil,Evil \x1b[2J,evil@example.org,
../evil,Evil,,
bob,=1+1,bob@example.org,
"""
FILES = {
    "conf/club.conf": CONFIGURATION,
    "conf/club.health": "evil",
    "conf/club.evil": "evil",
    "titles/evil": "court-1 Court 1\ncourt-2 \x1b[2J\n",
    "logo/evil.svg": "<svg/>",
    "beside/people.csv": PEOPLE,
    "beside/seasons": "season-1 amy 10 0 done\nseason-1 evil \x1b[2J 0 done\n",
    "beside/reasons": '[{"facility": "../evil", "day": 1, "from": 1, "until": 2, "why": "x"}]',
    "beside/book": "2026-04-20T12:00:00 anna 0 credit amy 1\n\x1b[2J evil\n",
    "clerks": "root\nwww-data\nclubdesk\nsudo\nadm\nEvil;\nben\ndoris\nfrank\n",
}


def put(called, data):
    """Puts a file into the place's folder, and notes its digest as the place does."""
    (FOLDER / called).write_bytes(data)
    tested = (FOLDER / "tested").read_text(encoding="utf-8").splitlines()
    lines = [it for it in tested if not it.startswith(f"{called} ")]
    lines.append(f"{called} {hashlib.sha256(data).hexdigest()} sum")
    (FOLDER / "tested").write_text("".join(f"{it}\n" for it in lines), encoding="utf-8")


def archive_of(files):
    made = io.BytesIO()
    with tarfile.open(fileobj=made, mode="w") as archive:
        for name, text in files.items():
            about = tarfile.TarInfo(name)
            about.size = len(text.encode())
            archive.addfile(about, io.BytesIO(text.encode()))
    return made.getvalue()


def empty_machine():
    """Removes the club from the machine. Returns the files of /etc, apart from the club's, with their sizes and times."""
    for it in [*CONF.iterdir(), *HOME.glob("club*"), *Path("/var/www").iterdir()]:
        shutil.rmtree(it) if it.is_dir() else it.unlink()
    return files_of_etc()


def files_of_etc():
    found = {}
    for it in Path("/etc").rglob("*"):
        if it.is_file() and CONF not in it.parents:
            about = it.stat()
            found[str(it)] = (about.st_size, about.st_mtime_ns, about.st_ino)
    for name in ("passwd", "group", "shadow", "gshadow", "subuid", "subgid"):
        for end in ("", "-"):
            found.pop(f"/etc/{name}{end}", None)
    return found


def restored(*words):
    return run_as("root", "clubdesk-setup", "--from", PLACE, "--clerk", "anna", *words, folder="/")


def forged():
    """A forged archive reaches no file except the club's own files, and no setting except known settings."""
    put(f"{copies()[-1]}.tar", archive_of(FILES))
    before = empty_machine()
    status, out, errors = restored()
    same(f"the restore: {errors}", status, 0)
    after = files_of_etc()
    same("changed files in /etc", [it for it in before if after.get(it) != before[it]], [])
    new = [it for it in after if it not in before]
    same("new files in /etc", [it for it in new if not SITE.match(it)], [])
    lines = (CONF / "club.conf").read_text(encoding="utf-8").splitlines()[1:]
    same(
        "the settings",
        {it.partition("=")[0]: it.partition("=")[2] for it in lines if "PORT" not in it},
        {
            "FILE": str(CLUB),
            "ZONE": "UTC0",
            "ZONE_NAME": "Etc/UTC",
            "SPARES": "2",
            "TITLE": '"Our club"',
            "SITE": "https://desk.example.org",
            "MAIL": "it@example.org",
            "PAGES": "/var/www/club",
            "TITLES": "/etc/clubdesk/club.titles",
            "LOGO": "/etc/clubdesk/club.logo.svg",
            "BOOK": f"{CLUB}-book",
            "OFFSITE": PLACE,
        },
    )
    same("the port", any(re.fullmatch("PORT=8[0-9]{3}", it) for it in lines), True)
    for what in ("LD_PRELOAD", "STOP", "CONTACT", "SHEET_HOUR", "METRICS"):
        same(f"{what} is named", re.search(f"(?m)^left  {what}=", out) is not None, True)
    same("the files of the configuration", sorted(it.name for it in CONF.iterdir()), NAMES)
    same("a new pass for health checks", "evil" in (CONF / "club.health").read_text(), False)
    same("escape bytes", "\x1b" in out + errors, False)
    for end, wanted in (
        (
            "people.csv",
            "member,name,mail,telephone\namy,Amy Möller,amy@example.org,'+49 1\nbob,'=1+1,bob@example.org,\n",
        ),
        ("seasons", "season-1 amy 10 0 done\n"),
        ("reasons", "[]"),
    ):
        path = HOME / f"club-{end}"
        same(
            f"the file {end}",
            (path.read_text(encoding="utf-8"), mode(path)),
            (wanted, "clubdesk 100600"),
        )
    same("the book", "\x1b" in (HOME / "club-book").read_text(encoding="utf-8"), False)
    same("the titles", (CONF / "club.titles").read_text(encoding="utf-8"), "court-1 Court 1\n")
    same("the folder of the pages", mode(Path("/var/www/club")), "clubdesk 40755")


NAMES = ["club.conf", "club.health", "club.logo.svg", "club.titles"]


def members_of_office():
    return (
        subprocess.run(["getent", "group", "office"], capture_output=True, text=True, check=True)
        .stdout.strip()
        .rpartition(":")[2]
        .split(",")
    )


def clerks():
    """Without a terminal, the restore makes only the clerks of --clerk. At a terminal, it asks about each clerk of the archive who can be a person."""
    before = members_of_office()
    same("no clerk of the archive", ("doris" in before, "root" in before), (False, False))
    empty_machine()
    it = pexpect.spawn(
        "clubdesk-setup",
        ["--from", PLACE, "--clerk", "anna"],
        encoding="utf-8",
        timeout=60,
        cwd="/",
    )
    for user, answer in (("doris", "y"), ("frank", "n")):
        it.expect(f"The copies name the clerk {user}")
        it.sendline(answer)
    it.expect(pexpect.EOF)
    it.close()
    same("the restore at a terminal", it.exitstatus, 0)
    found = members_of_office()
    same("the clerks", sorted(found), sorted({*before, "doris"}))
    for user in ("root", "www-data", "clubdesk", "doris"):
        status, _, errors = run_as(
            "root", "clubdesk-setup", "--club", "club", "--clerk", user, folder="/"
        )
        wanted = user in ("root", "www-data", "clubdesk")
        same(f"the clerk {user}", (status, "can't be a clerk" in errors), (int(wanted), wanted))


def odd_archives():
    """An archive that is compressed, damaged or too large, or that has no configuration or several, stops the restore."""
    name = f"{copies()[-1]}.tar"
    for what, data, said in (
        ("compressed", gzip.compress(archive_of(FILES)), "can't be read"),
        ("damaged", b"no archive", "can't be read"),
        ("empty", archive_of({"clerks": "ben\n"}), "exactly one club"),
        ("of two clubs", archive_of({**FILES, "conf/other.conf": ""}), "exactly one club"),
        (
            "with many files",
            archive_of({f"conf/club.{it}": "" for it in range(200)}),
            "can't be read",
        ),
    ):
        put(name, data)
        empty_machine()
        status, _, errors = restored()
        same(f"an archive {what}: {errors}", (status, said in errors), (1, True))
        same("no traceback", "Traceback" in errors, False)
        same("no file is made", list(CONF.iterdir()), [])
    (FOLDER / name).write_bytes(archive_of(FILES))
    status, _, errors = restored()
    same("an archive with other bytes", (status, "differs from the copy sent" in errors), (1, True))
    old = FOLDER / "until-2025-12-31"
    put(name, archive_of(FILES))
    put(old.name, b"no club")
    status, _, errors = restored()
    same("an old year that is no club", (status, "can't open the copy" in errors), (1, True))
    old.unlink()


subprocess.run(["mount", "-t", "tmpfs", "tmpfs", "/var/www"], check=True)
subprocess.run(["mount", "-t", "tmpfs", "-o", "mode=777", "tmpfs", "/srv"], check=True)
AWAY.mkdir(mode=0o777)
AWAY.chmod(0o777)
ssh(SSH)
PORT, PLACE = free_port(), "elsewhere:clubs/club"
SETTINGS = {"PORT": PORT, "OFFSITE": PLACE, "BOOK": HOME / "club-book"}
configure(**SETTINGS)
done("new")
done("add-member", "amy", "9")
done("add-facility", "court-1", "court", "4", "200", "8", "22")
desk = Service(port=PORT)
same("a first copy", once()[0], 0)
same("the health check", health(600)[0], 0)
places_that_store_nothing()
lost_there()
desk.stop()
wanted = everything()
forged()
clerks()
odd_archives()
leave()

#!/usr/bin/env -S /usr/bin/python3 -B
"""A service copies each change of a club to another machine within a minute, and a lost club can be restored.

The service sends the copies by ssh, or writes them into a mounted folder. Each copy is tested at its destination. The test needs root, because
it covers the machine's folders with temporary overlays (tests/lib/office_room.sh).

- The service sends nothing if the club hasn't changed. The service keeps exactly the copies that the test's own rule selects. The office's command
  `copies` lists the copies on the other machine, and `restore` can restore each of them.
- The test causes these faults: a host that is down, an interrupted transfer, a full disk on the other machine, and an unmounted folder. The
  service reports each fault and retries, and the health check fails meanwhile.
- deploy/check_health sends a request to the club's public name, and checks how many days the certificate is still valid. deploy/metrics counts
  requests and the office's commands.
- `clubdesk-setup --from` restores the club, the members' full names, the record of a season's points, old years' files, and the clerks. If a
  booking was lost, the client repeats the request and so makes the booking again.
"""
# pytestmark = [mark.package, mark.faults, mark.root, mark.needs("clubdesk passtool"),
#     mark.wants("sudo sqlite3 openssl util-linux bsdutils iproute2 systemd python3-psutil openssh-server openssh-client curl")]

import contextlib
import datetime
import grp
import http.client
import http.server
import io
import os
import random
import re
import shutil
import socket
import sqlite3
import ssl
import subprocess
import sys
import tarfile
import threading
import time
from pathlib import Path

import psutil

# The test runs in its own network namespace, so that no other program uses its ports.
os.environ.setdefault("room_net", "yes")

sys.path[:0] = [str(Path(__file__).resolve().parents[1] / it) for it in ("lib", "")]
from office_room import (
    CLUB,
    HOME,
    ROOM,
    Service,
    done,
    everything,
    leave,
    mode,
    office,
    run_as,
    same,
    whole,
)

AWAY = Path("/srv/away")
FOLDER = AWAY / "clubs" / "club"
CONF = Path("/etc/clubdesk")
RESTORE = ["clubdesk-setup", "--from", "elsewhere:clubs/club", "--clerk", "anna"]
SITE = "desk.example.org"
DAY = datetime.date.today() + datetime.timedelta(2)
MINUTE = re.compile(r"20[0-9]{2}-[0-9]{2}-[0-9]{2}T[0-9]{6}Z")


def configure(**more):
    lines = {
        "FILE": CLUB,
        "ZONE": "UTC0",
        "PORT": server.port,
        "BACK_UPS": HOME / "back-ups",
        "TITLE": '"Our club"',
        "SITE": f"https://{SITE}",
        "PAGES": "/srv/pages",
        "ZONE_NAME": "Etc/UTC",
        "TITLES": CONF / "club.titles",
        **more,
    }
    (CONF / "club.conf").write_text(
        "".join(f"{key}={value}\n" for key, value in lines.items()), encoding="utf-8"
    )


class Sshd:
    """An ssh server for the user carl, whose home folder is on another disk."""

    def __init__(self):
        subprocess.run(["mount", "-t", "tmpfs", "-o", "size=40m", "tmpfs", AWAY.parent], check=True)
        AWAY.mkdir()
        subprocess.run(["usermod", "-p", "*", "-d", AWAY, "carl"], check=True)
        keys, home = ROOM / "ssh", HOME / ".ssh"
        keys.mkdir()
        run("install", "-d", "-o", "clubdesk", "-g", "clubdesk", "-m", "700", home)
        for owner, place in (
            ("root", keys / "host"),
            ("clubdesk", home / "id_ed25519"),
            ("root", Path("/root/.ssh/id_ed25519")),
        ):
            if owner == "root":
                place.parent.mkdir(mode=0o700, exist_ok=True)
            place.unlink(missing_ok=True)
            run(
                "runuser",
                "-u",
                owner,
                "--",
                "ssh-keygen",
                "-q",
                "-t",
                "ed25519",
                "-N",
                "",
                "-f",
                place,
            )
        (AWAY / ".ssh").mkdir(mode=0o700)
        (AWAY / ".ssh" / "authorized_keys").write_text(
            "".join(
                Path(f"{it}.pub").read_text()
                for it in (home / "id_ed25519", "/root/.ssh/id_ed25519")
            )
        )
        run("chown", "-R", "carl:carl", AWAY)
        (keys / "config").write_text(
            f"Port 2222\nListenAddress 127.0.0.1\nHostKey {keys}/host\nPidFile none\nUsePAM no\nPasswordAuthentication no\n"
            "AuthorizedKeysFile .ssh/authorized_keys\n"
        )
        for place, owner in ((home, "clubdesk"), (Path("/root/.ssh"), "root")):
            (place / "config").write_text(
                "Host elsewhere\n    HostName 127.0.0.1\n    Port 2222\n    User carl\n    StrictHostKeyChecking accept-new\n"
            )
            (place / "config").chmod(0o600)
            shutil.chown(place / "config", owner)
        Path("/run/sshd").mkdir(mode=0o755, exist_ok=True)
        self.process = None
        self.start()

    def start(self):
        self.process = subprocess.Popen(
            ["/usr/sbin/sshd", "-D", "-f", ROOM / "ssh" / "config"], stderr=subprocess.DEVNULL
        )
        soon(10, lambda: socket.create_connection(("127.0.0.1", 2222), 1).close() or True)

    def stop(self):
        """Ends the server and its connections."""
        for it in [*psutil.Process(self.process.pid).children(recursive=True), self.process]:
            with contextlib.suppress(psutil.NoSuchProcess):
                it.terminate()
        self.process.wait()


def run(*line):
    subprocess.run(line, check=True, stdout=subprocess.DEVNULL)


def soon(seconds, holds):
    """Calls `holds` until it returns a true value, or until this many seconds have passed. Returns the last value."""
    end, found = time.monotonic() + seconds, None
    while time.monotonic() < end:
        with contextlib.suppress(OSError):
            found = holds()
            if found:
                return found
        time.sleep(0.1)
    return found


def copies():
    """Returns the names of the copies on the other disk, oldest first."""
    return (
        sorted(it.name for it in FOLDER.iterdir() if MINUTE.fullmatch(it.name))
        if FOLDER.exists()
        else []
    )


def once():
    """Runs copy_offsite once. Returns the exit status, the output and the errors."""
    return run_as("clubdesk", "/usr/lib/clubdesk/copy_offsite", "club", "--once", folder="/")


def rows_of(path):
    with contextlib.closing(sqlite3.connect(f"file:{path}?immutable=1", uri=True)) as db:
        return [line for line in db.iterdump() if "INSERT" in line]


def rows_now():
    return [line for line in everything() if "INSERT" in line]


class Keeper:
    """Runs copy_offsite in the same way as systemd's service does."""

    def __init__(self):
        self.log = ROOM / "keeper"
        with open(self.log, "wb") as log:
            self.process = subprocess.Popen(
                [
                    "setpriv",
                    "--reuid=clubdesk",
                    "--regid=clubdesk",
                    "--clear-groups",
                    "/usr/lib/clubdesk/copy_offsite",
                    "club",
                ],
                stdout=log,
                stderr=log,
                cwd="/",
            )

    def said(self):
        return self.log.read_text(encoding="utf-8")

    def stop(self):
        self.process.terminate()
        self.process.wait()


def book(number, hour=10, guests=0):
    return server.answer(
        amy, "PUT", f"/slots/court-1/{DAY}/{hour:02d}/bookings/{number}", f'{{"guests":{guests}}}'
    )


def make_club():
    for words in ("add-facility court-1 court 50 1 0 24", "add-member amy 99", "credit amy 100000"):
        done(*words.split())
    return done("add-key", "amy-1", "amy").strip()


# ---- By ssh.


def within_a_minute(keeper):
    """Within a minute, a booking is in a copy on the other disk. The service sends nothing if the club hasn't changed."""
    soon(30, copies)
    for number in range(1, 4):
        before, begun = copies(), time.monotonic()
        same("a booking", book(number)[0], 200)
        found = soon(60, lambda: [it for it in copies() if it not in before])
        took = time.monotonic() - begun
        same(f"booking {number} is copied within a minute", bool(found) and took < 60, True)
        same("the copy has the club's rows", rows_of(FOLDER / copies()[-1]), rows_now())
        print(f"a booking was copied after {took:.1f} s")
    same(
        "owners and modes of the copies",
        {(it.owner(), f"{it.stat().st_mode:o}") for it in FOLDER.iterdir()},
        {("carl", "100600")},
    )
    before = copies()
    time.sleep(8)
    same("no copy without a change", copies(), before)
    same("the service keeps running", keeper.process.poll(), None)
    same("the state's mode", mode(HOME / "club-offsite"), "clubdesk 100600")


def beside():
    """The archive next to the newest copy contains the club's configuration, book, full names, reasons for closures, season's points and clerks, and
    nothing else."""
    given = '{"name": "Amy Möller", "mail": "amy@example.org", "telephone": "+49 1"}'
    line = "sudo -n -u clubdesk /usr/bin/office --desk club set-person amy".split()
    same("a person", run_as("anna", *line, given=given)[0], 0)
    done("credit-all", "10", "--as", "season-1", "--yes")
    done("close", str(DAY), "20-22", "court-1", "--why", "training", "--yes")

    def packed():
        newest = copies()[-1]
        with tarfile.open(FOLDER / f"{newest}.tar") as archive:
            return {it.name: archive.extractfile(it).read() for it in archive}

    wanted = [
        "beside/book",
        "beside/people.csv",
        "beside/reasons",
        "beside/seasons",
        "clerks",
        "conf/club.conf",
        "conf/club.titles",
    ]
    found = (
        soon(
            60,
            lambda: packed()
            if sorted(packed()) == wanted and b"amy@example.org" in packed()["beside/people.csv"]
            else None,
        )
        or packed()
    )
    same("the files in a copy's archive", sorted(found), wanted)
    same("the clerks", found["clerks"], b"anna\nben\n")
    soon(30, lambda: len(list(FOLDER.glob("*.tar"))) == 1)
    same(
        "only the newest copy has an archive",
        [it.name for it in FOLDER.glob("*.tar")],
        [f"{copies()[-1]}.tar"],
    )
    same(
        "no personal data in a copy",
        [it for it in copies() if b"example.org" in (FOLDER / it).read_bytes()],
        [],
    )


def listed():
    """`copies` lists the copies on this machine and on the other disk. In both languages, the list shows the age and the size of each copy, and
    whether the copy was tested."""
    same(
        "a nightly copy",
        run_as("clubdesk", "/usr/lib/clubdesk/keep_copies", CLUB, HOME / "back-ups", folder="/")[0],
        0,
    )
    found = [it.split(",") for it in done("copies", "--csv").splitlines()]
    same("the heads", found[0], ["copy", "is", "bytes", "minutes", "tested"])
    same(
        "kinds",
        {it[1]: it[4] for it in found[1:]},
        {"back-up": "opened", "before a correction": "whole", "off-site": "whole"},
    )
    newest = [it for it in found if it[1] == "off-site"][-1]
    same(
        "the newest copy on the other disk",
        (newest[0], int(newest[2]), int(newest[3]) < 3),
        (copies()[-1], (FOLDER / copies()[-1]).stat().st_size, True),
    )
    text = done("copies")
    same(
        "the list for people",
        (text.split()[:5], len(re.findall(r"off-site +[0-9]+ minutes +[0-9]+ +whole", text)) > 0),
        (["copy", "is", "age", "bytes", "tested"], True),
    )
    text = run_as("anna", "env", "LANG=de_DE.UTF-8", "office", "club", "copies")[1]
    same(
        "the list in German",
        (text.split()[:5], "außer Haus" in text, "geöffnet" in text),
        (["Kopie", "ist", "Alter", "Bytes", "geprüft"], True, True),
    )


def restored_from_there():
    """Restores a copy that is only on the other disk."""
    wanted, name = rows_of(FOLDER / copies()[-1]), copies()[-1]
    same("a booking after the copy", book(15, 15)[0], 200)
    done("debit", "amy", "7", "--yes")
    shown = done("restore", name, "--yes").splitlines()
    same(
        "the changes, and whom to tell",
        [it for it in shown if it[:5] in ("loses", "done", "Membe", "    A")],
        [
            f"loses the booking court-1 {DAY} 15:00, 1 person, 1 points: amy-1 15, amy",
            "done",
            "Members to inform:",
            "    Amy Möller  amy@example.org  +49 1",
        ],
    )
    same("the club of the copy", rows_now(), wanted)
    soon(60, lambda: rows_of(FOLDER / copies()[-1]) == rows_now())
    broken = FOLDER / copies()[0]
    kept = broken.read_bytes()
    broken.write_bytes(kept[:-1] + b"x")
    found = office("restore", broken.name, "--yes")
    same(
        "a copy that was changed on the other disk",
        (found[0], "differs from the copy sent there" in found[2]),
        (5, True),
    )
    broken.write_bytes(kept)
    whole("a restore from the other disk")


def host_down(sshd, keeper):
    """If the host is down, the service reports this fault once and retries, and the health check fails. When the host is up again, the service sends
    the bookings that were made meanwhile."""
    health(0)
    sshd.stop()
    book(20)
    said = soon(40, lambda: "the service will try again" in keeper.said())
    same("the fault is reported", (said, "Connection refused" in keeper.said()), (True, True))
    time.sleep(3)
    same(
        "health fails",
        "nothing has been copied to elsewhere:clubs/club since" in health(1, PATIENCE="2"),
        True,
    )
    same("health tolerates a short failure", health(0).startswith("healthy: "), True)
    status, out, errors = office("copies")
    same(
        "copies of this machine are listed",
        (status, "opened" in out, "the copies there aren't listed" in errors),
        (0, True, True),
    )
    status, _, errors = run_as(
        "anna",
        "env",
        "LANG=de_DE.UTF-8",
        "office",
        "club",
        "restore",
        "2001-01-01T000000Z",
        "--yes",
    )
    same("a missing copy", (status, "abgelehnt: es gibt keine Kopie" in errors), (1, True))
    time.sleep(22)
    same("the fault is reported once", keeper.said().count("the service will try again"), 1)
    before = copies()
    sshd.start()
    same(
        "the service tries again",
        bool(soon(60, lambda: [it for it in copies() if it not in before])),
        True,
    )
    same(
        "the copy has the bookings made meanwhile",
        soon(30, lambda: rows_of(FOLDER / copies()[-1]) == rows_now()),
        True,
    )
    same(
        "the recovery is reported", soon(10, lambda: "accepts copies again" in keeper.said()), True
    )
    same(
        "health passes again",
        soon(40, lambda: health(None, PATIENCE="2").startswith("healthy: ")),
        True,
    )


def health(status, **more):
    """Runs check_health for the desk and for the copies. Checks the exit status unless `status` is None. Returns the output."""
    line = [
        "env",
        *(
            f"{key}={value}"
            for key, value in {"CURL_CA_BUNDLE": f"{ROOM}/site.pem", **more}.items()
        ),
        "/usr/lib/clubdesk/check_health",
        CLUB,
        str(server.port),
        "",
        "",
        "elsewhere:clubs/club",
    ]
    found, out, errors = run_as("clubdesk", *line, folder="/")
    if status is not None:
        same(f"health {more}: {out}{errors}", found, status)
    return out or errors


def nobody_looks(keeper):
    keeper.stop()
    time.sleep(3)
    same(
        "the service is stopped",
        "the service that copies to elsewhere:clubs/club has been silent since"
        in health(1, PATIENCE="2"),
        True,
    )
    state = (HOME / "club-offsite").read_bytes()
    (HOME / "club-offsite").unlink()
    same("no copy yet", "nothing has been copied to elsewhere:clubs/club yet" in health(1), True)
    (HOME / "club-offsite").write_bytes(state)
    shutil.chown(HOME / "club-offsite", "clubdesk", "clubdesk")


def kept_by_rule():
    """The test adds files with names like those of copies, for random moments in the last 420 days. The service keeps exactly the copies that the
    test's own rule selects."""
    chance, now, made = (
        random.Random(7),
        datetime.datetime.now(datetime.timezone.utc),
        set(copies()),
    )
    for back in range(0, 420):
        for _ in range(chance.choice((0, 1, 3)) if back < 20 else chance.choice((0, 0, 0, 1))):
            moment = now - datetime.timedelta(days=back, seconds=chance.randrange(3600, 80_000))
            name = moment.strftime("%Y-%m-%dT%H%M%SZ")
            if name not in made:
                made.add(name)
                (FOLDER / name).write_bytes(b"old")
    (FOLDER / "notes").write_text("mine")
    run("chown", "-R", "carl:carl", FOLDER)
    book(30)
    same("a copy", once()[0], 0)
    made |= {copies()[-1]}
    today = datetime.datetime.strptime(copies()[-1], "%Y-%m-%dT%H%M%SZ").date()

    def day(name):
        return datetime.date.fromisoformat(name[:10])

    def group(name):
        return name[:13] if (today - day(name)).days < 2 else name[:10]

    newest = max(made)
    last = {group(name): name for name in sorted(made)}
    counted = [it for it in sorted(made) if group(it) == group(newest) or last[group(it)] == it]
    monday = today - datetime.timedelta(today.weekday())
    wanted = {it for it in counted if (today - day(it)).days < 14}
    for back in range(8):
        begin = monday - datetime.timedelta(7 * back)
        wanted |= set(
            [it for it in counted if begin <= day(it) < begin + datetime.timedelta(7)][:1]
        )
    for back in range(12):
        year, month = divmod(today.year * 12 + today.month - 1 - back, 12)
        wanted |= set([it for it in counted if it.startswith(f"{year}-{month + 1:02}-")][:1])
    same("the kept copies", sorted(copies()), sorted(wanted))
    same("other files stay", (FOLDER / "notes").read_text(), "mine")
    listed_there = {line.split()[0] for line in (FOLDER / "tested").read_text().splitlines()}
    same(
        "the list of tested copies has only existing copies",
        [it for it in listed_there if not (FOLDER / it).exists()],
        [],
    )
    found = {
        it.split(",")[4]
        for it in done("copies", "--csv").splitlines()
        if it.startswith(tuple(made - listed_there))
    }
    same("untested copies are marked", found, {"no"})
    for name in made - listed_there:
        (FOLDER / name).unlink(missing_ok=True)


def torn():
    """If a transfer is interrupted, or if its bytes are changed on the way, the transferred file gets no final name."""
    ssh = Path("/usr/bin/ssh")
    whole_one = ROOM / "ssh-whole"
    shutil.copy2(ssh, whole_one)
    ROOM.chmod(0o755)
    for what, script in (
        ("cut", f'head -c 5000 | {whole_one} "$@"'),
        ("changed", f'tr SQL sql | {whole_one} "$@"'),
    ):
        before = sorted(it.name for it in FOLDER.iterdir())
        book(40 if what == "cut" else 41)
        ssh.unlink()
        ssh.write_text(f"#!/bin/sh\n{script}\n")
        ssh.chmod(0o755)
        status, _, errors = once()
        same(
            f"a transfer that is {what}",
            (status, "the transferred bytes differ from the sent bytes" in errors),
            (5, True),
        )
        same(f"{what}: the other disk's files", sorted(it.name for it in FOLDER.iterdir()), before)
        shutil.copy2(whole_one, ssh)
    same("the next transfer succeeds", (once()[0], rows_of(FOLDER / copies()[-1])), (0, rows_now()))


def full_there():
    """If the other disk is full, the service reports this, and leaves no incomplete copy there."""
    before = copies()
    with open(AWAY / "fill", "wb", buffering=0) as fill, contextlib.suppress(OSError):
        while True:
            fill.write(bytes(4096))
    book(50)
    status, _, errors = once()
    same(
        "a full disk on the other machine",
        (status, "No space left" in errors, copies(), list(FOLDER.glob(".new.2*"))),
        (5, True, before, []),
    )
    (AWAY / "fill").unlink()
    same("space again", (once()[0], rows_of(FOLDER / copies()[-1])), (0, rows_now()))


# ---- A folder that is mounted.


def mounted():
    """Copies go into a folder on another disk. If that disk isn't mounted, the service refuses the folder, because the copies would be on the club's
    own disk."""
    place = Path("/var/lib/nas")
    place.mkdir()
    configure(OFFSITE=place)
    status, _, errors = once()
    same("a folder on the club's own disk", (status, "is the folder mounted?" in errors), (5, True))
    configure(OFFSITE="/var/lib/none")
    same("a missing folder", (once()[0], "is the folder mounted?" in once()[2]), (5, True))
    run("mount", "-t", "tmpfs", "-o", "uid=0,mode=777", "tmpfs", place)
    configure(OFFSITE=place)
    same("a mounted folder", once()[0], 0)
    (name,) = [it.name for it in place.iterdir() if MINUTE.fullmatch(it.name)]
    same("its copy", rows_of(place / name), rows_now())
    for wrong in ("elsewhere", "-oProxyCommand=x:folder", "elsewhere:", "a b:c"):
        configure(OFFSITE=wrong)
        status, _, errors = once()
        same(f"an invalid place: {wrong}", (status, "is neither HOST:FOLDER" in errors), (5, True))
    configure()
    same("no place", once()[0], 1)
    configure(OFFSITE="elsewhere:clubs/club")
    same("the ssh server again", once()[0], 0)


# ---- The public name and its certificate.


class Site(http.server.BaseHTTPRequestHandler):
    """The desk behind TLS."""

    def do_GET(self):
        client = http.client.HTTPConnection("127.0.0.1", server.port, timeout=10)
        client.request(
            "GET",
            self.path,
            headers={it: self.headers[it] for it in ("Authorization",) if self.headers[it]},
        )
        reply = client.getresponse()
        body = reply.read()
        self.send_response(reply.status)
        self.send_header("Content-Length", str(len(body)))
        self.end_headers()
        self.wfile.write(body)

    def log_message(self, *_):
        pass


@contextlib.contextmanager
def site_for(days):
    """Starts the site with a certificate that is valid for this many days."""
    key, certificate = ROOM / "site.key", ROOM / "site.pem"
    run(
        "openssl",
        "req",
        "-x509",
        "-newkey",
        "ec",
        "-pkeyopt",
        "ec_paramgen_curve:P-256",
        "-nodes",
        "-days",
        str(days),
        "-subj",
        f"/CN={SITE}",
        "-addext",
        f"subjectAltName=DNS:{SITE}",
        "-keyout",
        key,
        "-out",
        certificate,
    )
    certificate.chmod(0o644)
    with http.server.ThreadingHTTPServer(("127.0.0.1", 443), Site) as it:
        context = ssl.SSLContext(ssl.PROTOCOL_TLS_SERVER)
        context.load_cert_chain(certificate, key)
        it.socket = context.wrap_socket(it.socket, server_side=True)
        threading.Thread(target=it.serve_forever, daemon=True).start()
        yield
        it.shutdown()


def public_name():
    Path("/etc/hosts").write_text(f"127.0.0.1 localhost {SITE}\n")

    def asked(status, port=None):
        line = [
            "env",
            f"CURL_CA_BUNDLE={ROOM}/site.pem",
            "/usr/lib/clubdesk/check_health",
            CLUB,
            str(port or server.port),
            CONF / "club.health",
            f"https://{SITE}",
        ]
        found, out, errors = run_as("clubdesk", *line, folder="/")
        same(f"health by the public name: {out}{errors}", found, status)
        return out + errors

    with site_for(40):
        until = (datetime.datetime.now(datetime.timezone.utc) + datetime.timedelta(40)).date()
        same(
            "a healthy site",
            f"also at https://{SITE}, whose certificate is valid until {until}" in asked(0),
            True,
        )
    with site_for(9):
        until = (datetime.datetime.now(datetime.timezone.utc) + datetime.timedelta(9)).date()
        same(
            "a certificate for nine more days",
            f"the certificate of {SITE} is valid until {until}: renew it" in asked(1),
            True,
        )
    same(
        "a stopped site",
        f"the desk doesn't answer as expected at https://{SITE}: curl: (7)" in asked(1),
        True,
    )


# ---- Metrics.


def counted():
    """deploy/metrics counts each line of the log and each command once, and writes the counts in Prometheus' text format."""
    folder, journal = ROOM / "metrics", ROOM / "journalctl"
    folder.mkdir()
    shutil.chown(folder, "clubdesk")
    lines = ROOM / "journal"
    journal.write_text(
        f"""#!/bin/sh
# A stub of journalctl. The stub prints the lines of a file. The stub's cursor is the number of lines that were read so far.
case "$*" in *SYSLOG_IDENTIFIER*) echo '-- cursor: 0'; exit ;; esac
from=$(wc -l <{lines})
case "$*" in *--after-cursor=*) from=${{*##*--after-cursor=}}; from=${{from%% *}} ;; esac
tail -n +$((from + 1)) {lines}
echo "-- cursor: $(wc -l <{lines})"
"""
    )
    journal.chmod(0o755)
    line = "2026-04-20T12:00 PUT /slots/court-1/2026-05-01/18/bookings/7 {} {}\n"
    lines.write_text(line.format(200, 1000))

    def read():
        words = ["env", f"JOURNALCTL={journal}", "/usr/lib/clubdesk/metrics", "club", folder]
        status, _, errors = run_as("clubdesk", *words, folder="/")
        same(f"metrics {errors}", status, 0)
        text = (folder / "clubdesk_club.prom").read_text()
        odd = [
            it
            for it in text.splitlines()
            if not re.fullmatch(
                r'# (HELP|TYPE) clubdesk_[a-z_]+ .*|clubdesk_[a-z_]+\{club="club"(,[a-z]+="[^"\\]*")*\} [0-9.+Inf]+',
                it,
            )
        ]
        same("malformed lines", odd, [])
        return dict(it.rsplit(" ", 1) for it in text.splitlines() if it[0] != "#")

    first = read()
    same("the first run counts no requests", [it for it in first if "requests_total" in it], [])
    with open(lines, "a", encoding="ascii") as more:
        more.write(
            line.format(200, 3000) * 3
            + line.format(409, 40_000)
            + "- - - - 7000000\n"
            + "listening on 127.0.0.1:8080\n"
        )
    orders = int(read()['clubdesk_orders_total{club="club",status="0"}'])
    done("credit", "amy", "1")
    office("credit", "nobody", "1")
    found = read()
    same(
        "requests by their status",
        {it: found[it] for it in found if "requests_total" in it},
        {
            'clubdesk_requests_total{club="club",status="-"}': "1",
            'clubdesk_requests_total{club="club",status="200"}': "3",
            'clubdesk_requests_total{club="club",status="409"}': "1",
        },
    )
    same(
        "their time",
        [
            found[f"clubdesk_request_seconds{it}"]
            for it in (
                '_bucket{club="club",le="0.005"}',
                '_bucket{club="club",le="0.05"}',
                '_bucket{club="club",le="+Inf"}',
                '_count{club="club"}',
                '_sum{club="club"}',
            )
        ],
        ["3", "4", "5", "5", "7.049"],
    )
    same("commands", int(found['clubdesk_orders_total{club="club",status="0"}']) - orders, 1)
    same("a refused command", 'clubdesk_orders_total{club="club",status="1"}' in found, True)
    version = run_as("clubdesk", "clubdesk", "--version", folder="/")[1].split()[1]
    same("the version", found[f'clubdesk_info{{club="club",version="{version}"}}'], "1")
    same(
        "the size", found['clubdesk_file_bytes{club="club",file="club"}'], str(CLUB.stat().st_size)
    )
    same(
        "ages",
        [
            int(found[f'clubdesk_copy_age_seconds{{club="club",place="{it}"}}']) < 600
            for it in ("here", "off-site")
        ],
        [True, True],
    )
    same("its mode", mode(folder / "clubdesk_club.prom"), "clubdesk 100644")
    same("no other files", [it.name for it in folder.iterdir()], ["clubdesk_club.prom"])


# ---- The machine is gone.


def brought_back():
    """Deletes the club's files, configuration and pages, and one clerk. Then restores the club. If a booking was lost, the client repeats
    the request and so makes the booking again."""
    same(
        "an old year",
        run_as(
            "clubdesk",
            "/usr/lib/clubdesk/back_up",
            CLUB,
            HOME / "club-until-2025-12-31",
            folder="/",
        )[0],
        0,
    )
    (CONF / "club.health").write_text("the pass of the lost machine")
    run("chown", "root:clubdesk", CONF / "club.health")
    (CONF / "club.health").chmod(0o640)
    same("a last copy", once()[0], 0)
    same(
        "the old year's file is copied",
        (FOLDER / "until-2025-12-31").read_bytes(),
        (HOME / "club-until-2025-12-31").read_bytes(),
    )
    wanted, people = rows_now(), (HOME / "club-people.csv").read_bytes()
    seasons, year = (HOME / "club-seasons").read_bytes(), {
        it.name: it.read_bytes() for it in HOME.glob("club-until-*")
    }
    lost = book(99, 11, 3)
    server.stop()
    for folder in (HOME, CONF, Path("/srv/pages")):
        for it in [it for it in folder.iterdir() if it.name != ".ssh"]:
            shutil.rmtree(it) if it.is_dir() else it.unlink()
    run("userdel", "-r", "ben")
    line = RESTORE
    status, _, errors = run_as("root", *line, "--copy", "2001-01-01T000000Z", folder="/")
    same("no such copy", (status, "has no copy 2001-01-01T000000Z" in errors), (1, True))
    same(
        "no file is made",
        (list(CONF.iterdir()), [it for it in HOME.iterdir() if it.name != ".ssh"]),
        ([], []),
    )
    begun = time.monotonic()
    status, out, errors = run_as("root", *line, folder="/")
    same(f"the restore succeeds: {errors}", status, 0)
    print(f"restored in {time.monotonic() - begun:.1f} s")
    same(
        "the output",
        [
            it
            for it in (
                f"made  {CONF}/club.conf",
                f"made  {CLUB}, as it was at ",
                "clubdesk-setup --club club --clerk ben ",
            )
            if it not in out
        ],
        [],
    )
    same("no clerk whom nobody confirmed", sorted(grp.getgrnam("office").gr_mem), ["anna"])
    same("a clerk", run_as("root", *line, "--clerk", "ben", folder="/")[0], 0)
    same("the rows", [it for it in rows_now() if "'health'" not in it], wanted)
    same(
        "persons, the season, old years",
        (
            (HOME / "club-people.csv").read_bytes(),
            (HOME / "club-seasons").read_bytes(),
            {it.name: it.read_bytes() for it in HOME.glob("club-until-*")},
        ),
        (people, seasons, year),
    )
    same(
        "modes",
        [
            mode(it)
            for it in (CLUB, HOME / "club-people.csv", CONF / "club.conf", CONF / "club.health")
        ],
        ["clubdesk 100600", "clubdesk 100600", "root 100644", "root 100640"],
    )
    same("the clerks", sorted(grp.getgrnam("office").gr_mem), ["anna", "ben"])
    before = {it: it.stat().st_mtime_ns for it in [*CONF.iterdir(), *HOME.glob("club*")]}
    status, out, _ = run_as("root", *line, folder="/")
    same(
        "a second restore changes nothing",
        (status, "made" in out, {it: it.stat().st_mtime_ns for it in before}),
        (0, False, before),
    )
    again = Service(server.port, at=f"{datetime.date.today()}T08:00")
    same(
        "a repeat makes the lost booking again",
        again.answer(amy, "PUT", f"/slots/court-1/{DAY}/11/bookings/99", '{"guests":3}'),
        lost,
    )
    same(
        "a repeat of a booking that wasn't lost",
        again.answer(amy, "PUT", f"/slots/court-1/{DAY}/10/bookings/1", '{"guests":0}')[0],
        200,
    )
    same(
        "the season's points aren't given twice",
        office("credit-all", "10", "--as", "season-1", "--yes")[0],
        1,
    )
    whole("a restored club")
    again.stop()


def hostile_archive():
    """If an archive contains files that don't belong to a club, the restore doesn't write these files."""
    newest = copies()[-1]
    kept = (FOLDER / f"{newest}.tar").read_bytes()
    made = io.BytesIO()
    with tarfile.open(fileobj=made, mode="w") as archive, tarfile.open(
        fileobj=io.BytesIO(kept)
    ) as was:
        for it in was:
            archive.addfile(it, was.extractfile(it))
        for name in (
            "/etc/evil",
            "../evil",
            "conf/../../evil",
            "conf/evil.sh",
            "beside/../evil",
            "titles/evil",
        ):
            about = tarfile.TarInfo(name)
            about.size = 4
            archive.addfile(about, io.BytesIO(b"evil"))
        link = tarfile.TarInfo("conf/club.titles2")
        link.type, link.linkname = tarfile.SYMTYPE, "/etc/shadow"
        archive.addfile(link)
    tested = (FOLDER / "tested").read_text().splitlines()
    (FOLDER / "tested").write_text("".join(f"{it}\n" for it in tested if ".tar " not in it))
    (FOLDER / f"{newest}.tar").write_bytes(made.getvalue())
    for it in [*CONF.iterdir(), *HOME.glob("club*")]:
        shutil.rmtree(it) if it.is_dir() else it.unlink()
    same("an archive with other files", run_as("root", *RESTORE, folder="/")[0], 0)
    found = [
        str(it)
        for top in (Path("/etc"), Path("/srv"), HOME, Path("/"))
        for it in top.glob("**/evil*" if top != Path("/") else "evil*")
    ]
    same(
        "no other files",
        (found, sorted(it.name for it in CONF.iterdir())),
        ([], ["club.conf", "club.health", "club.titles"]),
    )
    (FOLDER / f"{newest}.tar").write_bytes(b"no archive")
    for it in [*CONF.iterdir(), *HOME.glob("club*")]:
        shutil.rmtree(it) if it.is_dir() else it.unlink()
    status, _, errors = run_as("root", *RESTORE, folder="/")
    same(
        "an invalid archive",
        (status, "can't be read" in errors, "Traceback" in errors),
        (1, True, False),
    )


CONF.mkdir(exist_ok=True)
sshd = Sshd()
run("install", "-d", "-o", "clubdesk", "/srv/pages")
(CONF / "club.titles").write_text("# titles\n")
(CONF / "club.conf").write_text(f"FILE={CLUB}\nZONE=UTC0\nPORT=1\n")
done("new")
server = Service(at=f"{datetime.date.today()}T08:00")
configure(OFFSITE="elsewhere:clubs/club")
amy = make_club()
keeper = Keeper()
within_a_minute(keeper)
beside()
listed()
restored_from_there()
host_down(sshd, keeper)
nobody_looks(keeper)
kept_by_rule()
torn()
full_there()
mounted()
public_name()
counted()
brought_back()
hostile_archive()
sshd.stop()
leave()

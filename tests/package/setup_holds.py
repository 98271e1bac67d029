#!/usr/bin/env -S /usr/bin/python3 -B
"""`deploy/clubdesk-setup` asks questions and sets up a club. An interruption, a second run or a wrong answer does no harm.

The test checks the modes and owners of files, and the setup's refusals. The test needs root, because it covers the machine's
folders with temporary overlays (tests/lib/office_room.sh).

The setup asks a few questions. The test stops the setup at each step and runs it again. No run changes an existing file. After the setup, the new
clerk adds a member, and the member makes a first booking. If nginx is installed, the test also makes a certificate. Then the setup enables the
site, and nginx accepts the site's configuration.
"""
# pytestmark = [mark.package, mark.root, mark.needs("clubdesk passtool"),
#     mark.wants("sudo sqlite3 openssl util-linux bsdutils iproute2 systemd python3-psutil python3-pexpect nginx-light")]

import hashlib
import json
import os
import shutil
import subprocess
import sys
from pathlib import Path

import pexpect

sys.path[:0] = [str(Path(__file__).resolve().parents[1] / it) for it in ("lib", "")]
from office_room import HOME, Service, leave, mode, office, run_as, same

SETUP = [
    "clubdesk-setup",
    "--title",
    "TC Übersee",
    "--domain",
    "desk.example.org",
    "--zone",
    "Europe/Berlin",
    "--clerk",
    "doris",
    "--mail",
    "it@example.org",
]
CLUB = "tc-uebersee"
CONF = Path("/etc/clubdesk")


def set_up(*words, line=SETUP):
    done = subprocess.run(
        [*line, *words],
        capture_output=True,
        text=True,
        check=False,
        stdin=subprocess.DEVNULL,
        cwd="/",
    )
    return done.returncode, done.stdout, done.stderr


def everything():
    """Returns each file that the setup makes, with its digest, mode, owner and time. Also returns the club's rows, and the machine's users and
    groups."""
    found = {}
    for top in (
        CONF,
        Path("/var/www"),
        Path("/etc/nginx/sites-available"),
        Path("/etc/nginx/sites-enabled"),
    ):
        for it in sorted(top.rglob("*")):
            if it.is_file() and it.name != "club.json":
                found[str(it)] = (
                    hashlib.sha256(it.read_bytes()).hexdigest(),
                    it.stat().st_mode,
                    it.owner(),
                    it.stat().st_mtime_ns,
                )
    done = subprocess.run(
        ["sqlite3", HOME / CLUB, ".dump"], capture_output=True, text=True, check=False
    )
    return {
        **found,
        "rows": done.stdout,
        "users": Path("/etc/passwd").read_text(encoding="utf-8"),
        "groups": Path("/etc/group").read_text(encoding="utf-8"),
    }


def refused():
    for words, line in (
        (["--zone", "Nowhere/None"], "there is no time zone"),
        (["--domain", "desk"], "is not an address"),
        (["--clerk", "Anna;"], "is not a user name"),
        (["--mail", "it"], "is not a mail address"),
        (["--title", "a\nb"], "is not a title"),
        (["--club", "../x"], "not the name of a club"),
    ):
        status, _, errors = set_up(*words)
        same(f"{words}: refused", (status, line in errors), (1, True))
    same("no answer", set_up(line=["clubdesk-setup"])[0], 1)
    same("not root", run_as("anna", "clubdesk-setup")[0], 1)
    same("no file is made", (list(CONF.iterdir()), list(HOME.iterdir())), ([], []))


def by_questions():
    """The setup asks questions at a terminal. After a wrong answer, the setup asks the question again."""
    it = pexpect.spawn("clubdesk-setup", encoding="utf-8", timeout=120, cwd="/")
    for question, answer in (
        ("name", "TC Übersee"),
        ("address", "desk"),
        ("is not an address.*address", "desk.example.org"),
        ("zone", "Europe/Berlin"),
        ("clerk", "doris"),
        ("mail address", "it@example.org"),
        ("reach the office", "Tel. 030 1234"),
        ("imprint", "http://club.example"),
        ("is not an address.*imprint", "https://club.example/imprint"),
        ("privacy", ""),
        ("short name", "tc-uebersee-beyond"),
        ("is not a short name.*short name", ""),
    ):
        it.expect(question)
        it.sendline(answer)
    it.expect(pexpect.EOF)
    it.close()
    same(
        "a setup by questions",
        (it.exitstatus, "doris starts with: office tc-uebersee" in it.before),
        (0, True),
    )
    lines = (CONF / f"{CLUB}.conf").read_text(encoding="utf-8").splitlines()
    same(
        "the optional settings",
        [it for it in lines if it.split("=")[0] in ("CONTACT", "IMPRINT", "PRIVACY")],
        ['CONTACT="Tel. 030 1234"', 'IMPRINT="https://club.example/imprint"'],
    )


def made():
    rule = subprocess.run(
        ["tail", "-n", "1", "/usr/share/zoneinfo/Europe/Berlin"],
        capture_output=True,
        text=True,
        check=True,
    ).stdout.strip()
    lines = (CONF / f"{CLUB}.conf").read_text(encoding="utf-8").splitlines()
    for line in (
        f"FILE=/var/lib/clubdesk/{CLUB}",
        f"ZONE={rule}",
        'TITLE="TC Übersee"',
        "SITE=https://desk.example.org",
        "ZONE_NAME=Europe/Berlin",
        "MAIL=it@example.org",
        "SPARES=2",
        f"BOOK=/var/lib/clubdesk/{CLUB}-book",
    ):
        same(f"the configuration has {line}", line in lines, True)
    same(
        "modes",
        [
            mode(it)
            for it in (
                CONF / f"{CLUB}.conf",
                HOME / CLUB,
                CONF / f"{CLUB}.health",
                Path(f"/var/www/{CLUB}/club.json"),
            )
        ],
        ["root 100644", "clubdesk 100600", "root 100640", "clubdesk 100644"],
    )
    same("the health's group", (CONF / f"{CLUB}.health").group(), "clubdesk")
    same("the clerk", "office" in run_as("doris", "id", "-nG")[1].split(), True)
    page = json.loads(Path(f"/var/www/{CLUB}/club.json").read_text(encoding="utf-8"))
    same(
        "the page's list",
        (page["name"], page["zone"], page["facilities"]),
        ("TC Übersee", "Europe/Berlin", []),
    )
    return next(line.partition("=")[2] for line in lines if line.startswith("PORT="))


def again_and_again():
    """No run changes an existing file. A run after a stop makes the missing files."""
    before = everything()
    status, out, _ = set_up()
    same("a second run", (status, "made" in out, everything() == before), (0, False, True))
    for gone in (
        CONF / f"{CLUB}.health",
        Path(f"/etc/nginx/sites-available/{CLUB}"),
        CONF / f"{CLUB}.titles",
    ):
        if gone.exists():
            gone.unlink()
            status, out, _ = set_up()
            same(f"without {gone}", (status, f"made  {gone}" in out), (0, True))
    for number in range(1, 12):
        for it in (CONF, HOME, Path("/var/www") / CLUB):
            subprocess.run(f"rm -rf {it}/*", shell=True, check=True)
        stopped = subprocess.Popen(
            SETUP, stdout=subprocess.PIPE, stderr=subprocess.DEVNULL, cwd="/"
        )
        for _ in range(number):
            if not stopped.stdout.readline():
                break
        stopped.kill()
        stopped.communicate()
        same(f"stopped after {number} steps, again", set_up()[0], 0)
    made()
    before = everything()
    for name in (f"{CLUB}-orders", f"{CLUB}-wal"):
        status, _, errors = set_up("--club", name)
        same(f"a club {name} next to it", (status, f"of the club {CLUB} at" in errors), (1, True))
    same("no file is made for the other club", everything(), before)


def first_booking(port):
    """The clerk adds the first member, and the member books. If nginx is installed, the site gets a certificate, and nginx accepts the site's
    configuration."""
    server = Service(port=int(port), club=CLUB)
    for words in (
        "add-facility court-1 court 4 200 8 22",
        "add-member amy 5",
        "credit amy 10000",
        "add-key amy-1 amy --to amy-1",
    ):
        same(words, office(*words.split(), by="doris", club=CLUB)[0], 0)
    same(
        "the page's list has the court",
        json.loads(Path(f"/var/www/{CLUB}/club.json").read_text())["facilities"][0]["name"],
        "court-1",
    )
    text = run_as("doris", "cat", "amy-1")[1].strip()
    same(
        "a booking",
        server.answer(text, "PUT", "/slots/court-1/2026-05-01/18/bookings/7", '{"guests":2}'),
        (200, '{"booking":"amy-1/7","charge":600,"left":1}'),
    )
    same(
        "health",
        subprocess.run(
            ["/usr/lib/clubdesk/check_health", HOME / CLUB, port, CONF / f"{CLUB}.health"],
            capture_output=True,
            check=False,
        ).returncode,
        0,
    )
    if shutil.which("nginx"):
        live = Path("/etc/letsencrypt/live/desk.example.org")
        live.mkdir(parents=True)
        subprocess.run(
            [
                "openssl",
                "req",
                "-x509",
                "-newkey",
                "rsa:2048",
                "-nodes",
                "-days",
                "2",
                "-subj",
                "/CN=desk.example.org",
                "-keyout",
                live / "privkey.pem",
                "-out",
                live / "fullchain.pem",
            ],
            check=True,
            capture_output=True,
        )
        same(
            "with a certificate the site is enabled",
            (set_up()[0], os.path.lexists(f"/etc/nginx/sites-enabled/{CLUB}")),
            (0, True),
        )
        Path("/etc/nginx/sites-enabled/default").unlink(missing_ok=True)
        tried = subprocess.run(["nginx", "-t"], capture_output=True, text=True, check=False)
        same(
            "nginx accepts the site",
            (tried.returncode, tried.stderr if tried.returncode else ""),
            (0, ""),
        )
    server.stop()


subprocess.run(["mount", "-t", "tmpfs", "tmpfs", "/var/www"], check=True)
for it in ("available", "enabled"):
    (Path("/etc/nginx") / f"sites-{it}").mkdir(parents=True, exist_ok=True)
refused()
by_questions()
port = made()
again_and_again()
first_booking(made())
leave()

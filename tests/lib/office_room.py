"""Functions for the tests of the office, which run in a room that imitates a machine. The functions
imitate a service manager, run commands as clerks, send requests, and check a club's file.

If a script imports this module outside a room, tests/lib/office_room.sh makes the room and runs the
script again in it. When a server ends, the service manager restarts it a second later, as
deploy/clubdesk@.service does (Restart=always, RestartSec=1). For each server, a file in the room's
folder `services` has the process id, so that the room's systemctl can end the server.
"""

import contextlib
import http.client
import os
import signal
import socket
import subprocess
import sys
import threading
import time
from pathlib import Path

import psutil

from desk import SUMS, TESTS, free_port, opened, command

if "OFFICE_ROOM" not in os.environ:
    os.execv(
        "/bin/sh",
        [
            "sh",
            str(TESTS / "lib" / "office_room.sh"),
            sys.executable,
            "-B",
            os.path.abspath(sys.argv[0]),
            *sys.argv[1:],
        ],
    )
ROOM = Path(os.environ["ROOM"])
HOME = Path("/var/lib/clubdesk")
CLUB = HOME / "club"
NOON = "2026-04-20T12:00"
failures = []
checks = 0


def same(what, found, wanted):
    """Counts a check, which fails unless the found value equals the wanted value."""
    global checks
    checks += 1
    if found != wanted:
        failures.append(what)
        print(f"{what}: wanted and found\n{wanted!r}\n{found!r}", file=sys.stderr)


def leave():
    print(f"{checks} checks, {len(failures)} failed")
    sys.exit(1 if failures else 0)


def run_as(user, *line, given=None, folder=None):
    """Runs a command as a user, in `folder` or in the user's home folder. Returns the status, the
    output and the standard error."""
    return command("runuser", "-u", user, "--", *line, text=given, cwd=folder or f"/home/{user}")


def office(*words, by="anna", given="", club="club"):
    return run_as(by, "office", club, *words, given=given)


def done(*words, by="anna", given=""):
    """Runs a command of the office that must end with status 0. Returns its output."""
    status, out, errors = office(*words, by=by, given=given)
    same(f"office {' '.join(words)}: status", (status, errors if status else ""), (0, ""))
    return out


def desk(command, *words):
    """Runs clubdesk on the club, without the office, as the user `clubdesk`. Returns clubdesk's
    status and output."""
    return run_as("clubdesk", "clubdesk", command, CLUB, *words, folder="/")[:2]


class Service:
    """A server that the service manager restarts a second after the server has ended."""

    def __init__(self, port=0, at=NOON, club="club"):
        self.port, self.is_wanted, self.starts = port or free_port(), True, 0
        self.named = ROOM / "services" / f"clubdesk@{club}.service"
        line = [
            "setpriv",
            "--reuid",
            "clubdesk",
            "--regid",
            "clubdesk",
            "--clear-groups",
            "clubdesk",
            "serve",
            HOME / club,
            "--port",
            str(self.port),
        ]
        self.keeper = threading.Thread(
            target=self.keep,
            args=([*line, "--count", "1000000", "--at", at, "--log"],),
            daemon=True,
        )
        self.keeper.start()
        self.is_heard()

    def keep(self, line):
        while self.is_wanted:
            with open(ROOM / "club.log", "ab") as log:
                self.process = subprocess.Popen(line, stdout=log, stderr=log, cwd="/", umask=0o077)
            self.starts += 1
            self.named.write_text(str(self.process.pid))
            self.process.wait()
            time.sleep(1 if self.is_wanted else 0)

    def is_heard(self):
        """Waits until the server listens, for about half a minute at most. Returns whether the
        server listens."""
        for _ in range(1500):
            with contextlib.suppress(OSError), socket.create_connection(
                ("127.0.0.1", self.port), 5
            ):
                return True
            time.sleep(0.02)
        return False

    def stop(self):
        self.is_wanted = False
        self.process.send_signal(signal.SIGTERM)
        self.keeper.join()
        self.named.unlink()

    def answer(self, text, method, path, body=None):
        """Repeats a request with the pass `text` until the server gives a complete reply with a
        status below 500. Returns the reply's status and body."""
        for _ in range(200):
            with contextlib.closing(
                http.client.HTTPConnection("127.0.0.1", self.port, timeout=30)
            ) as client:
                with contextlib.suppress(OSError, http.client.HTTPException):
                    client.request(method, path, body, {"Authorization": f"Bearer {text}"})
                    reply = client.getresponse()
                    found = reply.status, reply.read().decode()
                    if found[0] < 500:
                        return found
            time.sleep(0.05)
        raise RuntimeError(f"no reply to {method} {path} {body}")


def begun(*words):
    """Starts a command of the office in a new session."""
    return subprocess.Popen(
        ["runuser", "-u", "anna", "--", "office", "club", *words],
        stdin=subprocess.PIPE,
        stdout=subprocess.PIPE,
        stderr=subprocess.PIPE,
        text=True,
        cwd="/home/anna",
        start_new_session=True,
    )


def kill(command, chance=None):
    """Kills a process and all its children, including those in sessions that sudo began. If
    `chance` is given, kills only one of these processes, chosen at random. Waits until the killed
    processes have ended."""
    with contextlib.suppress(psutil.NoSuchProcess):
        first = psutil.Process(command.pid)
        found = [first, *first.children(recursive=True)]
        for it in [chance.choice(found)] if chance else found:
            with contextlib.suppress(psutil.NoSuchProcess):
                it.kill()
    command.communicate()


def killed_after(seconds, words, chance=None):
    command = begun(*words)
    time.sleep(seconds)
    kill(command, chance)


def copied():
    """Opens a copy of the current club."""
    copy = ROOM / "copied"
    for _ in range(5):
        copy.unlink(missing_ok=True)
        made = subprocess.run(
            ["/usr/lib/clubdesk/back_up", CLUB, copy], capture_output=True, text=True, check=False
        )
        if made.returncode == 0:
            return opened(copy)
    raise RuntimeError(made.stderr)


def rows(sql):
    with copied() as database:
        return database.execute(sql).fetchall()


def whole(what):
    """Checks that all totals of the club are right."""
    same(f"the totals after {what}", rows(SUMS), [])


def everything():
    """Returns all rows of the club as SQL statements."""
    with copied() as database:
        return list(database.iterdump())


def configure(**more):
    lines = {"FILE": CLUB, "ZONE": "UTC0", "PORT": "8080", **more}
    Path("/etc/clubdesk/club.conf").write_text(
        "# A club.\n" + "".join(f"{key}={value}\n" for key, value in lines.items()),
        encoding="ascii",
    )


def mode(file):
    """Returns the owner and the mode of a file."""
    return f"{file.owner()} {file.stat().st_mode:o}"

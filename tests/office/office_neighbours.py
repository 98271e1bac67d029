#!/usr/bin/env -S /usr/bin/python3 -B
"""`office` and the health check trust no neighbour: neither the server at the desk's port, nor the state that a clerk's program leaves to `office`.

The test needs root, because it covers the machine's folders with temporary overlays (tests/lib/office_room.sh).

- While the desk is down, a thief takes its port. The thief gets no pass. A server that runs as the desk's user, and records each request, gets only
  passes for one slot and five minutes. Its false replies aren't believed.
- The price that a clerk saw is the price: if the price rises in the meantime, the desk books nothing, and `office` prints the new price.
- A clerk ignores signals, blocks signals, closes the standard streams or sets another umask, and then starts `office` through sudo. A refused command
  stays refused, and no text goes into the club's file.
- A report's files have the mode 600, and a list of persons has no formula.
"""
# pytestmark = [mark.package, mark.root, mark.needs("clubdesk passtool"),
#     mark.wants("sudo sqlite3 openssl util-linux bsdutils iproute2 systemd curl python3-psutil")]

import contextlib
import json
import re
import subprocess
import sys
import time
from pathlib import Path

sys.path[:0] = [str(Path(__file__).resolve().parents[1] / it) for it in ("lib", "")]
from desk import free_port
from office_room import (
    CLUB,
    HOME,
    ROOM,
    Service,
    configure,
    done,
    leave,
    mode,
    office,
    rows,
    run_as,
    same,
    whole,
)

DAY = "2026-05-01"
BOOK = HOME / "club-book"
BOOKINGS = "SELECT * FROM bookings ORDER BY pass_key, number"
# A server that records each request in a file. It replies with the same text to each request.
RECORDER = r"""
import socket, sys
port, path, reply = int(sys.argv[1]), sys.argv[2], sys.argv[3]
server = socket.socket()
server.setsockopt(socket.SOL_SOCKET, socket.SO_REUSEADDR, 1)
server.bind(("127.0.0.1", port))
server.listen()
open(path, "ab").close()
while True:
    client, _ = server.accept()
    with client, open(path, "ab", 0) as record:
        client.settimeout(3)
        try:
            record.write(client.recv(20000) + b"\n--\n")
            client.sendall(f"HTTP/1.1 200 OK\r\nContent-Length: {len(reply)}\r\n\r\n{reply}".encode())
        except OSError:
            pass
"""
# A relay to the desk. Before it passes on the first request, it runs a command.
RELAY = r"""
import socket, subprocess, sys
port, desk, line = int(sys.argv[1]), int(sys.argv[2]), sys.argv[3:]
server = socket.socket()
server.setsockopt(socket.SOL_SOCKET, socket.SO_REUSEADDR, 1)
server.bind(("127.0.0.1", port))
server.listen()
while True:
    client, _ = server.accept()
    with client, socket.create_connection(("127.0.0.1", desk)) as there:
        request = b""
        while b"\r\n\r\n" not in request or request.startswith(b"PUT") and not request.endswith(b"}"):
            request += client.recv(20000)
        if line:
            subprocess.run(line, check=True, stdout=subprocess.DEVNULL)
            line = []
        there.sendall(request)
        while data := there.recv(20000):
            client.sendall(data)
"""
# Starts a program in an odd state.
ODD = """
import os, signal, sys
for number in signal.valid_signals() - {signal.SIGKILL, signal.SIGSTOP}:
    signal.signal(number, signal.SIG_IGN)
signal.pthread_sigmask(signal.SIG_BLOCK, signal.valid_signals())
os.umask(0)
if sys.argv[1] == "closed":
    for number in range(3):
        os.close(number)
os.execvp(sys.argv[2], sys.argv[2:])
"""


@contextlib.contextmanager
def server_of(user, code, port, *words):
    """Runs a server as a user, and waits until it listens."""
    line = ["setpriv", "--reuid", user, "--regid", user, "--clear-groups"]
    with subprocess.Popen(
        [*line, "/usr/bin/python3", "-c", code, str(port), *map(str, words)], cwd="/"
    ) as process:
        for _ in range(200):
            listening = subprocess.run(
                ["ss", "-Hltn", f"sport = :{port}"], capture_output=True, check=True
            ).stdout
            if listening:
                break
            time.sleep(0.05)
        try:
            yield
        finally:
            process.kill()


def recorded(name):
    """Returns a new file in which a server of any user can record requests."""
    path = ROOM / name
    path.write_bytes(b"")
    path.chmod(0o666)
    return path


def health(port, given=""):
    line = ["/usr/lib/clubdesk/check_health", CLUB, port, given]
    return run_as("clubdesk", *map(str, line), folder="/")


def thief():
    """A thief who takes the port gets no pass, and nobody believes the thief's replies."""
    path = recorded("stolen")
    before, bookings = len(BOOK.read_text(encoding="utf-8").splitlines()), rows(BOOKINGS)
    reply = '{"member":"health","booking":"amy-office/1","charge":1,"left":1,"refund":400}'
    with server_of("carl", RECORDER, PORT, path, reply):
        for words in (
            ["book", "amy", "court-1", DAY, "18"],
            ["cancel-for", "amy", "court-1", DAY, "17"],
        ):
            status, out, errors = office(*words)
            same(f"{words[0]} with a thief", (status, out), (5, ""))
            same(
                f"{words[0]}: the thief is named",
                f"the server at port {PORT} belongs to the user" in errors,
                True,
            )
        status, _, errors = health(PORT, HOME / "health")
        same(
            "the health check with a thief",
            (status, f"the server on port {PORT} belongs to the user" in errors),
            (1, True),
        )
    same("bytes that the thief got", path.read_bytes().replace(b"\n--\n", b""), b"")
    same(
        "the lines of the book",
        [it.split(" ")[2] for it in BOOK.read_text(encoding="utf-8").splitlines()[before:]],
        ["5", "5"],
    )
    same("the bookings", rows(BOOKINGS), bookings)


def caveats_in(request):
    """Returns the fields of a recorded request's pass."""
    text = re.search(rb"Bearer (\S+)", request)[1].decode()
    return run_as("root", "passtool", "show", given=text, folder="/")[1]


def narrowed():
    """Each request's pass allows only this request, for five minutes. A reply that isn't true is no booking."""
    path = recorded("seen")
    reply = '{"booking":"amy-office/1","charge":1,"left":1,"refund":400}'
    with server_of("clubdesk", RECORDER, PORT, path, reply):
        for words in (
            ["book", "amy", "court-1", DAY, "18", "1"],
            ["cancel-for", "amy", "court-1", DAY, "17"],
        ):
            status, out, errors = office(*words)
            same(
                f"{words[0]}: an untrue reply",
                (status, out, "the club's file shows no change" in errors),
                (5, "", True),
            )
        health(PORT, HOME / "health")
    booked, cancelled, looked = path.read_bytes().split(b"\n--\n")[:3]
    until = r"until < 20\d\d-\d\d-\d\dT\d\d:\d\d"
    wanted = [
        "facility = court-1",
        f"days = {DAY}..{DAY}",
        "hours = 18-19",
        "guests <= 1",
        "spend <= 1200",
        "actions = book",
    ]
    found = caveats_in(booked)
    same("the caveats of a booking", [it for it in wanted if it not in found], [])
    same("its time", re.search(until, found) is not None, True)
    found = caveats_in(cancelled)
    wanted = ["facility = court-1", f"days = {DAY}..{DAY}", "hours = 17-18", "actions = cancel"]
    same("the caveats of a cancellation", [it for it in wanted if it not in found], [])
    same("its time", re.search(until, found) is not None, True)
    found = caveats_in(looked)
    same("the health check's pass", re.search(until, found) is not None, True)


def price_of_the_moment(server):
    """If the price rises after the clerk saw it, the desk books nothing, and the clerk sees the new price."""
    line = ["clubdesk", "set-facility", CLUB, "court-1", "4", "9000", "8", "22"]
    with server_of("clubdesk", RELAY, PORT, server.port, *line):
        status, out, errors = office("book", "amy", "court-1", DAY, "19")
        same("a price that rose", (status, out), (1, ""))
        same("the new price", "court-1 now costs 9000 points" in errors, True)
        status, _, errors = office("book", "amy", "court-1", DAY, "19", "--price", "400")
        same("an old price", (status, "court-1 now costs 9000 points" in errors), (1, True))
        same("no booking", rows("SELECT count(*) FROM bookings WHERE hour = 19"), [(0,)])
        done("set-facility", "court-1", "--price", "400", "--yes")
        shown = done("book", "amy", "court-1", DAY, "19-21", "1", "--price", "400")
        same("the right price", shown.splitlines()[-1].endswith("2, for 1600 points"), True)
        shown = done("cancel-for", "amy", "court-1", DAY, "19-21")
        same("cancelled", shown.splitlines()[-1].endswith("2, with 1600 points back"), True)


def odd_states():
    """A clerk's program can't make `office` mistake a refusal for success, or write into a club's file."""
    program = ROOM / "odd.py"
    program.write_text(ODD)
    program.chmod(0o755)
    ROOM.chmod(0o755)
    through_sudo = "sudo -n -u clubdesk /usr/bin/office --desk club".split()
    for how in ("open", "closed"):
        for line in (through_sudo, ["office", "club"]):
            for words in (["credit", "nobody", "1"], ["add-member", "zoe", "100"]):
                odd = ["/usr/bin/python3", program, how, *line, *words]
                status = run_as("anna", *map(str, odd))[0]
                kept = BOOK.read_text(encoding="utf-8").splitlines()[-1].split(" ", 2)[2]
                same(
                    f"{how}, {line[0]} {words}: refused",
                    (status != 0, re.fullmatch(f"[1-9] {' '.join(words)}", kept) is not None),
                    (True, True),
                )
    before = done("members", "--csv")
    odd = ["/usr/bin/python3", program, "closed", "office", "club", "members", "--csv"]
    run_as("clubdesk", *map(str, odd), folder="/")
    same("the members after a list without standard streams", done("members", "--csv"), before)
    odd = ["/usr/bin/python3", program, "open", "office", "club"]
    done("add-key", "amy-3", "amy", "--to", "amy-3")
    same(
        "a lost pass of no key",
        run_as("anna", *map(str, odd), "lost-pass", "amy-4", "--to", "amy-4")[0] != 0,
        True,
    )
    same("no empty pass", run_as("anna", "test", "-e", "amy-4")[0], 1)
    same("a lost pass", run_as("anna", *map(str, odd), "lost-pass", "amy-3", "--to", "amy-3")[0], 0)
    same("its mode", mode(Path("/home/anna/amy-3")), "anna 100600")
    whole("odd states")


def files_of_persons():
    """A report's files can be read by the clerk alone. The file of persons has no formula."""
    browser = Path("/usr/bin/chromium")
    kept = browser.with_name("chromium-kept")
    if browser.exists():
        browser.rename(kept)
    browser.write_text(
        '#!/bin/sh\numask 022\nfor it; do case $it in --print-to-pdf=*) echo printed >"${it#*=}" ;; esac; done\n'
    )
    browser.chmod(0o755)
    done("report", "--to", "board.html")
    same(
        "modes of a report",
        [mode(Path(f"/home/anna/board.{it}")) for it in ("html", "pdf")],
        ["anna 100600", "anna 100600"],
    )
    browser.unlink()
    if kept.exists():
        kept.rename(browser)
    line = "sudo -n -u clubdesk /usr/bin/office --desk club".split()
    person = {"name": "=HYPERLINK(1)", "mail": "+a@example.org", "telephone": "+49 30 1"}
    for name in (person["name"], "＝1+1", "'=1"):
        given = json.dumps({**person, "name": name})
        same("a person", run_as("anna", *line, "set-person", "amy", given=given)[0], 0)
        shown = json.loads(run_as("anna", *line, "show-person", "amy")[1])
        same("the person", shown, {**person, "name": name})
        cells = (HOME / "club-people.csv").read_text(encoding="utf-8").splitlines()[1].split(",")
        same("cells that begin a formula", [it for it in cells if it[0] in "=+-@＝＋－＠"], [])
        cells = done("members", "--csv").splitlines()[1].split(",")
        same("listed cells", [it for it in cells if it[0] in "=+-@＝＋－＠"], [])


PORT = free_port()
configure(PORT=PORT, BOOK=BOOK)
for words in (
    "new",
    "add-facility court-1 court 4 400 8 22",
    "add-member amy 9",
    "credit amy 100000",
    "add-member health 0",
):
    done(*words.split())
same(
    "the pass for health checks",
    run_as(
        "clubdesk",
        "sh",
        "-c",
        f"openssl rand -hex 32 | clubdesk add-key {CLUB} health health --root-stdin >{HOME}/health",
        folder="/",
    )[0],
    0,
)
desk = Service(port=PORT)
done("book", "amy", "court-1", DAY, "17")
done("cancel-for", "amy", "court-1", DAY, "17")
done("book", "amy", "court-1", DAY, "17")
same("the health check", health(PORT, HOME / "health")[0], 0)
odd_states()
files_of_persons()
desk.stop()
thief()
narrowed()
other = Service()
price_of_the_moment(other)
other.stop()
leave()

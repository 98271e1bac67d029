#!/usr/bin/env -S /usr/bin/python3 -B -m pytest -q -p no:cacheprovider
"""A running desk carries out each complete command once, and nothing else that reaches its door.

The door is the Unix socket through which the desk's server receives the office's commands. The test
sends truncated, slow and invalid commands. The test also runs senders and servers that misbehave.
The real server must go on serving.

The test sends each prefix of a command, commands of 70,000 bytes, and JSON that isn't an array of
texts. Some commands have an unknown name, the name `serve`, or arguments that aren't UTF-8. Some
senders close the connection before the greeting, are silent, or never read the answer. Some servers
don't greet or answer, are suspended for longer than a timeout, or end before they greet. Then the
test runs 50 simultaneous commands, and runs a command as the user root on another user's desk. Some
doors are stale, belong to root or to a stranger, or are behind a link. Other doors are in a folder
that a server can't write to, or on a full disk. The parts with other users or a full disk must run
as root.
"""

import contextlib
import json
import os
import shutil
import signal
import socket
import subprocess
import sys
import threading
import time

import pytest

import desk
import kinds

pytestmark = [pytest.mark.faults, pytest.mark.needs("clubdesk"), pytest.mark.wants("sqlite3")]


def command_bytes(*words, root=""):
    """Returns the JSON of a command: an array of its root and its words."""
    return json.dumps([root, *words]).encode()


CREDIT = ("clubdesk", "credit", "club", "amy", "1")
WHOLE = command_bytes(*CREDIT)
DONE, FAILED, NO_ANSWER = (0, "done\n", ""), (5, "", "storage failed\n"), (8, "", "no answer\n")
NOTHING = (9, "", "nothing was done\n")
needs_root = pytest.mark.skipif(os.geteuid() != 0, reason="needs root")


@pytest.fixture
def serving(club):
    """Yields a server of the club. The server runs until the end of the test."""
    with club.served() as it:
        yield it


def visitor(club, is_greeted=True):
    it = socket.socket(socket.AF_UNIX)
    it.settimeout(30)
    it.connect(f"{club.file}-office")
    assert not is_greeted or it.recv(1) == b"!"
    return it


def answer(club, data):
    """Sends these bytes to the door, and returns the status and the text of the answer."""
    with visitor(club) as it:
        it.sendall(data)
        it.shutdown(socket.SHUT_WR)
        return parts(desk.read(it))


def parts(data):
    """Returns the status and the text of a complete answer."""
    assert data.endswith(b"\0") and data.count(b"\0", 1) == 1
    return data[0], data[1:-1].decode()


def credited(club):
    """Returns the points that Amy has got since the test began, according to the desk."""
    return club.balance("amy-1") - 10_000


def goes_on(server):
    assert server.exchange(kinds.account().data).startswith(b"HTTP/1.1 200 ")


def test_a_whole_command(club, serving):
    assert answer(club, WHOLE) == (0, "done\n")
    assert credited(club) == 1


def test_cut_at_each_byte(club, serving):
    for length in range(len(WHOLE)):
        assert answer(club, WHOLE[:length]) == (2, ""), WHOLE[:length]
    assert credited(club) == 0


@pytest.mark.parametrize(
    "data",
    [
        command_bytes(*CREDIT[:4], 1),
        command_bytes(*CREDIT, root=None),
        b"[" + WHOLE + b"]",
        WHOLE + WHOLE,
        WHOLE + b"\0",
        WHOLE.replace(b"amy", b"am\xff"),
        b"5\0\0" + b"".join(it.encode() + b"\0" for it in CREDIT),
        command_bytes("clubdesk", "serve", "club", "--port", "0", "--count", "1"),
        command_bytes("clubdesk", "--help"),
        command_bytes(),
        b"\0" * 100,
    ],
)
def test_no_command(club, serving, data):
    assert answer(club, data)[0] == 2
    assert credited(club) == 0


def test_words_that_are_refused(club, serving):
    assert answer(club, command_bytes("clubdesk", "credits", "club"))[0] == 2
    assert answer(club, command_bytes("clubdesk", "credit", "club", "amy", "none")) == (
        3,
        "bad value",
    )
    assert answer(club, command_bytes("clubdesk", "credit", "club", "zed", "1")) == (
        1,
        "refused: unknown",
    )


def test_too_long(club, serving):
    with visitor(club) as it, contextlib.suppress(BrokenPipeError, ConnectionResetError):
        it.sendall(command_bytes("clubdesk", "credit", "club", "a" * 70_000, "1"))
        it.shutdown(socket.SHUT_WR)
        assert parts(desk.read(it)) == (9, "nothing was done")
    assert credited(club) == 0


def test_a_sender_that_goes(club, serving):
    for length in (0, 1, len(WHOLE) // 2, len(WHOLE)):
        visitor(club, is_greeted=False).close()
        with visitor(club) as it:
            it.sendall(WHOLE[:length])
        goes_on(serving)
    assert credited(club) == 1


@pytest.mark.parametrize("length", [0, len(WHOLE) // 2, len(WHOLE)])
def test_a_silent_sender(club, serving, length):
    """The server cuts off a silent sender after 200 milliseconds. Other clients wait for these 200
    milliseconds."""
    with visitor(club) as it:
        began = time.monotonic()
        it.sendall(WHOLE[:length])
        goes_on(serving)
        assert 0.15 < time.monotonic() - began < 0.8
        assert parts(desk.read(it)) == (9, "nothing was done")
    assert credited(club) == 0


def test_a_sender_that_takes_no_answer(club):
    """The day sheet is too large for the socket's buffer, and the sender doesn't read it. The
    server cuts off the sender after 200 milliseconds, even if the server's patience is longer. The
    truncated answer doesn't end in a zero byte."""
    club.sql(
        """WITH n(i) AS (SELECT 1 UNION ALL SELECT i + 1 FROM n WHERE i < 10000)
        INSERT INTO bookings SELECT 'amy-1', 1000 + i, 'court-1', 10957, 8, 0, 0, 0, 0, 0 FROM n"""
    )
    with club.served("--patience", "10") as server, visitor(club) as it:
        it.sendall(command_bytes("clubdesk", "sheet", "club", "2000-01-01"))
        it.shutdown(socket.SHUT_WR)
        began = time.monotonic()
        assert answer(club, WHOLE) == (0, "done\n")
        assert 0.15 < time.monotonic() - began < 2
        cut = desk.read(it)
        assert cut.startswith(b"\0Day sheet 2000-01-01\n") and len(cut) < 500_000 < len(
            club.does("sheet 2000-01-01")
        )
        assert not cut.endswith(b"\0")
        goes_on(server)


def test_a_server_that_does_not_greet(club, serving):
    """The test suspends the server until the command's timeout is over. When the server continues,
    it doesn't carry out the command."""
    os.kill(serving.process.pid, signal.SIGSTOP)
    began = time.monotonic()
    assert club.command("credit", "amy", "1") == FAILED
    assert 59 < time.monotonic() - began < 65
    os.kill(serving.process.pid, signal.SIGCONT)
    goes_on(serving)
    assert credited(club) == 0


@contextlib.contextmanager
def stopped(server):
    """Suspends a server until the end of the `with` block, as if the machine were asleep."""
    os.kill(server.process.pid, signal.SIGSTOP)
    yield
    os.kill(server.process.pid, signal.SIGCONT)


@pytest.mark.parametrize("length, wanted", [(len(WHOLE), (0, "done\n")), (len(WHOLE) - 1, (2, ""))])
def test_a_server_that_is_stopped_while_a_command_comes(club, serving, length, wanted):
    """A command arrives while the server is suspended. When the server continues, it carries out
    the command if the command is complete."""
    with visitor(club) as it:
        with stopped(serving):
            it.sendall(WHOLE[:length])
            it.shutdown(socket.SHUT_WR)
            time.sleep(1.5)
        assert parts(desk.read(it)) == wanted
    assert credited(club) == (wanted[0] == 0)


def test_a_server_that_is_stopped_while_a_client_sends(club):
    """A request arrives while the server is suspended for longer than the server's patience. When
    the server continues, it replies to a complete request and cuts off an incomplete one."""
    whole = kinds.account().data
    with club.served("--patience", "1") as server:
        for data, begins in ((whole, b"HTTP/1.1 200 "), (whole[:-1], b"")):
            with socket.create_connection(("127.0.0.1", server.port), 30) as it:
                time.sleep(0.3)  # the server accepts the connection
                with stopped(server):
                    it.sendall(data)
                    time.sleep(2)
                with contextlib.suppress(ConnectionResetError):
                    assert desk.read(it)[:13] == begins


@pytest.mark.parametrize("is_followed", [False, True], ids=["by nobody", "by another server"])
def test_a_server_that_ends_before_it_greets(club, clubdesk, is_followed):
    """When the server ends, the client has sent no byte of the command. Therefore the client opens
    the file itself or connects to the next server."""
    with club.served() as server:
        os.kill(server.process.pid, signal.SIGSTOP)
        with subprocess.Popen(
            [clubdesk, "credit", club.file, "amy", "1"],
            stdout=subprocess.PIPE,
            stderr=subprocess.PIPE,
            text=True,
        ) as command:
            time.sleep(0.5)  # the command waits for the greeting
            server.kill()
            with club.served() if is_followed else contextlib.nullcontext():
                assert (*reversed(command.communicate()), command.returncode) == ("", "done\n", 0)
    assert credited(club) == 1


SENT = [
    (b"!", b"\0done\n\0", DONE),
    (b"!", b"\0done\n", NO_ANSWER),
    (b"!", b"", NO_ANSWER),
    (b"!", b"\x09nothing was done\0", NOTHING),
    (b"?", b"\0done\n\0", FAILED),
]


@pytest.mark.parametrize("greeting, reply, wanted", SENT)
def test_what_a_server_may_send(club, greeting, reply, wanted):
    with socket.socket(socket.AF_UNIX) as door:
        door.bind(f"{club.file}-office")
        door.listen()

        def serve_one():
            with door.accept()[0] as it:
                it.sendall(greeting)
                if greeting == b"!":
                    desk.read(it)
                    it.sendall(reply)
            door.close()

        server = threading.Thread(target=serve_one)
        server.start()
        assert club.command("credit", "amy", "1") == wanted
        server.join()


def test_a_server_that_closes_after_it_greeted(club):
    """The server closes the connection before it has read the whole command, so this server can't
    carry out the command. The next server carries out the command."""
    with socket.socket(socket.AF_UNIX) as door:
        door.bind(f"{club.file}-office")
        door.listen()

        def close_after(count):
            with door.accept()[0] as it:
                it.sendall(b"!")
                assert len(it.recv(count)) == count
            with door.accept()[0] as it:
                it.sendall(b"!")
                desk.read(it)
                it.sendall(b"\0done\n\0")

        for count in (0, 1, 7):
            server = threading.Thread(target=close_after, args=[count])
            server.start()
            assert club.command("credit", "amy", "1") == DONE
            server.join()


def test_fifty_at_once(club, serving, clubdesk):
    """The server carries out each command once. On a busy machine, a client may get no processor
    time until its timeout for sending is over. Then the client tries again."""
    commands = [
        subprocess.Popen(
            [clubdesk, "credit", club.file, "amy", "1"],
            stdout=subprocess.PIPE,
            stderr=subprocess.PIPE,
        )
        for _ in range(50)
    ]
    ended = [(*it.communicate(), it.returncode) for it in commands]
    assert ended == [(b"done\n", b"", 0)] * 50
    assert credited(club) == 50


@pytest.fixture
def of_another(club):
    """A club in a folder that belongs to another user."""
    for parent in club.file.parents:
        if parent.stat().st_mode & 0o5 != 0o5:
            parent.chmod(0o755)
    for it in (club.file.parent, *club.file.parent.iterdir()):
        shutil.chown(it, desk.ANOTHER, desk.ANOTHER)
    return club


@needs_root
def test_a_command_of_root(of_another):
    with of_another.served(by=desk.AS_ANOTHER):
        assert of_another.command("credit", "amy", "1") == DONE
        assert credited(of_another) == 1
        assert {
            path.stat().st_uid
            for path in of_another.file.parent.iterdir()
            if path.name.startswith("club")
        } <= {desk.ANOTHER, 0}
    assert of_another.file.stat().st_uid == desk.ANOTHER


@needs_root
def test_a_stale_door_of_root(of_another, clubdesk):
    """After someone kills a server that root started, the club's owner can still give commands and
    start a server."""
    with of_another.served() as server:
        server.kill()
    door = of_another.file.with_name("club-office")
    assert door.stat().st_uid == 0
    words = [*desk.AS_ANOTHER, clubdesk, "credit", of_another.file, "amy", "1"]
    assert subprocess.run(words, capture_output=True, check=False).stdout == b"done\n"
    with of_another.served(by=desk.AS_ANOTHER):
        assert door.stat().st_uid == desk.ANOTHER
        assert credited(of_another) == 1


STRANGER = """
import os, socket, sys
with socket.socket(socket.AF_UNIX) as door:
    door.bind(sys.argv[1])
    os.chmod(sys.argv[1], 0o777)
    door.listen()
    door.settimeout(3)
    print("listening", flush=True)
    try:
        with door.accept()[0] as it:
            it.sendall(b"!")
            print(it.makefile("rb").read())
            it.sendall(b"\\0stolen")
    except TimeoutError:
        print("nobody came")
"""


@needs_root
def test_a_door_of_a_stranger(club, clubdesk):
    """A stranger's program listens at the door's path, in a folder that everybody can write to. The
    stranger's program gets no command and no root, and no server replaces the stranger's socket."""
    for parent in club.file.parents:
        if parent.stat().st_mode & 0o5 != 0o5:
            parent.chmod(0o755)
    club.file.parent.chmod(0o777)
    door = f"{club.file}-office"
    with subprocess.Popen(
        [*desk.AS_ANOTHER, sys.executable, "-c", STRANGER, door], stdout=subprocess.PIPE, text=True
    ) as stranger:
        assert stranger.stdout.readline() == "listening\n"
        words = ("add-key", club.file, "amy-2", "amy", "--root-stdin")
        assert desk.command(clubdesk, *words, text="a7" * 32 + "\n") == FAILED
        assert desk.command(clubdesk, "serve", club.file, "--port", "0", "--count", "1") == FAILED
        assert stranger.stdout.read() == "nobody came\n"
    os.unlink(door)
    assert club.command("credit", "amy", "1") == DONE


def test_a_door_behind_a_link(club, serving):
    door, elsewhere = f"{club.file}-office", f"{club.file}-elsewhere"
    os.rename(door, elsewhere)
    os.symlink(elsewhere, door)
    assert club.command("credit", "amy", "1") == FAILED
    os.rename(elsewhere, door)
    assert credited(club) == 0


@pytest.mark.parametrize("ending", ["wanted", "serving", "paused"])
def test_a_file_beside_the_club_stays(club, ending):
    other = club.copied_to(f"{club.file}-{ending}")
    with club.served():
        pass
    assert other.does("show-account amy-1")


@needs_root
def test_a_folder_that_cannot_be_written(of_another, clubdesk):
    of_another.file.parent.chmod(0o555)
    shutil.chown(of_another.file.parent, 0, 0)
    ended = subprocess.run(
        [*desk.AS_ANOTHER, clubdesk, "serve", of_another.file, "--port", "0", "--count", "1"],
        capture_output=True,
        check=False,
    )
    assert (ended.returncode, ended.stdout) == (5, b"")
    assert not of_another.file.with_name("club-office").exists()


@pytest.fixture
def small_disk(tmp_path):
    """A folder on a disk of eight megabytes."""
    disk = tmp_path / "disk"
    disk.mkdir()
    subprocess.run(["mount", "-t", "tmpfs", "-o", "size=8m", "none", disk], check=True)
    yield disk
    subprocess.run(["umount", disk], check=True)


@needs_root
def test_a_full_disk(club, small_disk):
    full = club.copied_to(small_disk / "club")
    with full.served():
        with open(small_disk / "rest", "wb", buffering=0) as rest, pytest.raises(OSError):
            while True:
                rest.write(bytes(4096))
        ended = [full.command("credit", "amy", "1") for _ in range(50)]
        assert ended[-1] == FAILED
        done = ended.count(DONE)
        assert done + ended.count(ended[-1]) == len(ended)
        os.unlink(small_disk / "rest")
        assert credited(full) == done
        assert full.command("credit", "amy", "1") == DONE
        assert credited(full) == done + 1

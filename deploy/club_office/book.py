"""Writes the book, which is the log of a club's commands. Lets only one command at a time change a club."""

import fcntl
import io
import os
import pwd
import re
import shlex
import signal
import socket
import sys
import time

from club_office.begin import printable
from club_office.clubs import clubdesk, show, wants_file
from club_office.copies import clear_unnamed
from club_office.faults import STORAGE, Fault, fault, storage_failed
from club_office.texts import say

# The greatest number of seconds that a command waits for its turn, and that the office waits for the journal to accept a line.
WAITS_FOR_TURN = 60
WAITS_FOR_JOURNAL = 2
JOURNAL = "/run/systemd/journal/socket"
# The greatest number of bytes in a line of the book. The journal and the file accept a line of this length without truncation.
MOST_LINE = 8_000
BEGUN = re.compile(r"(?s)20[0-9-]{8}T[0-9:]{8} \S+ \? .*")
# A terminal sends these signals after Ctrl-Z, when it closes, and to background processes. A command ignores these signals during its turn.
HELD_BACK = (signal.SIGTSTP, signal.SIGHUP, signal.SIGTTIN, signal.SIGTTOU)


def clerk():
    """Returns the name of the user who gives the command: sudo's caller, the clerk in OFFICE_CLERK, or the user of this process."""
    return (
        os.environ.get("SUDO_USER")
        or os.environ.get("OFFICE_CLERK")
        or pwd.getpwuid(os.getuid()).pw_name
    )


# ---- Lines of the book. A line goes to a file if the configuration names a file, if there is no journal, or if the journal doesn't accept the line.


def line_of(moment, status, words):
    """Returns a line of the book, truncated if it is too long."""
    quoted = " ".join(shlex.quote(it.replace("\\", "\\\\")) for it in words)
    line = printable(f"{moment} {clerk()} {status} {quoted}")
    size = len(line.encode())
    if size > MOST_LINE:
        line = line.encode()[: MOST_LINE - 40].decode(errors="ignore") + f" [cut: {size} bytes]"
    return line


def is_in_journal(club):
    return not club.book and os.path.exists(JOURNAL)


def book_of(club):
    return club.book or club.file + "-book"


def write_line(club, line):
    if not (is_in_journal(club) and is_taken(club, line)):
        add_line(book_of(club), line)


def is_taken(club, line):
    """Sends a line to the journal, and returns whether the journal accepted it before the timeout."""
    fields = {
        "MESSAGE": line,
        "PRIORITY": "6",
        "SYSLOG_IDENTIFIER": "clubdesk-office",
        "CLUBDESK_CLUB": club.name,
    }
    with socket.socket(socket.AF_UNIX, socket.SOCK_DGRAM) as journal:
        journal.settimeout(WAITS_FOR_JOURNAL)
        try:
            journal.sendto(
                "".join(f"{field}={value}\n" for field, value in fields.items()).encode(), JOURNAL
            )
        except OSError:
            return False
    return True


def add_line(path, line):
    """Adds a line to a file. Begins a new line even if a full disk has truncated the file's last line."""
    book = os.open(path, os.O_RDWR | os.O_APPEND | os.O_CREAT, 0o600)
    try:
        end = os.lseek(book, 0, os.SEEK_END)
        is_cut = end > 0 and os.pread(book, 1, end - 1) != b"\n"
        text = ("\n" * is_cut + line + "\n").encode()
        if os.write(book, text) != len(text):
            raise OSError("the disk is full")
        os.fsync(book)
    finally:
        os.close(book)


# ---- The turn.


class Turn:
    """The turn of a command that changes a club: a lock on FILE-orders. Only one command has the turn at a time.

    While a command runs, FILE-orders has the command's line for the book, with a question mark as status. When a command gets the lock, FILE-orders
    may still have the line of an interrupted command. This line goes into the book unchanged. Lines for standard error wait until the command
    releases the lock. So a terminal that accepts no output, as after Ctrl-S, doesn't block other commands.
    """

    def __init__(self, club):
        self.club = club
        self.file = None
        self.before = {}
        self.said, self.errors = None, sys.stderr

    def __enter__(self):
        self.file = os.open(self.club.file + "-orders", os.O_RDWR | os.O_CREAT, 0o600)
        try:
            self.wait()
            self.said = sys.stderr = io.StringIO()
            self.note_broken()
            clear_unnamed(self.club)
        except BaseException:
            self.__exit__()
            raise
        return self

    def __exit__(self, *_):
        os.close(self.file)
        for number, action in self.before.items():
            signal.signal(number, action)
        if self.said is not None:
            sys.stderr = self.errors
            print(self.said.getvalue(), end="", file=sys.stderr, flush=True)

    def wait(self):
        for attempt in range(WAITS_FOR_TURN * 20):
            if self.is_gained():
                return
            if attempt == 20:
                print(say("waits"), file=sys.stderr)
            time.sleep(0.05)
        raise storage_failed("order under way", seconds=WAITS_FOR_TURN)

    def is_gained(self):
        """Tries to take the lock, and returns whether this process got it. The signals of HELD_BACK are blocked in the meantime, so that none stops
        the process between taking the lock and ignoring the signals."""
        signal.pthread_sigmask(signal.SIG_BLOCK, HELD_BACK)
        try:
            fcntl.flock(self.file, fcntl.LOCK_EX | fcntl.LOCK_NB)
            self.before = {number: signal.signal(number, signal.SIG_IGN) for number in HELD_BACK}
        except BlockingIOError:
            return False
        finally:
            signal.pthread_sigmask(signal.SIG_UNBLOCK, HELD_BACK)
        return True

    def note_broken(self):
        left = os.pread(self.file, 2 * MOST_LINE, 0)
        if not left:
            return
        text = left.decode(errors="backslashreplace").rstrip("\n")
        if not BEGUN.fullmatch(text):
            text = f"{now()} unknown ? [a command that can't be read] {shlex.quote(text[:200])}"
        write_line(self.club, printable(text))
        os.ftruncate(self.file, 0)

    def order(self, words, act):
        """Runs a command by calling `act`, which returns the command's status. Writes the command's line into the book. A refused command also gets a
        line in the book. The line of an interrupted command has a question mark."""
        moment, status = now(), "?"
        os.pwrite(self.file, (line_of(moment, "?", words) + "\n").encode(), 0)
        os.fsync(self.file)
        try:
            status = act()
        except Fault as failure:
            status = failure.status
            raise
        finally:
            self.note(line_of(moment, status, words), status)
        return status

    def note(self, line, status):
        try:
            write_line(self.club, line)
            os.ftruncate(self.file, 0)
        except OSError as failure:
            raise fault(STORAGE, "book unwritten", status=status, fault=failure) from None


def now():
    return time.strftime("%Y-%m-%dT%H:%M:%S")


def refuse(club, words, failure):
    """Ends a command with a fault, and writes the command's line into the book."""

    def act():
        raise failure

    with Turn(club) as turn:
        turn.order(words.given, act)


def give_order(club, command, words, options=(), root=None):
    """Takes the turn, and runs a command of clubdesk."""
    printed = []

    def act():
        status, text = clubdesk(club, command, words, options, root)
        printed.append(text)
        return status

    with Turn(club) as turn:
        wants_file(club)
        status = turn.order([command, *words], act)
    show(printed[0])
    return status

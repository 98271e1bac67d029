"""The clerk's side of every command: runs commands as the desk's user through sudo, and reads and writes the clerk's own files."""

import contextlib
import heapq
import itertools
import json
import os
import secrets
import shutil
import subprocess
import sys
import tempfile
import time
import urllib.parse

from club_office.asking import Back, ask
from club_office.begin import printable
from club_office.book import book_of, clerk, is_in_journal
from club_office.clubs import SELF, desk_user, ended_by_itself, program, show
from club_office.copies import is_named, name_new, synced
from club_office.faults import OUTPUT, USAGE, fault, refusal
from club_office.passes import key_of
from club_office.spares import PASSES
from club_office.texts import say


# A past minute. With this minute, the old root of a rotated key expires at once.
LONG_AGO = "2000-01-01T00:00"


def desk_line(club, words):
    """Returns a command line that runs a command as the desk's user, and the options for starting the process. `--own` means that the caller is the
    desk's user."""
    user = desk_user(club)
    if os.geteuid() == user.pw_uid:
        return [sys.executable, "-I", SELF, "--own", club.name, *words], {}
    line = [SELF, "--desk", club.name, *words]
    if os.geteuid() == 0:
        env = {**os.environ, "OFFICE_CLERK": clerk()}
        env.pop("SUDO_USER", None)
        return [sys.executable, "-I", *line], {
            "user": user.pw_uid,
            "group": user.pw_gid,
            "extra_groups": [],
            "env": env,
            "cwd": "/",
        }
    return [program("SUDO", "sudo"), "-n", "-u", user.pw_name, "--", *line], {}


def as_desk(club, words, given=None):
    """Runs a command as the desk's user. Returns the command's status and output."""
    line, how = desk_line(club, words)
    return ended_by_itself(
        line,
        given,
        stdin=subprocess.DEVNULL if given is None else subprocess.PIPE,
        stdout=subprocess.PIPE,
        **how,
    )


def make_pass(club, words):
    """Runs add-key or rotate-key. The root comes from an argument or from standard input. Without either, the root is random. The pass goes to
    standard output, or to a new file."""
    if words.command == "lost-pass":
        words.root, words.root_stdin, words.moment = None, False, LONG_AGO
    if words.root and words.root_stdin:
        raise fault(USAGE, "root or input", command=words.command)
    lost = lost_files(words)
    if words.to and os.path.lexists(words.to) and words.to not in lost:
        raise refusal("file there", path=words.to)
    if words.to and not os.access(os.path.dirname(words.to) or ".", os.W_OK):
        raise fault(OUTPUT, "no leave", path=os.path.dirname(words.to) or ".")
    root = (
        sys.stdin.buffer.read(200)
        if words.root_stdin
        else (words.root or secrets.token_hex(32)).encode()
    )
    line = [
        words.command.replace("lost-pass", "rotate-key"),
        *([f"--form={words.form}"] if words.form is not None else []),
        "--root-stdin",
        "--",
    ]
    line += [words.key, words.member if words.command == "add-key" else words.moment]
    status, text = as_desk(club, line, root)
    if status == 0:
        remove_lost(words, lost)
    if status or not words.to:
        show(text)
        return status
    try:
        named = name_new(written(words.to, text.decode()), words.to)
        synced(os.path.dirname(named) or ".")
    except OSError as failure:
        raise fault(OUTPUT, "pass unwritten", key=words.key, fault=failure) from None
    if named != words.to:
        raise fault(OUTPUT, "pass elsewhere", key=words.key, path=words.to, named=named)
    return 0


def lost_files(words):
    """For lost-pass, returns the files that contain the lost pass. Checks the file of --to, and the file where the command `letters` looks for the
    pass. For other commands, returns no files."""
    if words.command != "lost-pass":
        return []
    return [it for it in (words.to, os.path.join(PASSES, words.key)) if is_pass_of(it, words.key)]


def is_pass_of(path, key):
    """Returns whether a file has a pass of the key."""
    with contextlib.suppress(OSError, ValueError, TypeError), open(path, encoding="ascii") as file:
        return key_of(file.read(9_000).strip()) == key
    return False


def remove_given_up(keys):
    """Removes the passes of keys that are revoked, so that no letter uses them. Prints the path of each file."""
    for key in keys:
        path = os.path.join(PASSES, key)
        if is_pass_of(path, key):
            with contextlib.suppress(FileNotFoundError):
                os.unlink(path)
            print(say("given up removed", path=path), file=sys.stderr)


def remove_lost(words, paths):
    """Removes the files of a lost pass, so that no letter uses the pass. Prints the path of each file, except the path of the new pass."""
    for path in paths:
        with contextlib.suppress(FileNotFoundError):
            os.unlink(path)
        if os.path.abspath(path) != os.path.abspath(words.to or ""):
            print(say("lost removed", path=path), file=sys.stderr)


def read_book(club, words):
    """Prints the lines of the book, or only the lines that contain a word. The lines are in the book's file, and in the system's journal, where the
    desk's user wrote them."""
    status, text = as_desk(club, ["show-book"])
    found = [text]
    if status == 0 and is_in_journal(club):
        fields = [
            "SYSLOG_IDENTIFIER=clubdesk-office",
            f"CLUBDESK_CLUB={club.name}",
            f"_UID={desk_user(club).pw_uid}",
        ]
        line = ["/usr/bin/journalctl", "--quiet", "--no-pager", "--output=cat", *fields]
        if os.geteuid() != 0:
            line = [program("SUDO", "sudo"), "-n", *line]
        done = subprocess.run(line, stdin=subprocess.DEVNULL, stdout=subprocess.PIPE, check=False)
        status = done.returncode
        found.append(done.stdout)
    if status:
        return status
    # Only line feeds end lines, because a command may contain characters that other line readers treat as line ends.
    lines = [
        each.split("\n")[:-1] for each in (text.decode(errors="backslashreplace") for text in found)
    ]
    for line in heapq.merge(*lines, key=lambda line: line[:19]):
        if not words.word or words.word in line.split(" "):
            print(printable(line))
    return 0


def show_book(club):
    with contextlib.suppress(FileNotFoundError), open(book_of(club), "rb") as book:
        shutil.copyfileobj(book, sys.stdout.buffer)
    return 0


def ask_person(club, words):
    """Asks for a member's personal data. Passes the data to the desk's side through standard input, never in an argument."""
    status, text = as_desk(club, ["show-person", words.member])
    if status:
        return status
    person = json.loads(text)
    try:
        for what, value in person.items():
            answer = ask(say(f"ask {what}", now=value or "-"))
            person[what] = "" if answer == "-" else answer or value
    except Back:
        raise refusal("not confirmed") from None
    status, text = as_desk(club, ["set-person", words.member], json.dumps(person).encode())
    show(text)
    return status


def write_report(club, words):
    """Writes the board's page to a new file of the clerk, and also as PDF if the machine has a browser."""
    place = words.to or f"report-{words.year or time.strftime('%Y')}.html"
    if words.to and os.path.lexists(place):
        raise refusal("file there", path=place)
    status, text = as_desk(
        club,
        [
            "print-report",
            *([str(words.year)] if words.year else []),
            *(["--no-names"] if words.no_names else []),
        ],
    )
    if status:
        return status
    try:
        place = write_free(place, text.decode())
    except OSError as failure:
        raise fault(OUTPUT, "cannot be written", path=place, fault=failure) from None
    printed = print_to_pdf(place)
    print(say("report made in", files=f"{place}, {printed}" if printed else place))
    return 0


def print_to_pdf(place):
    """Prints the page as PDF with a browser of the machine. Returns the PDF's path, or None if the machine has no browser, if the browser fails, or
    if a file got the PDF's name in the meantime."""
    browser = shutil.which("chromium") or shutil.which("chromium-browser")
    made = os.path.splitext(place)[0] + ".pdf"
    if not browser or os.path.lexists(made):
        return None
    with tempfile.TemporaryDirectory() as folder, tempfile.TemporaryDirectory(
        prefix="pdf-", dir=os.path.dirname(made) or "."
    ) as beside:
        printed = os.path.join(os.path.abspath(beside), "printed.pdf")
        line = [
            browser,
            "--headless",
            "--no-pdf-header-footer",
            f"--user-data-dir={folder}",
            f"--print-to-pdf={printed}",
        ]
        line += ["--no-sandbox"] if os.geteuid() == 0 else []
        with contextlib.suppress(OSError, subprocess.TimeoutExpired):
            subprocess.run(
                [*line, f"file://{urllib.parse.quote(os.path.abspath(place))}"],
                capture_output=True,
                check=False,
                timeout=90,
            )
        if not os.path.exists(printed):
            return None
        os.chmod(printed, 0o600)  # the page has members' names
        return made if is_named(printed, made) else None


# ---- Files of the clerk.


def written(path, text):
    """Writes a complete file under a temporary name next to the final name. Returns the temporary name."""
    made = os.path.join(os.path.dirname(path) or ".", f".{os.path.basename(path)}.new")
    with contextlib.suppress(FileNotFoundError):
        os.unlink(made)
    file = os.open(made, os.O_WRONLY | os.O_CREAT | os.O_EXCL, 0o600)
    with os.fdopen(file, "w", encoding="utf-8") as out:
        out.write(text)
        out.flush()
        os.fsync(out.fileno())
    return made


def write_new(path, text):
    """Writes a complete new file."""
    if not is_named(written(path, text), path):
        raise FileExistsError(f"a file {path} was created in the meantime")
    synced(os.path.dirname(path) or ".")


def write_free(path, text):
    """Writes a complete new file under the first free name: letters.html, letters-2.html and so on. Returns the name."""
    made = written(path, text)
    try:
        for free in free_names(path):
            if is_named(made, free):
                synced(os.path.dirname(path) or ".")
                return free
    finally:
        with contextlib.suppress(FileNotFoundError):
            os.unlink(made)
    return None


def free_names(path):
    """Yields a path, and the paths with a number before the ending."""
    stem, ending = os.path.splitext(path)
    yield path
    for number in itertools.count(2):
        yield f"{stem}-{number}{ending}"


def write_again(path, text):
    """Replaces one of the office's own files with a complete new file."""
    os.rename(written(path, text), path)
    synced(os.path.dirname(path) or ".")

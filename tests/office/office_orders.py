"""The part of office_holds.py that tests the configuration, passes, lists, the book, and the commands that the office passes on to clubdesk."""

import fcntl
import os
import re
import subprocess
import time
from concurrent.futures import ThreadPoolExecutor
from pathlib import Path

from helps import names_of, options_of, printed, words_of
from office_checks import AT, BOOK, DAY, LINE, TURN, YES, account, book, book_lines, lines, refused
from office_room import (
    CLUB,
    HOME,
    NOON,
    TESTS,
    begun,
    configure,
    desk,
    done,
    mode,
    office,
    rows,
    run_as,
    same,
)


def before_there_is_a_club():
    same(
        "a club that isn't configured",
        office("members"),
        (1, "", "refused: no club club is configured: there is no /etc/clubdesk/club.conf\n"),
    )
    for wrong in ("../club", "Club", "-club", "", "club;id", "a" * 25):
        same(
            f"an invalid club name: {wrong!r}",
            run_as("anna", "office", "--", wrong, "members")[0],
            3,
        )
    configure()
    Path("/etc/clubdesk/empty.conf").write_text("zone = UTC0\n", encoding="ascii")
    same("a configuration without a file", office("members", club="empty")[0], 5)
    for words in (
        ["members"],
        ["credit", "amy", "5"],
        ["sheet", DAY],
        ["debit", "amy", "5", "--yes"],
        ["check"],
    ):
        refused(words, 1, f"refused: there is no file {CLUB}", keeps=False)
        same("no file is made", [it for it in os.listdir(HOME) if it in ("club", "club-wal")], [])
    same("a user who isn't a clerk", office("new", by="carl")[0], 1)
    same("no file is made by that user", CLUB.exists(), False)
    same("new", done("new"), "done\n")
    same("the file's owner and mode", mode(CLUB), "clubdesk 100600")
    refused(["new"], 1, f"refused: the file {CLUB} already exists")


def as_nobody_else():
    """A clerk can run only the office's commands as another user, and can't read the desk's files. The desk's user can't end services other than the
    desk."""
    for user, line in (
        ("anna", "sudo -n -u clubdesk id"),
        ("anna", "sudo -n -u clubdesk /usr/bin/office club members"),
        ("anna", "sudo -n id"),
        ("anna", "sudo -n /usr/bin/office --desk club members"),
        ("anna", "sudo -n /usr/bin/systemctl kill clubdesk@club.service"),
        ("anna", "sudo -n /usr/bin/journalctl"),
        ("anna", "sudo -n OFFICE_CONF=/tmp -u clubdesk /usr/bin/office --desk club members"),
        ("anna", f"cat {CLUB}"),
        ("anna", f"ls {HOME}"),
        ("clubdesk", "sudo -n /usr/bin/systemctl kill clubdesk@club.service ssh.service"),
        ("clubdesk", "sudo -n /usr/bin/systemctl stop clubdesk@club.service"),
    ):
        same(f"{line} by {user}", run_as(user, *line.split(), folder="/")[0] != 0, True)
    same(
        "two units in a word",
        run_as(
            "clubdesk",
            "sudo",
            "-n",
            "/usr/bin/systemctl",
            "kill",
            "clubdesk@x ssh.service",
            folder="/",
        )[0]
        != 0,
        True,
    )


def commands_and_looks():
    """The office returns clubdesk's exit status, and prints clubdesk's output."""
    for words in (
        "add-member amy 5",
        "credit amy 10000",
        "add-member bob 2",
        "credit bob 3000",
        "add-facility court-1 court 4 200 8 22",
        "add-facility court-2 court 4 200 8 22",
        "add-facility boat-1 boat 2 50 6 20",
        f"close-slot court-1 {DAY} 09",
    ):
        same(words, office(*words.split()), (0, "done\n", ""))
    for words, line in (
        ("add-member amy 5", "exists"),
        ("credit nobody 5", "unknown"),
        ("credit amy 0", "out of range"),
        ("revoke-key nobody-1", "unknown"),
    ):
        same(words, office(*words.split()), (1, "", f"refused: {line}\n"))
    for words in (
        ["add-member", "Amy", "5"],
        ["credit", "amy'; DROP TABLE members; --", "5"],
        ["close-slot", "court-1", "2026-02-30", "09"],
    ):
        same(" ".join(words), office(*words), (3, "", "bad value\n"))
    for words in (
        ["add-member", "amy"],
        ["credit"],
        ["serve", "--port", "0"],
        ["pause", "5"],
        ["import-row", "amy", "1", "1", "x"],
        ["credi", "amy", "1"],
    ):
        same(f"invalid words: {words}", office(*words)[0], 2)
    same(
        "the version",
        run_as("anna", "office", "--version")[1],
        run_as("anna", "clubdesk", "--version")[1].replace("clubdesk", "office"),
    )


def passes():
    """The root of a new key is random, or comes from standard input, or is an argument. The office writes the pass into a new file, or prints it."""
    same("a pass in a file", done("add-key", "amy-1", "amy", "--to", "amy-1"), "")
    text = run_as("anna", "cat", "amy-1")[1]
    same("its mode", run_as("anna", "stat", "-c", "%a %U", "amy-1")[1], "600 anna\n")
    refused(
        ["add-key", "amy-2", "amy", "--to", "amy-1"], 1, "refused: the file amy-1 already exists"
    )
    same("the file stays", run_as("anna", "cat", "amy-1")[1], text)
    refused(
        ["add-key", "amy-2", "amy", "--to", "/root/amy-2"], 7, "no permission to write to /root"
    )
    refused(["add-key", "amy-1", "amy", "--to", "other"], 1, "refused: exists")
    same(
        "no file of a refused command",
        run_as("anna", "ls", "-A")[1].split(),
        [".bash_logout", ".bashrc", ".profile", "amy-1"],
    )
    root = "5ec4e7" + "0" * 58
    shown = done("add-key", "bob-1", "bob", "--root-stdin", given=root + "\n")
    same(
        "a root from standard input",
        run_as("anna", "passtool", "verify", "--root", root, given=shown)[1],
        "signed\n",
    )
    shown = done("add-key", "bob-2", "bob", "aa" * 16, "--form", "json")
    same("a form", shown[:1], "{")
    same(
        "a root twice",
        office("add-key", "bob-3", "bob", "aa" * 16, "--root-stdin", given=root)[0],
        2,
    )
    same("a short root", office("add-key", "bob-3", "bob", "--root-stdin", given="aa")[0], 3)
    same("another form", office("add-key", "bob-3", "bob", "--form", "v9")[0], 2)
    same(
        "no root in the book",
        [secret for secret in (root, "aa" * 16) if secret in BOOK.read_text(encoding="utf-8")],
        [],
    )
    return text.strip(), shown.strip()


def looks(server, amy):
    for words in (
        ["sheet", DAY],
        ["show-slot", "court-1", DAY, "18"],
        ["show-account", "amy-1", *AT],
    ):
        same(f"office {words}", (0, done(*words)), desk(*words))
    told, names = dict(line.rsplit(" ", 1) for line in lines("show-account", "amy-1", *AT)), (
        "member",
        "balance",
        "quota",
        "open",
        "spent",
    )
    same(
        "the account",
        {it: str(value) for it, value in account(server, amy).items()},
        {it: told[it] for it in names},
    )


def lists(server, amy, bob):
    book(server, amy, "court-1", 18, 7, 2)
    book(server, bob, "boat-1", 7, 3, 1)
    book(server, amy, "court-2", 10, 8, 0, "2026-04-21")
    done("rotate-key", "bob-1", "2026-05-02T00:00", "--to", "bob-1")
    same(
        "members",
        lines("members", "--csv", *AT),
        ["member,balance,quota,open,keys", "amy,9200,5,2,1", "bob,2900,2,1,2"],
    )
    same(
        "members, aligned",
        lines("members", *AT),
        [
            "member  balance  quota  open  keys",
            "amy        9200      5     2     1",
            "bob        2900      2     1     2",
        ],
    )
    same(
        "facilities",
        lines("facilities", "--csv")[1:],
        ["boat-1,boat,2,50,6,20", "court-1,court,4,200,8,22", "court-2,court,4,200,8,22"],
    )
    same(
        "keys",
        lines("keys", "bob", "--csv"),
        ["key,revoked,older root until,spent", "bob-1,no,2026-05-02T00:00,0", "bob-2,no,none,100"],
    )
    same(
        "bookings of a member",
        lines("bookings", "amy", "--csv", *AT)[1:],
        ["2026-04-21,10,court-2,amy,amy-1,8,1,200", "2026-05-01,18,court-1,amy,amy-1,7,3,600"],
    )
    same(
        "bookings of a day",
        lines("bookings", DAY, "--csv")[1:],
        ["2026-05-01,7,boat-1,bob,bob-2,3,2,100", "2026-05-01,18,court-1,amy,amy-1,7,3,600"],
    )
    same(
        "bookings of a facility",
        lines("bookings", "court-2", "--csv", *AT)[1:],
        ["2026-04-21,10,court-2,amy,amy-1,8,1,200"],
    )
    same(
        "no past bookings",
        lines("bookings", "court-2", "--csv", "--at", "2026-04-22T00:00")[1:],
        [],
    )
    same(
        "all bookings",
        lines("bookings", "court-2", "--all", "--csv", "--at", "2026-04-22T00:00")[1:],
        ["2026-04-21,10,court-2,amy,amy-1,8,1,200,no,0"],
    )
    same(
        "money",
        done("money", "amy", "--csv"),
        "member,credited,charged,refunded,balance\namy,10000,800,0,9200\n",
    )
    same("money of all members", len(lines("money")), 3)
    same("closed", done("closed", "--csv", *AT), f"facility,day,hour\ncourt-1,{DAY},9\n")
    same("check", done("check"), "the stored totals match the sums of the bookings\n")
    for words, status in (
        (["keys", "nobody"], 1),
        (["bookings", "nobody"], 1),
        (["bookings", "2026-13-01"], 3),
        (["money", "x'y"], 3),
        (["keys", "a b"], 3),
    ):
        refused(words, status, "refused" if status == 1 else "bad value")
    same("files that a list leaves", [f for f in os.listdir(HOME) if f.startswith(".")], [])
    begun = server.starts
    for _ in range(5):
        done("members")
    same("lists don't restart the server", server.starts, begun)


def takes_turns():
    """Only one command runs at a time. A second command waits until the running command has ended."""

    def balance():
        return rows("SELECT credited - used FROM members WHERE name = 'amy'")[0][0]

    with open(TURN, "r+", encoding="ascii") as turn:
        fcntl.flock(turn, fcntl.LOCK_EX)
        commands = [
            begun(*words) for words in (["credit", "amy", "1"], ["debit", "amy", "1", *YES])
        ]
        for command in commands:
            same(
                "a command prints that it waits",
                command.stderr.readline(),
                "waiting for another command\n",
            )
        same("both commands wait", [command.poll() for command in commands], [None, None])
        before = balance()
    for command in commands:
        command.communicate()
    same("both commands succeed", [command.returncode for command in commands], [0, 0])
    same("the balance after both commands", balance(), before)
    with ThreadPoolExecutor(7) as pool:
        for _ in range(6):
            pool.submit(done, "credit", "amy", "10", by="ben")
        pool.submit(done, "debit", "amy", "5", *YES)
    same("seven simultaneous commands", balance(), before + 55)


def in_the_book():
    found = book_lines()
    same(
        "the book's first lines", found[:3], ["anna 0 new", "anna 1 new", "anna 0 add-member amy 5"]
    )
    same("each line", [line for line in lines("log") if not re.fullmatch(LINE, line)], [])
    same("lines of another clerk", len([line for line in found if line.split()[0] == "ben"]), 6)
    same(
        "a refused command",
        [line for line in found if " credit nobody " in line],
        ["anna 1 credit nobody 5"],
    )
    same(
        "a word with spaces",
        [line for line in found if "DROP" in line and " credit " in line],
        ["anna 3 credit 'amy'\"'\"'; DROP TABLE members; --' 5"],
    )
    same(
        "lines with bob",
        book_lines("bob")[:2],
        ["anna 0 add-member bob 2", "anna 0 credit bob 3000"],
    )
    same(
        "a refused correction",
        [line for line in found if " cancel amy-1 77 " in line],
        [f"anna 1 cancel amy-1 77 --at {NOON}"],
    )
    same(
        "no lines for lists",
        [line for line in found if line.split()[2] in ("sheet", "members", "show-account", "log")],
        [],
    )
    same("its mode", mode(BOOK), "clubdesk 100600")
    TURN.write_text("2026-04-20T12:00:00 ben ? credit amy 7\n", encoding="ascii")
    done("credit", "amy", "1")
    same("an interrupted command", book_lines()[-2:], ["ben ? credit amy 7", "anna 0 credit amy 1"])


def in_the_journal():
    """The office reads the book from systemd's journal, and ignores lines that other users wrote."""
    journal = subprocess.Popen(
        ["/lib/systemd/systemd-journald"], stdout=subprocess.DEVNULL, stderr=subprocess.DEVNULL
    )
    entry = Path("/run/systemd/journal/socket")
    for _ in range(100):
        if entry.exists():
            break
        time.sleep(0.05)
    kept, was = BOOK.read_bytes(), book_lines()
    done("credit", "amy", "11")
    done("credit", "amy", "12", by="ben")
    forged = "MESSAGE=2026-04-20T12:00:00 ben 0 credit amy 13\nSYSLOG_IDENTIFIER=clubdesk-office\nCLUBDESK_CLUB=club\n"
    run_as("anna", "logger", "--journald", "--socket", entry, given=forged)
    run_as(
        "anna",
        "python3",
        "-c",
        f"import socket; s = socket.socket(socket.AF_UNIX, socket.SOCK_DGRAM); s.sendto({forged.encode()!r}, '{entry}')",
    )
    time.sleep(1)
    seen = run_as(
        "root",
        "journalctl",
        "--quiet",
        "--no-pager",
        "--output=cat",
        "SYSLOG_IDENTIFIER=clubdesk-office",
        folder="/",
    )[1]
    same("the forged line is in the journal", "credit amy 13" in seen, True)
    same(
        "the lines in the journal and in the file",
        book_lines(),
        [*was, "anna 0 credit amy 11", "ben 0 credit amy 12"],
    )
    same("the file stays", BOOK.read_bytes(), kept)
    long = ["x\u2028" * 200] * 6
    same("a long command", office("add-facility", *long)[0], 3)
    time.sleep(1)
    (line,) = (line for line in lines("log") if " add-facility 'x" in line)
    same(
        "the long command's line is truncated",
        (len(line) < 8_000, line.endswith(" bytes]")),
        (True, True),
    )
    journal.terminate()
    journal.wait()
    entry.unlink()


def manual():
    """The manual page has exactly the commands of --help, with their words and options."""
    page = {}
    for line in re.findall(
        r"^\.It Cm (?!FILE|STOP|ZONE|PORT|BOOK)(.*)",
        (TESTS.parent / "man" / "office.1").read_text(encoding="ascii"),
        re.MULTILINE,
    ):
        command, *words = line.replace(" Ns - Ns Ar ", "-").split()
        page[command] = {
            f"-{it}" if it.startswith("-") else it
            for it in words
            if re.fullmatch(r"-[a-z-]+|[A-Z][A-Z-]+", it)
        }
    same("the commands of the manual page", set(page), names_of(printed("office", "--help")))
    for command, words in sorted(page.items()):
        text = printed("office", "club", command, "--help")
        names = [
            *words_of(text),
            *filter(None, options_of(text).values()),
            *(f"--{it}" for it in options_of(text) if it != "help"),
        ]
        found = set("|".join(names).split("|")) - {""}
        always = {"--yes", "--at", "MOMENT"} if "--yes" in found and command != "import" else set()
        same(f"the words of {command}", words, found - (always - words))

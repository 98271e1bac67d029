"""The part of office_holds.py that tests hostile clerks, full memory, a full disk, and a journal that reads nothing."""

import contextlib
import json
import os
import pwd
import re
import shutil
import signal
import socket
import subprocess
import time
from concurrent.futures import ThreadPoolExecutor
from pathlib import Path

import psutil

from office_checks import AT, BOOK, DAY, LINE, TURN, YES, book_lines, refused
from office_room import CLUB, HOME, NOON, ROOM, begun, done, kill, office, rows, run_as, same, whole


def journal_that_is_silent():
    """If the program behind the journal's socket reads nothing, commands don't wait for that program. The office writes each command's line
    into the book's file instead."""
    entry = Path("/run/systemd/journal/socket")
    entry.parent.mkdir(parents=True, exist_ok=True)
    with socket.socket(socket.AF_UNIX, socket.SOCK_DGRAM) as silent, socket.socket(
        socket.AF_UNIX, socket.SOCK_DGRAM
    ) as sender:
        silent.bind(str(entry))
        entry.chmod(0o666)
        sender.setblocking(False)
        with contextlib.suppress(BlockingIOError):
            while True:
                sender.sendto(b"MESSAGE=full\n", str(entry))
        command = begun("credit", "amy", "14")
        try:
            command.communicate(timeout=60)
        except subprocess.TimeoutExpired:
            kill(command)
    entry.unlink()
    same("a command while the journal is silent", command.returncode, 0)
    same(
        "the command's line is in the file",
        BOOK.read_text(encoding="utf-8").splitlines()[-1].split(" ", 1)[1],
        "anna 0 credit amy 14",
    )


def copies_of_one_second():
    """If a clerk makes several corrections within one second, the office keeps a copy for each of them."""
    before = len(list((HOME / "club-before").glob("*-debit*")))
    with ThreadPoolExecutor(6) as pool:
        for _ in range(6):
            pool.submit(done, "debit", "amy", "1", *YES)
    made = sorted(it.name for it in (HOME / "club-before").glob("*-debit*"))
    same("a copy for each correction within one second", len(made) - before, 6)
    same(
        "two copies from the same second",
        [it for it in made if re.search("-debit-[0-9]$", it)] != [],
        True,
    )
    same("the list has these copies", [it for it in made if it not in done("copies", "--csv")], [])


def moments_to_come():
    """The office refuses a correction whose --at is in the future, because the correction would treat bookings before that moment as past."""
    for words in (
        ["new-year"],
        ["set-facility", "court-1", "--hours", "8-9"],
        ["cancel", "amy-1", "--all"],
        ["restore", "2026-01-01T000000Z"],
    ):
        refused(
            [*words, "--yes", "--at", "2099-12-31T00:00"],
            1,
            "refused: --at 2099-12-31T00:00 is in the future: it is now 20",
        )
    same(
        "the refusal in the book",
        book_lines()[-1],
        "anna 1 restore 2026-01-01T000000Z --at 2099-12-31T00:00",
    )


def lines_that_are_forged():
    """In the book, the office escapes bytes that aren't UTF-8, and characters that end a line or change how a terminal shows the line. The
    book also has a line for each unconfirmed command."""
    before = len(book_lines())
    forged = f"{NOON}:00 ben 0 credit amy 13"
    for end in ("\n", "\r", "\x0b", "\x0c", "\x1c", "\x85", "\x9b2J", "\u2028", "\u2029", "\u202e"):
        same(f"a word with {end!r}", office("credit", f"amy{end}{forged}", "5")[0] != 0, True)
    for data in (b"amy\xff", b"\xc2\x85\xe2\x80", b"\xed\xb3\xbf"):
        status, _, errors = office("credit", data, "5")
        same(f"a word of bytes {data}", (status != 0, "Traceback" in errors), (True, False))
    found = book_lines()[before:]
    same(
        "one line for each command",
        (len(found), [it for it in found if not re.match("anna [0-9] credit ", it)]),
        (13, []),
    )
    same(
        "each line",
        [
            line
            for line in done("log").split("\n")[:-1]
            if not re.fullmatch(LINE.replace("[0-9] ", "[0-9?] "), line)
        ],
        [],
    )
    same(
        "an escape that a clerk typed",
        (office("credit", "amy\\x85", "5")[0], book_lines()[-1]),
        (3, "anna 3 credit 'amy\\\\x85' 5"),
    )
    before = len(book_lines())
    same("too many words", office("close", DAY, "10-11", *["court-1"] * 30_000, "--yes")[0], 3)
    same("a long word", office("credit", "a" * 2_000, "5")[0], 3)
    same("no lines for these commands", len(book_lines()), before)
    refused(["debit", "amy", "1", *AT], 1, "refused: not confirmed", given="n\n")
    same("a correction that isn't confirmed", book_lines()[-1], f"anna 1 debit amy 1 --at {NOON}")
    refused(["debit", "nobody", "1", *AT], 1, "refused: there is no member nobody")
    same("a refused correction", book_lines()[-1], f"anna 1 debit nobody 1 --at {NOON}")


def orders_that_cannot_be_read():
    """A power cut may leave half a line in the book. The office keeps this half, and shows it as a line with a question mark."""
    for left in (
        b"\0" * 40,
        b"2026-04-20T12:00:00 b",
        b'{"moment"',
        b"2026-04-20T12:00:00 ben 0 credit amy 9\n2026",
    ):
        TURN.write_bytes(left)
        done("credit", "amy", "1")
        same(
            f"the rest of a line: {left}",
            re.match("unknown [?] .a command that can't be read. ", book_lines()[-2]) is not None,
            True,
        )
    TURN.write_bytes(b"2026-04-20T12:00:00 ben ? cred\xff\n\x85")
    done("credit", "amy", "1")
    same("a truncated line", book_lines()[-2], "ben ? cred\\xff\\x0a\\x85")
    BOOK.write_text(
        BOOK.read_text(encoding="utf-8") + "2026-04-20T12:00:00 anna 0 cred", encoding="utf-8"
    )
    done("credit", "amy", "1")
    same("below a truncated line", book_lines()[-2:], ["anna 0 cred", "anna 0 credit amy 1"])


def programs_of_a_clerk():
    """A part of the office runs as the desk's user. A clerk can't choose the programs or folders of this part, even if sudo passes on the
    clerk's environment."""
    home, lax = Path("/home/anna"), Path("/etc/sudoers.d/zz-lax")
    (home / "bin").mkdir()
    (home / "conf").mkdir()
    home.chmod(0o755)
    for name in ("clubdesk", "sqlite3", "sh", "cp", "sudo", "mktemp", "cmp"):
        program = home / "bin" / name
        program.write_text(
            f'#!/bin/sh\n[ "$(id -un)" != clubdesk ] || echo "$0" >>{ROOM}/ran-as-desk\nexec {shutil.which(name)} "$@"\n'
        )
        program.chmod(0o755)
    (home / "conf" / "club.conf").write_text(
        "FILE=/var/lib/clubdesk/other\nSTOP=/home/anna/bin/sh -c :\n"
    )
    sudoers = Path("/etc/sudoers")
    kept = sudoers.read_text(encoding="utf-8")
    sudoers.write_text(
        re.sub("^Defaults.*secure_path.*$", "", kept, flags=re.MULTILINE), encoding="utf-8"
    )
    lax.write_text('Defaults env_keep += "CLUBDESK OFFICE_CONF SUDO PATH"\n')
    lax.chmod(0o440)
    ran = ROOM / "ran-as-desk"
    ran.write_text("")
    ran.chmod(0o666)
    variables = f"CLUBDESK={home}/bin/clubdesk SUDO={home}/bin/sudo OFFICE_CONF={home}/conf PATH={home}/bin:{os.environ['PATH']}".split()
    line = "sudo -n -u clubdesk /usr/bin/office --desk club".split()
    for words in (["sheet", DAY], ["members"], ["credit", "amy", "1"], ["debit", "amy", "1", *YES]):
        same(
            f"{words} with a clerk's programs",
            run_as("anna", "env", *variables, *line, *words)[0],
            0,
        )
        same(
            f"{words} on the clerk's side",
            run_as("anna", "env", *variables[:2], variables[3], "office", "club", *words)[0],
            0,
        )
    same("a clerk's programs that ran as the desk's user", ran.read_text(), "")
    same(
        "sudo has its own path",
        "secure_path=" in Path("/etc/sudoers.d/clubdesk-office").read_text(encoding="utf-8"),
        True,
    )
    same("no other club", (HOME / "other").exists(), False)
    lax.unlink()
    sudoers.write_text(kept, encoding="utf-8")


def inner_words():
    """The office's part that runs as the desk's user refuses wrong arguments from the clerk's part, and then changes nothing."""
    line = "sudo -n -u clubdesk /usr/bin/office --desk club import-row zed 1 5 zed-1".split()
    for given in ("", "00", "g" * 64, f"{'0' * 64} x", "0" * 63):
        same(f"the roots {given}", run_as("anna", *line, given=given)[0], 3)
    same("no member is added", rows("SELECT count(*) FROM members WHERE name = 'zed'"), [(0,)])


def desk_side(command):
    """Waits until the command calls clubdesk. Returns those of the command's processes that run as the desk's user."""
    user = pwd.getpwnam("clubdesk").pw_uid
    for _ in range(400):
        with contextlib.suppress(psutil.NoSuchProcess):
            found = [
                it
                for it in psutil.Process(command.pid).children(recursive=True)
                if it.uids().effective == user
            ]
            if any("sleep" in it.name() for it in found):
                return found
        time.sleep(0.02)
    return []


@contextlib.contextmanager
def slow_clubdesk():
    """Replaces clubdesk with a script that waits two seconds before a credit or a new key. The script writes its variable HOME into a file."""
    program, whole_one, home = (
        Path("/usr/bin/clubdesk"),
        ROOM / "clubdesk-whole",
        ROOM / "home-of-clubdesk",
    )
    shutil.copy2(program, whole_one)
    program.unlink()
    program.write_text(
        f'#!/bin/sh\necho "$HOME" >{home}\ncase $1 in credit | add-key) sleep 2 ;; esac\nexec {whole_one} "$@"\n'
    )
    program.chmod(0o755)
    home.write_text("")
    home.chmod(0o666)
    ROOM.chmod(0o755)
    yield
    program.unlink()
    shutil.copy2(whole_one, program)


def terminals_that_stop():
    """Once a command of `office` has started clubdesk, neither Ctrl-Z nor closing the terminal stops the command."""
    with slow_clubdesk():
        for number in (signal.SIGTSTP, signal.SIGHUP, signal.SIGTTOU):
            command = begun("credit", "amy", "3")
            sent = desk_side(command)
            for it in sent:
                with contextlib.suppress(psutil.NoSuchProcess):
                    it.send_signal(number)
            try:
                command.communicate(timeout=60)
            except subprocess.TimeoutExpired:
                kill(command)
            same(f"a command at signal {number}", (sent != [], command.returncode), (True, 0))
        done("credit", "amy", "1")


def terminals_that_take_nothing():
    """If a command can't write to its standard error, for example after Ctrl-S, other commands don't wait for this command."""
    taken, full = os.pipe()
    os.set_blocking(full, False)
    with contextlib.suppress(BlockingIOError):
        while True:
            os.write(full, bytes(4096))
    os.set_blocking(full, True)
    line = "runuser -u clubdesk -- office --desk club credit nobody-2 1".split()
    with subprocess.Popen(
        line, stdin=subprocess.DEVNULL, stdout=subprocess.DEVNULL, stderr=full, cwd="/"
    ) as command:
        for _ in range(500):
            if "credit nobody-2 1" in BOOK.read_text(encoding="utf-8") + TURN.read_text(
                encoding="utf-8"
            ):
                break
            time.sleep(0.02)
        same(
            "a command next to a terminal that accepts no output",
            office("credit", "amy", "1")[::2],
            (0, ""),
        )
        kill(command)
    os.close(taken)
    os.close(full)
    same(
        "its line",
        [
            it.split(" ", 1)[1]
            for it in BOOK.read_text(encoding="utf-8").splitlines()
            if "nobody-2" in it
        ],
        ["clubdesk 1 credit nobody-2 1"],
    )


def folder_of_a_clerk():
    """The office's part that runs as the desk's user gets that user's home folder, even if sudo passes on the clerk's home folder. Otherwise a mailer
    would read a configuration file in the clerk's home folder."""
    lax = Path("/etc/sudoers.d/zz-lax")
    lax.write_text('Defaults env_keep += "HOME"\n')
    lax.chmod(0o440)
    with slow_clubdesk():
        same(
            "a command",
            run_as(
                "anna",
                "env",
                "HOME=/home/anna",
                *"sudo -n -u clubdesk /usr/bin/office --desk club credit amy 1".split(),
            )[0],
            0,
        )
        same(
            "the folder of the desk's user",
            (ROOM / "home-of-clubdesk").read_text(encoding="utf-8"),
            f"{pwd.getpwnam('clubdesk').pw_dir}\n",
        )
    lax.unlink()


def file_that_came_since():
    """While the office makes a key, another program may create a file with the name of the pass. The office doesn't overwrite the other program's
    file, and writes the pass into a file with another name."""
    with slow_clubdesk():
        command = begun("add-key", "amy-8", "amy", "--to", "amy-8")
        desk_side(command)
        run_as("anna", "sh", "-c", "echo mine >amy-8")
        _, errors = command.communicate()
    same(
        "a file made in the meantime",
        (command.returncode, errors),
        (
            7,
            "the key amy-8 was added or changed. Its pass is in amy-8-2, because a file amy-8 was created in the meantime\n",
        ),
    )
    same("the other program's file stays", run_as("anna", "cat", "amy-8")[1], "mine\n")
    same("the pass", run_as("anna", "sh", "-c", "passtool show <amy-8-2")[1].count("key:amy-8"), 1)
    run_as("anna", "sh", "-c", "mkdir -p came; printf 'name,quota,points\\nIda,1,1\\n' >ida.csv")
    with slow_clubdesk():
        command = begun("import", "ida.csv", "--passes", "came", "--yes")
        desk_side(command)
        run_as("anna", "sh", "-c", "echo mine >came/ida-1")
        _, errors = command.communicate()
    same(
        "an import next to such a file",
        (command.returncode, "isn't this row's pass" in errors),
        (1, True),
    )
    same("the import again", office("import", "ida.csv", "--passes", "came", "--yes")[0], 1)
    same("the other program's second file stays", run_as("anna", "cat", "came/ida-1")[1], "mine\n")
    run_as("anna", "rm", "came/ida-1")
    done("import", "ida.csv", "--passes", "came", "--yes")
    root = rows("SELECT hex(root) FROM keys WHERE name = 'ida-1'")[0][0]
    same(
        "the key's pass",
        run_as("anna", "sh", "-c", f"passtool verify --root {root} <came/ida-1")[1],
        "signed\n",
    )


def page_that_came_since():
    """While a browser prints the board's page, another program may create a file with the page's name. The office doesn't overwrite the other
    program's file, and doesn't report it as the page."""
    browser, kept = Path("/usr/bin/chromium"), Path("/usr/bin/chromium-kept")
    if browser.exists():
        browser.rename(kept)
    browser.write_text(
        '#!/bin/sh\nfor it; do case $it in --print-to-pdf=*) echo mine >board.pdf; echo printed >"${it#*=}" ;; esac; done\n',
        encoding="ascii",
    )
    browser.chmod(0o755)
    same("only the board's page", ".pdf" in done("report", "--to", "board.html"), False)
    same(
        "a page made in the meantime",
        run_as("anna", "sh", "-c", "cat board.pdf; ls -d pdf-*")[1],
        "mine\n",
    )
    browser.unlink()
    if kept.exists():
        kept.rename(browser)


def clubs_beside():
    """For a club with the name `other`, the office makes files such as other-book next to the club's file. If a second club already has its own file
    under such a name, the office refuses commands for the club `other`. The second club's file stays unchanged.
    """
    for ending in (
        "before",
        "book",
        "metrics",
        "new",
        "office",
        "offsite",
        "orders",
        "people.csv",
        "reasons",
        "seasons",
        "undo",
        "until-2026-12-31",
        "wal",
    ):
        file, configuration = HOME / f"other-{ending}", Path(f"/etc/clubdesk/other-{ending}.conf")
        file.write_bytes(b"another club")
        for path, of in ((configuration, file), (Path("/etc/clubdesk/other.conf"), HOME / "other")):
            path.write_text(f"FILE={of}\n", encoding="utf-8")
        for words in (["credit", "amy", "1"], ["members"], ["new"]):
            status, _, errors = office(*words, club="other")
            same(
                f"{words} next to a club other-{ending}",
                (status, f"{file} is the file of the club other-{ending}" in errors),
                (1, True),
            )
        same(f"the file of other-{ending}", file.read_bytes(), b"another club")
        configuration.unlink()
        file.unlink()
    same("no file is made", [it.name for it in HOME.glob("other*")], [])
    names = ("other-newcomers", "other-bookings", "others")
    for name in names:
        Path(f"/etc/clubdesk/{name}.conf").write_text(f"FILE={HOME / name}\n", encoding="utf-8")
    same(
        "next to clubs whose names only begin the same way",
        office("new", club="other")[::2],
        (0, ""),
    )
    for it in [
        *HOME.glob("other*"),
        *(Path(f"/etc/clubdesk/{name}.conf") for name in ("other", *names)),
    ]:
        it.unlink()


def memory_that_is_full():
    """If the file system in memory is full, the office makes its temporary copies next to the club's file. The next command removes the copies that
    killed commands left."""
    memory, user = Path("/dev/shm"), pwd.getpwnam("clubdesk")
    subprocess.run(["mount", "-o", "remount,size=200k", memory], check=True)
    (memory / "rest").write_bytes(bytes(190_000))
    began = time.monotonic()
    same("a list without memory", office("members")[::2], (0, ""))
    same("a correction", office("debit", "amy", "1", *YES)[::2], (0, ""))
    same("its time", time.monotonic() - began < 8, True)
    (memory / "rest").unlink()
    subprocess.run(["mount", "-o", "remount,size=50%,nr_inodes=20", memory], check=True)
    for count in range(20):
        with contextlib.suppress(OSError):
            (memory / f"rest-{count}").touch()
    same("a list without free inodes in memory", office("members")[::2], (0, ""))
    same(
        "a correction without free inodes in memory",
        office("debit", "amy", "1", *YES)[::2],
        (0, ""),
    )
    for rest in memory.glob("rest-*"):
        rest.unlink()
    subprocess.run(["mount", "-o", "remount,nr_inodes=100k", memory], check=True)
    process = psutil.Process(os.getpid())
    started = (
        Path(f"/proc/{process.pid}/stat").read_text(encoding="ascii").rpartition(")")[2].split()[19]
    )
    gone, alive = (f".office-{process.pid}-{it}-x" for it in (int(started) - 1, started))
    for home in (memory, HOME):
        for called in (gone, alive):
            (home / called).mkdir()
            (home / called / "copy").write_bytes(b"roots")
            os.chown(home / called, user.pw_uid, user.pw_gid)
    (HOME / "club-before" / ".2026-01-01T00-00-00-debit.new").write_bytes(b"roots")
    done("credit", "amy", "1")
    same(
        "copies that killed commands left",
        [it.name for home in (memory, HOME) for it in home.glob(".office-*")],
        [alive, alive],
    )
    same("unnamed copies", list((HOME / "club-before").glob(".*")), [])
    for home in (memory, HOME):
        shutil.rmtree(home / alive)


def disk_that_is_full():
    """On a full disk, a command's exit status shows whether the command was done. A failed command changes nothing. When the disk has space again,
    all commands work."""

    def credited():
        return rows("SELECT credited FROM members WHERE name = 'amy'")[0][0]

    before = credited()
    used = shutil.disk_usage(ROOM).used
    subprocess.run(["mount", "-o", f"remount,size={used // 1024 + 12}k", ROOM], check=True)
    ended = [
        office(*words)[0]
        for words in (
            ["credit", "amy", "1"],
            ["debit", "amy", "100", *YES],
            ["close", "2026-06-01", "9-19", "court-1", *YES],
            ["credit", "amy", "1"],
        )
    ]
    copies = office("copies")[0]
    subprocess.run(["mount", "-o", "remount,size=50%", ROOM], check=True)
    same("commands on a full disk", (set(ended) <= {0, 5}, 5 in ended), (True, True))
    same(
        "the statuses match the points",
        credited() - before,
        (ended[0] == 0) - 100 * (ended[1] == 0) + (ended[3] == 0),
    )
    same(
        "closed slots",
        len(rows("SELECT * FROM slots WHERE closed = 1 AND day = 20605")),
        10 * (ended[2] == 0),
    )
    same("the list of copies", copies, 0)
    whole("a full disk")
    done("credit", "amy", "1")
    done("debit", "amy", "1", *YES)


def titles_of_the_page():
    """The program club_json copies the facilities' titles into club.json. It refuses a faulty line and prints the line's number."""

    def made(text):
        titles = ROOM / "titles"
        titles.write_bytes(text)
        line = [
            "env",
            "RULE=UTC0",
            "CLUB=Club",
            f"TITLES={titles}",
            "/usr/lib/clubdesk/club_json",
            CLUB,
            "Etc/UTC",
        ]
        return run_as("root", *line, folder="/")

    status, out, errors = made(
        b'\xef\xbb\xbf# titles\r\n\r\ncourt-1\t"Centre" Court\tone \r\ncourt-2 Pl\xc3\xa4tzchen'
    )
    found = {
        it["name"]: it.get("title") for it in json.loads(out or '{"facilities":[]}')["facilities"]
    }
    same(
        "titles",
        (status, errors, found),
        (0, "", {"court-1": '"Centre" Court one', "court-2": "Plätzchen", "boat-1": None}),
    )
    for text, line in (
        (b"court-1 A\ncourt-2 B\ncourt-1 C\n", "line 3: court-1 already has a title, in line 1"),
        (b"\ncourt-1 Pl\xe4tze\n", "line 2: not UTF-8"),
        (b"court-9 Nowhere\n", "line 1: the club has no facility court-9"),
        (b"court-1\n", "line 1: court-1 has no title"),
        (b"court-1 a\x00b\n", "line 1: the title has an unprintable character"),
        (b"court-1 " + b"x" * 81, "line 1: the title has more than 80 characters"),
    ):
        same(
            f"titles {text[:30]}",
            [it for it in [made(text)] if it[0] != 1 or line not in it[2]],
            [],
        )


def findings():
    titles_of_the_page()
    journal_that_is_silent()
    copies_of_one_second()
    moments_to_come()
    lines_that_are_forged()
    orders_that_cannot_be_read()
    programs_of_a_clerk()
    inner_words()
    terminals_that_stop()
    terminals_that_take_nothing()
    folder_of_a_clerk()
    file_that_came_since()
    page_that_came_since()
    clubs_beside()
    memory_that_is_full()
    disk_that_is_full()
    whole("the other tests")

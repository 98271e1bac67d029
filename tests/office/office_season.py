"""The part of office_holds.py that tests a club's season: lists of members, bookings by telephone, full names, undo, letters, and old years'
files."""

import datetime
import json
import os
import pwd
import re
import shutil
from pathlib import Path

from office_checks import BOOK, DAY, asked, book, book_lines, lines, refused
from office_room import (
    CLUB,
    HOME,
    ROOM,
    Service,
    configure,
    desk,
    done,
    everything,
    mode,
    office,
    rows,
    run_as,
    same,
    whole,
)


def make_season_club():
    """Makes another club on the machine, with members from a list, and starts a server with today's clock."""
    today = datetime.date.today()
    for file in HOME.glob("club*"):
        shutil.rmtree(file) if file.is_dir() else file.unlink()
    pages = ROOM / "pages"
    pages.mkdir()
    os.chown(pages, *pwd.getpwnam("clubdesk")[2:4])
    configure(PAGES=pages, ZONE_NAME="Etc/UTC", TITLE='"Our club"', SITE="https://desk.example.org")
    done("new")
    done("add-facility", "court-1", "court", "4", "200", "8", "22")
    done("add-facility", "boat-1", "boat", "2", "50", "6", "20")
    same(
        "the page's list is made automatically",
        [it["name"] for it in json.loads((pages / "club.json").read_text())["facilities"]],
        ["court-1", "boat-1"],
    )
    same("its mode", mode(pages / "club.json"), "clubdesk 100644")
    made = "Vorname;Nachname;E-Mail;Telefon;Straße\nKäthe;Möller;k.m@example.org;+49 171 22;Weg 1\n=Ali;Öz;;;\nBob;Ray;;;\n"
    Path("/home/anna/season.csv").write_bytes(made.encode("latin-1"))
    out = done(
        "import", "season.csv", "--quota", "5", "--points", "1000", "--passes", "season", "--yes"
    ).splitlines()
    same(
        "how the list was read",
        " ".join(" ".join(out[:3]).split()).partition(" line ")[0],
        "the list was read as Latin-1 with ; between the columns: surname = Nachname, first name = Vorname, mail = E-Mail, telephone = Telefon; ignored columns: Straße",
    )
    configure(PAGES=pages, ZONE_NAME="Etc/UTC", TITLE='"Our club"', SITE="https://desk.example.org")
    server = Service(at=f"{today}T00:00")
    lines_of = {
        "PAGES": pages,
        "ZONE_NAME": "Etc/UTC",
        "TITLE": '"Our club"',
        "SITE": "https://desk.example.org",
        "PORT": server.port,
    }
    configure(**lines_of)
    return server, pages, lines_of, today + datetime.timedelta(1)


def lists_as_they_are_written():
    """The office can read a list with tabs, with a byte-order mark, in UTF-16, or with other column names. Before the import, the office prints how
    it reads the list."""
    for called, data, words, read in (
        (
            "tabs.csv",
            "name\tquota\tpoints\nTab Ulator\t1\t5\n".encode(),
            [],
            "the list was read as UTF-8 with tab between the columns: name = name, quota = quota, points = points",
        ),
        (
            "mark.csv",
            "\ufeffname,quota,points\nBörte Mark,1,5\n".encode(),
            [],
            "the list was read as UTF-8 with , between the columns: name = name, quota = quota, points = points",
        ),
        (
            "dotless.csv",
            "name;quota;points\nYıldız, Çağrı;1;5\n".encode("utf-8-sig"),
            [],
            "the list was read as UTF-8 with ; between the columns: name = name, quota = quota, points = points",
        ),
        (
            "wide.csv",
            "name;quota;points\nWíde Ünit;1;5\n".encode("utf-16"),
            [],
            "the list was read as UTF-16 with ; between the columns: name = name, quota = quota, points = points",
        ),
        (
            "map.csv",
            "Player,Balance,Team\nMap Ola,5,A\n".encode(),
            ["--columns", "name=Player,points=Balance", "--quota", "1"],
            "the list was read as UTF-8 with , between the columns: name = Player, points = Balance; ignored columns: Team",
        ),
    ):
        Path(f"/home/anna/{called}").write_bytes(data)
        out = done("import", called, *words, "--passes", "written", "--yes")
        same(f"how {called} was read", " ".join(out.partition("\nline")[0].split()), read)
    same(
        "the members",
        rows(
            "SELECT name, quota, credited FROM members WHERE name IN ('tab-ulator', 'boerte-mark', 'wide-uenit', 'map-ola', 'yildiz-cagri') ORDER BY name"
        ),
        [
            ("boerte-mark", 1, 5),
            ("map-ola", 1, 5),
            ("tab-ulator", 1, 5),
            ("wide-uenit", 1, 5),
            ("yildiz-cagri", 1, 5),
        ],
    )
    same(
        "their full names",
        [
            it.split(",", 5)[5]
            for it in lines("members", "--csv")
            if it.startswith(("boerte", "wide"))
        ],
        ["Börte Mark", "Wíde Ünit"],
    )
    same("an invalid map of columns", office("import", "map.csv", "--columns", "name=Nobody")[0], 3)


def for_callers(server, day):
    """To book or cancel for a member who calls, the office sends a request to the desk, so the desk's rules apply."""
    shown = done("book", "moeller-kaethe", "court-1", str(day), "18", "1")
    same(
        "a booking",
        shown,
        f"booked court-1 {day} 18:00 for moeller-kaethe, 2 persons, 400 points: moeller-kaethe-office 1\n",
    )
    same(
        "the office's key",
        rows("SELECT member, revoked FROM keys WHERE name = 'moeller-kaethe-office'"),
        [("moeller-kaethe", 0)],
    )
    same("its charge", rows("SELECT used FROM members WHERE name = 'moeller-kaethe'"), [(400,)])
    refused(
        ["book", "moeller-kaethe", "court-1", str(day), "18", "1"],
        1,
        "is already booked for moeller-kaethe: moeller-kaethe-office 1; --again",
    )
    same(
        "booked again",
        done("book", "moeller-kaethe", "court-1", str(day), "18", "--again").split(",")[0],
        f"booked court-1 {day} 18:00 for moeller-kaethe",
    )
    refused(
        ["book", "oez-ali", "court-1", str(day), "18", "3"],
        1,
        "refused: the desk says: no places",
        keeps=False,
    )
    refused(
        ["book", "oez-ali", "court-1", str(day), "23"], 1, "refused: the desk says: not bookable"
    )
    refused(["book", "nobody", "court-1", str(day), "18"], 1, "refused: there is no member nobody")
    refused(
        ["book", "oez-ali", "court-9", str(day), "18"], 1, "refused: there is no facility court-9"
    )
    refused(["book", "oez-ali", "court-1", str(day), "18", "50"], 3, "bad value")
    refused(["cancel-for", "moeller-kaethe", "court-1", str(day), "18"], 1, "has several bookings")
    refused(
        ["cancel-for", "moeller-kaethe", "court-1", str(day), "18", "--number", "99"],
        1,
        "has no booking 99 of",
    )
    shown = done("cancel-for", "moeller-kaethe", "court-1", str(day), "18", "--number", "1")
    same(
        "a cancellation",
        shown,
        f"cancelled court-1 {day} 18:00 of moeller-kaethe, 400 points back: moeller-kaethe-office 1\n",
    )
    text = (Path("/home/anna/season") / "ray-bob-1").read_text(encoding="ascii").strip()
    book(server, text, "court-1", 20, 7, 0, str(day))
    same(
        "a booking of the member's own key",
        done("cancel-for", "ray-bob", "court-1", str(day), "20").split(":")[-1],
        " ray-bob-1 7\n",
    )
    refused(["cancel-for", "ray-bob", "court-1", str(day), "20"], 1, "has no booking of")
    same(
        "the cancellation's repeat",
        asked(server, text, "DELETE", f"/slots/court-1/{day}/20/bookings/7"),
        {"booking": "ray-bob-1/7", "refund": 200},
    )
    same("the book", book_lines("book")[0], f"anna 0 book moeller-kaethe court-1 {day} 18 1")
    whole("bookings for callers")


def for_hours(day):
    """If a command has several hours, the office runs one command for each hour. First the office lists these commands. At the end, the office
    prints the total and the hours that aren't done."""

    def closed():
        return [
            hour
            for hour, in rows(
                "SELECT hour FROM slots WHERE facility = 'boat-1' AND closed = 1 ORDER BY hour"
            )
        ]

    line = f"office club close-slot boat-1 {day}"
    same(
        "closed slots",
        done("close-slot", "boat-1", str(day), "8-10"),
        f"{line} 08\n{line} 09\ndone\ndone\n",
    )
    same("both hours are closed", closed(), [8, 9])
    same(
        "both slots",
        done("show-slot", "boat-1", str(day), "8-10"),
        "".join(done("show-slot", "boat-1", str(day), it) for it in ("08", "09")),
    )
    done("book", "oez-ali", "boat-1", str(day), "12")
    status, out, errors = office("close-slot", "boat-1", str(day), "11 bis 14")
    same(
        "one of several hours is booked",
        (status, out),
        (1, f"{line} 11\n{line} 12\n{line} 13\ndone\n"),
    )
    same("the rest is listed", errors.splitlines()[-1], f"not done: {line} 12; {line} 13")
    same("the hours before it are closed", closed(), [8, 9, 11])
    for words in (
        ["close-slot", "boat-1", str(day), "14-12"],
        ["show-slot", "boat-1", str(day), "8-25"],
        ["book", "oez-ali", "boat-1", str(day), "9-9"],
    ):
        same(f"invalid hours: {words}", office(*words)[0], 3)
    done("cancel-for", "oez-ali", "boat-1", str(day), "12")
    done("reopen-slot", "boat-1", str(day), "8-14", "--yes")
    slots, key = [f"court-1 {day} {hour:02d}:00" for hour in range(24)], "oez-ali-office"
    shown = lines("book", "oez-ali", "court-1", str(day), "9-11")
    same(
        "two bookings",
        [it.rsplit(" ", 1)[0] for it in shown[:2]],
        [f"booked {slots[hour]} for oez-ali, 1 person, 200 points: {key}" for hour in (9, 10)],
    )
    same("their sum", shown[2:], ["slots booked in all: 2, for 400 points"])
    same(
        "their lines in the book",
        book_lines("book")[-2:],
        [f"anna 0 book oez-ali court-1 {day} {hour}" for hour in (9, 10)],
    )
    refused(
        ["book", "oez-ali", "court-1", str(day), "9-11"],
        1,
        f"refused: {slots[9]} is already booked for oez-ali: {key}",
    )
    shown = lines("book", "oez-ali", "court-1", str(day), "9-12")
    same(
        "booked hours aren't booked again",
        [it.rpartition(": ")[0] for it in shown[:2]],
        [f"{slots[hour]} is already booked for oez-ali" for hour in (9, 10)],
    )
    same(
        "the other hours are booked",
        (shown[2].split(",")[0], shown[3:]),
        (f"booked {slots[11]} for oez-ali", ["slots booked in all: 1, for 200 points"]),
    )
    status, out, errors = office("book", "oez-ali", "court-1", str(day), "12-16")
    same(
        "bookings until the points run out",
        (status, out.splitlines()[-1]),
        (1, "slots booked in all: 2, for 400 points"),
    )
    same(
        "no bookings after that",
        ("refused: the desk says: " in errors, f"not done: {slots[14]}, {slots[15]}" in errors),
        (True, True),
    )
    shown = lines("cancel-for", "oez-ali", "court-1", str(day), "9-14")
    same(
        "all cancelled",
        (len(shown), shown[-1]),
        (6, "bookings cancelled in all: 5, with 1000 points back"),
    )
    refused(
        ["cancel-for", "oez-ali", "court-1", str(day), "9-11"],
        1,
        f"not done: {slots[9]}, {slots[10]}",
    )
    whole("several hours")


def in_use_of_persons(server, lines_of, day):
    """Lists contain full names. After a correction, the office prints the full names of the members whom the clerk must tell about it. The book, the
    log and the copies contain no full name."""
    same(
        "members",
        lines("members", "--csv")[1:],
        [
            'moeller-kaethe,800,5,1,2,"Möller, Käthe"',
            'oez-ali,1000,5,0,2,"Öz, =Ali"',
            'ray-bob,1000,5,0,1,"Ray, Bob"',
        ],
    )
    same("the file", mode(HOME / "club-people.csv"), "clubdesk 100600")
    shown = done("close", str(day), "18", "court-1", "--yes").splitlines()
    same(
        "whom to tell",
        shown[-3:],
        ["done", "Members to inform:", "    Möller, Käthe  k.m@example.org  +49 171 22"],
    )
    mailer = ROOM / "sendmail"
    mailer.write_text(f"#!/bin/sh\ncat >>{ROOM}/mails\n")
    mailer.chmod(0o755)
    (ROOM / "mails").write_text("")
    (ROOM / "mails").chmod(0o666)
    shutil.copy(mailer, "/usr/sbin/sendmail") if not Path("/usr/sbin/sendmail").exists() else None
    done("undo", "--yes")
    same(
        "the booking is back",
        lines("show-slot", "court-1", str(day), "18")[6:],
        ["taken 1", "closed no"],
    )
    text = (Path("/home/anna/season") / "ray-bob-1").read_text(encoding="ascii").strip()
    book(server, text, "court-1", 18, 8, 0, str(day))
    shown = done("close", str(day), "18", "court-1", "--mail", "--yes").splitlines()
    same(
        "members who get mail",
        [it for it in shown if "mail" in it][-2:],
        ["Möller, Käthe: mailed", "Ray, Bob: no mail address known"],
    )
    given = '{"name": "Bob Ray", "mail": "b@example.org", "telephone": "=1"}'
    line = "sudo -n -u clubdesk /usr/bin/office --desk club set-person ray-bob".split()
    same("an invalid telephone number", run_as("anna", *line, given=given)[0], 3)
    for name, cell in (
        ("=SUM(A1)", "'=SUM(A1)"),
        ("+1", "'+1"),
        ("@x", "'@x"),
        ("-1", "'-1"),
        ("Bob Ray", "Bob Ray"),
    ):
        same(
            "a person",
            run_as("anna", *line, given=given.replace("=1", "+1").replace("Bob Ray", name))[:2],
            (0, "done\n"),
        )
        same(
            f"the cell {name}",
            [it for it in lines("members", "--csv") if it.startswith("ray-bob")],
            [f"ray-bob,1000,5,0,1,{cell}"],
        )
    kept = [
        BOOK.read_text(encoding="utf-8"),
        (ROOM / "club.log").read_text(encoding="utf-8", errors="replace"),
    ]
    same(
        "no personal data in the book or the log",
        [it for it in ("example.org", "Käthe", "171 22") for text in kept if it in text],
        [],
    )
    same(
        "no personal data in a copy",
        [it.name for it in (HOME / "club-before").iterdir() if b"example.org" in it.read_bytes()],
        [],
    )
    copy = [it for it in lines("copies", "--csv") if "-close" in it][-1].split(",")[0]
    shown = done("restore", copy, "--yes").splitlines()
    same(
        "whom to tell after a restore",
        shown[shown.index("done") :],
        [
            "done",
            "Members to inform:",
            "    Möller, Käthe  k.m@example.org  +49 171 22",
            "    Bob Ray  b@example.org  +1",
        ],
    )
    done("leave", "ray-bob", "--yes")
    same(
        "no personal data of a former member",
        "ray-bob" in (HOME / "club-people.csv").read_text(encoding="utf-8"),
        False,
    )


def undone(server, day):
    """`undo` restores the rows that the last correction changed, if no other command has changed these rows since."""

    def as_it_is():
        return [line for line in everything() if "INSERT" in line]

    for words in (
        ["debit", "oez-ali", "5"],
        ["set-quota", "oez-ali", "9"],
        ["close", str(day), "9-12", "court-1", "boat-1"],
        ["leave", "oez-ali"],
        ["set-facility", "boat-1", "--price", "60"],
    ):
        before = as_it_is()
        done(*words, "--yes")
        same(f"{words}: the club changes", as_it_is() != before, True)
        done("undo", "--yes")
        same(f"{words}: undone", sorted(as_it_is()), sorted(before))
        whole(f"an undone {words[0]}")
    refused(["undo", "--yes"], 1, "refused: there is no correction to undo")
    done("debit", "oez-ali", "5", "--yes")
    done("credit", "oez-ali", "1")
    refused(["undo", "--yes"], 1, "refused: the member oez-ali has changed since")
    same("the file of an undo", mode(HOME / "club-undo"), "clubdesk 100600")


def season(pages, day):
    """Credits all members once per season, closes hours each week with a reason, and replaces a lost pass."""
    count = len(rows("SELECT name FROM members WHERE quota > 0"))
    done("set-quota", "oez-ali", "9", "--yes")
    copy = [it for it in lines("copies", "--csv") if "-set-quota" in it][-1].split(",")[0]
    before = dict(rows("SELECT name, credited FROM members"))
    same("the office asks", office("credit-all", "500", "--as", "season-2027", given="n\n")[0], 1)
    same("nobody has the points yet", dict(rows("SELECT name, credited FROM members")), before)
    out = done("credit-all", "500", "--as", "season-2027", "--yes")
    same("points for all", out, f"{count} members credited with 500 points, as season-2027\n")
    same(
        "each member has the points once",
        {
            name: points - before[name]
            for name, points in rows("SELECT name, credited FROM members WHERE quota > 0")
        },
        dict.fromkeys((it for it, in rows("SELECT name FROM members WHERE quota > 0")), 500),
    )
    refused(
        ["credit-all", "500", "--as", "season-2027", "--yes"],
        1,
        f"refused: season-2027 was already given: 500 points to each of {count} members",
    )
    refused(
        ["credit-all", "7", "--as", "season-2027", "--yes"],
        1,
        "refused: season-2027 was already given",
    )
    shown = done("restore", copy, "--yes").splitlines()
    same(
        "a restore of an earlier copy",
        shown[-1],
        "the restore removed the credit season-2027: to give it again, use credit-all",
    )
    same(
        "the restore also changes a quota",
        [it for it in shown if it.startswith("quota")],
        ["quota of oez-ali changes from 9 to 5"],
    )
    same(
        "nobody has the points after the restore",
        dict(rows("SELECT name, credited FROM members")),
        before,
    )
    same("points for all, again", done("credit-all", "500", "--as", "season-2027", "--yes"), out)
    refused(
        ["credit-all", "500", "--as", "season-2027", "--yes"],
        1,
        "refused: season-2027 was already given",
    )
    done("debit", "oez-ali", "600", "--yes")
    copy = [it for it in lines("copies", "--csv") if "-debit" in it][-1].split(",")[0]
    done("restore", copy, "--yes")
    refused(
        ["credit-all", "500", "--as", "season-2027", "--yes"],
        1,
        "refused: season-2027 was already given",
    )
    first = day + datetime.timedelta((1 - day.weekday()) % 7)
    last = first + datetime.timedelta(20)
    shown = done(
        "close",
        f"{first}..{last}",
        "18-20",
        "boat-1",
        "--weekday",
        "tue",
        "--why",
        "Training der Jugend",
        "--yes",
    ).splitlines()
    same("three weeks", (len(shown), shown[-2:]), (8, ["in all: 6 slots closed", "done"]))
    closures = json.loads((pages / "club.json").read_text(encoding="utf-8"))["closures"]
    same(
        "the page's list has the reason",
        closures,
        [
            {
                "facility": "boat-1",
                "day": str(first + datetime.timedelta(7 * it)),
                "from": 18,
                "until": 20,
                "why": "Training der Jugend",
            }
            for it in range(3)
        ],
    )
    done("reopen-slot", "boat-1", str(first), "18-20", "--yes")
    same(
        "a reopened slot has no reason",
        len(json.loads((pages / "club.json").read_text(encoding="utf-8"))["closures"]),
        2,
    )
    copy = [it for it in lines("copies", "--csv") if "-reopen-slot" in it][-1].split(",")[0]
    done("restore", copy, "--yes")
    same(
        "a restore makes the page's list again",
        json.loads((pages / "club.json").read_text(encoding="utf-8"))["closures"],
        closures,
    )
    refused(
        ["close", f"{first}..{first}", "9", "boat-1", "--weekday", "wed", "--yes"],
        1,
        "none of the given days falls on the given weekday",
    )
    for wrong in ("2026-12-09..2026-12-01", "2026-01-01..2028-01-01", "2026-12-01.."):
        refused(["close", wrong, "9", "boat-1", "--yes"], 3, "bad value")
    text = run_as("anna", "cat", "season/oez-ali-1")[1]
    done("lost-pass", "oez-ali-1", "--to", "ali-new")
    root = rows("SELECT hex(root) FROM keys WHERE name = 'oez-ali-1'")[0][0]
    same(
        "the new pass",
        run_as("anna", "sh", "-c", f"passtool verify --root {root} <ali-new")[1],
        "signed\n",
    )
    same(
        "the lost pass",
        run_as("anna", "passtool", "verify", "--root", root, given=text)[1],
        "not signed\n",
    )
    same(
        "no letter with a lost pass",
        office("letters", "oez-ali-1", "--passes", "season", "--to", "lost.html"),
        (
            1,
            "",
            "refused: the pass in season/oez-ali-1 is out of date, because oez-ali-1 has a newer pass; `lost-pass oez-ali-1 --to season/oez-ali-1` makes a new one\n",
        ),
    )
    same("that letter isn't written", run_as("anna", "ls", "lost.html")[0], 2)
    refused(
        ["lost-pass", "oez-ali-1", "--to", "season/moeller-kaethe-1"],
        1,
        "refused: the file season/moeller-kaethe-1 already exists",
    )
    run_as("anna", "sh", "-c", "mkdir -p passes; cp ali-new passes/oez-ali-1")
    refused(["lost-pass", "nobody-1", "--to", "ali-nobody"], 1, "refused: unknown")
    same(
        "the pass in the letters' folder is removed",
        office("lost-pass", "oez-ali-1", "--to", "season/oez-ali-1")[::2],
        (0, "passes/oez-ali-1 contained the lost pass and was removed\n"),
    )
    same("the lost pass's file is gone", run_as("anna", "ls", "passes/oez-ali-1")[0], 2)
    run_as("anna", "cp", "season/moeller-kaethe-1", "passes/oez-ali-1")
    same("another key's pass stays", office("lost-pass", "oez-ali-1", "--form", "v1")[::2], (0, ""))
    run_as("anna", "rm", "passes/oez-ali-1")
    done("lost-pass", "oez-ali-1", "--form", "v1", "--to", "season/oez-ali-1")


def letters_that_go_on():
    """`letters` leaves out passes that the desk refuses. Commands that revoke a key remove its pass from the folder."""
    keys = "moeller-kaethe-1 oez-ali-1"
    run_as(
        "anna",
        "sh",
        "-c",
        f"mkdir mixed; cd season; cp {keys} ../mixed; echo no pass >../mixed/junk",
    )
    done("lost-pass", "oez-ali-1", "--to", "season/oez-ali-1")
    out = done("letters", "--passes", "mixed", "--to", "mixed.html", "--duplex").splitlines()
    same("the other sheets", out[:2], ["1 sheet for 1 member is in mixed.html", "Left out:"])
    same(
        "the passes that are left out",
        [
            it
            for it in ("mixed/oez-ali-1 is out of date", "mixed/junk")
            if it not in "".join(out[2:])
        ],
        [],
    )
    done("letters", *keys.split(), "--passes", "season", "--to", "both.html", "--duplex")
    page = run_as("anna", "cat", "both.html")[1]
    same("an empty page between two sheets", page.count('<section class="back">'), 1)
    done("add-member", "zoe-letters", "1")
    for key, words in (
        ("zoe-8", ["revoke-key", "zoe-8"]),
        ("zoe-9", ["leave", "zoe-letters", "--yes"]),
    ):
        done("add-key", key, "zoe-letters", "--to", f"passes/{key}")
        errors = office(*words)[2]
        same(f"{words[0]} removes the pass", "is no longer valid, and was removed" in errors, True)
    same("no pass of a revoked key", run_as("anna", "sh", "-c", "ls passes")[1].count("zoe"), 0)
    mailed = ["letters", *keys.split(), "--passes", "season", "--mail", "--yes", "--to"]
    for file, result in (("m1.html", "Möller, Käthe: mailed"), ("m2.html", "was mailed before")):
        out = done(*mailed, file)
        same(
            f"letters by mail, {file}",
            [
                it
                for it in (result, "gets a sheet", f"1 sheet for 1 member is in {file}")
                if it not in out
            ],
            [],
        )
    text = run_as("anna", "cat", "season/moeller-kaethe-1")[1].strip()
    mails = (ROOM / "mails").read_text(encoding="utf-8")
    same("the pass is mailed once", mails.count(f"/book.html#{text}"), 1)


def letters_and_records(day):
    out = done("letters", "moeller-kaethe-1", "oez-ali-1", "--passes", "season")
    same("letters", out, "2 sheets for 2 members are in letters.html\n")
    page = run_as("anna", "cat", "letters.html")[1]
    texts = [
        run_as("anna", "cat", f"season/{key}")[1].strip()
        for key in ("moeller-kaethe-1", "oez-ali-1")
    ]
    same(
        "their links",
        [page.count(f'href="https://desk.example.org/book.html#{text}"') for text in texts],
        [1, 1],
    )
    same("their codes", page.count("<svg"), 2)
    same("the names on the sheets", page.count('<p class="to">Möller, Käthe</p>'), 1)
    same("their mode", run_as("anna", "stat", "-c", "%a", "letters.html")[1], "600\n")
    refused(["letters", "--passes", "season", "--to", "letters.html"], 1, "already exists")
    same("the next name", "letters-2.html" in done("letters", "--passes", "season"), True)
    same(
        "a missing pass",
        office("letters", "nobody-1", "--passes", "season", "--to", "l.html")[0],
        1,
    )
    run_as("anna", "sh", "-c", f"echo {'00' * 32} >season/root-1")
    same(
        "a root isn't a pass",
        office("letters", "root-1", "--passes", "season", "--to", "l.html")[0],
        7,
    )
    letters_that_go_on()
    wanted = run_as("root", "/usr/lib/clubdesk/record", CLUB, "moeller-kaethe-office", folder="/")[
        1
    ]
    same("a record", done("record", "moeller-kaethe-office"), wanted)
    link = ["env", "DESK=https://desk.example.org", "/usr/lib/clubdesk/record", "--link"]
    wanted = run_as("root", *link, CLUB, "moeller-kaethe-office", folder="/")[1]
    same("its link", done("record", "moeller-kaethe-office", "--link"), wanted)
    refused(["record", "nobody-1"], 1, "refused: there is no key nobody-1")


def spare_passes(lines_of):
    """A second import makes spare passes for members who have no spare passes yet. The second half of a member's letter contains the member's spare
    passes."""
    configure(**lines_of, SPARES=2)
    run_as("anna", "sh", "-c", "head -n 3 season.csv >spares.csv")
    done("import", "spares.csv", "--quota", "5", "--points", "1000", "--passes", "season", "--yes")
    spares = ["moeller-kaethe-lend-1", "moeller-kaethe-lend-2"]
    same(
        "spare keys",
        rows(
            "SELECT name, revoked FROM keys WHERE member = 'moeller-kaethe' AND name LIKE '%-lend-%' ORDER BY name"
        ),
        [(it, 0) for it in spares],
    )
    same(
        "nobody gets points again",
        rows("SELECT count(*) FROM members WHERE credited > 2000"),
        [(0,)],
    )
    out = done("letters", "moeller-kaethe-1", *spares, "--passes", "season", "--to", "spares.html")
    same("a letter with spare passes", out, "1 sheet for 1 member is in spares.html\n")
    page = run_as("anna", "cat", "spares.html")[1]
    texts = [run_as("anna", "cat", f"season/{key}")[1].strip() for key in spares]
    same(
        "its half to cut off",
        (
            page.count("<svg"),
            page.count('class="half"'),
            page.count(f"book.html#spare={';'.join(texts)}"),
        ),
        (2, 1, 2),
    )
    same("no option --spare", office("letters", "--spare")[0], 2)
    configure(**lines_of)


def old_years(server):
    """The office can only read an old year's file, not change it. The board's page for that year uses this file."""
    with_past = HOME / "club"
    year = datetime.date.today().year
    server.stop()
    desk("sheet", DAY)
    days = (datetime.date(year - 1, 5, 4) - datetime.date(1970, 1, 1)).days
    run_as(
        "clubdesk",
        "sqlite3",
        with_past,
        f"""INSERT INTO keys VALUES ('old-1', 'oez-ali', zeroblob(32), 0);
        INSERT INTO bookings VALUES ('old-1', 1, 'court-1', {days}, 10, 1, 400, 2, 0, 0), ('old-1', 2, 'court-1', {days + 7}, 10, 0, 200, 3, 1, 100);
        INSERT INTO slots VALUES ('court-1', {days}, 10, 0, 2);
        UPDATE members SET used = used + 500, credited = credited + 500 WHERE name = 'oez-ali'""",
        folder="/",
    )
    whole("a past year")
    before = done("report", str(year - 1), "--to", "before.html")
    done("new-year", "--before", f"{year}-01-01", "--yes")
    same("the report is in", before.split(",")[0].strip(), "the report is in before.html")
    done("report", str(year - 1), "--to", "after.html")
    first, second = (
        re.sub('<p class="note">made on.*?</p>', "", run_as("anna", "cat", it)[1])
        for it in ("before.html", "after.html")
    )
    same("the board's page of a year is the same after new-year", second == first, True)
    lightness = [int(it) for it in re.findall(r"hsl\(156 59% ([0-9]+)%\)", first)]
    same(
        "the heat map is light enough for dark letters",
        (len(lightness) > 100, min(lightness) >= 40, "#fff" in first.partition("</style>")[2]),
        (True, True, False),
    )
    same(
        "its numbers",
        re.findall(
            "<tr><td>(bookings|points used|points refunded|slots used|cancelled bookings)</td><td>([0-9,]+)</td>",
            first,
        ),
        [
            ("bookings", "2"),
            ("cancelled bookings", "1"),
            ("slots used", "1"),
            ("points refunded", "100"),
            ("points used", "500"),
        ],
    )
    done("report", str(year - 1), "--no-names", "--to", "nobody.html")
    same(
        "its names",
        ["oez-ali" in run_as("anna", "cat", it)[1] for it in ("after.html", "nobody.html")],
        [True, False],
    )
    old = f"club@{year - 1}"
    same(
        "an old year's bookings",
        [
            it.split(",")[:4]
            for it in office("bookings", "oez-ali", "--all", "--csv", club=old)[1].splitlines()[1:]
            if it.startswith(str(year - 1))
        ],
        [
            [str(datetime.date(year - 1, 5, 4)), "10", "court-1", "oez-ali"],
            [str(datetime.date(year - 1, 5, 11)), "10", "court-1", "oez-ali"],
        ],
    )
    same(
        "its sheet",
        office("sheet", f"{year - 1}-05-04", club=old)[1].splitlines()[1].split()[:2],
        ["court-1", "10:00"],
    )
    for words in (
        ["credit", "oez-ali", "5"],
        ["debit", "oez-ali", "5", "--yes"],
        ["add-key", "x-1", "oez-ali"],
        ["new"],
        ["import", "season.csv"],
        ["credit-all", "5", "--as", "x", "--yes"],
    ):
        same(
            f"{old} {words}",
            office(*words, club=old)[::2],
            (
                1,
                f"refused: {old} is an old year: `office` can only print its lists, sheets and records\n",
            ),
        )
    same("no such year", office("members", club="club@2099")[0], 1)
    same("an invalid year", office("members", club="club@x")[0], 3)

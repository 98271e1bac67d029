"""The part of office_holds.py that tests corrections, refused corrections, and restores of the club, even over a damaged file."""

import os
import re
import sqlite3
import subprocess
import time

from office_checks import (
    AT,
    COPIES,
    DAY,
    YES,
    account,
    asked,
    book,
    changed_meanwhile,
    lines,
    refused,
    slot,
)
from office_room import (
    CLUB,
    HOME,
    ROOM,
    Service,
    begun,
    configure,
    desk,
    done,
    everything,
    mode,
    office,
    rows,
    run_as,
    same,
    whole,
)


def corrections(server, amy, bob):
    same(
        "a price",
        lines("set-facility", "court-1", "--price", "250", *YES),
        ["price of court-1 changes from 200 to 250; existing bookings keep their charge", "done"],
    )
    same(
        "the slot with the new price",
        slot(server, amy, "court-1", 18),
        {
            "facility": "court-1",
            "day": DAY,
            "hour": 18,
            "kind": "court",
            "price": 250,
            "places": 4,
            "taken": 3,
            "closed": False,
        },
    )
    same(
        "a booking at the new price",
        book(server, amy, "court-1", 19, 9, 0),
        {"booking": "amy-1/9", "charge": 250, "left": 3},
    )
    whole("a price")
    refused(
        ["set-facility", "court-1", "--places", "2", *YES],
        1,
        f"refused: 3 persons are booked for {DAY} 18:00",
    )
    refused(
        ["set-facility", "court-1", "--hours", "8-19", *YES],
        1,
        f"refused: the booking amy-1 9 is on {DAY} at 19:00",
    )
    refused(["set-facility", "court-1", *YES], 2, "nothing to set")
    refused(
        ["set-facility", "court-9", "--price", "1", *YES],
        1,
        "refused: there is no facility court-9",
    )
    for option, value in (
        ("--price", "10000"),
        ("--places", "0"),
        ("--places", "51"),
        ("--hours", "9-9"),
        ("--hours", "9-25"),
        ("--price", "1; --"),
    ):
        refused(["set-facility", "court-1", option, value, *YES], 3, "bad value")
    done("set-facility", "court-1", "--places", "3", "--hours", "7-20", *YES)
    same("places and hours", lines("show-slot", "court-1", DAY, "18")[5:7], ["places 3", "taken 3"])
    same(
        "a quota",
        lines("set-quota", "bob", "0", *YES),
        ["quota of bob changes from 2 to 0", "done"],
    )
    same(
        "bookings above the quota stay",
        account(server, bob),
        {"member": "bob", "balance": 2900, "quota": 0, "open": 1, "spent": 100},
    )
    done("set-quota", "bob", "9", *YES)
    refused(["set-quota", "bob", "100", *YES], 3, "bad value")
    refused(["set-quota", "bo", "1", *YES], 1, "refused: there is no member bo")
    same(
        "a debit",
        lines("debit", "amy", "500", *YES),
        ["balance of amy changes from 8950 to 8450", "done"],
    )
    same("the balance", account(server, amy)["balance"], 8450)
    refused(["debit", "amy", "8451", *YES], 1, "refused: the balance of amy is 8450")
    refused(["debit", "amy' OR 1=1 --", "1", *YES], 3, "bad value")
    done("reopen-slot", "court-1", DAY, "9", *YES)
    same("a reopened slot", slot(server, amy, "court-1", 9)["closed"], False)
    refused(["reopen-slot", "court-1", DAY, "9", *YES], 1, "isn't closed")
    whole("these corrections")
    done("revoke-key", "amy-1")
    shown = lines("cancel", "amy-1", "7", *YES)
    same(
        "a booking of a revoked key",
        shown,
        [f"cancels court-1 {DAY} 18:00, 3 persons, 600 points back: amy-1 7, amy", "done"],
    )
    same("its slot", lines("show-slot", "court-1", DAY, "18")[6], "taken 0")
    same(
        "its key",
        lines("show-account", "amy-1", *AT)[1:5],
        ["balance 9050", "quota 5", "open 2", "spent 450"],
    )
    refused(["cancel", "amy-1", "7", *YES], 1, "refused: booking 7 of amy-1 is already cancelled")
    refused(["cancel", "amy-1", "77", *YES], 1, "refused: amy-1 has no booking 77")
    refused(["cancel", "amy-7", "7", *YES], 1, "refused: there is no key amy-7")
    refused(["cancel", "amy-1", *YES], 2, "a NUMBER, or --all")
    refused(["cancel", "amy-1", "9", "--all", *YES], 2, "a NUMBER, or --all")
    same(
        "all future bookings",
        lines("cancel", "amy-1", "--all", *YES)[2:],
        ["in all: 2 bookings cancelled, 450 points back to amy", "done"],
    )
    same(
        "its account",
        lines("show-account", "amy-1", *AT)[1:5],
        ["balance 9500", "quota 5", "open 0", "spent 0"],
    )
    refused(["cancel", "amy-1", "--all", *YES], 1, "no future bookings")
    whole("cancellations")


def tournament_and_rain(server, bob):
    amy = done("add-key", "amy-3", "amy").strip()
    book(server, amy, "court-1", 12, 1, 1)
    book(server, bob, "court-2", 13, 21, 0)
    done("close-slot", "court-2", DAY, "12")
    out = refused(
        ["close", DAY, "12-14", "court-1", "court-2", *AT],
        1,
        "refused: not confirmed; nothing changed",
        given="n\n",
    )
    same(
        "a tournament that isn't confirmed",
        out.splitlines()[0],
        f"cancels court-1 {DAY} 12:00, 2 persons, 500 points back: amy-3 1, amy",
    )
    refused(
        ["close", DAY, "12-14", "court-1", *AT],
        1,
        "refused: not confirmed; nothing changed",
        given="",
    )
    status, out, _ = office("close", DAY, "12-14", "court-1", "court-2", *AT, given="y\n")
    same("a tournament", (status, out.count("cancels "), out.count("closes ")), (0, 2, 3))
    for facility in ("court-1", "court-2"):
        for hour in (12, 13):
            found = slot(server, amy, facility, hour)
            same(f"{facility} at {hour}", (found["taken"], found["closed"]), (0, True))
    same(
        "the points are back",
        (account(server, amy)["balance"], account(server, bob)["spent"]),
        (9500, 100),
    )
    same(
        "a repeat of a cancellation",
        asked(server, amy, "DELETE", f"/slots/court-1/{DAY}/12/bookings/1"),
        {"booking": "amy-3/1", "refund": 500},
    )
    refused(["close", DAY, "12-14", "court-1", "court-2", *YES], 1, "already closed")
    refused(["close", DAY, "6-14", "court-1", *YES], 1, "refused: court-1 is open from 7 to 20")
    refused(["close", DAY, "14-12", "court-1", *YES], 3, "bad value")
    book(server, amy, "court-1", 15, 2, 1)
    book(server, amy, "court-1", 16, 3, 1)
    rained = lines("rain", DAY, "court-1", "15", "16", "17", "--yes", "--at", "2026-05-01T18:00")
    same("rain, afterwards", (len(rained), account(server, amy)["balance"]), (4, 9500))
    same("its sheet", lines("sheet", DAY)[-1], "Total bookings 1, persons 2, charge 100")
    refused(["rain", DAY, "court-1", "15", *YES], 1, "nobody has booked")
    refused(["rain", DAY, "court-1", "24", *YES], 3, "bad value")
    whole("a tournament and rain")


def member_leaves(server, bob):
    book(server, bob, "court-2", 18, 33, 1)
    shown = lines("leave", "bob", *YES)
    same(
        "the preview",
        (shown[-3], len(shown)),
        ("renames member bob to 1, with quota 0 and a balance of 3000", 7),
    )
    same(
        "the member",
        rows("SELECT name, credited, quota, used FROM members WHERE name IN ('1', 'bob')"),
        [("1", 3000, 0, 0)],
    )
    same(
        "its keys",
        rows("SELECT name, member, revoked FROM keys WHERE member IN ('1', 'bob') ORDER BY name"),
        [("1-1", "1", 1), ("1-2", "1", 1)],
    )
    same(
        "its passes",
        server.answer(bob, "GET", "/account"),
        (401, '{"fault":9,"text":"not verified"}'),
    )
    same("the money", lines("money", "1", "--csv")[1], "1,3000,700,700,3000")
    for file in (it for it in (CLUB, HOME / "club-wal") if it.exists()):
        same(f"the name in {file}", b"bob" in file.read_bytes(), False)
    refused(["leave", "bob", *YES], 1, "refused: there is no member bob")
    done("add-member", "bob", "1")
    done("leave", "bob", *YES)
    same("a second leaving member", rows("SELECT name FROM members WHERE name = '2'"), [("2",)])
    whole("a member that leaves")


def breaks_no_total(server):
    """The test increases a booking's guests in the club's file, so that the slot's row counts fewer taken places than the booking needs. The office
    refuses to cancel the booking."""
    text = done("add-key", "amy-4", "amy").strip()
    book(server, text, "court-2", 20, 5, 1)
    by_hand("UPDATE bookings SET guests = 3 WHERE pass_key = 'amy-4'")
    same(
        "check",
        office("check")[:2],
        (1, f"slot court-2 {DAY} 20: the bookings have 2 more persons than stored\n"),
    )
    refused(["cancel", "amy-4", "5", *YES], 1, "nothing changed")
    done("debit", "amy", "1", *YES)
    by_hand("UPDATE bookings SET guests = 1 WHERE pass_key = 'amy-4'")
    whole("a row with its old value")
    done("cancel", "amy-4", "5", *YES)
    whole("its cancellation")


def by_hand(sql):
    """Changes the club's file with SQLite's shell, as soon as the server has released the file."""
    for _ in range(50):
        subprocess.run(["systemctl", "kill", "clubdesk@club.service"], check=False)
        status, _, errors = run_as("clubdesk", "sqlite3", "-bail", CLUB, sql, folder="/")
        if status == 0:
            return
        time.sleep(0.05)
    raise RuntimeError(errors)


def booked_meanwhile(server):
    """The office asks the clerk whether to close some slots. If a member then books one of these slots, the office shows the new booking and asks
    again. If the clerk declines, the booking stays."""
    text, slot_text = done("add-key", "amy-5", "amy").strip(), f"court-2 {DAY} 17:00"
    for number, answers, status, last in ((1, "y\nn\n", 1, None), (3, "y\ny\n", 0, "done")):
        book(server, text, "court-2", 17, number, 0)
        with begun("close", DAY, "17-18", "court-2", *AT) as command:
            while (line := command.stdout.readline()) and f"amy-5 {number}, amy" not in line:
                pass
            book(server, text, "court-2", 17, number + 1, 0)
            out, errors = command.communicate(answers)
        same(
            f"booked meanwhile, {answers!r}",
            (command.returncode, "not confirmed; the changes confirmed earlier are done" in errors),
            (status, status == 1),
        )
        same(
            "the new booking's lines",
            out.partition("booked meanwhile: ")[2].splitlines()[:3],
            [
                slot_text,
                f"cancels {slot_text}, 1 person, 200 points back: amy-5 {number + 1}, amy",
                f"closes {slot_text}",
            ],
        )
        same("the last line", last in (None, out.splitlines()[-1].rpartition("] ")[2]), True)
        same(
            "the slot",
            lines("show-slot", "court-2", DAY, "17")[6:],
            [f"taken {status}", f"closed {'no' if status else 'yes'}"],
        )
    done("reopen-slot", "court-2", DAY, "17", *YES)
    whole("bookings during a correction")


def back_ups():
    """Before each completed correction, the office made a copy of the club."""
    made = sorted((HOME / "club-before").iterdir())
    same("their number", 10 <= len(made) <= 30, True)
    same("their modes", {mode(it) for it in made}, {"clubdesk 100600"})
    same(
        "no other files",
        [
            it
            for it in made
            if not re.fullmatch(r"20\d\d-\d\d-\d\dT\d\d-\d\d-\d\d-[a-z-]+(-[0-9]+)?", it.name)
        ],
        [],
    )
    subprocess.run(["cp", made[-1], ROOM / "before"], check=True)
    status, out, _ = run_as("root", "clubdesk", "sheet", ROOM / "before", DAY, folder="/")
    same("the newest is a club", (status, out.splitlines()[0]), (0, f"Day sheet {DAY}"))


def keep_copy():
    """Runs the nightly job that copies the club, and returns the copy's name."""
    before = set(COPIES.glob("*"))
    same(
        "a nightly copy",
        run_as("clubdesk", "/usr/lib/clubdesk/keep_copies", CLUB, COPIES, folder="/")[0],
        0,
    )
    return (set(COPIES.glob("*")) - before).pop().name


def restores(server):
    """Restores a copy. The office shows what the restore changes. The office keeps a copy of the old club. If the old file is damaged, the office
    keeps this file instead."""
    configure(BACK_UPS=COPIES)
    same("no nightly copy", [line for line in lines("copies", "--csv") if "back-up" in line], [])
    text = done("add-key", "amy-6", "amy").strip()
    book(server, text, "court-2", 19, 61, 1)
    book(server, text, "court-2", 8, 62, 0)
    done("add-member", "finn", "1")
    night, before = keep_copy(), everything()
    was = account(server, text)
    balance = was["balance"]
    same(
        "a cancellation after the copy",
        server.answer(text, "DELETE", f"/slots/court-2/{DAY}/19/bookings/61")[0],
        200,
    )
    book(server, text, "court-2", 9, 63, 0)
    done("credit", "amy", "50")
    done("add-member", "dora", "3")
    done("add-key", "dora-1", "dora")
    done("revoke-key", "amy-5")
    done("rotate-key", "amy-3", "2000-01-01T00:00")
    done("set-facility", "boat-1", "--price", "60", *YES)
    done("close-slot", "court-2", DAY, "11")
    after = everything()
    same(
        "the copies",
        {",".join(line.split(",")[:2]) for line in lines("copies", "--csv")}
        >= {"copy,is", f"{night},back-up"},
        True,
    )
    shown = [
        "removes the member dora",
        f"balance of amy changes from {balance + 250} to {balance}",
        "removes the key dora-1: its passes are refused",
        "accepts the passes that amy-3 had before its rotation, and refuses the later passes of amy-3",
        "accepts the passes of amy-5 again: the key is no longer revoked",
        "changes the facility boat-1 back to its earlier state",
        f"opens court-2 {DAY} 11:00 again",
        f"loses the booking court-2 {DAY} 09:00, 1 person, 200 points: amy-6 63, amy",
        f"books court-2 {DAY} 19:00 again, 2 persons, 400 points: amy-6 61, amy",
        "in all: 9 changes",
    ]
    same(
        "a restore that isn't confirmed",
        refused(["restore", night, *AT], 1, "refused: not confirmed", given="n\n").splitlines()[
            :-1
        ],
        shown,
    )
    starts = server.starts
    same("a restore", lines("restore", night, *YES), [*shown, "done"])
    same("the club of the copy", everything(), before)
    same("a repeat of an earlier booking", book(server, text, "court-2", 19, 61, 1)["charge"], 400)
    same(
        "a booking made after the copy",
        server.answer(text, "DELETE", f"/slots/court-2/{DAY}/09/bookings/63"),
        (404, '{"fault":15,"text":"no such booking"}'),
    )
    same("the server was restarted", server.starts > starts, True)
    whole("a restore")
    undone = sorted(
        file for file in os.listdir(f"{HOME}/club-before") if file.endswith("-restore")
    )[-1]
    same(
        "its own copy is listed",
        f"{undone},before a correction"
        in {",".join(line.split(",")[:2]) for line in lines("copies", "--csv")},
        True,
    )
    same(
        "a restore that undoes the restore",
        lines("restore", undone, *YES),
        [
            "brings back the member dora",
            f"balance of amy changes from {balance} to {balance + 250}",
            "brings back the key dora-1 and its passes",
            "accepts the passes that amy-3 had before its rotation, and refuses the later passes of amy-3",
            "refuses the passes of amy-5: the key is revoked again",
            "changes the facility boat-1 back to its earlier state",
            f"closes court-2 {DAY} 11:00",
            f"loses the booking court-2 {DAY} 19:00, 2 persons, 400 points: amy-6 61, amy",
            f"books court-2 {DAY} 09:00 again, 1 person, 200 points: amy-6 63, amy",
            "in all: 9 changes",
            "done",
        ],
    )
    same("the restore is undone", everything(), after)
    refused(
        ["restore", "2001-01-01T000000Z", *YES], 1, "refused: there is no copy 2001-01-01T000000Z"
    )
    for wrong in ("../club", "club", "2026-04-20", f"{night}/..", "2026-04-20T12-00-00-debit;"):
        refused(["restore", wrong, *YES], 3, "bad value")
    for called, change, line in (
        ("2026-01-01T000000Z", None, "clubdesk can't open the copy 2026-01-01T000000Z"),
        (
            "2026-01-02T000000Z",
            "UPDATE members SET used = used + 1 WHERE name = 'amy'",
            "the copy 2026-01-02T000000Z has a fault: member amy: ",
        ),
    ):
        path = COPIES / called
        if change:
            subprocess.run(["cp", COPIES / night, path], check=True)
            subprocess.run(["sqlite3", path, change], check=True)
        else:
            path.write_bytes(b"no club" * 1000)
        subprocess.run(["chown", "clubdesk:", path], check=True)
        refused(["restore", called, *YES], 1, line)
        path.unlink()
    done("add-key", "amy-7", "amy")
    changed_meanwhile(
        ["restore", night], "removes the member dora", lambda: done("credit", "amy", "1")
    )
    damaged(server, text, night, before, was)


def spoil(what):
    """Overwrites a part of the club's file, empties the file, or moves the file away."""
    if what == "gone":
        CLUB.rename(HOME / "mislaid")
        return
    first = "SELECT min(rootpage) FROM sqlite_master WHERE type = 'index' AND tbl_name = 'bookings'"
    (page,) = sqlite3.connect(f"file:{CLUB}?immutable=1", uri=True).execute(first).fetchone()
    data, lost = CLUB.read_bytes(), b"\xff" * 4096
    CLUB.write_bytes(
        {
            "head": lost + data[4096:],
            "pages": data[:4096] + b"\xff" * (len(data) - 4096),
            "index": data[: 4096 * (page - 1)] + lost + data[4096 * page :],
            "empty": b"",
        }[what]
    )


def damaged(server, text, night, before, was):
    """Restores a copy over a damaged file, an empty file and a missing file."""

    def lost_files():
        return len([it for it in HOME.glob("club-lost-*") if not it.name.endswith("-wal")])

    for what in ("head", "pages", "index", "empty", "gone"):
        server.stop()
        desk("sheet", DAY)  # copies the write-ahead log into the club's file
        (HOME / "club-wal").unlink(missing_ok=True)
        spoil(what)
        if what in ("head", "pages"):
            same(f"{what}: no club", desk("sheet", DAY)[0], 5)
        lost = lost_files()
        out = done("restore", night, *YES)
        same(
            f"{what}: the output",
            ("and is kept next to the new one" in out, out.splitlines()[-1]),
            (True, "done"),
        )
        same(f"{what}: the file is kept", lost_files() - lost, 0 if what == "gone" else 1)
        same(f"{what}: the club of the copy", everything(), before)
        same(f"{what}: its owner and mode", mode(CLUB), "clubdesk 100600")
        server = Service(server.port)
        same(f"{what}: the desk", account(server, text), was)
        time.sleep(1)
    server.stop()

#!/usr/bin/env -S /usr/bin/python3 -B
"""`office` makes as many spare keys for lending as the configuration says, and makes each key only once.

An import, `add-member` and the menu's task for a new member make the spare keys, with the names from the configuration. The second half of a member's
letter has the passes of the spare keys. Bookings under a spare key cost the member's points. For each key, the desk counts the points that this key
has spent. A spare key can't cancel the bookings of other keys. The test needs root, because it covers the machine's folders with temporary overlays
(tests/lib/office_room.sh).
"""
# pytestmark = [mark.package, mark.root, mark.needs("clubdesk passtool"),
#     mark.wants("sudo sqlite3 openssl util-linux bsdutils iproute2 systemd qrencode python3-psutil python3-pexpect")]

import re
import sys
from pathlib import Path

import pexpect

sys.path[:0] = [str(Path(__file__).resolve().parents[1] / it) for it in ("lib", "")]
from office_room import NOON, Service, configure, done, leave, office, rows, run_as, same, whole

SITE = "https://desk.example.org"
HOME = Path("/home/anna")
LONG = "oberhuber-maximiliane"  # the names of her spare keys are cut to 24 letters


def keys_of(member):
    return [it for it, in rows(f"SELECT name FROM keys WHERE member = '{member}' ORDER BY rowid")]


def pass_in(folder, key):
    return run_as("anna", "cat", f"{folder}/{key}")[1].strip()


def imports():
    (HOME / "season.csv").write_text(
        "first name,surname\nAmy,Ray\nMaximiliane,Oberhuber\n", encoding="utf-8"
    )
    out = done(
        "import", "season.csv", "--quota", "5", "--points", "1000", "--passes", "season", "--yes"
    )
    same(
        "the output of an import",
        [line for line in out.splitlines() if "spare" in line],
        [
            f"{it[:-7] if it.startswith('ray') else LONG}: spare pass {it}"
            for it in [*SPARES, *LONG_SPARES]
        ],
    )
    same(
        "keys of an import",
        (keys_of("ray-amy"), keys_of(LONG)),
        (["ray-amy-1", *SPARES], [f"{LONG}-1", *LONG_SPARES]),
    )
    same(
        "points are credited once",
        rows("SELECT credited FROM members ORDER BY name"),
        [(1000,), (1000,)],
    )
    root = rows(f"SELECT hex(root) FROM keys WHERE name = '{SPARES[1]}'")[0][0]
    same(
        "a spare pass",
        run_as("anna", "passtool", "verify", "--root", root, given=pass_in("season", SPARES[1]))[1],
        "signed\n",
    )
    out = done(
        "import", "season.csv", "--quota", "5", "--points", "1000", "--passes", "season", "--yes"
    )
    same("a repeated import", out.splitlines()[-1], "nothing to do")
    whole("an import with spare keys")


def in_letters():
    done("letters", "--passes", "season")
    page = run_as("anna", "cat", "letters.html")[1]
    links = re.findall(rf'href="{SITE}/book.html#([^"]*)"', page)
    wanted = []
    for key, spares in (("oberhuber-maximiliane-1", LONG_SPARES), ("ray-amy-1", SPARES)):
        wanted += [
            pass_in("season", key),
            "spare=" + ";".join(pass_in("season", it) for it in spares),
        ]
    same("the links of two letters, each with a second half", links, wanted)
    same("its halves", page.count('<div class="half">'), 2)


def by_the_menu():
    terminal = pexpect.spawn(
        "runuser",
        ["-u", "anna", "--", "env", "LANG=C.UTF-8", "TERM=dumb", "office", "club"],
        cwd="/home/anna",
        encoding="utf-8",
        timeout=90,
        dimensions=(50, 80),
    )
    for question, answer in (
        ("Task: ", "a new member"),
        ("Full name", "Bob Ray"),
        ("Open bookings", "5"),
        ("Points", "3000"),
        ("Do it", ""),
        ("Enter for", ""),
        ("Task: ", ""),
    ):
        terminal.expect(question)
        terminal.sendline(answer)
    terminal.expect(pexpect.EOF)
    terminal.close()
    same("the menu's status", terminal.exitstatus, 0)
    (member,) = next(iter(rows("SELECT name FROM members WHERE credited = 3000")))
    keys = [f"{member}-1", f"{member}-lend-1", f"{member}-lend-2"]
    same("the menu's new member", sorted(keys_of(member)), keys)
    page = run_as("anna", "cat", f"letter-{keys[0]}.html")[1]
    own, *spares = (pass_in("passes", it) for it in keys)
    same(
        "the new member's letter",
        re.findall(rf'href="{SITE}/book.html#([^"]*)"', page),
        [own, "spare=" + ";".join(spares)],
    )


def by_the_command():
    spares = ["lee-cy-lend-1", "lee-cy-lend-2"]
    same(
        "the output of add-member",
        done("add-member", "lee-cy", "5").splitlines(),
        ["done", *(f"lee-cy: spare pass {it}" for it in spares)],
    )
    same("its keys", keys_of("lee-cy"), spares)
    root = rows(f"SELECT hex(root) FROM keys WHERE name = '{spares[0]}'")[0][0]
    same(
        "its spare pass",
        run_as("anna", "passtool", "verify", "--root", root, given=pass_in("passes", spares[0]))[1],
        "signed\n",
    )
    same("a repeated add-member", office("add-member", "lee-cy", "5")[0], 1)
    (HOME / "passes" / "lee-dot-lend-2").write_text("another's\n", encoding="utf-8")
    status, _, errors = office("add-member", "lee-dot", "5")
    same(
        "an existing file",
        (status, errors, rows("SELECT count(*) FROM members WHERE name = 'lee-dot'")),
        (1, "refused: the file passes/lee-dot-lend-2 already exists\n", [(0,)]),
    )
    whole("spare keys of a new member")


def at_the_desk():
    server = Service(at=NOON)
    own, spare = pass_in("season", "ray-amy-1"), pass_in("season", SPARES[0])
    slot = "/slots/court-1/2026-05-01/18/bookings"
    same(
        "her own booking",
        server.answer(own, "PUT", f"{slot}/7", '{"guests":0}'),
        (200, '{"booking":"ray-amy-1/7","charge":200,"left":3}'),
    )
    same(
        "under a spare pass",
        server.answer(spare, "PUT", f"{slot}/7", '{"guests":1}'),
        (200, f'{{"booking":"{SPARES[0]}/7","charge":400,"left":1}}'),
    )
    same(
        "a spare pass uses her points and counts its own",
        server.answer(spare, "GET", "/account"),
        (200, '{"member":"ray-amy","balance":400,"quota":5,"open":2,"spent":400}'),
    )
    same(
        "her own pass doesn't count them",
        server.answer(own, "GET", "/account"),
        (200, '{"member":"ray-amy","balance":400,"quota":5,"open":2,"spent":200}'),
    )
    same(
        "a spare pass cancels its own booking",
        server.answer(spare, "DELETE", f"{slot}/7"),
        (200, f'{{"booking":"{SPARES[0]}/7","refund":400}}'),
    )
    same(
        "a spare pass can't cancel her booking",
        server.answer(spare, "DELETE", f"{slot}/8"),
        (404, '{"fault":15,"text":"no such booking"}'),
    )
    server.stop()


def in_the_configuration():
    configure(SITE=SITE, SPARES="1", SPARE_NAME="leih")
    (HOME / "late.csv").write_text("first name,surname\nCarol,Fox\n", encoding="utf-8")
    done("import", "late.csv", "--quota", "5", "--points", "0", "--passes", "late", "--yes")
    same("another name", keys_of("fox-carol"), ["fox-carol-1", "fox-carol-leih-1"])
    (HOME / "none.csv").write_text("first name,surname\nDan,Fox\n", encoding="utf-8")
    for odd in (
        {"SPARES": "10"},
        {"SPARES": "x"},
        {"SPARES": "-1"},
        {"SPARES": "1", "SPARE_NAME": "A b"},
    ):
        configure(SITE=SITE, **odd)
        status, out, errors = office(
            "import", "none.csv", "--quota", "5", "--points", "0", "--passes", "none", "--yes"
        )
        same(
            f"{odd} is refused",
            (
                status != 0,
                "SPARES or SPARE_NAME" in errors,
                rows("SELECT * FROM members WHERE name = 'fox-dan'"),
            ),
            (True, True, []),
        )
    configure(SITE=SITE)
    done("import", "none.csv", "--quota", "5", "--points", "0", "--passes", "none", "--yes")
    same("no spare keys without a configuration line", keys_of("fox-dan"), ["fox-dan-1"])


SPARES = ["ray-amy-lend-1", "ray-amy-lend-2"]
LONG_SPARES = [f"{LONG[:17].rstrip('-')}-lend-{it}" for it in (1, 2)]
configure(SITE=SITE, TITLE='"Our club"', SPARES="2")
done("new")
done("add-facility", "court-1", "court", "4", "200", "8", "22")
imports()
in_letters()
by_the_menu()
by_the_command()
at_the_desk()
in_the_configuration()
leave()

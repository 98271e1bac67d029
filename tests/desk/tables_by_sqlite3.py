#!/usr/bin/env -S /usr/bin/python3 -B -m pytest -q -p no:cacheprovider
"""The sqlite3 shell reads a file of `clubdesk`, and the SQL for lists and corrections in examples/
works.

If a file is damaged, or has wrong tables or a row outside the limits, `clubdesk` reports that
storage failed.

A file of clubdesk has the columns, keys, references and limits of docs/TABLES.md. clubdesk shows
the changes that sqlite3 makes within these limits. If clubdesk refuses a file, it doesn't change a
byte of the file.
"""

import re
import shutil
import subprocess

import pytest

import desk
from conftest import Club
from kinds import (
    ACCOUNT,
    ONE,
    ROOM,
    THREE,
    book,
    booked,
    cancel,
    key_pass,
    command,
    shown,
    slot,
    text,
    view,
)

pytestmark = [pytest.mark.programs, pytest.mark.needs("clubdesk"), pytest.mark.wants("sqlite3")]

DAY = "2026-05-01"
RECIPES = "\n".join(
    (desk.ROOT / "examples" / f"{it}.sql").read_text(encoding="utf-8")
    for it in ("lists", "corrections", "sums")
)
SCHEMA = re.search(
    r"^```sql\n(.*?)^```",
    (desk.ROOT / "docs" / "TABLES.md").read_text(encoding="utf-8"),
    re.MULTILINE | re.DOTALL,
)[1]
TABLES = re.findall(r"^CREATE TABLE (\w+)", SCHEMA, re.MULTILINE)
# For each column with limits in docs/TABLES.md: its table, its name, its least value and its
# greatest value.
LIMITS = [
    (table, *limit)
    for table, columns in re.findall(
        r"^CREATE TABLE (\w+) \(\n(.*?)^\)", SCHEMA, re.MULTILINE | re.DOTALL
    )
    for limit in re.findall(r"CHECK \((\w+) BETWEEN (\d+) AND (\d+)\)", columns)
]
ROOT = "30313233343536373839616263646566"
AMY = text(key_pass("amy-1", ROOT))
FORGED = text(
    key_pass("amy-1", "00" * 16)
)  # signed with another root, so the desk looks for an older root
UNAVAILABLE = '{"fault":22,"text":"unavailable"}'
LINE_7 = "court-1                  18:00 amy-1                            7  3    600\n"
LINE_9 = "court-1                  18:00 amy-1                            9  1    200\n"
NO_BOOKINGS = command(f"sheet {DAY}", printed=f"Day sheet {DAY}\nNo bookings.\n")


def tells(
    taken,
    balance,
    opened,
    spent,
    quota=5,
    sheet=LINE_7 + "Total bookings 1, persons 3, charge 600\n",
    nine=True,
    room=False,
):
    """Returns requests for three slots and the account, and a command for the day sheet, with the
    expected answers. `nine` is true if the court's slot at 9:00 is closed, and `room` is true if
    the room's slot is closed."""
    rows = [
        shown(0, 9, nine),
        shown(taken),
        view(ROOM).serves(
            facility="room-1",
            day=DAY,
            hour=18,
            kind="room",
            price=601,
            places=1,
            taken=0,
            closed=room,
        ),
        ACCOUNT.serves(member="amy", balance=balance, quota=quota, open=opened, spent=spent),
    ]
    return [
        *(it.under(AMY) for it in rows),
        command(f"sheet {DAY}", printed=f"Day sheet {DAY}\n{sheet}"),
    ]


FIRST = tells(3, 9099, 1, 901)


@pytest.fixture(scope="module")
def made(new_club):
    """A club with two bookings. One of the bookings was cancelled less than a day before its
    slot."""
    club = new_club(
        "add-member amy 5",
        "credit amy 10000",
        "add-facility court-1 court 4 200 8 22",
        "add-facility room-1 room 1 601 8 22",
        f"add-key amy-1 amy {ROOT}",
        f"close-slot court-1 {DAY} 09",
    )
    rows = [
        booked(book(7, THREE), 600, 1),
        booked(book(8, ONE, ROOM), 601, 0),
        cancel(8, ROOM).at("2026-04-30T18:01").serves(booking="amy-1/8", refund=300),
    ]
    club.play(it.under(AMY) for it in rows)
    return club


@pytest.fixture
def club(made, tmp_path):
    """Copies the club's file without its write-ahead log. The file alone contains the whole
    club."""
    shutil.copy(made.file, tmp_path / "club")
    return Club(made.program, tmp_path / "club")


def shell(club, *words, given=None):
    """Runs the sqlite3 shell on the club's file, and returns the output."""
    return subprocess.run(
        ["sqlite3", "-bail", club.file, *words],
        input=given,
        capture_output=True,
        check=True,
        text=True,
    ).stdout


def sql(club, statements):
    return shell(club, f"PRAGMA foreign_keys = ON; {statements}")


def dump(club):
    return subprocess.run(["sqlite3", club.file, ".dump"], capture_output=True, check=False).stdout


def test_what_clubdesk_tells(club):
    club.play(FIRST)


def test_rows(club):
    assert (
        sql(
            club,
            """PRAGMA integrity_check; PRAGMA foreign_key_check; SELECT * FROM desk; SELECT * FROM members; SELECT * FROM facilities;
        SELECT name, member, hex(root), revoked FROM keys; SELECT * FROM slots; SELECT * FROM bookings; SELECT * FROM old_roots""",
        )
        == """\
ok
2
amy|10000|5|901
court-1|court|4|200|8|22
room-1|room|1|601|8|22
amy-1|amy|30313233343536373839616263646566|0
court-1|20574|9|1|0
court-1|20574|18|0|3
room-1|20574|18|0|0
amy-1|7|court-1|20574|18|2|600|1|0|0
amy-1|8|room-1|20574|18|0|601|0|1|300
"""
    )


def test_sums_of_an_auditor(club):
    taken = (
        "SELECT total(guests + 1) FROM bookings WHERE cancelled = 0 AND day = 20574 AND hour = 18"
        " AND facility ="
    )
    assert (
        sql(
            club,
            f"""SELECT total(charge - refund) FROM bookings WHERE pass_key = 'amy-1';
        SELECT credited - (SELECT total(charge - refund) FROM bookings JOIN keys ON name = pass_key WHERE member = 'amy')
            FROM members WHERE name = 'amy';
        {taken} 'court-1'; {taken} 'room-1'; SELECT date(20574 * 86400, 'unixepoch')""",
        ).split()
        == ["901.0", "9099.0", "3.0", "0.0", DAY]
    )
    sound(club)


def statements(texts):
    """Returns each statement as a tuple of its words and signs."""
    return {tuple(re.findall(r"\w+|[^\w\s]", it)) for it in texts}


def test_columns_keys_references_and_limits(club):
    """The CREATE statements have exactly the words of docs/TABLES.md. No column may be null, and
    all tables are STRICT."""
    found = [it for it, in club.sql("SELECT sql FROM sqlite_schema WHERE sql NOT NULL")]
    assert statements(found) == statements(
        it for it in SCHEMA.split(";\n") if it.startswith("CREATE ")
    )
    assert (
        club.sql(
            """SELECT count(*) FROM pragma_table_list t, pragma_table_info(t.name) c
        WHERE t.name NOT LIKE 'sqlite%' AND NOT (t.strict AND c."notnull")"""
        )
        == [(0,)]
    )
    assert (len(TABLES), len(LIMITS)) == (7, 20)


def test_what_sqlite3_writes_is_told(club):
    """clubdesk shows rows that sqlite3 has changed within the limits, even if clubdesk left a
    write-ahead log next to the file."""
    club.does(f"sheet {DAY}")
    sql(
        club,
        """UPDATE members SET credited = credited + 5, quota = 99, used = used + 200; DELETE FROM slots;
        INSERT INTO slots VALUES ('room-1', 20574, 18, 1, 0), ('court-1', 20574, 9, 0, 0), ('court-1', 20574, 18, 0, 4);
        INSERT INTO bookings VALUES ('amy-1', 9, 'court-1', 20574, 18, 0, 200, 0, 0, 0);
        INSERT INTO old_roots VALUES ('amy-1', zeroblob(16), 20000000)""",
    )
    club.play(
        tells(
            4,
            8904,
            2,
            1101,
            99,
            LINE_7 + LINE_9 + "Total bookings 2, persons 4, charge 800\n",
            nine=False,
            room=True,
        )
    )
    sql(club, "UPDATE keys SET revoked = 1")
    club.play([it.under(AMY).gets(10) for it in (view(slot("09")), view(), view(ROOM), ACCOUNT)])


# ---- examples/lists.sql, examples/corrections.sql and examples/sums.sql


def by_recipe(club, heading):
    """Runs the statements below a comment that begins with these words in the sqlite3 shell, and
    returns the output."""
    return shell(
        club, given=re.search(rf"^-- {heading}.*\n((?:(?!--).+\n)+)", RECIPES, re.MULTILINE)[1]
    )


def sound(club):
    """Checks the totals with examples/sums.sql, and the integrity of the file."""
    assert (
        by_recipe(club, "Tests the stored totals") + sql(club, "PRAGMA integrity_check")
        == "0\n0\n0\nok\n"
    )


def corrected(club, heading, again):
    """Runs a correction twice. The first run changes one row. The second run changes `again` rows,
    and leaves the file unchanged if `again` is 0."""
    assert by_recipe(club, heading) == "1\n"
    sound(club)
    before = dump(club)
    assert by_recipe(club, heading) == f"{again}\n"
    sound(club)
    assert again or dump(club) == before


def test_lists(club):
    club.does("rotate-key amy-1 40414243444546474849414243444546 2026-05-02T00:00")
    club.does("add-member bob 1")
    assert by_recipe(club, "Members") == "amy|9099|5\nbob|0|1\n"
    assert by_recipe(club, "Keys of a member") == "amy-1|0|2026-05-02T00:00\n"
    assert by_recipe(club, "Bookings of a member") == "2026-05-01|18|court-1|amy-1|7|3|600\n"
    assert by_recipe(club, "Closed slots") == "court-1|2026-05-01|9\n"
    club.play(FIRST)


def test_corrections(club):
    """After the corrections, the desk answers as if the club had always been in the corrected
    state."""
    corrected(club, "A credit that was too high", 1)
    corrected(club, "Another quota", 1)
    corrected(club, "A slot that is open again", 0)
    club.play(tells(3, 8099, 1, 901, 8, nine=False))
    sql(club, "UPDATE members SET credited = used + 499")
    before = dump(club)
    assert by_recipe(club, "A credit that was too high") == "0\n"
    assert dump(club) == before
    sql(club, "UPDATE members SET credited = 10000, quota = 5")
    club.does("revoke-key amy-1")
    corrected(club, "Cancel for a revoked key", 0)
    sql(club, "UPDATE keys SET revoked = 0")
    club.play(
        [
            *tells(0, 9699, 0, 301, sheet="No bookings.\n", nine=False),
            cancel(7).under(AMY).serves(booking="amy-1/7", refund=600),
        ]
    )


# ---- other files


@pytest.mark.parametrize(
    "before",
    [None, "", "CREATE TABLE notes (text TEXT); INSERT INTO notes VALUES ('a')"],
    ids=["none", "empty", "of others"],
)
def test_file_that_becomes_a_club(clubdesk, tmp_path, before):
    """clubdesk makes a club in a new file, in an empty file, and in a file with another program's
    table. The other table stays."""
    club = Club(clubdesk, tmp_path / "new")
    if before is not None:
        club.file.touch()
        sql(club, before)
    club.play([NO_BOOKINGS])
    assert (
        sql(
            club,
            """PRAGMA integrity_check; SELECT * FROM desk;
        SELECT count(*) FROM members, facilities, keys, slots, bookings""",
        )
        == "ok\n2\n0\n"
    )
    assert not before or sql(club, "SELECT * FROM notes") == "a\n"


@pytest.mark.parametrize(
    "change",
    [
        "DROP TABLE old_roots; DROP INDEX bookings_by_key; UPDATE desk SET version = 1",
        "DROP INDEX bookings_by_key",
    ],
)
def test_file_of_before_is_migrated(club, change):
    """The test changes the file to an older format. After the migration, the rows and the schema
    are the same as before this change, and no key has an older root."""
    schema = sql(club, "SELECT type, name, sql FROM sqlite_schema")
    sql(club, change)
    club.play(FIRST)
    assert (
        sql(club, "PRAGMA integrity_check; SELECT * FROM desk; SELECT count(*) FROM old_roots")
        == "ok\n2\n0\n"
    )
    assert sql(club, "SELECT type, name, sql FROM sqlite_schema") == schema


def refused(club):
    """Checks that clubdesk reports a storage fault for a day sheet. If clubdesk can read the day
    sheet, one of several requests must get the reply "unavailable". The file and its rows must stay
    unchanged."""
    before = club.file.read_bytes(), dump(club)
    status, _, fault = club.command("sheet", DAY)
    if (status, fault) != (5, "storage failed\n"):
        assert (status, fault) == (0, "")
        asked = [
            *(it.under(AMY) for it in (view(slot("09")), view(), view(ROOM), ACCOUNT)),
            ACCOUNT.under(FORGED),
        ]
        assert UNAVAILABLE in [
            club.ask(it.data).body for it in asked
        ], "the desk answers every request"
    assert (club.file.read_bytes(), dump(club)) == before


@pytest.mark.parametrize(
    "spoil",
    [lambda _: b"x" * 100, lambda it: it[:20000], lambda it: it[:16385] + b"\xff" * 4 + it[16389:]],
    ids=["no database", "half a file", "a damaged page"],
)
def test_bytes_that_are_no_club(club, spoil):
    club.file.write_bytes(spoil(club.file.read_bytes()))
    refused(club)


def test_command_that_is_refused_changes_nothing(club):
    before = club.file.read_bytes(), dump(club)
    assert club.command("add-member", "amy", "5") == (1, "", "refused: exists\n")
    assert (club.file.read_bytes(), dump(club)) == before


@pytest.mark.parametrize("table, column, least, most", LIMITS, ids=map(" ".join, LIMITS))
def test_limit(club, table, column, least, most):
    """sqlite3 accepts the least and the greatest value of each column, and refuses values outside
    these limits. If sqlite3 ignores the limits and writes such a value, the desk refuses the
    file."""
    sql(club, "INSERT INTO old_roots VALUES ('amy-1', zeroblob(16), 20000000)")
    kept = club.copied_to(club.file.with_name("kept"))
    for value in (int(least) - 1, int(least), int(most), int(most) + 1):
        update = f"UPDATE OR IGNORE {table} SET {column} = {value}"
        ended = subprocess.run(
            ["sqlite3", club.file, f"BEGIN; {update.replace(' OR IGNORE', '')} WHERE rowid = 1"],
            capture_output=True,
            check=False,
            text=True,
        )
        is_refused = not int(least) <= value <= int(most)
        assert (ended.returncode, "CHECK constraint failed" in ended.stderr) == (
            19 if is_refused else 0,
            is_refused,
        ), value
        if is_refused:
            shell(club, f"PRAGMA ignore_check_constraints = ON; {update}")
            refused(club)
            kept.copied_to(club.file)


# Lines of SQL. Each line spoils a club, so that the desk must refuse the file.
RENAMED = (
    "old_roots until",
    "members quota",
    "members used",
    "facilities price",
    "keys root",
    "slots closed",
    "slots taken",
    "bookings remains",
)
SPOILED = [
    *(f"UPDATE desk SET version = {it}" for it in (9, 0, -1, 1, 3)),
    *(f"DROP TABLE {it}" for it in TABLES),
    *("ALTER TABLE {} RENAME COLUMN {} TO other".format(*it.split()) for it in RENAMED),
    *"""\
DELETE FROM desk
INSERT INTO desk VALUES (1)
DROP TABLE desk; CREATE TABLE desk (version TEXT) STRICT; INSERT INTO desk VALUES ('1')
DROP TABLE desk; CREATE TABLE desk (number INTEGER NOT NULL) STRICT; INSERT INTO desk VALUES (1)
INSERT INTO old_roots VALUES ('amy-1', zeroblob(15), 20000000)
INSERT INTO old_roots VALUES ('bob-1', zeroblob(16), 20000000)
UPDATE slots SET taken = 51
UPDATE slots SET taken = -1
UPDATE members SET name = 'Amy'
UPDATE members SET name = 'Amy'; UPDATE keys SET member = 'Amy'
UPDATE facilities SET kind = 'pool' WHERE name = 'court-1'
UPDATE facilities SET opens = 22 WHERE name = 'room-1'
UPDATE facilities SET opens = 24, shuts = 25
UPDATE keys SET member = 'bob'
UPDATE keys SET member = ''
UPDATE keys SET root = x'00112233445566778899aabbccddee'
UPDATE keys SET root = zeroblob(65)
UPDATE slots SET facility = 'court-2' WHERE hour = 9
UPDATE bookings SET pass_key = 'amy-2'
UPDATE bookings SET facility = 'room-2'
UPDATE bookings SET refund = 602 WHERE number = 8
UPDATE bookings SET refund = 1 WHERE number = 7
UPDATE facilities SET name = 'Court-1' WHERE name = 'court-1'; UPDATE bookings SET facility = 'Court-1' WHERE number = 7; UPDATE slots SET facility = 'Court-1' WHERE facility = 'court-1'
""".splitlines(),
]


@pytest.mark.parametrize("change", SPOILED)
def test_tables_that_hold_no_club(club, change):
    shell(club, f"PRAGMA foreign_keys = OFF; PRAGMA ignore_check_constraints = ON; {change}")
    refused(club)


@pytest.mark.parametrize("path", ["no/club", ".", ""])
def test_path_where_no_file_can_lie(clubdesk, tmp_path, monkeypatch, path):
    monkeypatch.chdir(tmp_path)
    assert Club(clubdesk, path).command("sheet", DAY) == (5, "", "storage failed\n")


def test_file_that_sqlite3_locked(club):
    with desk.opened(club.file, isolation_level=None) as database:
        database.execute("BEGIN EXCLUSIVE")
        assert club.command("sheet", DAY) == (5, "", "storage failed\n")

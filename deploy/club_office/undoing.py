"""Records the rows that the last correction changes, in a file next to the club, before the correction takes effect. So `undo` can restore these
rows, if they have not changed since the correction. With the record, the office can also continue an interrupted correction."""

import contextlib
import json
import os
import time

from club_office.copies import address, synced
from club_office.faults import nothing_left, refusal
from club_office.plans import Edit, Plan
from club_office.texts import say
from club_office.values import MOST_CREDIT

TABLES = ("members", "facilities", "keys", "slots", "bookings", "old_roots")
# The number of key columns in each of these tables. In every other table the first column is the key.
KEYS = {"slots": 3, "bookings": 2}
# The columns of the tables that `undo` can correct with clubdesk's commands.
COLUMNS = {
    "members": ("name", "credited", "quota", "used"),
    "facilities": ("name", "kind", "places", "price", "opens", "shuts"),
}
# A clerk can't undo a correction that changes more rows than this. Nor can a clerk undo a new year, which copies the club's file, then changes the
# original in place.
MOST_ROWS = 5_000
NOT_UNDONE = "new-year"
# Options that don't affect the changes that a correction makes to the club.
NOT_MEANT = ("--yes", "--mail")


def undo_of(club):
    return club.file + "-undo"


def columns_of(db, table):
    return [row[1] for row in db.execute(f"PRAGMA table_info({table})")]


def plain(value):
    return {"hex": value.hex()} if isinstance(value, bytes) else value


def value_of(stored):
    return bytes.fromhex(stored["hex"]) if isinstance(stored, dict) else stored


def rows_changed(db):
    """Returns the rows that differ from the copy attached as `before`. For each row, returns its table and rowid, its old values and its new values.
    None stands for the values of a missing row."""
    found = []
    for table in TABLES:
        was, is_now = (
            {
                row[0]: row[1:]
                for row in db.execute(
                    f"SELECT rowid, * FROM {one}.{table} EXCEPT SELECT rowid, * FROM {other}.{table}"
                )
            }
            for one, other in (("before", "main"), ("main", "before"))
        )
        for rowid in sorted({*was, *is_now}):
            found.append(
                [
                    table,
                    rowid,
                    *(
                        None if it is None else [plain(value) for value in it]
                        for it in (was.get(rowid), is_now.get(rowid))
                    ),
                ]
            )
    return found


def row_of(db, table, key):
    """Returns the rowid and the values of the row with this key, or None."""
    columns = columns_of(db, table)[: KEYS.get(table, 1)]
    return db.execute(
        f"SELECT rowid, * FROM {table} WHERE {' AND '.join(f'{it} = ?' for it in columns)}", key
    ).fetchone()


def rows_edited(db, edits):
    """Returns the rows that the commands' edits change in a copy, in the same form as `rows_changed`. For a slot that has no row yet, the rowid is
    None."""
    found = {}
    for it in edits:
        columns, place = columns_of(db, it.table), (it.table, *it.key)
        if place not in found:
            row = row_of(db, it.table, it.key)
            found[place] = [
                it.table,
                row and row[0],
                row and list(row[1:]),
                list(row[1:]) if row else [*it.key, 0, 0],
            ]
        row = found[place][3]
        for column, value in it.sets.items():
            row[columns.index(column)] = value
        for column, value in it.adds.items():
            row[columns.index(column)] += value
    return [
        [table, rowid, was and [plain(it) for it in was], [plain(it) for it in is_now]]
        for table, rowid, was, is_now in found.values()
        if was != is_now
    ]


def attach_before(db, copy):
    """Attaches the copy made before a correction as `before`. SQLite may treat the copy as immutable, because nobody changes it."""
    db.execute("ATTACH ? AS before", [address(copy, "ro") + "&immutable=1"])


def forget_undo(club):
    with contextlib.suppress(FileNotFoundError):
        os.unlink(undo_of(club))


def write_undo(club, db, words):
    """Records the rows that a correction is about to commit. If the commit fails, no row has the recorded new values, so `undo` refuses. An undo
    doesn't record its own rows. So the correction's record stays until SQLite commits the undo."""
    if words.command == "undo":
        return
    rows = rows_changed(db)
    if words.command == NOT_UNDONE or len(rows) > MOST_ROWS:
        forget_undo(club)
        return
    write(club, content_of(words, rows, True)).close()


# ---- The record of a correction that consists of commands. The first line of the record is its content, and later lines show the progress.

DONE, MAILED = "done", "mailed "


def content_of(words, rows, is_done):
    return {
        "moment": time.strftime("%Y-%m-%d %H:%M"),
        "words": words.given,
        "rows": rows,
        "cancelled": [],
        "mailed": [],
        "is_done": is_done,
    }


def write(club, content):
    """Replaces the last record with a new record. Returns the open file, so that the caller can add lines."""
    made = undo_of(club) + ".new"
    file = open(made, "w", encoding="ascii")
    add(file, json.dumps(content))
    os.rename(made, undo_of(club))
    synced(os.path.dirname(club.file))
    return file


def add(file, line):
    """Adds a line to a record, even if the record of a newer correction has replaced this record."""
    file.write(line + "\n")
    file.flush()
    os.fsync(file.fileno())


def read(club):
    """Returns the content of the last record, or None if the record is missing or unreadable."""
    with contextlib.suppress(FileNotFoundError, ValueError), open(
        undo_of(club), encoding="ascii"
    ) as file:
        content, *more = file.read().split("\n")
        content = json.loads(content)
        mailed = content.get("mailed", []) + [
            it.removeprefix(MAILED) for it in more if it.startswith(MAILED)
        ]
        return {
            **content,
            "mailed": mailed,
            "is_done": content.get("is_done", True) or DONE in more,
        }
    return None


def meant(words):
    """Returns the words of a correction without the options --yes, --mail and --at."""
    found, is_value = [], False
    for it in words:
        if not is_value and it not in NOT_MEANT and not it.startswith("--at"):
            found.append(it)
        is_value = it == "--at"
    return found


def broken_off(club, words):
    """Returns the content of the last record if it belongs to this correction and the correction isn't complete. Otherwise returns None."""
    content = read(club)
    return (
        content
        if content and not content["is_done"] and meant(content["words"]) == meant(words.given)
        else None
    )


class Record:
    """The record of a running correction. `left` is the content of an interrupted run's record. An undo restores the rows that either run has
    changed."""

    def __init__(self, club, words, left):
        self.club, self.file = club, None
        self.content = {
            **content_of(words, [], False),
            **{it: left[it] for it in ("rows", "cancelled", "mailed") if left},
        }

    def keep(self, rows, cancelled):
        """Records the rows and bookings that the correction is about to change."""
        known = self.content["rows"]
        self.content["cancelled"] += [it for it in cancelled if it not in self.content["cancelled"]]
        if known is not None:
            every = {row_place(it): it for it in known}
            for it in rows:
                every[row_place(it)] = [*every.get(row_place(it), it)[:3], it[3]]
            found = [with_sums(it, self.content["cancelled"]) for it in every.values()]
            self.content["rows"] = found if len(found) <= MOST_ROWS else None
        self.file = write(self.club, self.content)

    def note_mail(self, member):
        add(self.file, MAILED + member)

    def finish(self):
        add(self.file, DONE)


def with_sums(row, cancelled):
    """Returns the row with corrected old sums, because members may have booked since the interrupted run. The old sums are the current sums plus the
    sums of the cancelled bookings."""
    table, rowid, was, is_now = row
    if table == "slots":
        persons = sum(it[5] + 1 for it in cancelled if it[2:5] == is_now[:3])
        if was or persons:
            was = [*is_now[:3], was[3] if was else 0, is_now[4] + persons]
    elif table == "members":
        was = [*was[:3], is_now[3] + sum(it[6] for it in cancelled if it[7] == was[0])]
    return [table, rowid, was, is_now]


def row_place(row):
    """Returns the table of a row with the row's key. In a table whose keys may change, the rowid replaces the key."""
    table, rowid, was, is_now = row
    return (table, *(was or is_now)[: KEYS[table]]) if table in KEYS else (table, rowid)


def rows_of_member(db, member):
    """Returns the rows that contain the name of a member or of one of the member's keys, by table and rowid."""
    of_keys = "pass_key IN (SELECT name FROM keys WHERE member = ?)"
    tables = (
        ("members", "name = ?"),
        ("keys", "member = ?"),
        ("bookings", of_keys),
        ("old_roots", of_keys),
    )
    return {
        (table, row[0]): [plain(it) for it in row[1:]]
        for table, condition in tables
        for row in db.execute(f"SELECT rowid, * FROM {table} WHERE {condition}", [member])
    }


# ---- An undo.


def plan_undo(db, club):
    """Plans to restore the rows of the last correction. Refuses if a row has changed since the correction. Skips the rows that an interrupted
    correction didn't reach."""
    it = read(club)
    if not it or it["rows"] is None or is_undo(it):
        raise refusal("no undo", club=club.name)
    plan = Plan()
    plan.tell("undoes", moment=it["moment"], words=" ".join(it["words"]))
    # SQLite tests references between rows at the end of the transaction.
    plan.change(-1, "PRAGMA defer_foreign_keys = ON")
    for table, rowid, was, is_now in it["rows"]:
        if rowid is None:  # the slot had no row before
            rowid = (row_of(db, table, is_now[: KEYS[table]]) or [None])[0]
        found = db.execute(f"SELECT * FROM {table} WHERE rowid = ?", [rowid]).fetchone()
        found = None if found is None else [plain(value) for value in found]
        if found == was and not it["is_done"]:
            continue
        if found != is_now:
            raise refusal("touched since", row=row_text(table, is_now or was), club=club.name)
        columns = columns_of(db, table)
        if was is None:
            plan.change(1, f"DELETE FROM {table} WHERE rowid = ?", rowid)
        elif is_now is None:
            marks = ", ".join("?" * (len(columns) + 1))
            plan.change(
                1,
                f"INSERT INTO {table} (rowid, {', '.join(columns)}) VALUES ({marks})",
                rowid,
                *map(value_of, was),
            )
        else:
            plan.change(
                1,
                f"UPDATE {table} SET {', '.join(f'{name} = ?' for name in columns)} WHERE rowid = ?",
                *map(value_of, was),
                rowid,
            )
        plan.undone += 1
        plan.tell(
            "puts back" if was is not None else "takes away", row=row_text(table, was or is_now)
        )
    if not plan.undone:
        raise refusal("no undo", club=club.name)
    return plan


def is_undo(content):
    return content["words"][0] == "undo"


def order_between(table, now, then):
    """Returns the command that changes a row from `now` to `then`, with the command's edit. Returns None if no single command can do so."""
    columns = COLUMNS.get(table) if now and then else None
    changed = {
        it: after
        for it, before, after in zip(columns or (), now or (), then or ())
        if before != after
    }
    if changed.keys() == {"quota"}:
        return ["set-quota", now[0], changed["quota"]], Edit(table, (now[0],), changed)
    if changed.keys() == {"credited"} and 0 < then[1] - now[1] <= MOST_CREDIT:
        return ["credit", now[0], then[1] - now[1]], Edit(table, (now[0],), changed)
    if changed and changed.keys() <= {"places", "price", "opens", "shuts"}:
        return ["set-facility", now[0], *then[2:]], Edit(table, (now[0],), changed)
    return None


def row_undone(content):
    """If one command can undo the correction, returns the row that the command changes, with its values before and after the undo. Otherwise returns
    None."""
    rows = content["rows"] or [] if content else []
    if len(rows) != 1:
        return None
    table, rowid, was, is_now = rows[0]
    before, after = (was, is_now) if is_undo(content) else (is_now, was)
    return (table, rowid, before, after) if order_between(table, before, after) else None


def is_by_command(club):
    """Returns whether a command can undo the last correction, or continue an interrupted undo of that correction."""
    return row_undone(read(club)) is not None


def plan_undo_by_command(db, club):
    """Plans the command that restores the last correction's only row. Refuses if the row has changed since the correction."""
    it = read(club)
    row = row_undone(it)
    if row is None:
        raise refusal("changed since")
    table, rowid, before, after = row
    values = db.execute(f"SELECT * FROM {table} WHERE rowid = ?", [rowid]).fetchone()
    found = [plain(value) for value in values] if values else None
    if it["is_done"] and is_undo(it) or not it["is_done"] and found == after:
        raise nothing_left("no undo", club=club.name)
    if found != before:
        raise refusal("touched since", row=row_text(table, before), club=club.name)
    plan = Plan()
    plan.tell("undoes", moment=it["moment"], words=" ".join(it["words"]))
    plan.tell("puts back", row=row_text(table, after))
    plan.order(*order_between(table, before, after))
    return plan


def row_text(table, values):
    """Describes a row in words that clerks know."""
    if table == "slots":
        return say(
            "row slots",
            row=f"{values[0]} {time.strftime('%Y-%m-%d', time.gmtime(values[1] * 86400))} {values[2]:02d}:00",
        )
    if table == "bookings":
        return say("row bookings", row=f"{values[0]} {values[1]}")
    return say(f"row {table}", row=values[0])

"""Runs the built programs and the reference side by side: one club is in a file, and the same club
is in plain Python."""

import desk as programs
from reference import caveats, club as rules, passes, wire

# The kinds of all values of a command. Omits commands whose values are all words or numbers.
KINDS_OF_VALUES = {
    "add-key": ("word", "word", "root"),
    "rotate-key": ("word", "root", "moment"),
    "close-slot": ("word", "day", "hour"),
    "open-slot": ("word", "day", "hour"),
}


def expect(what, found, wanted):
    if found != wanted:
        raise AssertionError(f"{what!r}\nfound  {found!r}\nwanted {wanted!r}")


def spelled_day(day):
    return caveats.EPOCH.fromordinal(caveats.EPOCH.toordinal() + day).isoformat()


def spelled_moment(moment):
    return f"{spelled_day(moment // 1440)}T{moment // 60 % 24:02d}:{moment % 60:02d}"


SPELLINGS = {
    "word": str,
    "root": bytes.hex,
    "moment": spelled_moment,
    "day": spelled_day,
    "hour": "{:02d}".format,
}


def finds_each_plant(run):
    """Runs a test once with each planted fault of the rules. Returns whether each run finds a
    difference."""
    missed = set(rules.PLANTS)
    for plant in rules.PLANTS:
        try:
            run(plant)
            print(f"{plant} isn't found")
        except AssertionError as difference:
            print(f"{plant} is found: {str(difference).splitlines()[0][:90]}")
            missed.remove(plant)
    return not missed


class Both:
    """A club in a file, which the programs change, and the same club in the reference. A difference
    raises AssertionError."""

    def __init__(self, desk, file, plant=None):
        self.desk, self.file = desk, file
        self.club = rules.Club(plant)
        self.roots = {}  # all roots that each key has had

    def words_of(self, command):
        """Returns a command as words of a command line."""
        name, *values = command
        kinds = KINDS_OF_VALUES.get(name, ("word",) * len(values))
        return [name, self.file, *(SPELLINGS[kind](value) for kind, value in zip(kinds, values))]

    def answer_of(self, command):
        """Carries out a command in the reference. Returns the status, the output and the standard
        error that the program must give."""
        name, *values = command
        try:
            self.club.command(command)
        except rules.CommandRefused as refusal:
            return 1, "", f"refused: {refusal}\n"
        if name not in ("add-key", "rotate-key"):
            return 0, "done\n", ""
        key, root = values[0], values[2 if name == "add-key" else 1]
        self.roots.setdefault(key, []).append(root)
        return (
            0,
            passes.text_of(passes.minted(root, b"key:" + key.encode()), "v2").decode() + "\n",
            "",
        )

    def give(self, command):
        """Gives a command to the program and to the reference, and compares the answers."""
        found = programs.command(self.desk, *self.words_of(command))
        expect(f"command {command}", found, self.answer_of(command))

    def ask(self, server, data, moment):
        """Sends a request's bytes to the program and to the reference. Compares the replies, and
        returns the program's reply."""
        found = programs.exchange(server.port, data)
        expect(data, found, wire.exchange(self.club, data, moment))
        return found

    def compare_rows(self):
        """Compares the rows and totals of the file with the reference."""
        club = self.club
        of_file = lambda names, table: {
            row[0]: row[1:] for row in programs.rows(self.file, f"SELECT {names} FROM {table}")
        }
        expect(
            "members",
            of_file("name, credited, quota, used", "members"),
            {
                name: (it.credited, it.quota, it.credited - club.balance(name))
                for name, it in club.members.items()
            },
        )
        expect(
            "facilities",
            of_file("*", "facilities"),
            {
                name: (it.kind, it.places, it.price, it.opens, it.shuts)
                for name, it in club.facilities.items()
            },
        )
        expect(
            "keys",
            of_file("name, member, root, revoked", "keys"),
            {name: (it.member, it.root, int(it.is_revoked)) for name, it in club.keys.items()},
        )
        expect(
            "older roots",
            of_file("*", "old_roots"),
            {name: it.older for name, it in club.keys.items() if it.older},
        )
        expect(
            "bookings",
            set(programs.rows(self.file, "SELECT * FROM bookings")),
            {
                (
                    key,
                    number,
                    *it.slot,
                    it.guests,
                    it.charge,
                    it.left,
                    int(it.is_cancelled),
                    it.refund,
                )
                for key, rows in club.bookings.items()
                for number, it in rows.items()
            },
        )
        expect(
            "slots",
            {
                row[:3]: row[3:]
                for row in programs.rows(
                    self.file, "SELECT facility, day, hour, taken, closed FROM slots"
                )
                if any(row[3:])
            },
            {
                slot: (club.taken(slot), int(slot in club.closed))
                for slot in {*club.taken_in, *club.closed}
                if club.taken(slot) or slot in club.closed
            },
        )

    def compare_sheet(self, day):
        """Compares the day sheet with the reference."""
        rows = self.club.sheet(day)
        lines = [
            f"{facility:<24} {hour:02d}:00 {key:<24} {number:9d} {persons:2d} {charge:6d}"
            for facility, hour, key, number, persons, charge in rows
        ]
        total = (
            f"Total bookings {len(rows)}, persons {sum(it[4] for it in rows)}, charge"
            f" {sum(it[5] for it in rows)}"
        )
        text = "\n".join(
            [f"Day sheet {spelled_day(day)}", *lines, total if rows else "No bookings.", ""]
        )
        expect(
            f"sheet {day}",
            programs.command(self.desk, "sheet", self.file, spelled_day(day)),
            (0, text, ""),
        )

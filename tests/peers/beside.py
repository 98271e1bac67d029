#!/usr/bin/env -S /usr/bin/python3 -B
"""Desks written in C, Go and Python, which use SQLite's library, reply as clubdesk does. The test
compares their times with clubdesk's.

The test measures requests of 50 members, in a file with 100 past bookings and in a file with
100,000. In the second file, the test also measures requests of a member with 10,000 bookings of her
own, and of a member without bookings. The desk beside_c/desk.c has its own server. The desk
beside_go uses net/http and database/sql. The desk beside_flask.py uses Flask under gunicorn with
one worker. All desks use the same file, the same transactions and pragmas, and the SQL statements
of crates/club_tables. For each reply, all desks read the same rows. The desk in C replies with the
same bytes as clubdesk. The replies of Go and Flask have the same status line and body, and the same
header fields in another order. gunicorn adds the fields Date and Server. The test also measures a
minimal server in C, which reads once and writes 133 bytes.

The test prints the median times in microseconds for a booking, a repeated booking, an account, a
slot, a refused pass and a forged pass. The test also prints the ratio of clubdesk's median to each
other desk's median. The time of a request runs from before the client connects until the end of the
reply. Then the test prints the ratios that have an upper limit. To find the system calls of a
request, strace counts the calls for 101 requests and for one request, and the test divides the
difference by 100. One client sends requests to the servers in turn. If the machine has two
processors, the client runs on one and the servers run on the other.

The test runs each desk as DESK FILE MOMENT < STATEMENTS. MOMENT is in minutes since 1970. Each line
of STATEMENTS has one SQL statement. A desk prints the same first line as clubdesk, and serves until
the test stops it. Like clubdesk, a desk reads a key's older root only if the key's current root
didn't sign the pass.

  tests/peers/beside.py [--desks c,go,flask] [COUNT [ROUNDS [ROWS ..]]]      COUNT requests of each kind in a round; without: 500 7 100 100000
"""
# pytestmark = [mark.speed, mark.alone, mark.needs("clubdesk"),
#     mark.wants("gcc libc6-dev libsqlite3-dev nettle-dev strace golang-go golang-github-mattn-go-sqlite3-dev golang-gopkg-macaroon.v2-dev python3-flask python3-gunicorn")]

import argparse
import os
import re
import signal
import sqlite3
import statistics
import subprocess
import sys
import tempfile
from collections import Counter, defaultdict
from contextlib import ExitStack, closing
from pathlib import Path

sys.path[:0] = [str(Path(__file__).resolve().parents[1] / it) for it in ("lib", "")]
import desk
from kinds import ACCOUNT, NOON, THREE, TWO, Row, key_pass, text

MINUTE, MANY = 29_611_440, '{"guests":49}'
ROOT, BIG_ROWS, KEYS_ASKED = b"0123456789abcdef", 10_000, 50
MOST_OPEN = 98  # open bookings of a member, whose quota is 99
KINDS = ["booking", "repeat", "account", "slot", "refused", "forged"]
STATEMENTS = "KEY OLDER_ROOT MEMBER FACILITY SLOT BOOKING COSTS_UNDER_KEY OPEN ADD_BOOKING ADD_TAKEN CHARGE".split()
OURS, PLAIN = "clubdesk", "plain"
PROCESSORS = sorted(os.sched_getaffinity(0))[-2:]
CAVEATS = ["guests <= 4", "until < 2099-12-31T23:59", "spend <= 999999999"]


def day_text(offset):
    return f"2026-{4 + (20 + offset) // 30:02}-{1 + (20 + offset) % 30:02}"


def slot_path(number):
    """Returns the path of the slot with this number. The slots are the hours of nine days from
    April 21 on, at 48 courts."""
    court, rest = divmod(number, 9 * 24)
    return f"/slots/court-{3 + court}/{day_text(rest // 24)}/{rest % 24:02}"


class Asker:
    """Makes the requests of one member, with each of the member's keys in turn. In each round, the
    booking numbers and slots are new."""

    def __init__(self, keys, first_number, first_slot):
        self.keys, self.first_number, self.slot, self.asked = keys, first_number, first_slot, 0
        whole = {key: key_pass(key, ROOT.hex()) for key in keys}
        self.passes = {key: text(it, *CAVEATS) for key, it in whole.items()}
        self.narrow = {key: text(it, *CAVEATS, "actions = view") for key, it in whole.items()}
        self.forged = {
            key: it[:-2] + ("A" if it[-2] != "A" else "B") + it[-1]
            for key, it in self.passes.items()
        }

    def refused(self):
        """Returns requests that the desk refuses, each for a different reason. The test sends these
        requests after the rounds."""
        key, slot = self.keys[0], slot_path(self.slot)
        whole, passed, book = (
            key_pass(key, ROOT.hex()),
            self.passes[key],
            f"/bookings/{self.first_number + 900_000}",
        )
        return [
            it.data
            for it in (
                *(
                    Row("PUT", path + book, body, passed)
                    for path, body in (
                        ("/courts", TWO),
                        (slot, "{}"),
                        (slot.replace("court", "boat"), TWO),
                        (slot.replace("04-21", "04-19"), TWO),
                        (slot, MANY),
                    )
                ),
                *(
                    Row("PUT", slot + book, TWO, text(whole, caveat))
                    for caveat in (
                        "spend <= 1",
                        "guests <= 0",
                        "shoe = red",
                        "until < 2026-04-20T12:00",
                    )
                ),
                *(
                    Row("GET", slot, passed=it)
                    for it in (None, "x", text(key_pass("none", ROOT.hex())))
                ),
                Row("PUT", f"{slot}/bookings/{self.first_number}", THREE, passed),
            )
        ]

    def round(self, count):
        made = {kind: [] for kind in KINDS}
        for at in range(self.asked, self.asked + count):
            key, slot = self.keys[at % len(self.keys)], slot_path(self.slot + at)
            booking, whole = (
                Row("PUT", f"{slot}/bookings/{self.first_number + at // len(self.keys)}", TWO),
                self.passes[key],
            )
            rows = (
                booking.under(whole),
                booking.under(whole),
                ACCOUNT.under(whole),
                Row("GET", slot, passed=whole),
                booking.under(self.narrow[key]),
                booking.under(self.forged[key]),
            )
            for kind, row in zip(KINDS, rows, strict=True):
                made[kind].append(row.data)
        self.asked += count
        return made


def make_file(clubdesk, path, rows, has_big):
    """Makes a club with 50 courts and as many past bookings as `rows` says. If `has_big`, adds a
    member with 10,000 bookings and a member without bookings."""
    subprocess.run([clubdesk, "add-member", path, "x", "1"], check=True, stdout=subprocess.DEVNULL)
    numbers = "WITH n(i) AS (SELECT 1 UNION ALL SELECT i + 1 FROM n WHERE i < {})".format
    statements = [
        f"{numbers(50)} INSERT INTO facilities SELECT 'court-' || i, 'court', 50, 1, 0, 24 FROM n"
    ]
    if has_big:
        statements += [
            f"INSERT INTO {table} VALUES ('{name}', {values})"
            for name in ("big", "new")
            for table, values in (
                ("members", "900000, 99, 0"),
                ("keys", f"'{name}', x'{ROOT.hex()}', 0"),
            )
        ]
        statements += [
            f"""{numbers(BIG_ROWS)} INSERT INTO bookings
            SELECT 'big', i, 'court-2', 10957 + (i - 1) / 48, (i - 1) / 2 % 24, 1, 2, 46, 0, 0 FROM n""",
            (
                "INSERT INTO slots SELECT facility, day, hour, 0, sum(guests + 1) FROM bookings"
                " GROUP BY 1, 2, 3"
            ),
        ]
    with closing(sqlite3.connect(path)) as database:
        database.executescript(f"BEGIN; {'; '.join(statements)}; COMMIT")
    desk.add_past_bookings(path, rows, ROOT.hex())


def on(processor):
    return ["taskset", "-c", str(processor)]


def built(name, *libraries):
    subprocess.run(
        ["cc", "-O2", "-o", name, desk.TESTS / "peers" / "beside_c" / f"{name}.c", *libraries],
        check=True,
    )
    return os.path.abspath(name)


def built_in_go():
    subprocess.run(
        ["go", "build", "-tags", "libsqlite3", "-o", os.path.abspath("desk_in_go"), "."],
        check=True,
        cwd=desk.TESTS / "peers" / "beside_go",
        env={
            **os.environ,
            "GO111MODULE": "off",
            "GOPATH": "/usr/share/gocode",
            "GOCACHE": os.path.abspath("cache"),
        },
    )
    return os.path.abspath("desk_in_go")


# DESKS has a function for each other desk. The function builds the desk and returns the desk's
# command line.
DESKS = {
    "c": lambda: [built("desk", "-lsqlite3", "-lnettle")],
    "go": lambda: [built_in_go()],
    "flask": lambda: ["/usr/bin/python3", "-B", desk.TESTS / "peers" / "beside_flask.py"],
}


def write_statements():
    """Writes clubdesk's SQL statements into a file, one per line. The file has only those
    statements that the desks need."""
    source = (desk.ROOT / "crates" / "club_tables" / "src" / "texts.rt").read_text(encoding="utf-8")
    texts = dict(re.findall(r'const (\w+): &str = "(.*?)";', source, re.DOTALL))
    Path("statements").write_text(
        "".join(re.sub(r"\\\n *", "", texts[name]) + "\n" for name in STATEMENTS), encoding="utf-8"
    )


class Beside(desk.Server):
    """Runs the server of another desk."""

    killed_by = signal.SIGTERM

    def __init__(self, *words):
        super().__init__(words[0], "beside", None, given="statements")
        self.command = [*on(PROCESSORS[0]), *words]


def ask(server, requests):
    """Sends the requests one after the other. Returns the time of each request, and the bytes of
    all replies."""
    Path("requests").write_bytes(b"".join(b"%d\n%b" % (len(it), it) for it in requests))
    words = [*on(PROCESSORS[-1]), "./client", str(server.port), "requests", "replies"]
    told = subprocess.run(words, check=True, capture_output=True, text=True).stdout
    return [float(line) for line in told.split()], Path("replies").read_bytes()


def in_order(replies):
    """Returns the replies with sorted header lines, without the lines Date and Server."""
    parts = [it.partition(b"\r\n\r\n") for it in re.split(rb"(?=HTTP/1\.1 \d{3} )", replies)[1:]]
    return [
        (
            sorted(it for it in head.split(b"\r\n") if not it.startswith((b"Date: ", b"Server: "))),
            body,
        )
        for head, _, body in parts
    ]


def compare(kind, replies):
    """Checks that each desk's replies match clubdesk's. Returns the number of compared replies."""
    ours, others = replies[OURS], {
        name: its for name, its in replies.items() if name not in (OURS, PLAIN)
    }
    for name, its in others.items():
        if its != ours and (name == "c" or in_order(its) != in_order(ours)):
            sys.exit(f"{kind}: the replies differ: {OURS} {ours[:300]} {name} {its[:300]}")
    return len(in_order(ours)) * len(others)


def measure(clubdesk, path, askers, count, rounds, desks):
    """Returns the median time of each round, for each asker, kind of request and server. Also
    returns the number of compared replies."""
    for name in (OURS, *desks):
        desk.copy(path, name)
    found = {title: {kind: defaultdict(list) for kind in KINDS} for title in askers}
    refused, compared = [data for asker in askers.values() for data in asker.refused()], 0
    total = len(askers) * count * rounds * len(KINDS) + len(refused)
    with ExitStack() as ends:
        servers = {
            OURS: ends.enter_context(
                desk.Server(clubdesk, OURS, total, "--at", NOON, by=on(PROCESSORS[0]))
            )
        }
        for name, words in desks.items():
            servers[name] = ends.enter_context(Beside(*words, name, str(MINUTE)))
        servers[PLAIN] = ends.enter_context(Beside("./desk"))
        for number in range(rounds):
            turns = list(servers)[number % len(servers) :] + list(servers)[: number % len(servers)]
            asked = [(title, asker.round(count)) for title, asker in askers.items()]
            for kind, title, requests in (
                (kind, title, made[kind]) for kind in KINDS for title, made in asked
            ):
                replies = {}
                for name in turns:
                    took, replies[name] = ask(servers[name], requests)
                    found[title][kind][name].append(statistics.median(took))
                compared += compare(kind, replies)
        compared += compare(
            "refused", {name: ask(server, refused)[1] for name, server in servers.items()}
        )
    return found, compared


def ratio(times, others):
    """Divides the times of one server by those of another, round by round, and returns the median
    of these ratios."""
    return statistics.median(ours / its for ours, its in zip(times, others, strict=True))


def show(title, found):
    for kind, its in found.items():
        times = "".join(f"{statistics.median(each):9.1f}" for each in its.values())
        ratios = "".join(f"{ratio(its[OURS], its[name]):7.2f}" for name in its if name != OURS)
        print(f"{title:>28} {kind:8}{times}  {ratios}", flush=True)


def show_ratios(size, found, big, new):
    """Prints the ratios that have an upper limit, for the file that was measured last."""
    rows = [
        (
            f"booking under a slack limit, {BIG_ROWS} own bookings over none",
            big["booking"][OURS],
            new["booking"][OURS],
            1.2,
        )
    ]
    if "c" in found["repeat"]:
        rows.append(("repeat, clubdesk over C", found["repeat"][OURS], found["repeat"]["c"], 1.0))
        rows.append(
            (
                f"booking at {size}, clubdesk over C",
                found["booking"][OURS],
                found["booking"]["c"],
                1.35,
            )
        )
    for title, times, others, most in rows:
        print(f"{title:>60} {ratio(times, others):6.2f}  at most {most}", flush=True)


def calls(clubdesk, requests):
    """Returns how often clubdesk made each system call while it served these requests."""
    with desk.Server(
        clubdesk, "traced", len(requests), "--at", NOON, by=["strace", "-c", "-o", "counts"]
    ) as server:
        ask(server, requests)
    lines = map(str.split, Path("counts").read_text(encoding="utf-8").splitlines())
    return Counter(
        {
            it[-1]: int(it[3])
            for it in lines
            if re.fullmatch(r"[0-9.]+", it[0]) and it[-1] != "total"
        }
    )


def show_calls(clubdesk, path, asker):
    desk.copy(path, "traced")
    print("system calls per request")
    asked = asker.round(101)
    of_one = calls(clubdesk, asked["account"][:1])
    for kind in KINDS[:3]:
        each = {
            name: (count - of_one[name]) / 100
            for name, count in calls(clubdesk, asked[kind]).items()
        }
        reads, writes = (
            sum(each.get(it, 0) for it in names)
            for names in (
                ("read", "recvfrom", "recvmsg", "readv"),
                ("write", "sendto", "sendmsg", "writev"),
            )
        )
        often = "".join(f" {name} {count:.1f}" for name, count in each.items() if count >= 0.1)
        print(
            f"{kind:12} reads {reads:.2f}, writes {writes:.2f}, all calls"
            f" {sum(each.values()):.1f}:{often}"
        )


def arguments():
    parser = argparse.ArgumentParser(usage=__doc__.splitlines()[-1].strip())
    parser.add_argument("--desks", default=",".join(DESKS), type=lambda text: text.split(","))
    parser.add_argument("count", nargs="?", type=int, default=500)
    parser.add_argument("rounds", nargs="?", type=int, default=7)
    parser.add_argument("sizes", nargs="*", type=int, default=[100, 100_000])
    given = parser.parse_args()
    if not (
        1 <= given.count
        and 1 <= given.rounds <= MOST_OPEN
        and given.count * given.rounds <= MOST_OPEN * KEYS_ASKED
        and all(1 <= it <= 1_000_000 for it in given.sizes)
        and set(given.desks) <= set(DESKS)
    ):
        parser.error("out of range")
    return given


def main():
    given = arguments()
    count, rounds, size = given.count, given.rounds, given.sizes[-1]
    clubdesk = desk.program("clubdesk")
    with tempfile.TemporaryDirectory(dir="/dev/shm") as folder:
        os.chdir(folder)
        built("client"), built("desk", "-lsqlite3", "-lnettle"), write_statements()
        desks, medians = {name: DESKS[name]() for name in given.desks}, {}
        names = (OURS, *desks, PLAIN)
        print(
            f"load {os.getloadavg()[0]:.1f} on {os.cpu_count()} processors; microseconds, medians"
            f" of {rounds} rounds, and clubdesk's ratio to each"
        )
        print(
            f"{'bookings':>36} "
            + "".join(f"{it:>9}" for it in names)
            + "  "
            + "".join(f"{it:>7}" for it in names[1:])
        )
        keys, compared = [f"x{n:03}" for n in range(KEYS_ASKED)], 0
        titles = f"{size}, {BIG_ROWS} of them own", f"{size}, none of them own"
        runs = [
            (its_size, {str(its_size): Asker(keys, 1000, 0)}, count) for its_size in given.sizes
        ]
        runs.append(
            (
                size,
                {
                    title: Asker([key], 20_000, slot)
                    for title, key, slot in zip(
                        titles, ("big", "new"), (0, 24 * 9 * 24), strict=True
                    )
                },
                min(count, MOST_OPEN // rounds),
            )
        )
        for its_size, askers, its_count in runs:
            if not os.path.exists(f"club{its_size}"):
                make_file(clubdesk, f"club{its_size}", its_size, its_size == size)
            found, replies = measure(clubdesk, f"club{its_size}", askers, its_count, rounds, desks)
            compared += replies
            for title, its in found.items():
                show(title, its)
            medians |= found
        show_ratios(size, *(medians[title] for title in (str(size), *titles)))
        print(f"{compared} replies compared, none differs; load {os.getloadavg()[0]:.1f}")
        show_calls(clubdesk, f"club{given.sizes[0]}", Asker(keys, 50_000, 0))


main()

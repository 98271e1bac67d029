"""Writes metrics of a club's desk in Prometheus' text format. The metrics are the numbers of requests and commands by status, the times of requests,
the age of the copies, the sizes of the club's files, and the version. The requests come from the desk's log, and the commands come from the book.
FILE-metrics has the counts, and the positions in the log and in the book where the previous run stopped reading."""

import json
import os
import re
import subprocess
import time

from club_office.book import book_of, is_in_journal
from club_office.clubs import program
from club_office.faults import STORAGE, fault
from club_office.offsite import read_state
from club_office.restoring import copies_of

REQUEST = re.compile(r"20[0-9-]{8}T[0-9:]{5} \S+ \S+ ([0-9]{3}|-) ([0-9]+)|- - - - ([0-9]+)")
ORDER = re.compile(r"20[0-9-]{8}T[0-9:]{8} \S+ ([0-9]|[?]) .*")
# The upper bounds of the histogram of request times, in seconds.
BUCKETS = (0.002, 0.005, 0.01, 0.025, 0.05, 0.1, 0.25, 0.5, 1, 5, 60)
MOST_SECONDS = 60


def counts_of(club):
    """Returns the updated counts."""
    found = {
        "requests": {},
        "buckets": [0] * len(BUCKETS),
        "seconds": 0.0,
        "orders": {},
        "cursors": {},
        "book": None,
    }
    try:
        with open(club.settings["file"] + "-metrics", encoding="utf-8") as file:
            found.update(json.load(file))
    except (FileNotFoundError, ValueError):
        pass
    return found


def keep_counts(club, counts):
    made = club.settings["file"] + "-metrics.new"
    with open(
        os.open(made, os.O_WRONLY | os.O_CREAT | os.O_TRUNC, 0o600), "w", encoding="utf-8"
    ) as file:
        json.dump(counts, file)
    os.rename(made, club.settings["file"] + "-metrics")


def journal_lines(counts, called, *match):
    """Returns the journal's new lines. Returns no lines on the first run, or if the journal no longer has the last line that was read."""
    cursor = counts["cursors"].get(called)
    line = [
        program("JOURNALCTL", "journalctl"),
        "--quiet",
        "--no-pager",
        "--output=cat",
        "--show-cursor",
        *match,
    ]
    done = subprocess.run(
        [*line, f"--after-cursor={cursor}" if cursor else "--lines=0"],
        capture_output=True,
        check=False,
        timeout=MOST_SECONDS,
    )
    if done.returncode and cursor:
        done = subprocess.run(
            [*line, "--lines=0"], capture_output=True, check=False, timeout=MOST_SECONDS
        )
    if done.returncode:
        raise fault(STORAGE, "journal unread", fault=done.stderr.decode(errors="replace").strip())
    lines = done.stdout.decode(errors="replace").split("\n")
    found = [it.removeprefix("-- cursor: ") for it in lines if it.startswith("-- cursor: ")]
    if found:
        counts["cursors"][called] = found[-1]
    return [it for it in lines if it and not it.startswith("-- cursor: ")]


def book_lines(club, counts):
    """Returns the book's new lines, from the journal and from the file."""
    found = []
    if is_in_journal(club):
        found += journal_lines(
            counts,
            "orders",
            "SYSLOG_IDENTIFIER=clubdesk-office",
            f"CLUBDESK_CLUB={club.name}",
            f"_UID={os.geteuid()}",
        )
    try:
        with open(book_of(club), "rb") as book:
            size = os.fstat(book.fileno()).st_size
            begin = counts["book"] if counts["book"] is not None and counts["book"] <= size else 0
            book.seek(begin)
            data = book.read()
            # If the last line is still incomplete, the next run reads it.
            whole = data[: data.rfind(b"\n") + 1]
            counts["book"] = begin + len(whole)
            found += whole.decode(errors="replace").split("\n")
    except FileNotFoundError:
        pass
    return found


def count(club, counts):
    for line in journal_lines(counts, "requests", f"--unit=clubdesk@{club.name}.service"):
        it = REQUEST.fullmatch(line)
        if it:
            status, seconds = it[1] or "-", int(it[2] or it[3]) / 1_000_000
            counts["requests"][status] = counts["requests"].get(status, 0) + 1
            counts["seconds"] += seconds
            for place, most in enumerate(BUCKETS):
                counts["buckets"][place] += seconds <= most
    for line in book_lines(club, counts):
        it = ORDER.fullmatch(line)
        if it:
            counts["orders"][it[1]] = counts["orders"].get(it[1], 0) + 1


# ---- The text.


def ages(club):
    """Returns the ages of the newest copy on this machine and of the newest copy elsewhere, in seconds. The keys are `here` and `off-site`."""
    found = {}
    nights = [it.moment for it in copies_of(club) if it.kind == "back-up"]
    if nights:
        found["here"] = time.time() - max(nights)
    copied = read_state(club).get("copied", "").split(" ")[0]
    if copied.isdigit():
        found["off-site"] = time.time() - int(copied)
    return found


def failing_seconds(club):
    since = read_state(club).get("failing", "").split(" ")[0]
    return time.time() - int(since) if since.isdigit() else 0


def version():
    done = subprocess.run(
        [program("CLUBDESK", "clubdesk"), "--version"], capture_output=True, text=True, check=False
    )
    return re.sub("[^0-9A-Za-z.+~-]", "", done.stdout.strip().removeprefix("clubdesk "))


class Text:
    """Collects lines of the text format. Each line has the club's name as a label."""

    def __init__(self, club):
        self.club, self.lines = club.name, []

    def add(self, name, kind, about, *values):
        """Adds a metric with its kind, its description and its values. Each value comes with a suffix for the metric's name and with labels."""
        self.lines += [f"# HELP clubdesk_{name} {about}", f"# TYPE clubdesk_{name} {kind}"]
        for end, labels, value in values:
            named = "".join(f',{it}="{text}"' for it, text in labels.items())
            shown = value if isinstance(value, int) else f"{value:.6f}".rstrip("0").rstrip(".")
            self.lines.append(f'clubdesk_{name}{end}{{club="{self.club}"{named}}} {shown}')

    def text(self):
        return "\n".join(self.lines) + "\n"


def text_of(club, counts):
    made = Text(club)
    made.add("info", "gauge", "The version of clubdesk.", ("", {"version": version()}, 1))
    made.add(
        "requests_total",
        "counter",
        "Connections, by the status of the reply; - means no complete reply.",
        *(
            ("", {"status": status}, number)
            for status, number in sorted(counts["requests"].items())
        ),
    )
    total = sum(counts["requests"].values())
    buckets = [
        ("_bucket", {"le": f"{most:g}"}, number) for most, number in zip(BUCKETS, counts["buckets"])
    ]
    made.add(
        "request_seconds",
        "histogram",
        "Time from the beginning of a connection to its end.",
        *buckets,
        ("_bucket", {"le": "+Inf"}, total),
        ("_sum", {}, float(counts["seconds"])),
        ("_count", {}, total),
    )
    made.add(
        "orders_total",
        "counter",
        "Commands of the office, by their status; ? means interrupted.",
        *(("", {"status": status}, number) for status, number in sorted(counts["orders"].items())),
    )
    made.add(
        "copy_age_seconds",
        "gauge",
        "Age of the newest copy.",
        *(("", {"place": place}, int(age)) for place, age in ages(club).items()),
    )
    if club.settings.get("offsite"):
        made.add(
            "offsite_failing_seconds",
            "gauge",
            "Time since copying to the place OFFSITE began to fail; 0 if it works.",
            ("", {}, int(failing_seconds(club))),
        )
    sizes = [(it, club.file + end) for it, end in (("club", ""), ("log", "-wal"))]
    made.add(
        "file_bytes",
        "gauge",
        "Size of the club's file, and of its write-ahead log.",
        *(("", {"file": it}, os.path.getsize(path)) for it, path in sizes if os.path.exists(path)),
    )
    return made.text()


def measure(club, folder):
    """Writes clubdesk_NAME.prom to the folder atomically."""
    counts = counts_of(club)
    count(club, counts)
    place = os.path.join(folder, f"clubdesk_{club.name}.prom")
    made = f"{place}.{os.getpid()}"
    try:
        with open(
            os.open(made, os.O_WRONLY | os.O_CREAT | os.O_TRUNC, 0o644), "w", encoding="utf-8"
        ) as file:
            os.fchmod(file.fileno(), 0o644)
            file.write(text_of(club, counts))
        keep_counts(club, counts)
        os.rename(made, place)
    except OSError as failure:
        raise fault(STORAGE, "cannot be written", path=place, fault=failure.strerror) from None
    return place

#!/usr/bin/env python3
"""Measures the processor seconds that the gate needs for the proof, the tests and the mutants of
each crate.

The program runs `rt ci`, the gate, in a scratch clone of HEAD. The program adds up the processor
seconds of the compiler's processes for four parts of each crate. The parts are the crate's proof,
the proof of its tests, the mutants in must-fail/, and clang with the linker. At the end, the
program prints the sums, the elapsed time, and the last line of the gate's output. The status is the
gate's status.
  tests/times.py                 measures the whole gate
  tests/times.py club_core ..    measures these crates and all crates that they depend on
The program reads the times from /proc once a second, so it may miss the last second of each
process. The times don't include the runs of programs and tests. Two measurements may differ by
about 25 percent, because other programs use the machine too.
"""
# pytestmark = [mark.proofs, mark.alone, mark.timeout(36000)]

import os
import re
import signal
import subprocess
import sys
import time
from collections import Counter
from pathlib import Path
from tempfile import TemporaryDirectory

ROOT = Path(__file__).resolve().parent.parent
KINDS = ("proof", "tests", "edits", "clang")
TICKS = os.sysconf("SC_CLK_TCK")


def process(pid):
    """Returns a process's parent, its start time, and its own processor time in ticks."""
    fields = (
        Path(f"/proc/{pid}/stat")
        .read_text(encoding="utf-8", errors="replace")
        .rpartition(")")[2]
        .split()
    )
    return int(fields[1]), fields[19], sum(map(int, fields[11:13]))


def task(pid, work):
    """If a process compiles a crate in a folder below `work`, returns the crate and the kind of the
    work, otherwise None."""
    words = Path(f"/proc/{pid}/cmdline").read_text(encoding="utf-8", errors="replace").split("\0")
    if (
        os.path.basename(words[0]) != "rattle"
        or words[1:2] not in (["build"], ["check"])
        or "--crate-name" not in words
    ):
        return None
    folder = os.readlink(f"/proc/{pid}/cwd")
    if not folder.startswith(f"{work}/"):
        return None
    # the gate checks each mutant's edit in a separate folder
    is_edit = re.search(r"/rt-edit-[^/]*(/|$)", folder)
    return (
        words[words.index("--crate-name") + 1],
        "edits" if is_edit else "tests" if "--test" in words else "proof",
    )


def sample(spent, work):
    """Records the ticks of each compiling process, and of each program that a compiling process
    runs."""
    found = {}
    for pid in filter(str.isdigit, os.listdir("/proc")):
        try:
            found[int(pid)] = (*process(pid), task(pid, work))
        except (OSError, ValueError, IndexError):
            continue
    for pid, (parent, start, ticks, what) in found.items():
        while what is None and parent in found:
            parent, _, _, above = found[parent]
            what = above and (above[0], "clang")
        if what:
            spent[pid, start, what] = max(spent[pid, start, what], ticks)


def run_gate(work, names):
    """Runs the gate. Returns the gate's status, and the ticks of each compiling process."""
    spent = Counter()
    # TMPDIR puts the folders of the mutants below the scratch folder. So the measured times include
    # the mutants of this run, but no other run on the machine.
    with (
        open(work / "log", "wb") as log,
        subprocess.Popen(
            ["rt", "ci", *names],
            cwd=work / "clone",
            stdin=subprocess.DEVNULL,
            stdout=log,
            stderr=log,
            env={**os.environ, "TMPDIR": str(work / "rooms")},
            start_new_session=True,
        ) as gate,
    ):
        try:
            while gate.poll() is None:
                sample(spent, work)
                time.sleep(1)
        finally:
            if gate.poll() is None:
                os.killpg(gate.pid, signal.SIGTERM)
    return gate.returncode, spent


def show(crates, spent):
    costs = Counter()
    for (_, _, task_of), ticks in spent.items():
        costs[task_of] += ticks / TICKS
    rows = [
        (crate, [f"{costs[crate, it]:.0f}" if (crate, it) in costs else "-" for it in KINDS])
        for crate in crates
    ]
    sums = [f"{sum(cost for (_, kind), cost in costs.items() if kind == it):.0f}" for it in KINDS]
    for name, cells in [
        ("crate", KINDS),
        *(row for row in rows if set(row[1]) != {"-"}),
        ("all", sums),
    ]:
        print(f"{name:{max(map(len, crates))}}" + "".join(f"{it:>8}" for it in cells))
    return costs.total() / 60


def main(names):
    with TemporaryDirectory() as folder:
        work, begun = Path(folder).resolve(), time.monotonic()
        work.chmod(
            0o755
        )  # If root calls rt, rt runs programs and tests as the user nobody, who must be able to enter the folder.
        subprocess.run(["git", "clone", "-q", ROOT, work / "clone"], check=True)
        (work / "rooms").mkdir()
        status, spent = run_gate(work, names)
        wall = (time.monotonic() - begun) / 60
        minutes = show(
            re.findall(
                r"^(\w+)[ :]",
                (work / "clone" / "crates.txt").read_text(encoding="utf-8"),
                re.MULTILINE,
            ),
            spent,
        )
        print(
            f"{minutes:.1f} minutes of processor time, {wall:.1f} minutes of elapsed time,"
            f" {os.cpu_count()} processors"
        )
        print(
            *(work / "log")
            .read_text(encoding="utf-8", errors="replace")
            .splitlines()[-20 if status else -1 :],
            sep="\n",
        )
    return status if status >= 0 else 1


if __name__ == "__main__":
    for number in (signal.SIGTERM, signal.SIGHUP):
        signal.signal(number, lambda its_number, _: sys.exit(128 + its_number))
    sys.exit(main(sys.argv[1:]))

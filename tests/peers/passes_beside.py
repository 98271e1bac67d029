#!/usr/bin/env -S /usr/bin/python3 -B
"""Measures how long our library of passes, libmacaroons and pymacaroons take to read and verify a
pass.

The pass has three caveats, and is given as a text.

In C, our library reads V1, V2 and JSON, and Debian's libmacaroons reads only V1. In Python, our
module and pymacaroons read all three forms. The verifiers of libmacaroons and pymacaroons accept
only these three caveats. A separate line shows how long our module takes to test the caveats
against a request. The test prints the median processor time in microseconds, and the ratios of
these times.

  tests/peers/passes_beside.py [ROUNDS [COUNT]]      COUNT passes of each kind in a round; without: 11 2000
"""
# pytestmark = [mark.speed, mark.alone, mark.needs("pass_c"), mark.wants("gcc libc6-dev libmacaroons-dev python3-pymacaroons")]

import os
import statistics
import subprocess
import sys
import tempfile
import time
from collections import defaultdict
from datetime import date, datetime
from pathlib import Path

from pymacaroons import Macaroon, Verifier
from pymacaroons.serializers import JsonSerializer

sys.path[:0] = [str(Path(__file__).resolve().parents[1] / it) for it in ("lib", "")]
import desk

ROOT = b"0123456789abcdef0123456789abcdef"
CAVEATS = ["kind = court", "until < 2026-05-01T18:00", "guests <= 2"]
FORMS = ["v1", "v2", "json"]


def seconds(call, count):
    start = time.process_time()
    for _ in range(count):
        assert call()
    return time.process_time() - start


def by_pymacaroons(text):
    read = (
        Macaroon.deserialize(text, JsonSerializer())
        if text.startswith("{")
        else Macaroon.deserialize(text)
    )
    verifier = Verifier()
    for caveat in CAVEATS:
        verifier.satisfy_exact(caveat)
    return verifier.verify(read, ROOT)


def measure(room, rounds, count):
    """Prints the times and the ratios for the library in this folder."""
    sys.path.insert(0, f"{room}/lib/python3")
    import clubpass

    texts = {
        form: clubpass.Pass.mint(ROOT, "key:amy-1", "club-desk").narrow(*CAVEATS).to(form)
        for form in FORMS
    }
    ask = clubpass.Ask(
        "book", datetime(2026, 4, 20, 12), "court-1", date(2026, 5, 1), 18, "court", owed=200
    )
    found = defaultdict(list)
    for _ in range(rounds):
        for line in subprocess.run(
            [f"{room}/beside", str(count)], check=True, stdout=subprocess.PIPE, text=True
        ).stdout.splitlines():
            name, spent = line.split()
            found["C", name].append(float(spent) / 1e3)
        for form, text in texts.items():
            found["Python", form].append(
                1e6 * seconds(lambda: clubpass.Pass.parse(text).verify(ROOT), count) / count
            )
            found["Python", f"pymacaroons {form}"].append(
                1e6 * seconds(lambda: by_pymacaroons(text), count // 10) / (count // 10)
            )
        read = clubpass.Pass.parse(texts["v2"])
        found["Python", "ask"].append(
            1e6 * seconds(lambda: read.first_fault(ask) is None, count) / count
        )
    middle = {name: statistics.median(spent) for name, spent in found.items()}
    for (language, name), spent in middle.items():
        print(f"{language:6} {name:17} {spent:8.1f} us")
    print(f"libmacaroons / ours in C, V1: {middle['C', 'libmacaroons'] / middle['C', 'v1']:.2f}")
    for form in FORMS:
        theirs = middle["Python", f"pymacaroons {form}"]
        print(
            f"pymacaroons / ours, {form}: in C {theirs / middle['C', form]:.1f}, in Python"
            f" {theirs / middle['Python', form]:.1f}"
        )


def main():
    if len(sys.argv) == 4:
        return measure(sys.argv[3], int(sys.argv[1]), int(sys.argv[2]))
    rounds, count = sys.argv[1:] + ["11", "2000"][len(sys.argv) - 1 :]
    with tempfile.TemporaryDirectory() as room:
        subprocess.run([desk.ROOT / "bin" / "library", room], check=True, stdout=subprocess.DEVNULL)
        subprocess.run(
            [
                "gcc",
                "-O2",
                "-D_GNU_SOURCE",
                "-std=c11",
                "-o",
                f"{room}/beside",
                desk.TESTS / "peers" / "passes_beside.c",
                f"-I{room}/include",
                f"-L{room}/lib",
                "-lclubpass",
                "-lmacaroons",
            ],
            check=True,
        )
        # The dynamic loader reads the variable LD_LIBRARY_PATH only when a program starts, so this
        # script starts itself again. The loader chooses the library's copy for this processor.
        found = dict(os.environ, LD_LIBRARY_PATH=f"{room}/lib")
        return subprocess.run(
            [sys.executable, "-B", __file__, rounds, count, room], check=False, env=found
        ).returncode


if __name__ == "__main__":
    sys.exit(main())

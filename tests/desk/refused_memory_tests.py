#!/usr/bin/env -S /usr/bin/python3 -B
"""If an allocation is refused, each call in the chosen tests returns the right result, or reports
"out of memory" and changes nothing.

The chosen tests read and write example passes in each form, and open new and existing stores. The
chosen tests also run each command of the office, and make an example booking with `Desk::ask`,
`Desk::run` and `answer`.

The program fails if a chosen test doesn't exist, fails with ample memory, or makes no allocation.
If the built tests of a crate are missing or older than their sources, the program first proves and
builds them.

On the command line, name only tests that accept "out of memory" in place of the right result. A
test that expects another fault fails when memory is refused.
  tests/desk/refused_memory_tests.py                                                          runs the tests in TESTS
  tests/desk/refused_memory_tests.py club_gate_tests                                          runs the tests of this crate in TESTS
  tests/desk/refused_memory_tests.py club_gate_tests store::shown::shows_what_a_key_sees ..   runs the named tests of this crate
"""
# pytestmark = [mark.proofs, mark.timeout(36000), mark.wants("gcc libc6-dev")]

import os
import re
import subprocess
import sys
import tempfile
import time
from pathlib import Path

sys.path[:0] = [str(Path(__file__).resolve().parents[1] / it) for it in ("lib", "")]
import desk
from more_edits import crates_below

OPENINGS = "store_in_memory databases_in_memory new_file files_of_each_version"
# The tests of each crate. If a name has no module, its test is in the module `refused_memory`.
TESTS = {
    "pass_forms_tests": "known_passes",
    "club_gate_tests": " ".join(
        [
            "commands ask_in_each_form run_in_each_form",
            *(f"store::refused_memory::{it}" for it in OPENINGS.split()),
            *(
                f"exchanges::refused_memory::{it}"
                for it in ("exchange_in_each_form", "faults_of_bytes")
            ),
        ]
    ),
    "club_http_tests": "bodies::refused_memory counted::refused_memory",
}
FAULT = (
    r"([A-Za-z]+\()*((OutOf)?Memory|AllocError|AllocFailed \{ \.\. \}|Os \{ code: 12, kind:"
    r" OutOfMemory, .*\})\)*"
)
ROOM = tempfile.TemporaryDirectory(dir=desk.IN_MEMORY)


def built(crate):
    """Returns the path of the program with a crate's tests. Proves and builds the program if it is
    missing or older than its sources."""
    if not (desk.ROOT / "crates" / crate / "src").is_dir():
        sys.exit(f"there is no crate {crate}")
    program, begun = desk.ROOT / "crates" / crate / "out" / f"{crate}_tests", time.time()
    crates = (crate, *crates_below([crate]))
    sources = [
        it
        for each in crates
        for part in ("src", "specs", "proofs")
        for it in (desk.ROOT / "crates" / each / part).rglob("*")
    ]
    if not program.exists() or any(
        it.stat().st_mtime > program.stat().st_mtime for it in [desk.ROOT / "crates.txt", *sources]
    ):
        print(
            f"{crate}: proving and building its tests first, which takes some minutes",
            file=sys.stderr,
        )
        ran = subprocess.run(
            ["rt", "test", "--jobs", "1"],
            cwd=desk.ROOT / "crates" / crate,
            stdin=subprocess.DEVNULL,
            stdout=subprocess.PIPE,
            stderr=subprocess.STDOUT,
            text=True,
            check=False,
        )
        if ran.returncode:
            sys.exit(
                "\n".join(
                    [
                        *ran.stdout.splitlines()[-20:],
                        f"{crate}: its tests couldn't be proved and built, or a test failed",
                    ]
                )
            )
        if not program.exists():
            sys.exit(f"{crate} has no tests")
        os.utime(
            program, (begun, begun)
        )  # so that a source edited during the build is newer than the program
    return program


def ends_without_memory(output):
    """Returns whether a test failed because a call reported "out of memory". The value that the
    test returned or got must be only this fault, perhaps inside an `Err`. If the fault appears
    elsewhere, such as in an expected value, the test failed for another reason.
    """

    def has_line(head):
        return any(re.fullmatch(head + FAULT, line) for line in output.splitlines())

    return (
        has_line("  left: ") and not has_line(" right: ")
        if re.search("^assertion ", output, re.MULTILINE)
        else has_line("([^:]+: )?")
    )


def refuse(crate, test, program):
    """Runs a test with ample memory, and then once for each allocation, with this allocation
    refused. Returns the number of allocations."""
    if (
        f"{test}: test"
        not in subprocess.run(
            [program, "--list"], capture_output=True, text=True, check=True
        ).stdout.splitlines()
    ):
        sys.exit(f"{crate} has no test {test}")

    def run(**variables):
        """Runs a test in a new folder, and returns the status and the output."""
        with tempfile.TemporaryDirectory(dir=ROOM.name) as folder:
            ran = subprocess.run(
                [program, test],
                stdout=subprocess.PIPE,
                stderr=subprocess.STDOUT,
                text=True,
                errors="replace",
                timeout=60,
                check=False,
                env={**os.environ, "TMPDIR": folder, **variables},
            )
        return ran.returncode, ran.stdout

    status, output = run()
    if status:
        sys.exit(f"{output}{crate} {test} fails with ample memory")
    found = desk.refused_in_turn(run, ROOM.name)
    for number, (status, output) in enumerate(found, 1):
        if status and not ends_without_memory(output):
            sys.exit(
                f"status {status}\n{output}{crate} {test}: fails for another reason if allocation"
                f" {number} is refused"
            )
    if not found:
        sys.exit(f"{crate} {test}: no allocation was counted")
    ended = sum(status != 0 for status, _ in found)
    print(
        (
            f"{crate} {test}: refused each of {len(found)} allocations in turn; {ended} runs ended"
            " with out of memory"
        ),
        flush=True,
    )
    return len(found)


def main(crate=None, *tests):
    if crate and not tests and crate not in TESTS:
        sys.exit(f"TESTS has no test of {crate}")
    listed = {crate: " ".join(tests) or TESTS[crate]} if crate else TESTS
    counts = []
    for name, words in listed.items():
        program = built(name)
        counts += [
            refuse(name, it if "::" in it else f"refused_memory::{it}", program)
            for it in words.split()
        ]
    print(f"{len(counts)} tests, {sum(counts)} allocations refused")


with ROOM:
    main(*sys.argv[1:])

#!/usr/bin/env -S /usr/bin/python3 -B -m pytest -q -p no:cacheprovider
"""`tests/run` reports which tests passed, failed or were skipped, and why.

The test runs tests/run over a small tree of tests, with and without pytest. If a test takes too long, or if the run is ended, tests/run must end all
processes of the test.
"""

import os
import shutil
import signal
import subprocess
import time
from pathlib import Path

import pytest

import desk

pytestmark = [pytest.mark.package]

TESTS = {
    "passes": ('[mark.quick, mark.speed("--twice")]', 'echo "words $*"'),
    "fails": ("[mark.quick, mark.alone]", "echo no; exit 3"),
    "skips": ("[mark.quick]", "echo not here; exit 77"),
    "lacks": ('[mark.quick, mark.wants("no-such-package")]', ":"),
    "unbuilt": ('[mark.quick, mark.needs("clubdesk")]', 'test -x "$CLUBDESK"'),
    "sleeps": (
        "[mark.faults, mark.timeout(3)]",
        "sleep 600 & echo $! >>begun; setsid sleep 600 & echo $! >>begun; wait",
    ),
    "proves": ("[mark.proofs]", ":"),
}
SUM = {
    "passes": "passed",
    "fails": "failed: no",
    "skips": "skipped: not here",
    "lacks": "skipped: needs the packages no-such-package",
}


@pytest.fixture
def tree(tmp_path):
    """Makes a folder with a copy of tests/run and some small tests."""
    lib = tmp_path / "tests" / "lib"
    lib.mkdir(parents=True)
    (tmp_path / "tests" / "desk").mkdir()
    (tmp_path / "docs").mkdir()
    for name in ("run", "conftest.py", "planted.py", "pytest.ini"):
        shutil.copy(desk.TESTS / name, tmp_path / "tests")
    shutil.copytree(desk.TESTS / "reference", tmp_path / "tests" / "reference")
    for name in ("scripts.py", "desk.py", "kinds.py"):
        shutil.copy(desk.TESTS / "lib" / name, lib)
    for name, (marks, body) in TESTS.items():
        path = tmp_path / "tests" / "desk" / f"{name}.sh"
        path.write_text(f"#!/bin/sh\n# It {name}.\n# pytestmark = {marks}\n{body}\n")
        path.chmod(0o755)
    return tmp_path


def run(tree, *words, **variables):
    """Runs tests/run. Returns the exit status, each test's result with the reason, the line of counts, and the standard error. A stub of apt-get
    keeps tests/run from installing packages."""
    without = {
        name: value for name, value in os.environ.items() if name not in ("CLUBDESK", "PASSTOOL")
    }
    path = tree / "path"
    path.mkdir(exist_ok=True)
    (path / "apt-get").write_text("#!/bin/sh\nexit 1\n")
    (path / "apt-get").chmod(0o755)
    done = subprocess.run(
        [tree / "tests" / "run", *words],
        capture_output=True,
        text=True,
        check=False,
        cwd="/",
        env={**without, "PATH": f"{path}:{os.environ['PATH']}", **variables},
    )
    *lines, counts = done.stdout.splitlines() or [""]
    found = {}
    for line in lines:
        result, _, _, rest = line.split(None, 3)
        name, _, reason = rest.partition(": ")
        found[name] = f"{result}: {reason}" if reason else result
    return done.returncode, found, counts, done.stderr


def without_pytest(tree):
    """Hides pytest from tests/run."""
    (tree / "python3").write_text(
        '#!/bin/sh\ncase "$*" in *"import pytest"*) exit 1 ;; esac\nexec /usr/bin/python3 "$@"\n'
    )
    (tree / "python3").chmod(0o755)
    scripts = tree / "tests" / "lib" / "scripts.py"
    text = scripts.read_text()
    line = 'PYTHON = "/usr/bin/python3" if Path("/usr/bin/python3").exists() else "python3"\n'
    assert line in text
    scripts.write_text(text.replace(line, f'PYTHON = "{tree / "python3"}"\n'))


def all_are_gone(numbers):
    """Returns whether all processes with these ids end within some seconds."""
    for _ in range(100):
        if not any(
            Path(f"/proc/{it}/stat").exists() and " Z " not in Path(f"/proc/{it}/stat").read_text()
            for it in numbers
        ):
            return True
        time.sleep(0.1)
    return False


@pytest.mark.parametrize("by", ["pytest", "itself"])
def test_each_result(tree, by):
    if by == "itself":
        without_pytest(tree)
    status, found, counts, said = run(tree, "--built", "quick")
    assert (found, said) == ({**SUM, "unbuilt": "skipped: needs clubdesk, not built yet"}, "")
    assert (status, counts) == (1, "1 passed, 1 failed, 3 skipped")


@pytest.mark.parametrize("by", ["pytest", "itself"])
def test_one_that_takes_too_long(tree, by):
    if by == "itself":
        without_pytest(tree)
    status, found, counts, _ = run(tree, "sleeps", "passes")
    assert (status, counts) == (1, "1 passed, 1 failed, 0 skipped")
    assert found["sleeps"].startswith("failed: killed")
    assert all_are_gone((tree / "begun").read_text().split())


def test_a_run_that_is_ended(tree):
    with subprocess.Popen(
        [tree / "tests" / "run", "sleeps"], stdout=subprocess.DEVNULL, cwd="/"
    ) as process:
        while not (tree / "begun").exists() or len((tree / "begun").read_text().split()) < 2:
            time.sleep(0.05)
        process.send_signal(signal.SIGTERM)
        assert process.wait(60) == 130
    assert all_are_gone((tree / "begun").read_text().split())


def test_built_programs(tree):
    program = tree / "crates" / "clubdesk" / "out" / "clubdesk"
    program.parent.mkdir(parents=True)
    program.write_text("#!/bin/sh\n")
    program.chmod(0o755)
    assert run(tree, "--built", "unbuilt")[2] == "1 passed, 0 failed, 0 skipped"
    assert run(tree, "unbuilt", CLUBDESK=str(program))[2] == "1 passed, 0 failed, 0 skipped"


def test_names_groups_and_words(tree):
    assert set(run(tree)[1]) == {
        "passes",
        "passes-twice",
        "fails",
        "skips",
        "lacks",
        "unbuilt",
        "sleeps",
    }
    assert set(run(tree, "speed", "skips")[1]) == {"passes-twice", "skips"}
    assert set(run(tree, "proofs")[1]) == {"proves"}
    assert run(tree, "passes", "--seed", "7")[0] == 0
    assert (tree / "out" / "tests" / "passes.log").read_text() == "words --seed 7\n"
    status, _, _, said = run(tree, "no-such-test")
    assert status == 1 and said == "tests/run: no group or test no-such-test\n"


def test_a_mark_that_is_unknown(tree):
    path = tree / "tests" / "desk" / "passes.sh"
    path.write_text(path.read_text().replace("mark.quick", "mark.quickly"))
    assert "no mark quickly in tests/pytest.ini" in run(tree, "passes")[3]


def test_records(tree):
    (tree / "docs" / "TESTING.md").write_text("# Runs\n")
    run(tree, "--record", "passes", "skips")
    assert (
        (tree / "docs" / "TESTING.md")
        .read_text()
        .rpartition(" | no commit | ")[2]
        .startswith("passes skips | 1 passed, 0 failed, 1 skipped | ")
    )

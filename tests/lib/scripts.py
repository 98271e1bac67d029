"""Finds the test programs in tests/, and runs them, for tests/run and tests/conftest.py.

A test program has a list `pytestmark`. In a script that pytest doesn't import, the list is a
comment. tests/pytest.ini describes the marks. If the mark of a group has arguments, these are the
command-line arguments of a separate run of the program. The mark may also state needs and packages
for this run. The run without arguments has the name of the program. A separate run in the group
`quick` has the name NAME-quick. The name of any other separate run ends in the run's first
argument, as in hostile-self-test."""

import ast
import configparser
import functools
import json
import os
import re
import shutil
import signal
import subprocess
import tempfile
import time
from contextlib import suppress
from dataclasses import dataclass, replace
from pathlib import Path

import planted

ROOT = Path(__file__).resolve().parents[2]
OUT = ROOT / "out" / "tests"
# Debian's Python, which has the packages that tests need.
PYTHON = "/usr/bin/python3" if Path("/usr/bin/python3").exists() else "python3"
SKIPPED, TOOK_TOO_LONG = 77, 124
SECONDS = 3600  # the timeout of a run whose marks state no timeout
SECONDS_OF_QUICK = 600
SECONDS_TO_CLEAR_UP = 30
SECONDS_TO_INSTALL = 360  # the limit for downloading missing packages
# The files that a build of each program makes. `rt ci` builds only the first two programs.
BUILT = {
    "clubdesk": ["crates/clubdesk/out/clubdesk"],
    "passtool": ["crates/passtool/out/passtool"],
    "pass_c": [
        "crates/pass_c/out/libpass_c-x86-64-v2.a",
        "crates/pass_c/out/libpass_c-x86-64-v3.a",
    ],
}


class Fault(Exception):
    """Reports why tests/run can't run any test."""


def groups():
    """Returns the groups that tests/pytest.ini describes, with their descriptions."""
    ini = configparser.ConfigParser()
    ini.read(ROOT / "tests" / "pytest.ini", encoding="utf-8")
    lines = (it.partition(": group: ") for it in ini["pytest"]["markers"].splitlines())
    return {name: what for name, of, what in lines if of}


GROUPS = groups()


@dataclass
class Test:
    """A run of a test program: the program, the arguments, and the groups that this run is in."""

    name: str
    path: Path
    words: list
    groups: list
    marks: set
    needs: list
    packages: list
    seconds: float
    plant: str = ""
    own: bool = False  # whether the arguments come from the command line of tests/run

    def __str__(self):
        words = f": {' '.join(self.words)}" if self.words else ""
        return f"{' '.join([*self.groups, *sorted(self.marks)])}{words}"


@functools.cache
def head_of(path):
    """Returns the comment or docstring at the head of a program, and the program's marks, each with
    its name and its arguments."""
    text = path.read_text(encoding="utf-8")
    listed = re.search(r"^(?:# )?(pytestmark = \[(?:[^\]]*\n)*?.*\])$", text, re.MULTILINE)
    marks = []
    if listed:
        line = re.sub(r"\n# *", "\n", listed[1])
        for it in ast.parse(line).body[0].value.elts:
            call = it if isinstance(it, ast.Call) else ast.Call(func=it, args=[], keywords=[])
            marks.append(
                (
                    call.func.attr,
                    list(map(ast.literal_eval, call.args)),
                    {word.arg: ast.literal_eval(word.value) for word in call.keywords},
                )
            )
    if path.suffix == ".py":
        return ast.get_docstring(ast.parse(text)) or "", marks
    comment = re.match(r".*\n((?:#(?! pytestmark = ).*\n)*)", text)[1]
    return re.sub(r"^# ?", "", comment, flags=re.MULTILINE), marks


def shown_by(head):
    """Returns the first paragraph of a head, which describes what the test shows. If the paragraph
    ends in a colon, adds the items of the list after it."""
    paragraph = re.match(r"(?:(?!- |  ).+\n?)+", head)[0]
    if paragraph.rstrip().endswith(":"):
        items = re.match(r"(?:(?:- |  ).*\n?)*", head[len(paragraph) :])[0]
        paragraph += re.sub(r"^- ", "", items, flags=re.MULTILINE)
    return " ".join(paragraph.split()).removesuffix(" Not part of the gate.").removesuffix(".")


@functools.cache
def tests_of(path):
    """Returns the runs of a program."""
    _, marks = head_of(path)
    given = {name: values[0] for name, values, _ in marks if name in ("needs", "wants", "timeout")}
    others = {name for name, *_ in marks if name in ("alone", "root")}
    unknown = {name for name, *_ in marks} - {*GROUPS, *given, *others}
    if unknown:
        raise Fault(f"{path}: no mark {' '.join(unknown)} in tests/pytest.ini")
    plain = [name for name, values, _ in marks if name in GROUPS and not values]
    runs = [(plain, [], {})] if plain else []
    runs += [([name], values, own) for name, values, own in marks if name in GROUPS and values]
    found = []
    for names, words, own in runs:
        further = "quick" if "quick" in names else words[0].strip("-") if words else names[0]
        wanted = {**given, **own}
        packages = wanted.get("wants", "").split()
        if "-m pytest" in path.read_text(encoding="utf-8").partition("\n")[0]:
            packages.append("python3-pytest")
        seconds = wanted.get("timeout", SECONDS_OF_QUICK if "quick" in names else SECONDS)
        found.append(
            Test(
                f"{path.stem}-{further}" if found else path.stem,
                path,
                words,
                names,
                others,
                wanted.get("needs", "").split(),
                packages,
                seconds,
            )
        )
    return found


def programs():
    """Returns the test programs in tests/ and its folders, by path."""
    found = [*(ROOT / "tests").iterdir(), *(ROOT / "tests").glob("[a-z]*/*.*")]
    return [it for it in sorted(found) if it.suffix in (".bats", ".py", ".sh") and head_of(it)[1]]


def every_test():
    return [test for path in programs() for test in tests_of(path)]


@functools.cache
def planted_tests():
    """Returns a run for each planted fault of each test."""
    return [
        replace(it, name=name, plant=name)
        for it in every_test()
        for name in planted.plants_of(it.name)
    ]


# ---- packages


def missing(packages):
    """Returns the Debian packages that aren't installed. If dpkg-query is missing, returns all
    packages."""
    if not packages or not shutil.which("dpkg-query"):
        return list(packages)
    found = subprocess.run(
        ["dpkg-query", "-Wf", "${Package} ${db:Status-Status}\n", *packages],
        capture_output=True,
        text=True,
        check=False,
    ).stdout
    return [it for it in packages if f"{it} installed\n" not in found]


def prepare(packages):
    """Installs the missing packages, if the caller is root and the system has apt-get. Stops
    downloading after SECONDS_TO_INSTALL seconds."""
    OUT.mkdir(parents=True, exist_ok=True)
    (OUT / "apt.conf").write_text(
        'DPkg::Lock::Timeout "600";\nAcquire::Retries "1";\nAcquire::http::Timeout "20";\n',
        encoding="utf-8",
    )
    if os.geteuid() != 0 or not shutil.which("apt-get"):
        return
    ends = time.monotonic() + SECONDS_TO_INSTALL
    with open(OUT / "apt.log", "wb") as log:

        def apt(*words, limit=None):
            """Runs apt-get, and returns whether it succeeds. With a limit in seconds, kills apt-get
            when the time is over."""
            with suppress(subprocess.TimeoutExpired):
                seconds = limit and max(1, min(limit, ends - time.monotonic()))
                return (
                    subprocess.run(
                        ["apt-get", "-o", "DPkg::Lock::Timeout=120", *words],
                        stdin=subprocess.DEVNULL,
                        stdout=log,
                        stderr=log,
                        check=False,
                        env={
                            **os.environ,
                            "APT_CONFIG": str(OUT / "apt.conf"),
                            "DEBIAN_FRONTEND": "noninteractive",
                        },
                        timeout=seconds,
                    ).returncode
                    == 0
                )
            return False

        lacking = missing(packages)
        if not lacking or not apt("update", limit=120):
            return
        # First tries all packages together, then each one alone, because one unavailable package
        # stops a joint installation.
        for some in (lacking, *([it] for it in lacking)):
            install = ["install", "-y", "--no-install-recommends", *some]
            if (
                missing(some)
                and time.monotonic() < ends
                and apt(*install, "--download-only", limit=SECONDS_TO_INSTALL)
            ):
                apt(*install)


# ---- runs


def processes():
    """Returns the parent, the session and the start time of each process."""
    found = {}
    for stat in Path("/proc").glob("[0-9]*/stat"):
        with suppress(OSError):
            fields = stat.read_text(encoding="utf-8", errors="replace").rpartition(")")[2].split()
            found[int(stat.parent.name)] = int(fields[1]), int(fields[3]), fields[19]
    return found


def begun_by(leader):
    """Returns (process, start time) for the processes in the session of `leader`, and for all their
    children, even in other sessions."""
    every = processes()
    found = {it for it, (_, session, _) in every.items() if session == leader}
    while more := {it for it, (parent, _, _) in every.items() if parent in found} - found:
        found |= more
    return {(it, every[it][2]) for it in found}


def end(process):
    """Asks a process and its children to end, gives them time to clean up, and kills those that
    remain."""
    begun = begun_by(process.pid)
    with suppress(ProcessLookupError):
        os.killpg(process.pid, signal.SIGTERM)
    with suppress(subprocess.TimeoutExpired):
        process.wait(SECONDS_TO_CLEAR_UP)
    for it, _ in (begun | begun_by(process.pid)) & {
        (it, start) for it, (_, _, start) in processes().items()
    }:
        with suppress(ProcessLookupError):
            os.kill(it, signal.SIGKILL)


def lacks(test, is_built):
    """Returns the reason why a test can't run here, or an empty text. If `is_built` is true, a test
    can't run if it needs a program that isn't built yet."""
    if "root" in test.marks and os.geteuid() != 0:
        return "needs root"
    packages = missing(test.packages)
    if packages:
        return f"needs the packages {' '.join(packages)}"
    unbuilt = [
        it
        for it in test.needs
        if not os.environ.get(it.upper()) and not all((ROOT / file).exists() for file in BUILT[it])
    ]
    return f"needs {' '.join(unbuilt)}, not built yet" if is_built and unbuilt else ""


def status_of(test, output, root, variables, seconds):
    """Runs a test in a new session, and returns its status. If the test takes too long, ends the
    test and all processes that it began."""
    environment = {
        **os.environ,
        "APT_CONFIG": str(OUT / "apt.conf"),
        "DEBIAN_FRONTEND": "noninteractive",
        "PYTHONDONTWRITEBYTECODE": "1",
        **variables,
    }
    with subprocess.Popen(
        [root / test.path.relative_to(ROOT), *test.words],
        cwd=root,
        stdin=subprocess.DEVNULL,
        stdout=output,
        stderr=output,
        env=environment,
        start_new_session=True,
    ) as process:
        try:
            return process.wait(seconds)
        except subprocess.TimeoutExpired:
            return TOOK_TOO_LONG
        finally:
            if process.returncode is None:
                end(process)
                output.write(
                    b"\nkilled with its child processes: a run may take %g minutes\n"
                    % (test.seconds / 60)
                )


def status_with_fault(test, output, seconds):
    """Runs a test with its planted fault in a copy of the tree. Returns 0 if the test fails because
    of the fault, SKIPPED if the test is skipped, and otherwise 1."""
    with tempfile.TemporaryDirectory() as folder:
        variables = planted.plant(test.plant, Path(folder))
        shorter = replace(test, words=list(planted.PLANTS[test.plant][4:]) or test.words)
        status = status_of(shorter, output, Path(folder), variables, seconds)
    log = Path(output.name).read_text(encoding="utf-8", errors="replace")
    return SKIPPED if status == SKIPPED else 0 if planted.is_found(test.plant, status, log) else 1


def run(test, is_built=False, has_timer=False):
    """Runs a test and returns its result. Writes the output of the test to out/tests/NAME.log. If
    `has_timer` is true, sets no timeout, because pytest-timeout ends the test."""
    OUT.mkdir(parents=True, exist_ok=True)
    begun, log = time.monotonic(), OUT / f"{test.name}.log"
    seconds = None if has_timer else test.seconds
    variables = {
        it.upper(): str(ROOT / BUILT[it][0])
        for it in test.needs
        if is_built and it != "pass_c" and not os.environ.get(it.upper())
    }
    with open(log, "wb") as output:
        reason = lacks(test, is_built)
        if reason:
            output.write(f"{reason}\n".encode())
            status = SKIPPED
        else:
            status = (
                status_with_fault(test, output, seconds)
                if test.plant
                else status_of(test, output, ROOT, variables, seconds)
            )
    result = {0: "passed", SKIPPED: "skipped"}.get(status, "failed")
    last = "".join(log.read_text(encoding="utf-8", errors="replace").strip().splitlines()[-1:])
    return {
        "result": result,
        "status": status,
        "seconds": round(time.monotonic() - begun, 1),
        "last": last,
    }


class Results:
    """The results of tests. Prints a line for each test when it ends, and writes all results to
    out/tests/results.json."""

    def __init__(self):
        self.all = {}

    def add(self, name, found):
        self.all[name] = found
        reason = f": {found['last'][:120]}" if found["result"] != "passed" else ""
        print(f"{found['result']:8}{found['seconds']:8.1f} s  {name}{reason}", flush=True)

    def write(self):
        OUT.mkdir(parents=True, exist_ok=True)
        (OUT / "results.json").write_text(
            json.dumps(self.all, indent=1, sort_keys=True) + "\n", encoding="utf-8"
        )

    def count(self, result):
        return sum(1 for it in self.all.values() if it["result"] == result)

    def __str__(self):
        return (
            f"{self.count('passed')} passed, {self.count('failed')} failed,"
            f" {self.count('skipped')} skipped"
        )

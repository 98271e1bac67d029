"""Fixtures for the tests that pytest runs: the programs, clubs in files, and a separate server for
each request.

The files are in a file system in memory, where a sync costs no time. With the option `--scripts`,
pytest imports no test file. pytest then runs programs of tests/ as tests, through
tests/lib/scripts.py. The runner tests/run calls pytest with `--scripts`."""

import json
import shutil
import tempfile

import pytest

import desk
import kinds
import scripts
from desk import Reply


def pytest_addoption(parser):
    parser.addoption(
        "--no-commands",
        action="store_const",
        const="not built",
        dest="markexpr",
        help="runs only the checks that need no built program",
    )
    parser.addoption(
        "--scripts",
        metavar="NAME,..",
        help="runs these programs of tests/, each as one test; 'all' for all",
    )
    parser.addoption(
        "--planted",
        action="store_true",
        help="plants a fault for each program of --scripts, which must then fail",
    )
    parser.addoption(
        "--built",
        action="store_true",
        help="skips a program if a program that it needs isn't built",
    )


def pytest_configure(config):
    if config.option.scripts:
        config.results = scripts.Results()
    elif config.option.basetemp is None:
        config.option.basetemp = tempfile.mkdtemp(dir=desk.IN_MEMORY)


def pytest_unconfigure(config):
    if not config.option.scripts:
        shutil.rmtree(config.option.basetemp)


# ---- programs as tests


class Script(pytest.Item):
    """A run of a program in tests/, with the program's marks."""

    def __init__(self, *, test, **more):
        super().__init__(**more)
        self.test = test
        for name in [*test.groups, *test.marks]:
            self.add_marker(getattr(pytest.mark, name))
        self.add_marker(pytest.mark.timeout(test.seconds))

    def runtest(self):
        options = self.config.option
        try:
            found = scripts.run(
                self.test, options.built, self.config.pluginmanager.hasplugin("timeout")
            )
        except pytest.fail.Exception:
            found = {
                "result": "failed",
                "status": scripts.TOOK_TOO_LONG,
                "seconds": self.test.seconds,
                "last": "killed by pytest-timeout",
            }
        self.user_properties.append(("found", found))
        if found["result"] != "passed":
            {"failed": pytest.fail, "skipped": pytest.skip}[found["result"]](found["last"])

    def repr_failure(self, excinfo, style=None):
        return str(excinfo.value)


class ScriptFile(pytest.File):
    """A program in tests/. Each run of the program is a test."""

    def collect(self):
        asked = self.config.option.scripts.split(",")
        every = (
            scripts.planted_tests() if self.config.option.planted else scripts.tests_of(self.path)
        )
        yield from (
            Script.from_parent(self, name=it.name, test=it)
            for it in every
            if it.path == self.path and (asked == ["all"] or it.name in asked)
        )


def pytest_collect_file(file_path, parent):
    if (
        parent.config.option.scripts
        and file_path.suffix in (".bats", ".py", ".sh")
        and scripts.head_of(file_path)[1]
    ):
        return ScriptFile.from_parent(parent, path=file_path)
    return None


def pytest_runtest_logreport(report):
    """Records the result of a test. If a worker process dies during its test, the report has no
    result, and the test counts as failed."""
    config = report_to.get("config")
    found = dict(report.user_properties).get("found")
    if config and (found and report.when == "call" or not found and report.failed):
        name = report.nodeid.rpartition("::")[2]
        config.results.add(
            name,
            found or {"result": "failed", "status": 1, "seconds": 0, "last": str(report.longrepr)},
        )


report_to = {}


def pytest_sessionstart(session):
    if session.config.option.scripts and not hasattr(session.config, "workerinput"):
        report_to["config"] = session.config


def pytest_collectreport(report):
    if report.failed and report_to:
        print(report.longreprtext)


def pytest_sessionfinish(session):
    if report_to:
        (scripts.OUT / "session.json").write_text(
            json.dumps(session.config.results.all), encoding="utf-8"
        )


# ---- clubs and servers


class Club:
    """A club in a file of its own, with the program that runs commands on the file."""

    def __init__(self, program, file):
        self.program, self.file = program, file

    def command(self, *words):
        """Runs a command of `clubdesk` on the club's file. Returns the command's status, its output
        and its standard error."""
        command, *rest = words
        return desk.command(self.program, command, self.file, *rest)

    def does(self, *commands):
        """Runs commands that must succeed. Returns the output of the last command."""
        printed = ""
        for words in commands:
            status, printed, fault = self.command(*words.split())
            assert status == 0, f"clubdesk {words}: status {status}, {fault}"
        return printed.rstrip("\n")

    def balance(self, key):
        """Returns the balance of the key's member, which the command show-account prints."""
        return int(
            dict(
                line.split(" ", 1)
                for line in self.does(f"show-account {key} --at {kinds.NOON}").splitlines()
            )["balance"]
        )

    def sql(self, statement):
        with desk.opened(self.file) as database:
            return database.execute(statement).fetchall()

    def served(self, *words, count=None, at=kinds.NOON, **more):
        """Starts a server on the club. The server ends after `count` connections, or at the end of
        the `with` block."""
        return desk.Server(self.program, self.file, count, "--at", at, *words, **more)

    def ask(self, data, at=kinds.NOON, **more):
        """Sends the bytes of a request to a new server, and returns the server's reply."""
        with self.served(count=1, at=at, **more) as it:
            return Reply(it.exchange(data))

    def play(self, steps):
        """Runs the steps of a scene (tests/lib/kinds.py), compares each answer with the expected
        answer, and returns the server's replies."""
        replies = []
        for step in steps:
            if isinstance(step, kinds.Sql):
                self.sql(step.statement)
            elif isinstance(step, kinds.Command):
                wanted = (
                    int(bool(step.refusal)),
                    step.printed,
                    step.refusal and step.refusal + "\n",
                )
                assert self.command(*step.words) == wanted, step
            else:
                replies.append(self.ask(step.data, step.moment, file_limit=step.file_limit))
                assert replies[-1].whole == step.wanted, step
        return replies

    def copied_to(self, file):
        desk.copy(self.file, file)
        return Club(self.program, file)


@pytest.fixture(scope="session")
def clubdesk():
    return desk.program("clubdesk")


@pytest.fixture(scope="session")
def passtool():
    """Returns a function that runs passtool. The function returns the status, and the output
    followed by the standard error."""
    program = desk.program("passtool")

    def run(*words, given=""):
        status, printed, fault = desk.command(program, *words, text=given)
        return status, printed + fault

    return run


@pytest.fixture(scope="session")
def library(tmp_path_factory):
    folder = tmp_path_factory.mktemp("libraries")
    return lambda name: desk.library(name, folder)


@pytest.fixture(scope="session")
def new_club(clubdesk, tmp_path_factory):
    """Returns a function that makes a club with the given commands of clubdesk."""

    def made_by(*commands):
        club = Club(clubdesk, tmp_path_factory.mktemp("made") / "club")
        club.does(*commands)
        return club

    return made_by


@pytest.fixture(scope="session")
def made(new_club):
    """Returns the club that the fixture `club` copies for each test. A test file may define its own
    fixture `made`, with a different club."""
    club = new_club()
    club.play(kinds.COMMANDS)
    return club


@pytest.fixture
def club(made, tmp_path):
    return made.copied_to(tmp_path / "club")

"""Runs the built programs for tests: finds their paths, starts a server for a `with` block, sends
requests, and runs commands.

The environment variables CLUBDESK and PASSTOOL have the paths of the programs. If a variable is
unset, the wrapper in bin/ runs first. The wrapper proves and builds the program if it is missing or
out of date."""

import contextlib
import errno
import json
import os
import resource
import shutil
import signal
import socket
import sqlite3
import subprocess
import sys
import time
from concurrent.futures import ThreadPoolExecutor
from pathlib import Path

TESTS = Path(__file__).resolve().parents[1]
ROOT = TESTS.parent
# A folder in memory, where a sync costs no time, or None.
IN_MEMORY = "/dev/shm" if os.access("/dev/shm", os.W_OK) else None
ANOTHER = 65_534  # the user `nobody`
AS_ANOTHER = ("setpriv", f"--reuid={ANOTHER}", f"--regid={ANOTHER}", "--clear-groups")


def program(name):
    """Returns the path of the program itself, not of its wrapper, so that a signal reaches the
    program."""
    given = os.environ.get(name.upper())
    if given:
        return given
    subprocess.run([ROOT / "bin" / name, "--help"], check=True, stdout=subprocess.DEVNULL)
    return str(ROOT / "crates" / name / "out" / name)


def library(name, folder):
    """Builds a library from its source in tests/lib, and returns the path for LD_PRELOAD."""
    path = Path(folder, name)
    if not path.exists():
        subprocess.run(
            ["cc", "-shared", "-fPIC", "-O1", "-o", path, TESTS / "lib" / f"{name}.c", "-ldl"],
            check=True,
        )
    return str(path)


def refused_in_turn(run, folder, step=1):
    """Calls `run` once to count the allocations of the program that `run` starts. Then calls `run`
    again for each allocation, with this allocation refused. If `step` is greater than 1, refuses
    only every `step`th allocation. Returns the results of these calls. `run` passes its keyword
    arguments to the program as environment variables."""
    counted, preload = Path(folder, "counted"), {"LD_PRELOAD": library("refused_memory", folder)}
    run(ALLOCATIONS_COUNTED=str(counted), **preload)
    with ThreadPoolExecutor(len(os.sched_getaffinity(0))) as pool:
        return list(
            pool.map(
                lambda number: run(REFUSED_ALLOCATION=str(number), **preload),
                range(1, int(counted.read_text()) + 1, step),
            )
        )


def limit_files(size):
    """Limits the size in bytes of each file that this process writes. A write beyond the limit
    fails, and sends no signal."""
    signal.signal(signal.SIGXFSZ, signal.SIG_IGN)
    resource.setrlimit(resource.RLIMIT_FSIZE, (size, size))


class Server:
    """A server of `clubdesk` for a file, as a context manager. When the `with` block begins, the
    server listens at `port`. After the block, the server has ended.

    `words` are additional options, and `by` is a command that runs the server. `variables` are
    additional environment variables, and `given` is the file that the server gets as its standard
    input. `file_limit` is the greatest size of the server's files, in bytes. After a block without
    an exception, the server's status must be `status`, unless the test killed the server. If
    `count` is None, the end of the block kills the server. The file `log` has the server's standard
    error. If the block ends with an exception, the context manager prints the log.
    """

    killed_by = signal.SIGKILL

    def __init__(
        self,
        desk,
        file,
        count,
        *words,
        variables=None,
        given="/dev/null",
        file_limit=None,
        status=0,
        port=0,
        by=(),
    ):
        self.command = [
            *by,
            desk,
            "serve",
            str(file),
            "--port",
            str(port),
            "--count",
            str(count or 1_000_000),
            *words,
        ]
        self.log = Path(f"{file}.log")
        self.variables, self.given = {**os.environ, **(variables or {})}, given
        self.limits = (lambda: limit_files(file_limit)) if file_limit else None
        self.status, self.is_killed, self.is_endless = status, False, count is None

    def __enter__(self):
        with open(self.log, "ab") as log, open(self.given, "rb") as given:
            self.process = subprocess.Popen(
                self.command,
                stdout=subprocess.PIPE,
                stderr=log,
                stdin=given,
                env=self.variables,
                preexec_fn=self.limits,
                restore_signals=False,
            )
        line = self.process.stdout.readline().decode()
        if not line.startswith("listening on 127.0.0.1:"):
            raise AssertionError(f"no server: status {self.process.wait()}, {self.log.read_text()}")
        self.port = int(line.rpartition(":")[2])
        return self

    def kill(self):
        self.is_killed = True
        self.process.send_signal(self.killed_by)
        self.process.wait()

    def __exit__(self, kind, _value, _trace):
        if kind is not None:
            print(self.log.read_text())
        if (kind is not None or self.is_endless) and self.process.poll() is None:
            self.kill()
        status = self.process.wait(60)
        self.process.stdout.close()
        if kind is None and status != self.status and not self.is_killed:
            raise AssertionError(f"the server ended with status {status}: {self.log.read_text()}")

    def exchange(self, data):
        return exchange(self.port, data)

    def serves(self, *rows):
        """Sends the request of each row, and compares the reply with the row's expected reply."""
        for row in rows:
            assert self.exchange(row.data) == row.wanted, row


class Reply:
    """The bytes of a reply, and the reply's parts."""

    def __init__(self, whole):
        head, _, self.body = whole.decode().partition("\r\n\r\n")
        line, *fields = head.split("\r\n")
        self.whole, self.status = whole, int(line.split(" ")[1])
        self.fields = dict(it.split(": ", 1) for it in fields)

    @property
    def value(self):
        return json.loads(self.body)


def free_port():
    """Returns a port at which no program listens."""
    with socket.create_server(("127.0.0.1", 0)) as probe:
        return probe.getsockname()[1]


def drip(client, data):
    """Sends a byte a second until the server closes the connection."""
    with contextlib.suppress(OSError):
        for byte in data:
            client.sendall(bytes([byte]))
            time.sleep(1)


def read(client):
    """Reads until the server closes its side of the connection, and returns the bytes."""
    with client.makefile("rb") as come:
        return come.read()


def exchange(port, data, seconds=30):
    """Sends bytes, and then closes the sending side of the connection. Returns the bytes of the
    reply, or None if the connection is lost."""
    try:
        with socket.create_connection(("127.0.0.1", port), seconds) as client:
            client.sendall(data)
            client.shutdown(socket.SHUT_WR)
            return read(client)
    except OSError as fault:
        if isinstance(fault, ConnectionError) or fault.errno == errno.ENOTCONN:
            return None
        raise


def command(desk, *words, text=None, **more):
    """Runs `clubdesk`, or another program, with `text` as its input. Returns the status, the output
    and the standard error."""
    done = subprocess.run(
        [desk, *map(str, words)], capture_output=True, input=text, text=True, check=False, **more
    )
    return done.returncode, done.stdout, done.stderr


def copy(file, to):
    """Copies a database together with its log."""
    for ending in ("", "-wal"):
        Path(f"{to}{ending}").unlink(missing_ok=True)
        if Path(f"{file}{ending}").exists():
            shutil.copy(f"{file}{ending}", f"{to}{ending}")


@contextlib.contextmanager
def opened(file, **how):
    """Opens a database for a `with` block. At the end of the block, commits the changes and closes
    the database."""
    with contextlib.closing(sqlite3.connect(file, **how)) as database, database:
        yield database


def rows(file, statement):
    """Runs an SQL query on a copy of the file, and returns the rows."""
    copy(file, f"{file}.copy")
    with opened(f"{file}.copy") as database:
        return database.execute(statement).fetchall()


# An SQL query that finds rows with wrong totals, according to the sums in docs/TABLES.md. The query
# also reports missing slots, broken references and damage.
SUMS = """
SELECT 'used', name FROM members WHERE used <> (SELECT total(charge - refund) FROM bookings JOIN keys ON keys.name = pass_key WHERE member = members.name)
UNION ALL SELECT 'taken', facility || day || ' ' || hour FROM slots s WHERE taken <> (SELECT total(guests + 1) FROM bookings b WHERE cancelled = 0
    AND (b.facility, b.day, b.hour) = (s.facility, s.day, s.hour))
UNION ALL SELECT 'no slot', pass_key || number FROM bookings b WHERE cancelled = 0 AND (facility, day, hour) NOT IN (SELECT facility, day, hour FROM slots)
UNION ALL SELECT 'below 0', name FROM members WHERE used > credited
UNION ALL SELECT 'foreign key', "table" FROM pragma_foreign_key_check
UNION ALL SELECT 'integrity', integrity_check FROM pragma_integrity_check WHERE integrity_check <> 'ok'"""


def unsound(file):
    """Returns the rows of the query SUMS for a file. A sound file has none."""
    return rows(file, SUMS)


def add_past_bookings(file, count, root):
    """Adds the members x000 to x999, each with a key of the same name. Adds `count` bookings by
    these members in `old-court`, two in each slot. Each total stays the sum of its rows."""
    thousand = "WITH n(i) AS (SELECT 0 UNION ALL SELECT i + 1 FROM n WHERE i < 999)"
    with opened(file) as database:
        database.executescript(
            f"""BEGIN;
            {thousand} INSERT INTO members SELECT printf('x%03d', i), 900000, 99, 0 FROM n;
            {thousand} INSERT INTO keys SELECT printf('x%03d', i), printf('x%03d', i), x'{root}', 0 FROM n;
            INSERT INTO facilities VALUES ('old-court', 'court', 50, 1, 0, 24);
            WITH n(i) AS (SELECT 0 UNION ALL SELECT i + 1 FROM n WHERE i + 1 < {count}) INSERT INTO bookings
                SELECT printf('x%03d', i % 1000), i / 1000 + 1, 'old-court', 10957 + i / 48, i / 2 % 24, 1, 2, 46, 0, 0 FROM n;
            INSERT INTO slots SELECT facility, day, hour, 0, sum(guests + 1) FROM bookings WHERE facility = 'old-court' GROUP BY 1, 2, 3;
            UPDATE members SET used = (SELECT coalesce(sum(charge - refund), 0) FROM bookings JOIN keys ON keys.name = pass_key WHERE member = members.name);
            COMMIT"""
        )


def paced(whole, step, what):
    """Yields the number of items done before each step, and prints the progress about ten times."""
    for done in range(0, whole, step):
        yield done
        if (done + step) * 10 // whole > done * 10 // whole:
            print(f"{done + step} of {whole} {what}", flush=True)


def serve(program, file, count, moment, *words):
    """Runs a server for a shell script, and prints the server's port. The server ends after `count`
    connections, or when this script gets SIGTERM."""
    with Server(program, file, int(count), "--at", moment, *words) as it:

        def end(*_):
            it.is_killed = True
            os.kill(it.process.pid, it.killed_by)

        signal.signal(signal.SIGTERM, end)
        print(it.port, flush=True)
        it.process.wait()


if __name__ == "__main__":
    serve(*sys.argv[1:])

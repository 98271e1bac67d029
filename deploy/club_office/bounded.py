"""Runs a program of another machine, or on another disk, with limits on its time and on its output."""

import collections
import contextlib
import os
import selectors
import subprocess
import time

# The result of a program: its status, its output, the first bytes of its error messages, and whether the output had more bytes than allowed.
Output = collections.namedtuple("Output", "status text said is_over")
MOST_SAID = 4_000
PIECE = 65_536


class Pipes:
    """The pipes of a program that runs: the bytes to send, and the bytes that came."""

    def __init__(self, process: subprocess.Popen, given: bytes | None, most: int):
        self.process, self.left, self.most = process, memoryview(given or b""), most
        self.text, self.said = bytearray(), bytearray()
        self.waiting = selectors.DefaultSelector()
        for pipe, events in (
            (process.stdin, selectors.EVENT_WRITE),
            (process.stdout, selectors.EVENT_READ),
            (process.stderr, selectors.EVENT_READ),
        ):
            if pipe:
                os.set_blocking(pipe.fileno(), False)
                self.waiting.register(pipe, events)

    @property
    def is_open(self) -> bool:
        """Returns whether the program can still print."""
        return not self.process.stdout.closed

    def move(self, seconds: float) -> None:
        """Moves the bytes that can be moved now. Waits at most this number of seconds."""
        for key, _ in self.waiting.select(max(0.0, seconds)):
            with contextlib.suppress(BlockingIOError):
                if key.fileobj is self.process.stdin:
                    self.send()
                else:
                    self.receive(key.fileobj)

    def send(self) -> None:
        try:
            self.left = self.left[os.write(self.process.stdin.fileno(), self.left[:PIECE]) :]
        except BrokenPipeError:
            self.left = memoryview(b"")
        if not self.left:
            self.close(self.process.stdin)

    def receive(self, pipe) -> None:
        data = os.read(pipe.fileno(), PIECE)
        if not data:
            self.close(pipe)
        elif pipe is self.process.stdout:
            self.text += data
        else:
            self.said += data[: MOST_SAID - len(self.said)]

    def close(self, pipe) -> None:
        self.waiting.unregister(pipe)
        pipe.close()


def run_bounded(line: list[str], given: bytes | None, most: int, seconds: float) -> Output:
    """Runs a program with `given` as its standard input. Kills the program if it prints more than `most` bytes, or if it takes longer. After the
    timeout, raises TimeoutExpired."""
    end = time.monotonic() + seconds
    how = subprocess.DEVNULL if given is None else subprocess.PIPE
    with subprocess.Popen(
        line, stdin=how, stdout=subprocess.PIPE, stderr=subprocess.PIPE
    ) as process:
        pipes = Pipes(process, given, most)
        try:
            while pipes.is_open and len(pipes.text) <= most:
                if time.monotonic() > end:
                    raise subprocess.TimeoutExpired(line, seconds)
                pipes.move(end - time.monotonic())
            is_over = len(pipes.text) > most
            if is_over:
                process.kill()
            process.wait(max(0.1, end - time.monotonic()))
            pipes.move(0)
        except BaseException:
            process.kill()
            raise
        finally:
            pipes.waiting.close()
    return Output(process.returncode, bytes(pipes.text), bytes(pipes.said), is_over)

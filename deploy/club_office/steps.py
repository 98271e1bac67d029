"""Carries out the steps of clubdesk-setup. Each step prints what it made, and leaves existing files unchanged."""

import contextlib
import fcntl
import os
import subprocess
from collections.abc import Iterator

from club_office.faults import refusal

HELD: list[int] = []  # the descriptor of the lock


@contextlib.contextmanager
def alone(folder: str) -> Iterator[None]:
    """Waits until no other run of the program is active. Commands inherit the lock, so this run also waits for the commands of a killed run."""
    HELD.append(os.open(folder, os.O_RDONLY))
    try:
        fcntl.flock(HELD[0], fcntl.LOCK_EX)
        yield
    finally:
        os.close(HELD.pop())


def said(what: str, is_made: bool | None = True) -> bool | None:
    """Prints the result of a step, and whether this run made the result. With None, prints what this run left out."""
    word = "left" if is_made is None else "made" if is_made else "there"
    print(f"{word:5} {what}", flush=True)
    return is_made


def run(*line: str, given: bytes | None = None, may_fail: bool = False):
    done = subprocess.run(line, input=given, capture_output=True, check=False, pass_fds=HELD)
    if done.returncode and not may_fail:
        text = done.stderr.decode(errors="replace").strip() or str(done.returncode)
        raise refusal("step failed", line=" ".join(line[:3]), said=text)
    return done


def written(path: str, text: str, mode: int = 0o644, owner: tuple[int, int] = (0, 0)):
    """Writes a complete file, unless a file with this name exists."""
    if os.path.lexists(path):
        return said(path, False)
    made = f"{path}.new"
    with open(
        os.open(made, os.O_WRONLY | os.O_CREAT | os.O_TRUNC | os.O_NOFOLLOW, 0o600),
        "w",
        encoding="utf-8",
    ) as file:
        file.write(text)
        os.fchown(file.fileno(), *owner)
        os.fchmod(file.fileno(), mode)
        file.flush()
        os.fsync(file.fileno())
    os.rename(made, path)
    return said(path)

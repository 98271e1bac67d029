"""Begins each Python program of deploy/ in a known state. A caller chooses the signals, the umask, the environment and the standard streams that a
program inherits, even through sudo. With SIGCHLD ignored, for example, Python takes status 0 for the status of every program that it runs."""

import io
import os
import pwd
import resource
import signal
import sys

# nohup, and a shell that starts a program in the background, ignore these signals on purpose.
IGNORED_ON_PURPOSE = {
    signal.SIGHUP,
    signal.SIGINT,
    signal.SIGQUIT,
    signal.SIGTSTP,
    signal.SIGTTIN,
    signal.SIGTTOU,
}
# Python ignores these signals, so that a write fails instead.
IGNORED_BY_PYTHON = {signal.SIGPIPE, signal.SIGXFSZ}
PATH = "/usr/local/sbin:/usr/local/bin:/usr/sbin:/usr/bin:/sbin:/bin"
# The environment variables that the desk's side keeps. The desk's side is the process that runs as the desk's user.
KEPT = (
    "LANG",
    "LC_ALL",
    "LC_CTYPE",
    "LOGNAME",
    "OFFICE_CLERK",
    "SUDO_USER",
    "TERM",
    "COLUMNS",
    "USER",
)


def printable(text: str, kept: str = "") -> str:
    """Returns the text with a number in place of each unprintable character, such as a line separator or an escape. The characters of `kept` stay."""
    return "".join(
        it
        if it.isprintable() or it in kept
        else f"\\x{ord(it):02x}"
        if ord(it) < 256
        else f"\\u{ord(it):04x}"
        for it in text
    )


class Printable(io.TextIOWrapper):
    """A standard stream that prints an unprintable character as its number. So a text of another program, or of another machine, can't command the
    terminal. Lines and tabs stay. Bytes that a program writes to the stream's buffer stay as they are.
    """

    def write(self, text: str) -> int:
        super().write(printable(text, "\n\t"))
        return len(text)


def begin(umask: int = 0o077, kept: tuple[str, ...] | None = None) -> None:
    """Sets signals, umask, limits and standard streams, as if nobody had changed them. With `kept`, also clears the environment, except the variables
    with these names, and sets PATH and HOME."""
    reset_signals()
    os.umask(umask)
    # A memory dump would contain the roots of keys.
    resource.setrlimit(resource.RLIMIT_CORE, (0, resource.getrlimit(resource.RLIMIT_CORE)[1]))
    open_streams()
    if kept is not None:
        forget_environment(kept)


def reset_signals() -> None:
    for number in signal.valid_signals() - {signal.SIGKILL, signal.SIGSTOP}:
        is_ignored = signal.getsignal(number) == signal.SIG_IGN
        if is_ignored and number not in IGNORED_ON_PURPOSE | IGNORED_BY_PYTHON:
            signal.signal(number, signal.SIG_DFL)
    signal.pthread_sigmask(signal.SIG_SETMASK, ())


def open_streams() -> None:
    """Opens each closed standard stream at /dev/null. Otherwise the next opened file, such as a club's file, would be the standard output."""
    for number in range(3):
        try:
            os.fstat(number)
        except OSError:
            os.open(os.devnull, os.O_RDWR)
    if sys.stdin is None:
        sys.stdin = open(0, encoding="utf-8", closefd=False)
    sys.stdout, sys.stderr = (
        Printable(
            it.buffer if it else open(number, "wb", closefd=False),
            encoding=it.encoding if it else "utf-8",
            errors="backslashreplace",
            line_buffering=it.line_buffering if it else False,
        )
        for number, it in ((1, sys.stdout), (2, sys.stderr))
    )


def forget_environment(kept: tuple[str, ...]) -> None:
    """Clears the environment, except the variables with these names. So a clerk's variables can't choose a program or folder for the desk's side,
    even if sudo passes the variables on."""
    for each in set(os.environ) - set(kept):
        del os.environ[each]
    os.environ["PATH"] = PATH
    os.environ["HOME"] = pwd.getpwuid(
        os.geteuid()
    ).pw_dir  # programs such as a mailer read their configuration there

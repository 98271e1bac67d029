"""Reads a club's configuration and clock, and finds the programs that the office runs."""

import collections
import contextlib
import glob
import os
import pwd
import re
import shlex
import shutil
import subprocess
import sys
import time

from club_office.faults import STORAGE, bad_value, fault, refusal
from club_office.texts import in_language, say
from club_office.values import NAME, moment, moment_text

# The program that the clerk started.
SELF = os.path.realpath(sys.modules["__main__"].__file__ or "")


class Club(collections.namedtuple("Club", "name file zone stop book back_ups settings")):
    """A club on the machine. `settings` has the lines of the configuration, with their names in lower case."""

    @property
    def is_old(self):
        """Returns whether the club's file is the file of an old year. Only commands that print lists work with such a file."""
        return "@" in self.name

    @property
    def port(self):
        return (
            int(self.settings.get("port", "0")) if self.settings.get("port", "0").isdigit() else 0
        )

    @property
    def title(self):
        """The club's title."""
        return self.settings.get("title") or self.name

    @property
    def site(self):
        """The address of the club's pages, without a final slash."""
        return self.settings.get("site", "").rstrip("/")


def settings(path):
    """Returns the lines `KEY=value` of a configuration. A value may be in quotes."""
    with open(path, encoding="utf-8") as lines:
        return settings_of(lines)


def settings_of(lines):
    found = {}
    for line in lines:
        parts = re.fullmatch(r"\s*([A-Za-z_]+)\s*=\s*(.*?)\s*", line)
        if parts and not line.lstrip().startswith(("#", ";")):
            found[parts[1].lower()] = unquoted(parts[2])
    return found


def unquoted(value):
    if len(value) > 1 and value[0] == value[-1] and value[0] in "\"'":
        return value[1:-1]
    return value.strip("\"'")


# The files that clubdesk or the office makes next to a club's file. The name of each such file is the name of the club's file with one of these
# endings, or with `-until-` and a day.
ENDINGS = (
    "-before",
    "-book",
    "-mailed",
    "-metrics",
    "-new",
    "-office",
    "-offsite",
    "-orders",
    "-people.csv",
    "-reasons",
    "-seasons",
    "-undo",
    "-wal",
)


def is_beside(file, other):
    """Returns whether `other` is a path at which clubdesk or the office makes a file next to the club's file `file`."""
    ending = other.removeprefix(file) if other.startswith(file) else ""
    return ending in ENDINGS or ending.startswith("-until-")


def configurations():
    """Returns the folder of the clubs' configurations."""
    return os.environ.get("OFFICE_CONF", "/etc/clubdesk")


def clubs_of(folder):
    """Yields each configured club and its file."""
    for path in sorted(glob.glob(os.path.join(glob.escape(folder), "*.conf"))):
        with contextlib.suppress(OSError, UnicodeDecodeError):
            yield os.path.basename(path).removesuffix(".conf"), settings(path).get("file", "")


def refuse_files_of_others(file, folder):
    """Refuses a club if one of the files next to its own file would overwrite another club's file."""
    for other, path in clubs_of(folder):
        if is_beside(file, path):
            raise refusal("file of another", path=path, club=other)


def club_named(called, is_at_desk=False):
    """Returns the club with this name. NAME@YEAR stands for the club with the file of an old year. After this call, the process's clock is in the
    club's zone."""
    word, at, year = called.partition("@")
    if not NAME.fullmatch(word) or at and not re.fullmatch("20[0-9]{2}", year):
        raise bad_value("no club name", word=called)
    folder = configurations()
    try:
        found = settings(os.path.join(folder, word + ".conf"))
    except FileNotFoundError:
        raise refusal("no such club", word=word, path=f"{folder}/{word}.conf") from None
    except (OSError, UnicodeDecodeError) as failure:
        raise fault(
            STORAGE, "cannot be read", path=f"{folder}/{word}.conf", fault=failure
        ) from None
    if not os.path.isabs(found.get("file", "")):
        raise fault(STORAGE, "no file line", path=f"{folder}/{word}.conf")
    refuse_files_of_others(found["file"], folder)
    os.environ["TZ"] = found.get("zone") or "UTC0"
    time.tzset()
    stop = found.get("stop") or f"sudo -n /usr/bin/systemctl kill clubdesk@{word}.service"
    back_ups = found.get("back_ups") or f"/var/backups/clubdesk/{word}"
    return Club(
        called,
        old_file(found["file"], year) if is_at_desk and year else found["file"],
        os.environ["TZ"],
        shlex.split(stop),
        found.get("book"),
        back_ups,
        found,
    )


def old_files(file):
    """Returns the files of old years next to a club, oldest first, each with its last day. Of two files with the same day, returns only the file that
    was changed later."""
    found = {}
    for path in sorted(
        glob.glob(glob.escape(file) + "-until-*"), key=lambda it: (os.stat(it).st_mtime_ns, it)
    ):
        day = re.fullmatch(r".*-until-([0-9]{4}-[0-9]{2}-[0-9]{2})(-[0-9]+)?", path)
        if day:
            found[day[1]] = path
    return sorted(found.items())


def old_file(file, year):
    """Returns the first file that contains the whole year. If there is none, returns the last file that contains a part of the year."""
    found = old_files(file)
    whole = [path for day, path in found if day >= f"{year}-12-31"]
    part = [path for day, path in found if day.startswith(year)]
    if not whole and not part:
        raise refusal("no old year", year=year)
    return whole[0] if whole else part[-1]


def program(variable, called):
    """Returns the path of a program from an environment variable. If the variable isn't set, searches the PATH."""
    found = os.environ.get(variable) or shutil.which(
        called, path=os.environ.get("PATH", "") + ":/usr/local/bin:/usr/bin"
    )
    if not found:
        raise fault(STORAGE, "no program", path=called)
    return found


def back_up_program():
    """Returns the path of deploy/back_up, which is next to the folder of these modules."""
    found = os.path.join(os.path.dirname(os.path.dirname(os.path.realpath(__file__))), "back_up")
    if not os.access(found, os.X_OK):
        raise fault(STORAGE, "no program", path=found)
    return found


def now_of(words):
    """Returns the current minute of the club's clock, or the minute of --at."""
    return clock() if getattr(words, "at", None) is None else words.at


def clock():
    return moment(time.strftime("%Y-%m-%dT%H:%M"))


def refuse_to_come(words):
    """Refuses a future moment of --at, because a correction at that moment would treat future bookings as over."""
    if getattr(words, "at", None) is not None and words.at > clock():
        raise refusal("at is to come", at=moment_text(words.at), now=moment_text(clock()))


def run_clubdesk(club, command, words, options=(), root=None, held=()):
    """Runs a command of clubdesk on the club's file, and returns the completed process. The command keeps the descriptors `held` open."""
    line = [program("CLUBDESK", "clubdesk"), command, *options, "--", club.file, *words]
    return subprocess.run(
        line,
        input=root,
        capture_output=True,
        check=False,
        stdin=None if root is not None else subprocess.DEVNULL,
        pass_fds=held,
    )


def clubdesk(club, command, words, options=(), root=None):
    """Runs a command of clubdesk on the club's file. Returns the command's status and output."""
    done = run_clubdesk(club, command, words, options, root)
    for said in done.stderr.decode(errors="backslashreplace").splitlines():
        print(in_language(said), file=sys.stderr, flush=True)
    return done.returncode, f"{say('done')}\n".encode() if done.stdout == b"done\n" else done.stdout


def ended_by_itself(line, given=None, **how):
    """Runs a command, and waits until it ends, even after Ctrl-C. Returns the command's status, and the output that the command wrote into a pipe.
    The command may run under sudo. A clerk's process can't end sudo's process, so the command itself must handle Ctrl-C. After Ctrl-C, raises
    KeyboardInterrupt for a command that only reads. For any other command, the status shows whether the command succeeded.
    """
    command = subprocess.Popen(line, **how)
    text, is_interrupted = given, False
    while True:
        try:
            printed = command.communicate(text)[0]
            break
        except KeyboardInterrupt:
            text, is_interrupted = None, True
            if command.stdin:  # the rest isn't sent any more
                with contextlib.suppress(OSError):
                    command.stdin.close()
    if is_interrupted and command.stdout and (given is None or command.returncode):
        raise KeyboardInterrupt
    return command.returncode, printed


def show(printed):
    sys.stdout.buffer.write(printed)
    sys.stdout.buffer.flush()


def wants_file(club):
    if not os.path.isfile(club.file):
        raise refusal("no club file", path=club.file, club=club.name)


def desk_user(club):
    """Returns the owner of the folder that contains the club's file, or the user clubdesk if the owner can't be determined."""
    try:
        return pwd.getpwuid(os.stat(os.path.dirname(club.file)).st_uid)
    except (OSError, KeyError):
        return pwd.getpwnam("clubdesk")

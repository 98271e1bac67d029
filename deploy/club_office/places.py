"""Stores copies away from the club's disk, at a place. A place is a folder on another machine, which ssh reaches, or a mounted folder. This module
can store and test a file at a place, list the files there, and fetch or remove a file. The machine of a place needs a shell and sha256sum, and
sqlite3 to test a copy."""

import collections
import hashlib
import os
import re
import secrets
import shlex
import subprocess

from club_office.begin import printable
from club_office.bounded import run_bounded
from club_office.clubs import program
from club_office.faults import STORAGE, bad_value, fault, storage_failed

Place = collections.namedtuple("Place", "text host folder")
# A file at the place: its size, its digest, and its test. The test is `whole` if SQLite tested the file, `sum` if only its digest was compared, or
# `no` if there was no test.
Kept = collections.namedtuple("Kept", "name size sum tested")
NAME = re.compile(r"20[0-9]{2}-[0-9]{2}-[0-9]{2}T[0-9]{6}Z")
# The name of an archive of the files next to the club. The archive is from the same time as the copy with the same name.
BESIDE = re.compile(NAME.pattern + r"[.]tar")
OLD_YEAR = re.compile(r"until-[0-9]{4}-[0-9]{2}-[0-9]{2}(-[0-9]{1,3})?")
# The greatest number of seconds to wait for a silent host, and for the transfer of a file.
PATIENCE, MOST_SECONDS = 10, 300
OPTIONS = (
    f"ConnectTimeout={PATIENCE}",
    "ServerAliveInterval=5",
    "ServerAliveCountMax=3",
    "LogLevel=ERROR",
)
# ssh asks for the password once, because later calls share the connection of the first call.
ASKS = ("ControlMaster=auto", "ControlPersist=60", "ControlPath=~/.clubdesk-%C")

# The greatest number of bytes of a list, of a file, and of the lines that a login prints before a script's output.
MOST_LIST, MOST_FILE, MOST_BANNER = 2_000_000, 1_000_000_000, 100_000
# The lines of a list: a file with its size, a file with the digest of its bytes, and a file's digest and test from the list `tested`.
LINE = re.compile(
    r"file (?P<size>[0-9]{1,15}) (?P<file>\S+)|sum (?P<sum>[0-9a-f]{64}) (?P<summed>\S+)"
    r"|tested( (?P<tested>\S+) (?P<digest>[0-9a-f]{64}) (?P<how>whole|sum))?.*"
)

# In each script, $0 is a random word, and $1 is the folder. The script prints $0 before and after its own output. So lines of a login aren't taken
# for output, and a shell that doesn't run the script is noticed. A file has a temporary name until it is complete and tested. TAKE adds the file's
# line to the list `tested` before it gives the file its final name.
TAKE = """set -eu
umask 077
[ "$5" = mounted ] || mkdir -p -- "$1"
cd -- "$1"
find . -maxdepth 1 -name '.new.*' -mmin +60 -exec rm -f {} + || :
new=.new.$2.$$
trap 'rm -f "$new"' EXIT
trap 'exit 1' INT TERM HUP
cat >"$new"
[ "$(sha256sum <"$new" | cut -c 1-64)" = "$3" ] || { echo 'the transferred bytes differ from the sent bytes' >&2; exit 1; }
how=sum
if [ "$4" = club ] && command -v sqlite3 >/dev/null; then
    found=$(sqlite3 -bail "file:$new?immutable=1" 'PRAGMA integrity_check; PRAGMA foreign_key_check; SELECT count(*) FROM desk' 2>&1) || :
    [ "$found" = 'ok
1' ] || { echo "the transferred copy isn't a complete club: $found" >&2; exit 1; }
    how=whole
fi
sync "$new" 2>/dev/null || sync
echo "$2 $3 $how" >>tested
mv -f -- "$new" "$2"
sync . 2>/dev/null || sync
printf '%s\n' "$0" "$how" "$0"
"""
# The arguments after the folder are the files whose digests LIST computes.
LIST = """cd -- "$1" || exit 1
shift
printf '%s\n' "$0"
for name in 2*Z 2*Z.tar until-*; do
    case $name in *[!0-9A-Za-z.-]*) continue ;; esac
    [ ! -f "$name" ] || stat -c 'file %s %n' -- "$name"
done
[ ! -f tested ] || sed 's/^/tested /' tested
for name; do [ ! -f "$name" ] || echo "sum $(sha256sum <"$name" | cut -c 1-64) $name"; done
printf '%s\n' "$0"
"""
GIVE = """cd -- "$1" && printf '%s\n' "$0" && cat -- "$2" && printf '%s\n' "$0"
"""
REMOVE = """set -eu
umask 077
cd -- "$1"
shift
for name; do rm -f -- "$name"; done
if [ -f tested ]; then
    while read -r name rest; do [ ! -e "$name" ] || echo "$name $rest"; done <tested >.new.tested
    mv -f .new.tested tested
fi
printf '%s\n' "$0" "$0"
"""


def place_of(text):
    """Parses the text of a place: HOST:FOLDER, or an absolute path."""
    host, _, folder = ("", "", text) if text.startswith("/") else text.partition(":")
    if folder == "~" or folder.startswith("~/"):  # a folder without / begins in the home folder
        folder = folder[2:] or "."
    if (
        not folder
        or not folder.isprintable()
        or folder.startswith(("-", "~"))
        or not text.startswith("/")
        and not re.fullmatch(r"[A-Za-z0-9_][A-Za-z0-9_.@-]*", host)
    ):
        raise bad_value("no place", text=text)
    return Place(text, host or None, folder)


def refuse_own_disk(place, file):
    """Refuses a folder on the club's own disk or on the system's disk, such as an unmounted folder. A copy there wouldn't survive the loss of the
    disk."""
    if place.host is None:
        try:
            is_own = os.stat(place.folder).st_dev in (
                os.stat(os.path.dirname(file)).st_dev,
                os.stat("/").st_dev,
            )
        except OSError as failure:
            raise fault(STORAGE, "not mounted", place=place.text, fault=failure.strerror) from None
        if is_own:
            raise fault(STORAGE, "own disk", place=place.text)


def line_to(place, script, word, words, asks):
    """Returns the command line that runs a script at the place."""
    line = ["sh", "-c", script, word, place.folder, *words]
    if not place.host:
        return line
    options = (*OPTIONS, *(ASKS if asks else ("BatchMode=yes",)))
    asked = [it for option in options for it in ("-o", option)]
    return [program("SSH", "ssh"), *asked, place.host, shlex.join(line)]


def run_there(place, script, *words, given=None, asks=False, most=MOST_LIST):
    """Runs a script at the place. The script's arguments are the place's folder and `words`. Returns the script's output, which has at most `most`
    bytes. If `asks` is true, ssh may ask for a password at the terminal."""
    word = secrets.token_hex(16)
    try:
        done = run_bounded(
            line_to(place, script, word, words, asks), given, most + MOST_BANNER, MOST_SECONDS
        )
    except subprocess.TimeoutExpired:
        raise fault(STORAGE, "no answer there", place=place.text, seconds=MOST_SECONDS) from None
    if done.is_over:
        raise fault(STORAGE, "too much there", place=place.text, most=most)
    if done.status:
        said = " ".join(done.said.decode(errors="replace").replace(word, "sh").split())
        raise fault(
            STORAGE, "said there", place=place.text, said=printable(said) or f"status {done.status}"
        )
    mark = f"{word}\n".encode()
    _, begun, rest = done.text.partition(mark)
    text, ended, _ = rest.rpartition(mark)
    if not begun or not ended:
        raise fault(STORAGE, "script unrun there", place=place.text)
    return text


def odd_list(place, line):
    return fault(STORAGE, "odd list there", place=place.text, line=printable(line[:80]))


def take(place, name, data, digest, kind):
    """Stores a file at the place. The file gets its final name when it is complete. Returns how the place says that it tested the file."""
    where = "there" if place.host else "mounted"
    how = run_there(place, TAKE, name, digest, kind, where, given=data).decode(errors="replace")
    if how not in ("whole\n", "sum\n"):
        raise odd_list(place, how)
    return how.strip()


def kept_in(place, asks=False, summed=()):
    """Returns the files of the place, the oldest file first. For the files of `summed`, the place computes the digests anew."""
    sizes, tests, sums = {}, {}, {}
    text = run_there(place, LIST, *summed, asks=asks).decode(errors="replace")
    for line in text.split("\n")[:-1]:
        it = LINE.fullmatch(line)
        if not it:
            raise odd_list(place, line)
        if it["file"]:
            sizes[it["file"]] = int(it["size"])
        elif it["summed"]:
            sums[it["summed"]] = it["sum"]
        elif it["tested"]:
            tests[it["tested"]] = (it["digest"], it["how"])
    found = []
    for name, size in sizes.items():
        if any(it.fullmatch(name) for it in (NAME, BESIDE, OLD_YEAR)):
            digest, how = tests.get(name, ("", "no"))
            found.append(Kept(name, size, sums.get(name, digest), how))
    return sorted(found)


def looked_up(place, sent):
    """Returns the files of the place. Raises a fault unless the place has each sent file, with the size and the digest of the sent bytes."""
    found = kept_in(place, summed=tuple(sent))
    there = {it.name: (it.size, it.sum) for it in found}
    for name, about in sent.items():
        if there.get(name) != about:
            raise fault(STORAGE, "not there", place=place.text, name=name)
    return found


def given_by(place, it, asks=False):
    """Returns the bytes of a file at the place. The bytes must have the listed size, and the listed digest if the place has noted it."""
    if it.size > MOST_FILE:
        raise fault(STORAGE, "too much there", place=place.text, most=MOST_FILE)
    data = run_there(place, GIVE, it.name, asks=asks, most=it.size)
    if len(data) != it.size or it.sum and hashlib.sha256(data).hexdigest() != it.sum:
        raise storage_failed("not as sent", called=it.name, place=place.text)
    return data


def remove(place, names):
    if names:
        run_there(place, REMOVE, *names)

"""Restores a club from the place of its copies after the club's machine is lost. Restores the configuration, the newest tested copy, the persons, the
reasons for closures, the season points, the book, and the files of old years. Each file from the place is data: the restore tests it, writes it anew,
and gives it a fixed place. The restore leaves existing files unchanged, so it can be run again after an interruption."""

import contextlib
import io
import os
import pwd
import re
import subprocess
import tarfile

from club_office import beside
from club_office.clubs import program, settings
from club_office.configuration import Anew, refuse_twin, user
from club_office.copies import is_named, synced
from club_office.faults import Fault, refusal, storage_failed
from club_office.places import BESIDE, NAME, OLD_YEAR, given_by, kept_in, place_of
from club_office.restoring import brought
from club_office.texts import say

# The name of a file in the archive. The name is a folder and a file name, such as conf/club.conf, or `clerks` for the list of clerks.
MEMBER = re.compile(r"(conf|beside|titles|logo)/([A-Za-z0-9][A-Za-z0-9._-]{0,60})|clerks")
CONFIGURATION = re.compile(r"conf/([a-z0-9][a-z0-9-]{0,23})\.conf")
# The greatest number of an archive's files that the restore reads.
MOST_FILES = 100
MOST_CLERKS = 100


def read_beside(data):
    """Returns the contents of an archive's files, by their names. Skips names that no archive of a club has, and files that are too large."""
    found = {}
    try:
        # The mode reads no compressed archive, whose files could be much larger than the archive.
        with tarfile.open(fileobj=io.BytesIO(data), mode="r:") as archive:
            for it in archive:
                if it.isfile() and MEMBER.fullmatch(it.name) and it.size <= beside.MOST_BYTES:
                    found[it.name] = archive.extractfile(it).read()
                if len(found) > MOST_FILES:
                    raise storage_failed("beside unread", fault=say("other form"))
    except (tarfile.TarError, EOFError, ValueError) as failure:
        raise storage_failed("beside unread", fault=failure) from None
    return found


class Bringing:
    """Restores a club from the place of its copies. For each file, the restore calls `said` with the path, and with False if the file already
    existed. For whatever the restore leaves out, it calls `said` with the reason and None."""

    def __init__(self, text, called, configurations, said):
        self.place = place_of(text)
        self.configurations = configurations
        self.said = said
        self.desk = pwd.getpwnam("clubdesk")
        self.there = kept_in(self.place, True)
        copies = [
            it.name
            for it in self.there
            if NAME.fullmatch(it.name) and (it.name == called or not called and it.tested != "no")
        ]
        if not copies:
            raise refusal(
                "place without copy" if called else "place without tested",
                place=text,
                called=called,
            )
        self.copy = copies[-1]
        archives = [it for it in self.there if BESIDE.fullmatch(it.name)]
        if not archives:
            raise refusal("place without conf", place=text)
        # An older copy usually has no archive of its own, because the place keeps only the newest archive. For such a copy, the restore uses the
        # newest archive.
        own = [it for it in archives if it.name == f"{self.copy}.tar"]
        self.files = read_beside(given_by(self.place, (own or archives)[0], True))
        names = [it[1] for it in map(CONFIGURATION.fullmatch, sorted(self.files)) if it]
        if len(names) != 1:
            raise refusal("place of several", place=text)
        self.club = names[0]

    def put(self, path, data, mode, owner):
        """Writes a complete file, unless a file with this name exists. Follows no link."""
        if os.path.lexists(path):
            return self.said(path, False)
        made = f"{path}.new"
        with contextlib.suppress(FileNotFoundError):
            os.unlink(made)
        with open(
            os.open(made, os.O_WRONLY | os.O_CREAT | os.O_EXCL | os.O_NOFOLLOW, 0o600), "wb"
        ) as file:
            file.write(data)
            os.fchown(file.fileno(), *owner)
            os.fchmod(file.fileno(), mode)
            file.flush()
            os.fsync(file.fileno())
        if not is_named(made, path):
            os.unlink(made)
        synced(os.path.dirname(path))
        return self.said(path)

    def put_anew(self, path, called, anew, mode=0o600, owner=None):
        """Writes a file of the archive anew. `anew` returns the file's tested text, and the number of lines that it left out."""
        if called not in self.files or os.path.lexists(path):
            return self.said(path, False) if called in self.files else None
        try:
            text, left = anew(self.files[called])
        except Fault as fault:
            return self.said(say("file left", file=path, why=fault.why), None)
        if left:
            self.said(say("lines left", file=path, count=left), None)
        return self.put(path, text, mode, owner or (self.desk.pw_uid, self.desk.pw_gid))

    def configuration(self):
        """Writes the configuration anew, and the files that it names. Clerks can read these files. Makes no pass for health checks, because
        clubdesk-setup makes a new one. Returns the settings."""
        os.makedirs(self.configurations, 0o755, exist_ok=True)
        path = os.path.join(self.configurations, f"{self.club}.conf")
        data = self.files[f"conf/{self.club}.conf"]
        refuse_twin(self.club, self.configurations)
        if os.path.lexists(path):
            self.said(path, False)
            return settings(path)
        anew = Anew(data, self.club, self.place.text, self.configurations)
        for it in anew.left:
            self.said(it, None)
        for what in ("titles", "logo"):
            self.put_named(anew, what)
        self.put(path, anew.text().encode(), 0o644, (0, 0))
        return settings(path)

    def put_named(self, anew, what):
        """Writes a file that the configuration names, such as the file of titles. Without the file, removes its setting."""
        path, was = anew.found.get(what), os.path.basename(anew.was.get(what, ""))
        called = next((it for it in (f"{what}/{was}", f"conf/{was}") if it in self.files), None)
        if path and called:
            self.put_anew(path, called, getattr(beside, what), 0o644, (0, 0))
        if path and what == "logo" and not os.path.lexists(path):
            del anew.found[what]

    def beside(self, file):
        for end, anew in beside.ANEW.items():
            self.put_anew(file + end, f"beside/{end[1:]}", anew)
        for it in self.there:
            if OLD_YEAR.fullmatch(it.name):
                self.bring(f"{file}-{it.name}", it.name)

    def bring(self, path, called):
        """Fetches a copy of a club, such as the file of an old year. Tests that clubdesk can open the copy, and then gives the copy its name."""
        if os.path.lexists(path):
            return self.said(path, False)
        made = f"{path}-brought"
        with contextlib.suppress(FileNotFoundError):
            os.unlink(made)
        brought(self.place, called, made, True)
        os.chmod(made, 0o600)
        os.chown(made, self.desk.pw_uid, self.desk.pw_gid)
        said = self.refused_by_clubdesk(made)
        if said:
            raise refusal("other copy", why=say("copy unopened", called=called, said=said))
        if not is_named(made, path):
            raise refusal("file by now", path=path)
        synced(os.path.dirname(path))
        return self.said(path if OLD_YEAR.fullmatch(called) else f"{path}, as it was at {called}")

    def refused_by_clubdesk(self, made):
        """Opens a second copy of a file with clubdesk, as the desk's user. Returns why clubdesk refuses the copy, or an empty text."""
        line = [
            "sh",
            "-c",
            'cp -- "$1" "$2" && "$3" sheet -- "$2" 2000-01-01; status=$?; rm -f "$2" "$2"-*; exit $status',
            "sh",
            made,
            f"{made}-opened",
            program("CLUBDESK", "clubdesk"),
        ]
        done = subprocess.run(
            ["runuser", "-u", "clubdesk", "--", *line],
            capture_output=True,
            text=True,
            errors="replace",
            check=False,
            cwd="/",
            umask=0o077,
        )
        return done.stderr.strip() or str(done.returncode) if done.returncode else ""

    def clerks(self):
        """Returns the names of clerks that the place has. Nobody has checked these names yet, so the caller asks about each of them."""
        found = []
        for it in self.files.get("clerks", b"").decode(errors="replace").split()[:MOST_CLERKS]:
            with contextlib.suppress(Fault):
                found.append(user(it))
        return list(dict.fromkeys(found))


def bring_back(text, called, configurations, said):
    """Restores a club, and returns the club's name and the names of its clerks."""
    it = Bringing(text, called, configurations, said)
    found = it.configuration()
    if not os.path.isabs(found.get("file", "")):
        raise refusal("no file line", path=os.path.join(configurations, f"{it.club}.conf"))
    it.beside(found["file"])
    it.bring(found["file"], it.copy)
    return it.club, it.clerks()

"""Mails letters with passes. A ledger next to the club's file has the digest of each mailed pass,
so no pass is mailed twice."""

import hashlib
import json
import sys

from club_office.book import Turn, add_line
from club_office.clubs import wants_file
from club_office.copies import snapshot
from club_office.faults import bad_value
from club_office.mailer import sent
from club_office.passes import MOST_BYTES, is_signed
from club_office.people import read_people
from club_office.spares import spare_keys
from club_office.texts import say

# The results of a letter. A letter is doubtful if the mailer took too long, or if a command was killed while the mailer ran.
MAILED, BEFORE, REFUSED, DOUBTFUL, UNKNOWN = "mailed before refused doubtful unknown".split()


def ledger_of(club) -> str:
    return club.file + "-mailed"


def mailed_before(club) -> dict[str, str]:
    """Returns the last state of each pass in the ledger, by the pass's digest."""
    try:
        with open(ledger_of(club), encoding="ascii") as lines:
            return dict(line.split() for line in lines if len(line.split()) == 2)
    except FileNotFoundError:
        return {}


def mail_letter(club, person, key: str, texts: list[str]) -> str:
    """Mails a letter with a key's pass, the first of `texts`, and with spare passes. Returns the result."""
    digest = hashlib.sha256(texts[0].encode()).hexdigest()
    state = mailed_before(club).get(digest)
    if state in ("begun", "done"):
        return BEFORE if state == "done" else DOUBTFUL
    if not person or not person.mail:
        return UNKNOWN
    add_line(ledger_of(club), f"{digest} begun")
    is_sent = sent(
        person.mail, say("letter title", club=club.title), text_of(club, person, key, texts)
    )
    if is_sent is None:
        return DOUBTFUL
    add_line(ledger_of(club), f"{digest} {'done' if is_sent else 'failed'}")
    return MAILED if is_sent else REFUSED


def text_of(club, person, key: str, texts: list[str]) -> str:
    parts = [
        say("letter dear", name=person.name),
        say("letter first", key=key),
        f"{club.site}/book.html#{texts[0]}",
        say("letter step 2"),
    ]
    if texts[1:]:
        parts += [say("letter lend mail"), f"{club.site}/book.html#spare={';'.join(texts[1:])}"]
    contact = club.settings.get("contact", "")
    parts += [
        say("letter care mail"),
        *([say("letter contact", contact=contact)] if contact else []),
    ]
    return "\n\n".join([*parts, club.title]) + "\n"


def given_passes() -> dict[str, str]:
    try:
        texts = json.loads(sys.stdin.buffer.read(MOST_BYTES))
    except ValueError:
        texts = None
    if not isinstance(texts, dict) or not all(isinstance(it, str) for it in texts.values()):
        raise bad_value("no passes given")
    return texts


def mail_letters(club, words) -> int:
    """Reads passes from standard input, and mails them to the members whose addresses are known. Prints the result for each key, and skips passes that
    the desk refuses."""
    wants_file(club)
    texts, results = given_passes(), {}
    with Turn(club) as turn:
        with snapshot(club) as db:
            keys = dict(
                (name, (member, root))
                for name, member, root in db.execute(
                    "SELECT name, member, root FROM keys WHERE revoked = 0"
                )
            )
        people = read_people(club)
        good = {
            it: text for it, text in texts.items() if it in keys and is_signed(text, keys[it][1])
        }
        spares = {it for it in good if it in spare_keys(club, keys[it][0])}
        for key in [it for it in good if it not in spares]:
            member = keys[key][0]
            lent = [it for it in good if it in spares and keys[it][0] == member]
            whole = [good[key], *(good[it] for it in lent)]

            def act(key=key, member=member, whole=whole):
                results[key] = mail_letter(club, people.get(member), key, whole)
                return 0

            turn.order(["mail-letter", key], act)
            if results[key] in (MAILED, BEFORE):
                results |= dict.fromkeys(lent, results[key])
                spares -= set(lent)
    json.dump(results, sys.stdout)
    return 0

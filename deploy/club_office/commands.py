"""Defines the office's commands, with the arguments and the function of each command."""

import argparse
import collections
import contextlib
import os
import shlex
import shutil
import sqlite3
import subprocess
import sys

from club_office import by_commands, lists, outputs, people, phoning, plans
from club_office.begin import KEPT, begin
from club_office.book import Turn, give_order
from club_office.closures import reason
from club_office.clubs import (
    club_named,
    clubs_of,
    configurations,
    clubdesk,
    desk_user,
    ended_by_itself,
    now_of,
    program,
    show,
    wants_file,
)
from club_office.copies import clear_left, scratch, snapshot
from club_office.corrections import correct
from club_office.counter import (
    ask_person,
    desk_line,
    make_pass,
    read_book,
    remove_given_up,
    show_book,
    write_report,
)
from club_office.faults import OUTPUT, STORAGE, USAGE, Fault, bad_value, fault, refusal
from club_office.asking import is_terminal
from club_office.importing import (
    import_members,
    import_row,
    import_state,
    make_spares,
    refuse_spare_files,
)
from club_office.letters import letters
from club_office.mailing import mail_letters
from club_office.menu import menu
from club_office.passes import list_old_passes
from club_office.reading import read_hours
from club_office.restoring import list_copies, restore
from club_office.season import credit_all
from club_office.spares import PASSES
from club_office.texts import say, usage
from club_office.typed import Reader, confirms_odd, names_of, print_names, read_words
from club_office.undoing import is_by_command, plan_undo, plan_undo_by_command
from club_office.values import (
    MOST_CREDIT,
    MOST_NUMBER,
    NAME,
    copy_name,
    day,
    days,
    hour_or_hours,
    hours,
    moment,
    name,
    names,
    number,
    weekday,
)


def make_new(club):
    """Creates the club's file if it is missing."""

    def act():
        if os.path.lexists(club.file):
            raise refusal("exists", path=club.file)
        return clubdesk(club, "sheet", ["2000-01-01"])[0]

    with Turn(club) as turn:
        status = turn.order(["new"], act)
    if status == 0:
        print(say("done"))
    return status


# Translates argparse's own texts into the clerk's language.
argparse._ = usage


class Words(argparse.ArgumentParser):
    """A parser that accepts no abbreviated options."""

    def __init__(self, **how):
        super().__init__(allow_abbrev=False, **how)


class ShowVersion(argparse.Action):
    """Prints the version of clubdesk, which is also the office's version."""

    def __call__(self, parser, *_):
        done = subprocess.run(
            [program("CLUBDESK", "clubdesk"), "--version"],
            stdout=subprocess.PIPE,
            text=True,
            check=False,
        )
        print(done.stdout.strip().replace("clubdesk", "office", 1))
        parser.exit(done.returncode)


Command = collections.namedtuple("Command", "kind words help does")
# The kinds of commands. clubdesk carries out a command of the kind ORDER, LOOK or PASS. A CORRECTION changes the club after a preview. The office's
# own functions carry out the other kinds: LIST on a copy of the club, DESK on the club itself, and COUNTER on the clerk's side. A command without a
# help text is internal: only the clerk's side calls it.
(
    ORDER,
    LOOK,
    PASS,
    LIST,
    CORRECTION,
    DESK,
    COUNTER,
) = "order look pass list correction desk counter".split()

# The greatest number of words of a command, including its name, and the greatest number of bytes of a word.
MOST_WORDS = 200
MOST_BYTES = 1_000
AT = (
    "--at",
    {"metavar": "MOMENT", "type": moment, "help": "use this moment instead of the clock's"},
)
YES = ("--yes", {"action": "store_true", "help": "don't ask"})
MAIL = (
    "--mail",
    {
        "action": "store_true",
        "help": "send mail about the cancelled bookings to members whose addresses are known",
    },
)
CSV = ("--csv", {"action": "store_true", "help": "print comma-separated values"})
FORM = ("--form", {"metavar": "FORM", "help": "v1, v2 or json; the default is v2"})
TO = (
    "--to",
    {
        "metavar": "FILE",
        "help": "write the pass to a file, which gets its name once it is complete",
    },
)
ROOT_STDIN = ("--root-stdin", {"action": "store_true", "help": "read the root from standard input"})


def word(called, **how):
    return called.lower(), {"metavar": called, **how}


SEVERAL = word("FACILITIES", type=names, nargs="+", help="such as court-1 court-2, courts, or all")
FACILITY, MEMBER, DAY = (
    word("FACILITY", type=name),
    word("MEMBER", type=name),
    word("DAY", type=day),
)
HOUR = word("HOUR", help="such as 15, or 15-17 for several hours")

COMMANDS = {
    "add-member": Command(
        ORDER,
        [word("NAME"), word("QUOTA")],
        "add a member, with spare keys if the configuration has them",
        None,
    ),
    "credit": Command(ORDER, [word("MEMBER"), word("POINTS")], "credit a member with points", None),
    "add-facility": Command(
        ORDER,
        [
            word("NAME"),
            word("KIND", help="court, boat or room"),
            *(word(w) for w in "PLACES PRICE OPENS SHUTS".split()),
        ],
        "add a facility",
        None,
    ),
    "add-key": Command(
        PASS,
        [word("KEY"), word("MEMBER"), word("ROOT", nargs="?"), ROOT_STDIN, FORM, TO],
        "add a key for a member, and print the key's pass",
        None,
    ),
    "rotate-key": Command(
        PASS,
        [word("KEY"), word("ROOT", nargs="?"), word("MOMENT"), ROOT_STDIN, FORM, TO],
        "give a key a new root, and print the new pass; passes under the old root are served until MOMENT",
        None,
    ),
    "revoke-key": Command(ORDER, [word("KEY")], "revoke a key", None),
    "close-slot": Command(
        ORDER,
        [word("FACILITY"), word("DAY"), HOUR],
        "close the slot of an hour, or of several hours, if nobody has booked it",
        None,
    ),
    "sheet": Command(LOOK, [word("DAY")], "print the day sheet", None),
    "show-account": Command(
        LOOK,
        [word("KEY"), ("--zone", {"metavar": "RULE"}), ("--at", {"metavar": "MOMENT"})],
        "print the account that the desk shows to the key",
        None,
    ),
    "show-slot": Command(
        LOOK,
        [word("FACILITY"), word("DAY"), HOUR],
        "print the slot of an hour, or of several hours, as the desk shows it",
        None,
    ),
    "members": Command(
        LIST, [CSV, AT], "list the members: balance, quota, open bookings, keys", lists.list_members
    ),
    "facilities": Command(LIST, [CSV], "list the facilities", lists.list_facilities),
    "keys": Command(LIST, [MEMBER, CSV], "list the keys of a member", lists.list_keys),
    "bookings": Command(
        LIST,
        [
            ("what", {"metavar": "MEMBER|DAY|FACILITY"}),
            ("--all", {"action": "store_true", "help": "list past and cancelled bookings too"}),
            CSV,
            AT,
        ],
        "list the bookings of a day, or the bookings of a member or facility from today on",
        lists.list_bookings,
    ),
    "closed": Command(LIST, [CSV, AT], "list the closed slots from today on", lists.list_closed),
    "money": Command(
        LIST,
        [word("MEMBER", nargs="?", type=name), CSV],
        "list the credits, charges and refunds of a member, or of all members",
        lists.list_money,
    ),
    "check": Command(
        LIST, [], "check that the stored totals match the sums of the bookings", lists.list_faults
    ),
    "set-facility": Command(
        CORRECTION,
        [
            FACILITY,
            (
                "--price",
                {
                    "metavar": "PRICE",
                    "type": number(0, 9999),
                    "help": "points for one place and one hour, 0 to 9999",
                },
            ),
            ("--places", {"metavar": "PLACES", "type": number(1, 50), "help": "1 to 50"}),
            ("--hours", {"metavar": "OPENS-SHUTS", "type": hours, "help": "such as 8-22"}),
        ],
        "change the price, the places or the hours of a facility",
        plans.plan_facility,
    ),
    "set-quota": Command(
        CORRECTION,
        [MEMBER, word("QUOTA", type=number(0, 99))],
        "change the quota of a member",
        plans.plan_quota,
    ),
    "debit": Command(
        CORRECTION,
        [MEMBER, word("POINTS", type=number(1, 999_999_999))],
        "take points back, but no more than the balance",
        plans.plan_debit,
    ),
    "reopen-slot": Command(
        CORRECTION,
        [
            FACILITY,
            DAY,
            ("hours", {"metavar": "HOURS", "type": hour_or_hours, "help": "such as 15 or 15-17"}),
        ],
        "reopen closed slots",
        plans.plan_reopen,
    ),
    "cancel": Command(
        CORRECTION,
        [
            word("KEY", type=name),
            word("NUMBER", nargs="?", type=number(1, MOST_NUMBER)),
            (
                "--all",
                {
                    "action": "store_true",
                    "help": "cancel all future bookings of the key, instead of one NUMBER",
                },
            ),
        ],
        "cancel a booking of any key, with a full refund",
        plans.plan_cancel,
    ),
    "close": Command(
        CORRECTION,
        [
            ("day", {"metavar": "DAYS", "type": days, "help": "a day, or the days FIRST..LAST"}),
            ("hours", {"metavar": "HOURS", "type": hour_or_hours, "help": "such as 10-18"}),
            SEVERAL,
            (
                "--weekday",
                {
                    "metavar": "WEEKDAY",
                    "type": weekday,
                    "help": "close only the days on this weekday, such as tue",
                },
            ),
            (
                "--why",
                {
                    "metavar": "TEXT",
                    "type": reason,
                    "help": "the reason, which the booking page shows",
                },
            ),
            MAIL,
        ],
        "close slots, for example for a tournament; list their bookings, cancel and refund them",
        plans.plan_close,
    ),
    "rain": Command(
        CORRECTION,
        [
            DAY,
            word("FACILITIES", type=names, help="such as court-1,court-2 or courts"),
            word("HOURS", type=hour_or_hours, nargs="+", help="such as 15 or 15-17"),
            MAIL,
        ],
        "cancel all bookings in these hours with a full refund, even if the hours are over",
        plans.plan_rain,
    ),
    "undo": Command(
        CORRECTION,
        [],
        "restore what the last correction changed, if nothing has changed it since",
        None,
    ),
    "credit-all": Command(
        DESK,
        [
            word("POINTS", type=number(1, MOST_CREDIT)),
            (
                "--as",
                {
                    "metavar": "NAME",
                    "type": name,
                    "dest": "label",
                    "required": True,
                    "help": "a name for the credit, such as season-2027, so that no member gets it twice",
                },
            ),
            YES,
        ],
        "credit each member whose quota isn't 0 with the season's points, once",
        credit_all,
    ),
    "lost-pass": Command(
        PASS, [word("KEY"), FORM, TO], "give a key a new pass, and refuse its earlier passes", None
    ),
    "leave": Command(
        CORRECTION,
        [MEMBER],
        "revoke a leaving member's keys, cancel the future bookings, set the quota to 0, and replace the name with a number",
        plans.plan_leave,
    ),
    "new-year": Command(
        CORRECTION,
        [
            (
                "--before",
                {
                    "metavar": "DAY",
                    "type": day,
                    "help": "the first day that stays in the file; the default is today",
                },
            )
        ],
        "keep a copy of the file, and remove past bookings and slots from the file; balances, keys and future bookings stay",
        plans.plan_new_year,
    ),
    "person": Command(
        COUNTER,
        [MEMBER],
        "ask for a member's full name, mail address and telephone number; an empty answer keeps the old value, and - removes it",
        ask_person,
    ),
    "record": Command(
        LIST,
        [
            word("KEY", type=name),
            (
                "--link",
                {
                    "action": "store_true",
                    "help": "print a link that opens the page with the bookings, but without the pass",
                },
            ),
        ],
        "print a key's bookings in the form that the member's page can import",
        outputs.print_record,
    ),
    "book": Command(
        DESK,
        [
            MEMBER,
            FACILITY,
            DAY,
            word("HOUR", type=hour_or_hours, help="such as 15, or 15-17 for several hours"),
            word(
                "GUESTS",
                nargs="?",
                type=number(0, 49),
                help="the number of guests; the default is 0",
            ),
            (
                "--again",
                {
                    "action": "store_true",
                    "help": "book even if the office has already booked the slot for the member",
                },
            ),
            (
                "--price",
                {
                    "metavar": "PRICE",
                    "type": number(0, 9999),
                    "help": "book only if one place costs this number of points for one hour",
                },
            ),
        ],
        "book one hour or several for a member who calls, under a key of the office",
        phoning.book,
    ),
    "cancel-for": Command(
        DESK,
        [
            MEMBER,
            FACILITY,
            DAY,
            word("HOUR", type=hour_or_hours, help="such as 15, or 15-17 for several hours"),
            (
                "--number",
                {
                    "metavar": "NUMBER",
                    "type": number(1, MOST_NUMBER),
                    "help": "the number of the booking, if the member has several in the slot",
                },
            ),
        ],
        "cancel one hour or several for a member who calls, with the refund that the rules give",
        phoning.cancel_for,
    ),
    "page": Command(
        DESK, [], "rebuild the list of facilities that the booking page reads", outputs.make_page
    ),
    "letters": Command(
        COUNTER,
        [
            word(
                "KEY",
                nargs="*",
                help="the keys whose passes to print; the default is all passes in the folder",
            ),
            (
                "--passes",
                {
                    "metavar": "FOLDER",
                    "default": "passes",
                    "help": "the folder with the passes; the default is passes",
                },
            ),
            (
                "--to",
                {
                    "metavar": "FILE",
                    "help": "the file to write; the default is letters.html, or the next free name",
                },
            ),
            (
                "--mail",
                {
                    "action": "store_true",
                    "help": "mail the passes to members whose addresses are known, and write sheets for the others",
                },
            ),
            YES,
            (
                "--duplex",
                {
                    "action": "store_true",
                    "help": "leave the back of each sheet empty, for a printer that prints on both sides",
                },
            ),
        ],
        "write a file to print, with a sheet for each pass: link, QR code, instructions, and a half with spare passes to cut off",
        lambda club, words: letters(club, words, names_of),
    ),
    "report": Command(
        COUNTER,
        [
            word("YEAR", nargs="?", type=number(2000, 2099), help="the default is this year"),
            (
                "--no-names",
                {"action": "store_true", "help": "leave the members' names out of the report"},
            ),
            (
                "--to",
                {
                    "metavar": "FILE",
                    "help": "the file to write; the default is report-YEAR.html, or the next free name",
                },
            ),
        ],
        "write the board's page, which compares use, points and members of a year with the year before",
        write_report,
    ),
    "import": Command(
        COUNTER,
        [
            word("FILE"),
            (
                "--passes",
                {
                    "metavar": "FOLDER",
                    "default": "passes",
                    "help": "the folder for the passes; the default is passes",
                },
            ),
            (
                "--columns",
                {
                    "metavar": "MAP",
                    "help": "the column of each value, such as name=Player,points=Balance",
                },
            ),
            (
                "--quota",
                {
                    "metavar": "QUOTA",
                    "type": number(0, 99),
                    "help": "the quota of each member, if no column has it",
                },
            ),
            (
                "--points",
                {
                    "metavar": "POINTS",
                    "type": number(0, MOST_CREDIT),
                    "help": "the points of each member, if no column has them",
                },
            ),
            YES,
        ],
        "add members with points and keys from a list of comma-separated values",
        import_members,
    ),
    "copies": Command(
        DESK,
        [CSV],
        "list the copies of the club: one of each night, and one from before each correction",
        list_copies,
    ),
    "restore": Command(
        DESK,
        [word("COPY", type=copy_name), YES, AT],
        "replace the club with a copy, which undoes everything done since; the replaced club becomes a copy too",
        restore,
    ),
    "new": Command(DESK, [], "create the club's file", lambda club, _words: make_new(club)),
    "log": Command(
        COUNTER,
        [word("WORD", nargs="?")],
        "print the book of commands, or only the lines that contain WORD",
        read_book,
    ),
    # Internal commands, which the clerk's side calls on the desk's side.
    "names": Command(LIST, [], "", print_names),
    "import-state": Command(LIST, [], "", import_state),
    "old-passes": Command(DESK, [], "", list_old_passes),
    "mail-letters": Command(DESK, [], "", mail_letters),
    "print-report": Command(
        DESK,
        [
            word("YEAR", nargs="?", type=number(2000, 2099)),
            ("--no-names", {"action": "store_true"}),
        ],
        "",
        outputs.print_report,
    ),
    "show-person": Command(DESK, [MEMBER], "", people.show_person),
    "set-person": Command(DESK, [MEMBER], "", people.set_person),
    "import-row": Command(
        DESK,
        [
            MEMBER,
            word("QUOTA", type=number(0, 99)),
            word("POINTS", type=number(0, MOST_CREDIT)),
            word("KEY", type=name),
        ],
        "",
        import_row,
    ),
    "show-book": Command(DESK, [], "", lambda club, _words: show_book(club)),
}


def words_of(given, is_desk):
    """Parses a command line according to COMMANDS."""
    top = Words(
        prog="office",
        description="The office of a club, for clerks who are not root: office CLUB COMMAND [WORD ..].",
        epilog="office CLUB COMMAND --help shows the arguments of a command.",
    )
    top.add_argument(
        "--version", action=ShowVersion, nargs=0, help="print the program's name and version"
    )
    top.add_argument("club", metavar="CLUB", help="a club that /etc/clubdesk/CLUB.conf describes")
    commands = top.add_subparsers(
        dest="command", metavar="COMMAND", required=True, title="commands", parser_class=Words
    )
    for called, command in COMMANDS.items():
        if not command.help and not is_desk:
            continue
        parser = commands.add_parser(called, help=command.help, description=command.help)
        for place, how in [*command.words, *([YES, AT] if command.kind == CORRECTION else [])]:
            parser.add_argument(place, **how)
    found = top.parse_args(given)
    found.given = given[1:]
    return found


def plain_words(words, command):
    """Returns the arguments for clubdesk, in the order that clubdesk needs."""
    return [getattr(words, place) for place, _ in command.words if not place.startswith("-")]


def at_desk(given):
    """The desk's side: carries out a command as the file's owner."""
    words = words_of(given, True)
    words.given = [w for w in words.given if w != "--yes"]
    club = club_named(words.club, True)
    clear_left(club)
    command = COMMANDS[words.command]
    if club.is_old and command.kind not in (LIST, LOOK):
        raise refusal("old year", club=club.name)
    if command.kind == ORDER:
        status = give_order(club, words.command, plain_words(words, command))
        if status == 0 and words.command == "add-facility":
            outputs.page_again(club)
        return status
    if command.kind == PASS:
        return order_pass(club, words)
    if command.kind == LOOK:
        return look(club, words, command)
    if command.kind == LIST:
        words.people, words.site = people.read_people(club), club.site
        with snapshot(club) as db:
            command.does(db, words, now_of(words))
        return 0
    if words.command == "new-year":
        return correct(
            club, words, lambda db, found, now: plans.plan_new_year(db, found, now, club)
        )
    if words.command in by_commands.CORRECTIONS:
        return by_commands.correct(club, words, command.does, lambda: keep_outputs(club, words))
    if words.command == "undo" and is_by_command(club):
        return by_commands.correct(
            club,
            words,
            lambda db, _words, _now: plan_undo_by_command(db, club),
            lambda: keep_outputs(club, words),
        )
    if command.kind == CORRECTION:
        status = correct(
            club, words, command.does or (lambda db, _words, _now: plan_undo(db, club))
        )
        if status == 0:
            keep_outputs(club, words)
        return status
    if command.kind == DESK:
        status = command.does(club, words)
        if status == 0 and words.command == "restore":
            outputs.page_again(club)
        return status
    raise fault(USAGE, "clerk's side", command=words.command)


def keep_outputs(club, words):
    """Updates two files after a correction: the reasons for closed slots, and the page's list."""
    if words.command == "close" and words.why:
        outputs.keep_reasons(club, words)
    if words.command in ("set-facility", "close", "reopen-slot", "undo"):
        outputs.page_again(club)


def order_pass(club, words):
    """Runs add-key or rotate-key with the root from standard input."""
    if words.to or words.root or not words.root_stdin:
        raise fault(USAGE, "root from input", command=words.command)
    line = [words.key, words.member if words.command == "add-key" else words.moment]
    options = ["--root-stdin", *([f"--form={words.form}"] if words.form is not None else [])]
    return give_order(club, words.command, line, options, sys.stdin.buffer.read(200))


def look(club, words, command):
    options = []
    if words.command == "show-account":
        options = [f"--zone={words.zone or club.zone}", *([f"--at={words.at}"] if words.at else [])]
    wants_file(club)
    with old_year_copied(club) as it:
        status, text = clubdesk(it, words.command, plain_words(words, command), options)
    show(text)
    if status == 0 and words.command == "sheet":
        show_names(club, text.decode())
    return status


@contextlib.contextmanager
def old_year_copied(club):
    """Yields the club. For an old year, yields the club with a copy of the file, because clubdesk may change a file when it opens the file."""
    if not club.is_old:
        yield club
        return
    with scratch(club) as folder:
        yield club._replace(file=shutil.copyfile(club.file, os.path.join(folder, "copy")))


def show_names(club, sheet):
    """Prints the known persons who own the keys on a sheet."""
    known = people.read_people(club)
    if not known:
        return
    with snapshot(club) as db:
        members = dict(db.execute("SELECT name, member FROM keys"))
    keys = dict.fromkeys(
        word for line in sheet.splitlines() for word in line.split()[2:3] if word in members
    )
    lines = [
        f"{key}: {people.concerned_text(known[members[key]])}"
        for key in keys
        if members[key] in known
    ]
    print(*([""] if lines else []), *lines, sep="\n", end="\n" if lines else "")


def refuse_too_much(given):
    """Refuses a command with too many words or bytes, because its line wouldn't fit into the book. No clerk needs such a command."""
    if len(given) > MOST_WORDS or any(len(os.fsencode(it)) > MOST_BYTES for it in given):
        raise bad_value("too many words", words=MOST_WORDS, bytes=MOST_BYTES)


def at_counter(given):
    """The clerk's side: parses the typed words, and reads and writes the clerk's own files. Passes all other work to the desk's side."""
    if given == ["help"]:
        given = ["--help"]
    if not given and is_terminal():
        given = only_club()
    if len(given) == 1 and not given[0].startswith("-") and is_terminal():
        return menu(club_named(given[0]), names_of)
    if len(given) > 1 and given[1] in COMMANDS and not {"-h", "--help"} & set(given):
        given = read_at_counter(given)
    words = words_of(given, False)
    club = club_named(words.club)
    if COMMANDS[words.command].kind == PASS:
        return make_pass(club, words)
    if club.is_old and COMMANDS[words.command].kind in (PASS, COUNTER):
        raise refusal("old year", club=club.name)
    if COMMANDS[words.command].kind == COUNTER:
        return COMMANDS[words.command].does(club, words)
    if words.command == "add-member":
        refuse_spare_files(club, words.name)
    each = each_hour(given, words)
    if len(each) > 1:
        return carry_out_each(club, each)
    keys = keys_given_up(club, words)
    status = carry_out(club, given)
    if status == 0 and words.command == "add-member":
        make_spares(club, words.name, words.quota)
    if status == 0:
        remove_given_up(keys)
    return status


def keys_given_up(club, words):
    """Returns the keys that a command revokes, if the clerk has a folder with passes."""
    if words.command == "revoke-key":
        return [words.key] if NAME.fullmatch(words.key) else []
    if words.command != "leave" or not os.path.isdir(PASSES):
        return []
    return [it for it, key in names_of(club).keys.items() if key.member == words.member]


def only_club():
    """Returns the words that open the menu of the machine's only club. If there are several clubs, prints their names and ends the command."""
    found = [name for name, file in clubs_of(configurations()) if file]
    if len(found) == 1:
        return found
    if not found:
        raise refusal("no club at all", path=configurations())
    raise refusal("several clubs", clubs=", ".join(found))


def each_hour(given, words):
    """Returns the commands to run for a typed command. The commands close-slot and show-slot accept only one hour, so several hours become several
    commands."""
    read = (
        read_hours(words.hour)
        if words.command in ("close-slot", "show-slot") and not words.hour.isdigit()
        else None
    )
    return (
        [[*given[:2], words.facility, words.day, f"{hour:02d}"] for hour in range(*read)]
        if read
        else [given]
    )


def carry_out_each(club, commands):
    """Runs several commands, and stops at the first command that fails. If the commands change the club, prints them first. At the end, prints the
    commands that it didn't run."""
    lines, count = [shlex.join(["office", *it]) for it in commands], 0
    if COMMANDS[commands[0][1]].kind == ORDER:
        print(*lines, sep="\n", flush=True)
    try:
        for it in commands:
            status = carry_out(club, it)
            if status:
                return status
            count += 1
    finally:
        if count < len(lines):
            print(say("not done", lines="; ".join(lines[count:])), file=sys.stderr)
    return 0


def carry_out(club, given):
    """Lets the desk's side carry out a command."""
    if os.geteuid() == desk_user(club).pw_uid:
        return at_desk(given)
    line, how = desk_line(club, given[1:])
    return ended_by_itself(line, **how)[0]


def read_at_counter(given):
    """Returns a command's words in the form that the desk's side expects. At a terminal, asks the clerk about odd input."""
    club, called, command = club_named(given[0]), given[1], COMMANDS[given[1]]
    reader = Reader(club, called)
    made = [*given[:2], *read_words(reader, command, given[2:])]
    if is_terminal() and "--yes" not in made:
        confirms_odd(reader, command, made[2:], command.kind in (ORDER, PASS))
    return made


def main():
    given = sys.argv[1:]
    begin(kept=KEPT if given[:1] == ["--desk"] else None)
    try:
        refuse_too_much(given)
        return at_desk(given[1:]) if given[:1] in (["--desk"], ["--own"]) else at_counter(given)
    except Fault as failure:
        print(failure, file=sys.stderr)
        return failure.status
    except BrokenPipeError:
        os.dup2(os.open(os.devnull, os.O_WRONLY), sys.stdout.fileno())
        return OUTPUT
    except KeyboardInterrupt:
        return 130
    except (OSError, sqlite3.Error) as failure:
        print(say("storage failed", why=failure), file=sys.stderr)
        return STORAGE

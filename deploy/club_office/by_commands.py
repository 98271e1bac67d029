"""Makes corrections with commands of clubdesk while the server runs. Shows the correction, asks the clerk, and gives the desk one command after the
other."""

import contextlib
import sqlite3
import sys

from club_office.asking import confirms, show_lines
from club_office.book import Turn
from club_office.clubs import now_of, refuse_to_come, run_clubdesk, wants_file
from club_office.copies import keep_before, snapshot
from club_office.corrections import change, file_taken
from club_office.faults import REFUSED, Doubtful, Fault, NothingLeft, fault, refusal, storage_failed
from club_office.people import forget_person, mail_concerned, show_concerned
from club_office.plans import Booking, Plan, cancel_words, plan_rest_of_debit, slot_text
from club_office.texts import in_language, say
from club_office.undoing import Record, broken_off, forget_undo, rows_edited, rows_of_member
from club_office.values import date_of

CORRECTIONS = (
    "set-quota",
    "debit",
    "set-facility",
    "reopen-slot",
    "cancel",
    "close",
    "rain",
    "leave",
)
# These corrections give the desk only commands that the clerk has seen and that the desk hasn't carried out yet. Every other
# correction fails if its plan has changed since the clerk saw it.
LISTED = ("cancel", "close", "rain", "leave")
# The greatest number of rounds in which a correction asks about slots that members booked in the meantime.
MOST_ROUNDS = 20
# The greatest number of commands in a line about an interrupted correction.
MOST_SHOWN = 10
# The status of clubdesk if it doesn't know whether the desk carried out a command.
NO_ANSWER = 8
# Columns of the tables `slots` and `members`.
TAKEN, USED = 4, 3


class BookedMeanwhile(Fault):
    """Members booked slots after the clerk saw the plan, so the correction asks about these slots in its next round."""


class RestDeclined(Fault):
    """The clerk confirmed one round of the correction, but not the next round."""


def correct(club, words, planned, then):
    """Shows a correction, asks the clerk, and gives the desk the commands that the clerk saw. Calls `then` at the end of each turn."""
    wants_file(club)
    it = Correction(club, words, planned, then)
    try:
        it.go_through()
    except RestDeclined:
        it.tell_concerned()
        raise
    print(say("done"), flush=True)
    it.tell_concerned()
    # Marks the record as complete, as the last step. If the command is killed earlier, the clerk sees no result and gives the command again.
    it.record.finish()
    return 0


class Correction:
    """A correction that was begun. The record of the correction is next to the club's file from the first command until the correction is
    complete."""

    def __init__(self, club, words, planned, then):
        self.club, self.words, self.planned, self.then = club, words, planned, then
        self.record = None

    def go_through(self):
        """Shows the correction, asks the clerk, and gives the commands. Repeats these steps until all slots that members booked in the meantime are
        closed."""
        for _ in range(MOST_ROUNDS):
            shown = None if self.words.yes else self.asked()
            try:
                return self.carry_out(shown)
            except BookedMeanwhile as failure:
                meanwhile = failure
                show_lines([failure.why])
        raise meanwhile

    def asked(self):
        """Plans the correction on a copy of the club, shows the plan, and asks the clerk. Returns the plan, or the reason for a refusal."""
        try:
            refuse_to_come(self.words)
            with snapshot(self.club) as db:
                plan = self.plan(db, broken_off(self.club, self.words))
        except Fault as failure:
            return failure
        show_lines(plan.all_lines())
        if plan.is_empty or confirms():
            return plan
        if self.record:
            declined = refusal("rest not confirmed")
            return RestDeclined(declined.status, str(declined), declined.why)
        return refusal("not confirmed")

    def plan(self, db, left):
        """Plans the correction. `left` is the record of an earlier, interrupted run, or None. The plan may be empty only if `left` is a record."""
        try:
            if left and self.words.command == "debit":
                plan = plan_rest_of_debit(db, self.words, left)
            else:
                plan = self.planned(db, self.words, now_of(self.words))
        except NothingLeft:
            if not left:
                raise
            plan = Plan()
        if plan.is_empty:
            plan.lines = [say("was done", moment=left["moment"])]
        return plan

    def carry_out(self, shown):
        """Takes a turn, and gives the desk the commands that the clerk saw. With --yes the clerk saw no commands, so the desk gets the commands of
        the current plan."""
        plans = []

        def act():
            try:
                if isinstance(shown, Fault):
                    raise shown
                self.give_all(turn, shown, plans)
            except Doubtful:
                forget_undo(self.club)
                raise
            return 0

        try:
            with Turn(self.club) as turn:
                turn.order(self.words.given, act)
        finally:
            if self.words.yes and plans:
                show_lines(plans[0].all_lines())

    def give_all(self, turn, shown, plans):
        """Gives the desk all commands of the current plan, and adds this plan to `plans`."""
        wants_file(self.club)
        refuse_to_come(self.words)
        left = broken_off(self.club, self.words)
        if left:
            # The desk carries out one command at a time. So after this command, each earlier command of the correction is either carried out or
            # dropped.
            self.give(turn, ["sheet", "2000-01-01"])
        try:
            with snapshot(self.club) as db:
                plan = self.plan(db, left)
                words = self.agreed(plan, shown)
                self.keep(db, plan, words, left)
        except (sqlite3.Error, OSError) as failure:
            raise storage_failed("nothing changed", why=failure) from None
        plans.append(plan)
        in_use = self.give_each(turn, words, not left)
        if plan.new_name and not in_use:
            try:
                in_use = self.give_names()
            except Fault:
                self.tell_progress(words, [])
                raise
        if self.words.command == "set-facility" and self.words.hours:
            self.look_again()
        self.then()
        if in_use:
            meanwhile = refusal("booked meanwhile", slots=", ".join(in_use))
            raise BookedMeanwhile(meanwhile.status, str(meanwhile), meanwhile.why)

    def agreed(self, plan, shown):
        """Returns the commands to give: those commands of the plan that the clerk saw."""
        if shown is None:
            return [it.words for it in plan.orders]
        is_listed = self.words.command in LISTED
        if plan.changes != shown.changes or not is_listed and plan.orders != shown.orders:
            raise refusal("changed since")
        listed = [it.words for it in shown.orders]
        return [it.words for it in plan.orders if it.words in listed]

    def keep(self, db, plan, words, left):
        """Keeps a copy of the club as it was before the correction, and a record of the correction."""
        orders = [it for it in plan.orders if it.words in words]
        rows = rows_edited(db, [edit for order in orders for edit in order.edits])
        refuse_unsound(rows)
        if not self.record:
            keep_before(self.club, db, self.words.command)
        self.record = Record(self.club, self.words, left)
        self.record.keep(rows, [list(it) for it in plan.cancelled if cancel_words(it) in words])

    def give_each(self, turn, words, is_first):
        """Gives the desk commands. Returns the slots that the desk couldn't close because members booked them in the meantime."""
        in_use = []
        for place, each in enumerate(words):
            try:
                if not self.give(turn, each):
                    in_use.append(f"{each[1]} {each[2]} {each[3]}:00")
            except Fault as failure:
                if is_first and place == 0 and failure.status == REFUSED:
                    forget_undo(self.club)
                self.tell_progress(words[:place], words[place:])
                raise
        return in_use

    def tell_progress(self, given, left):
        """Prints which commands of an interrupted correction are done, and which aren't."""
        more = [say("new names", member=self.words.member)] if self.words.command == "leave" else []
        for text, lines in (
            ("done so far", [" ".join(it) for it in given]),
            ("not done", [*(" ".join(it) for it in left), *more]),
        ):
            shown = lines[:MOST_SHOWN] if len(lines) > MOST_SHOWN + 1 else lines
            if len(shown) < len(lines):
                shown = [*shown, say("further", count=len(lines) - len(shown))]
            if shown and given:
                print(say(text, lines="; ".join(shown)), file=sys.stderr)

    def give(self, turn, words):
        """Gives the desk a command, and returns whether the desk carried it out. The turn ends only after the command has ended, even if a signal
        kills this process."""
        done = run_clubdesk(self.club, words[0], words[1:], held=[turn.file])
        said = done.stderr.decode(errors="backslashreplace").strip()
        if done.returncode == 0 or (words[0], said) == ("close-slot", "refused: exists"):
            return True
        if (words[0], said) == ("close-slot", "refused: slot in use"):
            return False
        if done.returncode == REFUSED:
            raise Fault(REFUSED, f"{in_language(said)}: {' '.join(words)}")
        # Another program may have killed the command.
        status = done.returncode if 0 < done.returncode < 128 else NO_ANSWER
        raise fault(
            status,
            "command undone",
            order=" ".join(words),
            said=in_language(said) or f"status {done.returncode}",
        )

    def look_again(self):
        """Prints each booking outside the new hours that a member made after the correction copied the club. The new hours stay in force."""
        try:
            with snapshot(self.club) as db:
                self.plan(db, None)
        except Fault as failure:
            print(say("booked meanwhile", slots=failure.why), file=sys.stderr)

    def give_names(self):
        """Renames a leaving member and the member's keys in the file. If the member has booked in the meantime, returns the booked slots and changes
        nothing."""
        try:
            with contextlib.closing(file_taken(self.club)) as db:
                plan = self.plan(db, None)
                if plan.orders:
                    return [slot_text(it.facility, it.day, it.hour) for it in plan.cancelled] or [
                        self.words.member
                    ]
                before = rows_of_member(db, self.words.member)
                change(db, plan, lambda: self.keep_names(before, rows_of_member(db, plan.new_name)))
        except (Fault, sqlite3.Error, OSError) as failure:
            raise storage_failed(
                "names undone", member=self.words.member, why=getattr(failure, "why", failure)
            ) from None
        return []

    def keep_names(self, before, after):
        self.record.keep([[*place, was, after[place]] for place, was in before.items()], [])
        forget_person(self.club, self.words.member)

    def tell_concerned(self):
        """Prints whom to tell about cancellations by this run and by interrupted runs. With --mail the office also mails these persons."""
        cancelled = [Booking(*it) for it in self.record.content["cancelled"]]
        show_concerned(self.club, [it.member for it in cancelled])
        if getattr(self.words, "mail", False):
            mail_concerned(self.club, cancelled, self.record)


def refuse_unsound(rows):
    """Refuses to make a total negative. A total can be too small if somebody changed the file by hand."""
    for table, _, was, is_now in rows:
        if table == "slots" and is_now[TAKEN] < 0:
            raise refusal(
                "nothing changed",
                why=say(
                    "taken off",
                    facility=is_now[0],
                    day=date_of(is_now[1]),
                    hour=is_now[2],
                    persons=-is_now[TAKEN],
                ),
            )
        if table == "members" and is_now[USED] < 0:
            raise refusal(
                "nothing changed",
                why=say(
                    "used off", member=is_now[0], used=was[USED], spent=was[USED] - is_now[USED]
                ),
            )

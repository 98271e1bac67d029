"""Defines the failures of the office's commands."""

from club_office.texts import say

REFUSED, USAGE, BAD_VALUE, STORAGE, OUTPUT = 1, 2, 3, 5, 7


class Fault(Exception):
    """Ends the command with a status and a line on standard error. `why` is the line without the prefix."""

    def __init__(self, status, line, why=None):
        super().__init__(line)
        self.status = status
        self.why = line if why is None else why


def fault(status, text, /, **values):
    """Returns a fault whose line comes from the office's table of texts."""
    return Fault(status, say(text, **values))


def refusal(text, /, **values):
    why = say(text, **values)
    return Fault(REFUSED, say("refused", why=why), why)


class NothingLeft(Fault):
    """The refusal of a command because an earlier command has already made the whole change. If a clerk repeats an interrupted command and gets this
    refusal, the change is complete."""


class Doubtful(Fault):
    """The refusal to continue an interrupted command. If a clerk repeats the refused command, it starts from the beginning."""


def doubtful(text, /, **values):
    why = say(text, **values)
    return Doubtful(REFUSED, say("refused", why=why), why)


def nothing_left(text, /, **values):
    why = say(text, **values)
    return NothingLeft(REFUSED, say("refused", why=why), why)


def bad_value(text, /, **values):
    what = say(text, **values)
    return Fault(BAD_VALUE, say("bad value", what=what), what)


def storage_failed(text, /, **values):
    why = say(text, **values)
    return Fault(STORAGE, say("storage failed", why=why), why)

"""Finds the names of members' spare keys. On the page, members lend the passes of these keys. The configuration sets the number and the names of a
member's spare keys."""

from club_office.faults import STORAGE, Fault, fault
from club_office.values import name, number

MOST_SPARES = 9
PASSES = "passes"  # the folder where the command `letters` looks for passes
LONGEST_NAME = 24


def spare_keys(club, member):
    """Returns the names of a member's spare keys, such as amy-lend-1. In the configuration, SPARES is the number of spare keys. SPARE_NAME is the
    word in the spare keys' names, `lend` by default."""
    try:
        count, called = number(0, MOST_SPARES)(club.settings.get("spares") or "0"), name(
            club.settings.get("spare_name") or "lend"
        )
    except Fault as failure:
        raise fault(STORAGE, "spares", club=club.name, fault=failure) from None
    ends = [f"-{called}-{place}" for place in range(1, count + 1)]
    return [name(member[: max(1, LONGEST_NAME - len(end))].rstrip("-") + end) for end in ends]

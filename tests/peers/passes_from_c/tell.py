"""Does the same as tell.c, with the Python module."""

import sys
from datetime import date, datetime

import clubpass

NUMBERS = {clubpass.TooLong: 1, clubpass.Malformed: 2, clubpass.ThirdParty: 3, clubpass.TooMany: 4}


def written(found, form):
    try:
        return found.to(form).encode().hex()
    except clubpass.PassError as error:
        return f"fault-{NUMBERS[type(error)]}"


def data(word):
    return bytes.fromhex(word.replace("-", ""))


def spelled(found):
    return found.hex() or "-"


def tell_pass(root, text):
    try:
        found = clubpass.Pass.parse(data(text))
    except clubpass.PassError as error:
        return f"fault {NUMBERS[type(error)]}"
    again = clubpass.Pass.mint(data(root), found.identifier, found.location).narrow(*found.caveats)
    return " ".join(
        [
            found.form,
            spelled(found.location),
            spelled(found.identifier),
            ",".join(map(spelled, found.caveats)) or "-",
            found.signature.hex(),
            *(written(found, form) for form in ("v1", "v2", "json")),
            again.signature.hex(),
            "signed" if found.verify(data(root)) else "not signed",
        ]
    )


def tell_caveat(text):
    return "yes" if clubpass.is_caveat(data(text)) else "no"


def tell_verdict(text, action, kind, moment, facility, day, hour, guests, owed, spent):
    slot = (
        {}
        if facility == "-"
        else {"facility": facility, "day": date.fromisoformat(day), "hour": int(hour)}
    )
    ask = clubpass.Ask(
        action,
        datetime.fromisoformat(moment),
        kind=None if kind == "-" else kind,
        guests=int(guests),
        owed=int(owed),
        spent=int(spent),
        **slot,
    )
    try:
        fault = clubpass.Pass.parse(data(text)).first_fault(ask)
    except clubpass.NotAnAsk:
        return "no ask"
    return (
        "allows"
        if fault is None
        else f"{'denies' if fault.understood else 'not understood'} {fault.number}"
    )


TELL = {"pass": tell_pass, "caveat": tell_caveat, "ask": tell_verdict}
for line in sys.stdin:
    what, *words = line.split()
    print(TELL[what](*words))

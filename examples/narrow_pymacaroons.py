#!/usr/bin/env python3
"""Narrows passes in V1, V2 or JSON with pymacaroons: narrow_pymacaroons.py CAVEAT.. < passes

Reads one pass per line. Prints each pass in its original form, with the new caveats after the old
caveats. The program needs the Debian package python3-pymacaroons.
"""
import sys

from pymacaroons import Macaroon
from pymacaroons.serializers import BinarySerializer, JsonSerializer


def narrow(text, caveats):
    """Returns the pass with the new caveats."""
    form = JsonSerializer() if text.startswith("{") else BinarySerializer()
    macaroon = Macaroon.deserialize(text, form)
    for caveat in caveats:
        macaroon.add_first_party_caveat(caveat)
    return macaroon.serialize(form)


if __name__ == "__main__":
    for line in sys.stdin:
        print(narrow(line.strip(), sys.argv[1:]))

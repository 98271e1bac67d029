"""Narrows a pass. Prints the narrowed pass, and whether README's root signed it: lend.py < PASS."""
import sys

from clubpass import Pass, PassError

ROOT = bytes.fromhex("00112233445566778899aabbccddeeff")
try:
    lent = Pass.parse(sys.stdin.read().strip()).narrow("kind = court")
except PassError as fault:
    sys.exit(f"{type(fault).__name__}: {fault}")
print(lent, "signed" if lent.verify(ROOT) else "not signed", sep="\n")

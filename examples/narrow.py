#!/usr/bin/env python3
"""Narrows passes in V2 with Python's standard library: narrow.py CAVEAT.. < passes

Reads one pass per line, and prints each pass with the new caveats after the old caveats. The
program needs no secret: the signature of a pass is the key that signs the next caveat.
"""
import hmac
import sys
from base64 import urlsafe_b64decode, urlsafe_b64encode

# The bytes before the signature of a V2 pass: the end of the caveats, then the type and length of
# the signature's field.
END = b"\x00\x06\x20"


def varint(number):
    """Encodes a number with seven bits per byte, lowest bits first. Each byte except the last byte
    has its top bit set."""
    if number < 128:
        return bytes([number])
    return bytes([number % 128 + 128]) + varint(number // 128)


def narrow(text, caveats):
    """Returns the pass with the new caveats. The key that signs a caveat is the signature that the
    pass had before the caveat was added."""
    raw = urlsafe_b64decode(text + "=" * (-len(text) % 4))
    if raw[:1] != b"\x02" or raw[-35:-32] != END:
        raise ValueError("not a pass in V2")
    body, signature = raw[:-35], raw[-32:]
    for caveat in caveats:
        data = caveat.encode()
        body += b"\x02" + varint(len(data)) + data + b"\x00"
        signature = hmac.digest(signature, data, "sha256")
    return urlsafe_b64encode(body + END + signature).decode().rstrip("=")


if __name__ == "__main__":
    for line in sys.stdin:
        print(narrow(line.strip(), sys.argv[1:]))

"""Reads texts of passes, as docs/PASSES.md describes them. Finds the key that a pass names, and whether the club still accepts the pass."""

import base64
import hmac
import json
import re
import sys

from club_office.copies import snapshot
from club_office.faults import bad_value
from club_office.texts import say

MOST_BYTES = 50_000_000
IDENTIFIER, VERIFIER, SIGNATURE = 2, 4, 6
# The field names of V1, each with the number of the same field in V2.
KINDS = {
    b"location": 1,
    b"cl": 1,
    b"identifier": IDENTIFIER,
    b"cid": IDENTIFIER,
    b"vid": VERIFIER,
    b"signature": SIGNATURE,
}


def bytes_of(text):
    """Returns the decoded bytes of a one-line pass in V1 or V2."""
    if not re.fullmatch(r"[A-Za-z0-9_+/=-]{1,8192}", text) or re.fullmatch("[0-9a-f]+", text):
        raise ValueError(say("no one-line pass"))
    return base64.urlsafe_b64decode(
        text.rstrip("=").replace("+", "-").replace("/", "_") + "=" * (-len(text.rstrip("=")) % 4)
    )


def key_of(text):
    """Returns the key that a V1 or V2 pass names."""
    named = re.search(rb"key:([a-z0-9-]+)", bytes_of(text))
    if not named:
        raise ValueError(say("no key's pass"))
    return named[1].decode()


def signed(root, texts):
    """Returns the signature of an identifier and caveats under a root."""
    signature = hmac.digest(b"macaroons-key-generator".ljust(32, b"\0"), root, "sha256")
    for text in texts:
        signature = hmac.digest(signature, text, "sha256")
    return signature


def pass_of(name, root, *caveats):
    """Returns a key's pass in V2."""
    texts = [f"key:{name}".encode(), *map(str.encode, caveats)]
    packets = b"".join(packet(IDENTIFIER, text) + b"\0" for text in texts)
    return (
        base64.urlsafe_b64encode(
            bytes([2]) + packets + b"\0" + packet(SIGNATURE, signed(root, texts))
        )
        .decode()
        .rstrip("=")
    )


def packet(kind, data):
    """Returns the bytes of a field: its type, its length in groups of seven bits, and its data."""
    length, size = b"", len(data)
    while size > 127:
        length, size = length + bytes([size & 127 | 128]), size >> 7
    return bytes([kind]) + length + bytes([size]) + data


def fields_of(data):
    """Returns the fields of a V1 or V2 pass, each with its type and data."""
    return fields_of_v2(data) if data[:1] == b"\2" else fields_of_v1(data)


def fields_of_v1(data):
    while data:
        size = int(data[:4], 16)
        key, _, value = data[4:size].partition(b" ")
        yield KINDS[key], value[:-1]
        data = data[max(size, 5) :]


def fields_of_v2(data):
    place = 1
    while place < len(data):
        kind, size, shift = data[place], 0, 0
        place += 1
        while kind:
            byte = data[place]
            size, shift, place = size | (byte & 127) << shift, shift + 7, place + 1
            if byte < 128:
                yield kind, data[place : place + size]
                break
        place += size


def is_signed(text, root):
    """Returns whether a pass in one line is signed under a root."""
    try:
        fields = list(fields_of(bytes_of(text)))
    except (ValueError, KeyError, IndexError):
        return False
    texts = [value for kind, value in fields if kind == IDENTIFIER]
    return not any(kind == VERIFIER for kind, _ in fields) and fields[-1:] == [
        (SIGNATURE, signed(root, texts))
    ]


def list_old_passes(club, _words):
    """Reads a pass for each key from standard input. Prints the keys whose current root didn't sign the given pass."""
    try:
        texts = json.loads(sys.stdin.buffer.read(MOST_BYTES))
    except ValueError:
        texts = None
    if not isinstance(texts, dict) or not all(isinstance(text, str) for text in texts.values()):
        raise bad_value("no passes given")
    with snapshot(club) as db:
        roots = dict(db.execute("SELECT name, root FROM keys"))
    json.dump(
        [key for key, text in texts.items() if key in roots and not is_signed(text, roots[key])],
        sys.stdout,
    )
    return 0

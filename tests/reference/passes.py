"""Passes as texts: V1, V2 and JSON, their envelope, and the chain of signatures
(docs/PASSES.md)."""

import base64
import hashlib
import hmac
import json
import re
from dataclasses import dataclass, field

from .json_values import NO_JSON, json_value

MOST_BYTES = 8192  # of a text
MOST_CAVEATS = 64


class NoPass(Exception):
    """Raised if a text is not a pass. `fault` is the number of the desk's refusal."""

    def __init__(self, fault):
        super().__init__(fault)
        self.fault = fault


TOO_LONG, MALFORMED, THIRD_PARTY, TOO_MANY = 5, 6, 7, 8


class Malformed(Exception):
    """Raised if the bytes don't encode a pass."""


@dataclass
class Pass:
    """A pass without third-party caveats. All its values are bytes."""

    location: bytes
    identifier: bytes
    caveats: list = field(default_factory=list)
    signature: bytes = b""

    def is_signed(self, root):
        return hmac.compare_digest(chain(root, self.identifier, self.caveats), self.signature)

    def narrowed(self, caveat):
        return Pass(
            self.location, self.identifier, [*self.caveats, caveat], sign(self.signature, caveat)
        )


def sign(key, text):
    return hmac.new(key, text, hashlib.sha256).digest()


def chain(root, identifier, caveats):
    signature = sign(sign(b"macaroons-key-generator", root), identifier)
    for caveat in caveats:
        signature = sign(signature, caveat)
    return signature


def minted(root, identifier, location=b"club-desk", caveats=()):
    return Pass(location, identifier, list(caveats), chain(root, identifier, caveats))


# A parsed pass, which may have third-party caveats. Each caveat is (identifier, whether it is a
# third-party caveat).
@dataclass
class WidePass:
    location: bytes
    identifier: bytes
    caveats: list
    signature: bytes

    def pass_or_fault(self):
        if any(is_third_partys for _, is_third_partys in self.caveats):
            raise NoPass(THIRD_PARTY)
        if len(self.caveats) > MOST_CAVEATS:
            raise NoPass(TOO_MANY)
        return Pass(self.location, self.identifier, [it for it, _ in self.caveats], self.signature)


# ---- V1


class Packets:
    """Reads the packets of V1 one by one."""

    def __init__(self, data):
        self.data, self.at = data, 0

    def peek(self, key):
        """Returns the data of the next packet and the place where the packet ends. Returns None if
        the packet has another key."""
        digits = self.data[self.at : self.at + 4]
        if not re.fullmatch(rb"[0-9a-f]{4}", digits):
            raise Malformed
        end = self.at + int(digits, 16)
        packet = self.data[self.at + 4 : end]
        if end > len(self.data) or end < self.at + 5 or not packet.endswith(b"\n"):
            raise Malformed
        if not packet.startswith(key + b" "):
            return None
        return packet[len(key) + 1 : -1], end

    def take(self, key):
        found = self.peek(key)
        if found is None:
            raise Malformed
        value, self.at = found
        return value

    def take_if(self, key):
        if self.at >= len(self.data):
            raise Malformed
        return self.take(key) if self.peek(key) else None


def read_v1(data):
    packets = Packets(data)
    location, identifier = packets.take(b"location"), packets.take(b"identifier")
    caveats = []
    while (caveat := packets.take_if(b"cid")) is not None:
        is_third_partys = packets.take_if(b"vid") is not None
        is_third_partys = packets.take_if(b"cl") is not None or is_third_partys
        caveats.append((caveat, is_third_partys))
    signature = packets.take(b"signature")
    if packets.at != len(data) or len(signature) != 32:
        raise Malformed
    return WidePass(location, identifier, caveats, signature)


def packet(key, data):
    length = 4 + len(key) + 1 + len(data) + 1
    return b"%04x%s %s\n" % (length, key, data)


def v1_bytes(it):
    parts = [packet(b"location", it.location), packet(b"identifier", it.identifier)]
    parts += [packet(b"cid", caveat) for caveat in it.caveats]
    return b"".join([*parts, packet(b"signature", it.signature)])


# ---- V2

END, LOCATION, IDENTIFIER, VERIFIER, SIGNATURE = 0, 1, 2, 4, 6


class Fields:
    """Reads the fields of V2 one by one."""

    def __init__(self, data):
        self.data, self.at = data, 0

    def byte(self):
        if self.at >= len(self.data):
            raise Malformed
        self.at += 1
        return self.data[self.at - 1]

    def number(self):
        """Reads a number in its varint encoding, and raises Malformed if the encoding isn't the
        shortest."""
        value = shift = 0
        while True:
            byte = self.byte()
            value |= (byte & 0x7F) << shift
            if not byte & 0x80:
                if byte == 0 and shift:
                    raise Malformed
                return value
            shift += 7

    def is_next(self, kind):
        return self.at < len(self.data) and self.data[self.at] == kind

    def end(self):
        if self.byte() != END:
            raise Malformed

    def take(self, kind):
        if self.byte() != kind:
            raise Malformed
        length = self.number()
        value = self.data[self.at : self.at + length]
        if len(value) != length:
            raise Malformed
        self.at += length
        return value

    def take_if(self, kind):
        return self.take(kind) if self.is_next(kind) else None


def read_v2(data):
    fields = Fields(data)
    fields.byte()  # the byte 2, which identifies the form V2
    location = fields.take_if(LOCATION) or b""
    identifier = fields.take(IDENTIFIER)
    fields.end()
    caveats = []
    while not fields.is_next(END):
        place = fields.take_if(LOCATION)
        caveat = fields.take(IDENTIFIER)
        verifier = fields.take_if(VERIFIER)
        fields.end()
        caveats.append((caveat, place is not None or verifier is not None))
    fields.end()
    signature = fields.take(SIGNATURE)
    if fields.at != len(data) or len(signature) != 32:
        raise Malformed
    return WidePass(location, identifier, caveats, signature)


def varint(number):
    out = bytearray()
    while number > 0x7F:
        out.append(number & 0x7F | 0x80)
        number >>= 7
    return bytes([*out, number])


def v2_field(kind, data):
    return bytes([kind]) + varint(len(data)) + data


def v2_bytes(it):
    location = v2_field(LOCATION, it.location) if it.location else b""
    caveats = [v2_field(IDENTIFIER, caveat) + b"\0" for caveat in it.caveats]
    head = b"\x02" + location + v2_field(IDENTIFIER, it.identifier) + b"\0"
    return head + b"".join(caveats) + b"\0" + v2_field(SIGNATURE, it.signature)


# ---- JSON


def json_bytes_of(value, plain, encoded):
    """Returns the bytes that an object has under a plain name, or in base64 under the encoded name.
    Returns None if both names are missing, and raises Malformed if the object has both names."""
    if plain in value and encoded in value:
        raise Malformed
    text = value.get(plain, value.get(encoded))
    if plain not in value and encoded not in value:
        return None
    if not isinstance(text, str):
        raise Malformed
    return text.encode() if plain in value else from_base64(text.encode())


def json_caveat(value):
    if not isinstance(value, dict) or set(value) - {"i", "i64", "l", "l64", "v", "v64"}:
        raise Malformed
    caveat, place, verifier = (json_bytes_of(value, it, f"{it}64") for it in "ilv")
    if caveat is None:
        raise Malformed
    return caveat, place is not None or verifier is not None


def is_whole_two(value):
    return isinstance(value, int) and not isinstance(value, bool) and value == 2


def read_json(data):
    try:
        value = json_value(data)
    except NO_JSON as fault:
        raise Malformed from fault
    if not isinstance(value, dict) or set(value) - {"v", "l", "l64", "i", "i64", "c", "s", "s64"}:
        raise Malformed
    location, identifier, signature = (json_bytes_of(value, it, f"{it}64") for it in "lis")
    caveats = value.get("c", [])
    if not is_whole_two(value.get("v", 2)) or not isinstance(caveats, list):
        raise Malformed
    caveats = [json_caveat(it) for it in caveats]
    if identifier is None or signature is None or len(signature) != 32:
        raise Malformed
    return WidePass(location or b"", identifier, caveats, signature)


def json_names(name, data):
    try:
        return {name: data.decode()}
    except UnicodeDecodeError:
        return {f"{name}64": to_base64(data).decode()}


def json_bytes(it):
    value = {
        "c": [json_names("i", caveat) for caveat in it.caveats],
        **json_names("i", it.identifier),
        "s64": to_base64(it.signature).decode(),
        "v": 2,
    }
    if it.location:
        value |= json_names("l", it.location)
    return json.dumps(value, ensure_ascii=False, sort_keys=True, separators=(",", ":")).encode()


# ---- the envelope


def to_base64(data):
    return base64.urlsafe_b64encode(data).rstrip(b"=")


def from_base64(text):
    """Decodes base64 in the standard or the URL-safe alphabet, but not in a mixture of both. The
    text must have the right padding or none, and its unused bits must be zero."""
    letters = text.rstrip(b"=")
    padding = len(text) - len(letters)
    if (
        not re.fullmatch(rb"[A-Za-z0-9_-]*|[A-Za-z0-9/+]*", letters)
        or len(letters) % 4 == 1
        or padding not in (0, -len(letters) % 4)
    ):
        raise Malformed
    data = base64.urlsafe_b64decode(
        letters.translate(bytes.maketrans(b"/+", b"_-")) + b"=" * (-len(letters) % 4)
    )
    if to_base64(data) != letters.translate(bytes.maketrans(b"/+", b"_-")):
        raise Malformed
    return data


FORMS = {"v1": v1_bytes, "v2": v2_bytes, "json": json_bytes}


def text_of(it, form):
    data = FORMS[form](it)
    return data if form == "json" else to_base64(data)


def read_wide(text):
    if text.startswith(b"{"):
        return read_json(text)
    data = from_base64(text)
    first = data[:1]
    if first == b"\x02":
        return read_v2(data)
    if first == b"{":
        return read_json(data)
    if re.fullmatch(rb"[0-9a-f]", first):
        return read_v1(data)
    raise Malformed


def read(text):
    """Returns the pass that a text encodes. Raises NoPass with the first fault that the checks
    find."""
    if len(text) > MOST_BYTES:
        raise NoPass(TOO_LONG)
    try:
        wide = read_wide(text)
    except Malformed as fault:
        raise NoPass(MALFORMED) from fault
    return wide.pass_or_fault()

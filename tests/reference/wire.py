"""Requests and replies as bytes (docs/DESK.md): parses a request, and writes a reply."""

import json
import re
from datetime import timedelta

from .caveats import EPOCH, NAME, day_of, hour_of
from .club import Refused, Request
from .json_values import NO_JSON, json_value

MOST_HEAD, MOST_BODY, MOST_FIELDS = 16_384, 256, 32

STATUSES = {
    1: 400,
    2: 404,
    3: 405,
    4: 401,
    5: 400,
    6: 400,
    7: 400,
    8: 400,
    9: 401,
    10: 403,
    11: 403,
    12: 403,
    13: 409,
    14: 404,
    15: 404,
    16: 409,
    17: 409,
    18: 409,
    19: 409,
    20: 402,
    21: 409,
    22: 503,
}
TEXTS = (
    "bad request",
    "no such path",
    "method not allowed",
    "no pass",
    "pass too long",
    "pass malformed",
    "third-party caveat",
    "too many caveats",
    "not verified",
    "key revoked",
    "caveat not understood",
    "caveat denies",
    "number used",
    "no such facility",
    "no such booking",
    "not bookable",
    "slot closed",
    "no places",
    "quota reached",
    "balance too low",
    "slot has begun",
    "unavailable",
)
PHRASES = {
    200: "OK",
    400: "Bad Request",
    401: "Unauthorized",
    402: "Payment Required",
    403: "Forbidden",
    404: "Not Found",
    405: "Method Not Allowed",
    409: "Conflict",
    503: "Service Unavailable",
}

TOKEN = rb"[A-Za-z0-9!#$%&'*+.^_`|~-]+"
END = rb"\r?\n"
HEAD = re.compile(
    rb"(?:%b)*(%b) ([^\x00-\x20\x7f]+) HTTP/1\.[01]%b((?:%b:[^\x00-\x08\x0a-\x1f\x7f]*%b)*)%b"
    % (END, TOKEN, END, TOKEN, END, END)
)
FIELD = re.compile(rb"(%b):([^\r\n]*)%b" % (TOKEN, END))

PATH = re.compile(r"/slots/(%s)/([^/]*)/([^/]*)(?:/bookings/([1-9][0-9]{0,8}))?" % NAME)


class NotDecoded(Exception):
    """Raised for a request that the desk refuses before it reads the pass. `fault` is the number of
    the refusal. With refusal 3, `methods` has the methods that the path allows."""

    def __init__(self, fault, methods=None):
        super().__init__(fault)
        self.fault, self.methods = fault, methods


def split(data):
    """Splits the request at the beginning of `data` into its method, target, fields and body.
    `data` is the whole input."""
    end = data.find(b"\r\n\r\n", 0, MOST_HEAD)
    if end < 0:
        raise NotDecoded(1)
    head, rest = data[: end + 4], data[end + 4 :]
    found = HEAD.fullmatch(head)
    if not found:
        raise NotDecoded(1)
    try:
        target = found[2].decode()
    except UnicodeDecodeError as fault:
        raise NotDecoded(1) from fault
    fields = [(name.lower(), value.strip(b" \t")) for name, value in FIELD.findall(found[3])]
    if len(fields) > MOST_FIELDS:
        raise NotDecoded(1)
    return found[1], target, fields, body_of(found[1], fields, rest)


def values(fields, name):
    return [value for it, value in fields if it == name]


def body_of(method, fields, rest):
    lengths = values(fields, b"content-length") or [b"0"]
    if (
        values(fields, b"transfer-encoding")
        or len(lengths) > 1
        or not re.fullmatch(rb"[0-9]{1,4}", lengths[0])
    ):
        raise NotDecoded(1)
    length = int(lengths[0])
    if length > MOST_BODY or length > len(rest) or (length and method != b"PUT"):
        raise NotDecoded(1)
    return rest[:length]


def guests_in(body):
    """Returns the number of guests in the body of a PUT."""
    try:
        value = json_value(body)
    except NO_JSON as fault:
        raise NotDecoded(1) from fault
    guests = value.get("guests") if isinstance(value, dict) and set(value) == {"guests"} else None
    if not isinstance(guests, int) or isinstance(guests, bool) or not 0 <= guests <= 49:
        raise NotDecoded(1)
    return guests


def decoded(data):
    """Returns the text of the pass in a request's bytes, and the Request."""
    method, target, fields, body = split(data)
    guests = guests_in(body) if method == b"PUT" else 0
    if target == "/account":
        request = {b"GET": Request("account")}.get(method)
        methods = "GET"
    else:
        request, methods = slot_request(method, target, guests)
    if request is None:
        raise NotDecoded(3, methods)
    given = values(fields, b"authorization")
    if len(given) != 1 or given[0][:7].lower() != b"bearer ":
        raise NotDecoded(4)
    return given[0][7:], request


def slot_request(method, target, guests):
    """Returns the Request for a method and the path of a slot or a booking, and the methods that
    the path allows. The Request is None if the path doesn't allow the method."""
    parts = PATH.fullmatch(target)
    day, hour = (day_of(parts[2]), hour_of(parts[3])) if parts else (None, None)
    if day is None or hour is None:
        raise NotDecoded(2)
    slot = (parts[1], day, hour)
    if not parts[4]:
        return {b"GET": Request("view", slot)}.get(method), "GET"
    number = int(parts[4])
    return {
        b"PUT": Request("book", slot, number, guests),
        b"DELETE": Request("cancel", slot, number),
    }.get(method), "PUT, DELETE"


def compact(body):
    return json.dumps(body, separators=(",", ":")).encode()


def bytes_with(status, body, methods=None):
    """Returns the bytes of a reply with this status and this body."""
    lines = [
        f"HTTP/1.1 {status} {PHRASES[status]}",
        "Content-Type: application/json",
        f"Content-Length: {len(body)}",
    ]
    if status == 401:
        lines.append("WWW-Authenticate: Bearer")
    if status == 405:
        lines.append(f"Allow: {methods}")
    return "\r\n".join([*lines, "Connection: close", "", ""]).encode() + body


def reply_bytes(reply, methods=None):
    if isinstance(reply, Refused):
        body = {"fault": reply.fault, "text": TEXTS[reply.fault - 1]} | (
            {"caveat": reply.caveat} if reply.caveat else {}
        )
        return bytes_with(STATUSES[reply.fault], compact(body), methods)
    body = dict(reply.body)
    if "day" in body:
        body["day"] = (EPOCH + timedelta(days=body["day"])).isoformat()
    return bytes_with(200, compact(body))


def exchange(club, data, moment):
    """Carries out the request that a complete input contains, and returns the bytes of the
    reply."""
    try:
        text, request = decoded(data)
    except NotDecoded as refusal:
        return reply_bytes(Refused(refusal.fault), refusal.methods)
    return reply_bytes(club.ask(text, request, moment))

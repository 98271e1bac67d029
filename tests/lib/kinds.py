"""The table of all kinds of replies: requests to a club, each with its pass, its moment and the
bytes of its reply.

A scene is a list of steps. Each scene begins with the club that COMMANDS make. A Row is a step that
sends a request to a new server. A Command is a command of the office, and an Sql is an SQL
statement for sqlite3. tests/reference computes the passes and the bytes of the replies."""

import itertools
from dataclasses import dataclass, replace

from reference import club as rules, passes, wire

NOON, BEGUN = "2026-04-20T12:00", "2026-05-01T18:30"
ROOT = "00112233445566778899aabbccddeeff"
ONE, TWO, THREE = '{"guests":0}', '{"guests":1}', '{"guests":2}'


def key_pass(name, root=ROOT):
    return passes.minted(bytes.fromhex(root), f"key:{name}".encode())


def text(it, *caveats, form="v2"):
    """Returns the text of a pass after adding these caveats."""
    for caveat in caveats:
        it = it.narrowed(caveat.encode())
    return passes.text_of(it, form).decode()


AMY, BOB, CY, DI = (key_pass(f"{name}-1") for name in ("amy", "bob", "cy", "di"))


@dataclass(frozen=True)
class Row:
    """A request and its expected reply. If `raw` is given, the request consists of these bytes. If
    `passed` is None, the request has no Authorization field."""

    method: str = ""
    path: str = ""
    body: str | None = None
    passed: str | None = text(AMY)
    moment: str = NOON
    fields: tuple = ()
    raw: bytes | None = None
    file_limit: int | None = None  # the greatest size of the server's files, in bytes
    wanted: bytes = b""

    def at(self, moment):
        return replace(self, moment=moment)

    def under(self, passed):
        return replace(self, passed=passed)

    def but(self, **changed):
        return replace(self, **changed)

    def gets(self, fault, caveat=None, allow=None):
        return replace(self, wanted=wire.reply_bytes(rules.Refused(fault, caveat), allow))

    def serves(self, **body):
        return replace(self, wanted=wire.bytes_with(200, wire.compact(body)))

    @property
    def data(self):
        if self.raw is not None:
            return self.raw
        lines = [f"{self.method} {self.path} HTTP/1.1", "Host: club", *self.fields]
        if self.passed is not None:
            lines.append(f"Authorization: Bearer {self.passed}")
        if self.body is not None:
            lines.append(f"Content-Length: {len(self.body.encode())}")
        return ("\r\n".join(lines) + "\r\n\r\n" + (self.body or "")).encode()


@dataclass(frozen=True)
class Command:
    """A command of clubdesk, its output, and the line on standard error if the desk refuses the
    command."""

    words: tuple
    printed: str = "done\n"
    refusal: str = ""


@dataclass(frozen=True)
class Sql:
    statement: str


def command(words, **ended):
    return Command(tuple(words.split()), **ended)


def join(member, quota, points):
    """Returns commands that add a member with a quota, points and a key."""
    credit = [command(f"credit {member} {points}")] if points else []
    return [
        command(f"add-member {member} {quota}"),
        *credit,
        command(
            f"add-key {member}-1 {member} {ROOT}", printed=text(key_pass(f"{member}-1")) + "\n"
        ),
    ]


COMMANDS = [
    command("add-facility court-1 court 4 200 8 22"),
    command("add-facility room-1 room 1 601 8 22"),
    *join("amy", 5, 10_000),
    *join("bob", 5, 10_000),
]


def slot(hour="18", day="01", facility="court-1"):
    return f"/slots/{facility}/2026-05-{day}/{hour}"


def view(path=slot()):
    return Row("GET", path)


def book(number, body, path=slot(), passed=text(AMY)):
    return Row("PUT", f"{path}/bookings/{number}", body, passed)


def cancel(number, path=slot()):
    return Row("DELETE", f"{path}/bookings/{number}")


ACCOUNT = Row("GET", "/account")
ROOM = slot(facility="room-1")


def booked(row, charge, left, key="amy-1"):
    return row.serves(booking=f"{key}/{row.path.rpartition('/')[2]}", charge=charge, left=left)


def account(balance=10_000, opened=0, row=ACCOUNT):
    return row.serves(member="amy", balance=balance, quota=5, open=opened, spent=10_000 - balance)


def shown(taken, hour=18, closed=False, row=None):
    row = row or view(slot(f"{hour:02}"))
    return row.serves(
        facility="court-1",
        day="2026-05-01",
        hour=hour,
        kind="court",
        price=200,
        places=4,
        taken=taken,
        closed=closed,
    )


BOOK = booked(book(7, THREE), 600, 1)
CANCEL = cancel(7).serves(booking="amy-1/7", refund=600)

SCENES = {}
for form in passes.FORMS:
    SCENES[f"the known booking in {form}"] = [
        BOOK.under(text(AMY, form=form)),
        account(9400, 1).under(text(AMY, form=form)),
    ]
SCENES["repeats"] = [
    BOOK,
    BOOK.at(BEGUN),
    book(7, TWO).gets(13),
    account(9400, 1),
    shown(3),
    cancel(7, slot("19")).gets(13),
    CANCEL,
    BOOK,
    CANCEL.at(BEGUN),
    BOOK.at(BEGUN),
    account(),
    shown(0),
]
LIMITED = text(AMY, "spend <= 600")
SCENES["a limit on points"] = [
    it.under(LIMITED)
    for it in (
        BOOK,
        book(8, ONE, slot("19")).gets(12, 1),
        CANCEL,
        booked(book(8, ONE, slot("19")), 200, 3),
    )
]
for moment, refund in (
    ("2026-04-30T18:00", 601),
    ("2026-04-30T18:01", 300),
    ("2026-05-01T17:59", 300),
    ("2026-05-01T18:00", None),
):
    late = cancel(8, ROOM).at(moment)
    SCENES[f"a cancellation at {moment}"] = [
        booked(book(8, ONE, ROOM), 601, 0),
        cancel(9, ROOM).gets(15),
        late.gets(21) if refund is None else late.serves(booking="amy-1/8", refund=refund),
    ]
CHANGED = text(AMY)[:-1] + "g"
SCENES["passes that aren't verified"] = [
    *(
        ACCOUNT.under(it).gets(9)
        for it in (
            text(key_pass("zed-1")),
            CHANGED,
            text(passes.minted(bytes.fromhex(ROOT), b"amy-1")),
            text(key_pass("amy-1", ROOT + "00")),
        )
    ),
    command("revoke-key amy-1"),
    ACCOUNT.gets(10),
    ACCOUNT.under(CHANGED).gets(9),
]

# Amy gets the same replies in three clubs. In the first club, no other member does anything. In the
# second club, other members are busy. In the third club, bob has a place in Amy's slot.
TOLD = [account(9400, 1), CANCEL]
SCENES["others do nothing"] = [BOOK, *TOLD]
SCENES["others are busy"] = [
    *join("cy", 99, 100_000),
    command("credit bob 5"),
    command(f"add-key bob-2 bob {ROOT}", printed=text(key_pass("bob-2")) + "\n"),
    command("revoke-key bob-2"),
    *(
        booked(book(day, ONE, slot(day=f"{1 + day:02}"), text(CY)), 200, 3, "cy-1")
        for day in range(1, 21)
    ),
    BOOK,
    *TOLD,
]
SCENES["others have a place"] = [
    booked(book(1, ONE, passed=text(BOB)), 200, 3, "bob-1"),
    booked(book(7, THREE), 600, 0),
    *TOLD,
]

SCENES["the day sheet"] = [
    BOOK,
    booked(book(2, ONE, passed=text(BOB)), 200, 0, "bob-1"),
    command(
        "sheet 2026-05-01",
        printed="""Day sheet 2026-05-01
court-1                  18:00 amy-1                            7  3    600
court-1                  18:00 bob-1                            2  1    200
Total bookings 2, persons 4, charge 800
""",
    ),
    command("sheet 2026-05-02", printed="Day sheet 2026-05-02\nNo bookings.\n"),
]
for moment, hour, is_booked in (
    ("2026-03-02T18:00", "18", True),
    ("2026-03-02T17:59", "18", False),
    ("2026-05-01T17:59", "18", True),
    ("2026-05-01T18:00", "18", False),
    (NOON, "21", True),
    (NOON, "22", False),
    (NOON, "08", True),
    (NOON, "07", False),
):
    row = book(7, THREE, slot(hour)).at(moment)
    SCENES[f"{hour} o'clock, booked at {moment}"] = [
        booked(row, 600, 1) if is_booked else row.gets(16)
    ]
SCENES["places, points and quota"] = [
    BOOK,
    book(1, TWO, passed=text(BOB)).gets(18),
    *join("cy", 1, 100),
    book(1, ONE, passed=text(CY)).gets(20),
    *join("di", 0, 0),
    book(1, ONE, passed=text(DI)).gets(19),
]
SCENES["a closed slot"] = [
    BOOK,
    command("close-slot court-1 2026-05-01 18", printed="", refusal="refused: slot in use"),
    CANCEL,
    command("close-slot court-1 2026-05-01 18"),
    command("close-slot court-1 2026-05-01 18", printed="", refusal="refused: exists"),
    book(8, ONE).gets(17),
    shown(0, closed=True),
]
DOUBTED = text(AMY, "guests <= 0", "shoe = red")
SCENES["two caveats"] = [
    book(7, THREE, passed=DOUBTED).gets(12, 1),
    book(7, ONE, passed=DOUBTED).gets(11, 2),
]
SCENES["a caveat"] = [ACCOUNT.under(text(AMY, "facility = court-1")).gets(12, 1)]
for moment, hour, fault, caveat in (
    (NOON, 18, None, "hours = 18-20"),
    (NOON, 19, None, "hours = 18-20"),
    (NOON, 20, 12, "hours = 18-20"),
    ("2026-05-01T17:59", 18, None, "until < 2026-05-01T18:00"),
    ("2026-05-01T18:00", 18, 12, "until < 2026-05-01T18:00"),
    (NOON, 18, 11, "hours = 20-18"),
    (NOON, 18, 11, "hours = 8-10"),
    (NOON, 18, 11, "guests <= 01"),
    (NOON, 18, 11, "guests <= 50"),
    (NOON, 18, 11, "days = 2026-02-29..2026-03-01"),
):
    row = shown(0, hour).at(moment).under(text(AMY, caveat))
    SCENES["a caveat"].append(row.gets(fault, 1) if fault else row)


# Texts of passes with a wrong signature of 32 zero bytes. The desk checks the form of a pass before
# it checks the signature.
def unsigned_v2(caveats=b"", more=b""):
    head = b"\x02" + passes.v2_field(passes.IDENTIFIER, b"key:amy-1") + b"\0"
    return passes.to_base64(
        head + caveats + b"\0" + passes.v2_field(passes.SIGNATURE, bytes(32)) + more
    ).decode()


def guests(count):
    return (passes.v2_field(passes.IDENTIFIER, b"guests <= 1") + b"\0") * count


FOREIGN = passes.v2_field(passes.IDENTIFIER, b"a") + passes.v2_field(passes.VERIFIER, b"b") + b"\0"
FOREIGN_V1 = passes.to_base64(
    b"".join(
        passes.packet(*it)
        for it in (
            (b"location", b"club-desk"),
            (b"identifier", b"key:amy-1"),
            (b"cid", b"a"),
            (b"vid", b"b"),
            (b"cl", b"c"),
            (b"signature", bytes(32)),
        )
    )
).decode()
FOREIGN_JSON = (
    '{"c":[{"i":"a","v64":"Yg"}],"i":"key:amy-1","s64":"%s","v":2}'
    % passes.to_base64(bytes(32)).decode()
)
SCENES["third-party caveats, and many"] = [
    ACCOUNT.under(it).gets(fault)
    for it, fault in (
        (unsigned_v2(FOREIGN), 7),
        (FOREIGN_V1, 7),
        (FOREIGN_JSON, 7),
        (unsigned_v2(guests(64)), 9),
        (unsigned_v2(guests(65)), 8),
        (unsigned_v2(guests(64) + FOREIGN), 7),
        (unsigned_v2(guests(65), b"x"), 6),
    )
] + [shown(0).under(text(AMY, *["guests <= 1"] * 64))]

# Example passes of other programs. The form of these passes is valid, but the club has no key with
# their identifier and root.
BANK = (
    "MDAxY2xvY2F0aW9uIGh0dHA6Ly9teWJhbmsvCjAwMjZpZGVudGlmaWVyIHdlIHVzZWQgb3VyIHNlY3JldCBrZXkKMDAxNmNpZCB0ZXN0ID0gY2F2ZWF0CjAw"
    "MmZzaWduYXR1cmUgGXusegRK8zMyhluSZuJtSTvdZopmDkTYjOGpmMI9vWcK"
)
EXAMPLE = "AgETaHR0cDovL2V4YW1wbGUub3JnLwIFa2V5aWQAAAYgfN7nklEcW8b1KEhYBd_psk54XijiqZMB-dcRxgnjjvc"
STANDARD = EXAMPLE.replace("-", "+").replace("_", "/")
SCENES["forms"] = [
    ACCOUNT.under(it).gets(9)
    for it in (
        BANK,
        EXAMPLE,
        STANDARD,
        STANDARD + "=",
        '{"c":[],"i":"keyid","l":"http://example.org/","s64":"fN7nklEcW8b1KEhYBd_psk54XijiqZMB-dcRxgnjjvc","v":2}',
    )
]
SCENES["forms"] += [
    ACCOUNT.under(it).gets(6)
    for it in (
        EXAMPLE.replace("-", "+"),
        STANDARD + "==",
        EXAMPLE[:-1] + "d",
        *(
            passes.to_base64(it).decode()
            for it in (
                passes.from_base64(EXAMPLE.encode()) + b"x",
                passes.from_base64(BANK.encode()) + b"x",
                b"\2\2\x85\0",
                b"0003",
            )
        ),
        "x",
        *(BANK[:end] for end in range(1, len(BANK))),
        "A" * 8192,
    )
] + [ACCOUNT.under("A" * 8193).gets(5)]

SCENES["bad requests"] = [
    Row(raw=b"").gets(1),
    Row(raw=BOOK.data[:-1]).gets(1),
    book(7, '{"guests":50}').gets(1),
    ACCOUNT.under("").gets(4),
    ACCOUNT.under(None).but(fields=("Authorization: Bearer",)).gets(4),
    ACCOUNT.but(fields=(f"Authorization: Bearer {text(AMY)}",)).gets(4),
]
SCENES["unknown paths"] = [
    Row("GET", path).gets(2)
    for path in (
        "/",
        "/accounts",
        "/account/",
        "/account?x=1",
        "/slots/court-1",
        slot("9"),
        slot("24"),
        slot() + "/",
        slot() + "/bookings/07",
        slot(facility="Court-1"),
    )
]
SCENES["methods that the path doesn't allow"] = [
    Row(method, path, passed=passed, body=THREE if method == "PUT" else None).gets(3, allow=allow)
    for path, allow, passed in (
        ("/account", "GET", text(AMY)),
        (slot(), "GET", None),
        (slot() + "/bookings/7", "PUT, DELETE", text(AMY)),
    )
    for method in ("GET", "HEAD", "POST", "PUT", "DELETE", "OPTIONS", "PATCH")
    if method not in allow
]

# Refusals of each action: for a bad request, an unknown facility, a refused pass, a caveat, a
# revoked key, and a damaged row.
ACTIONS = {
    "a view": view(),
    "a booking": book(7, THREE),
    "a cancellation": cancel(7),
    "an account": ACCOUNT,
}
for name, row in ACTIONS.items():
    SCENES[f"{name} that is refused"] = [
        row.but(fields=("Transfer-Encoding: identity",)).gets(1),
        *(
            row.but(path=row.path.replace(*it)).gets(fault)
            for it, fault in ((("/18", "/24"), 2), (("court-1", "court-2"), 14))
            if it[0] in row.path
        ),
        *(
            row.under(passed).gets(fault)
            for passed, fault in (
                (None, 4),
                ("A" * 8193, 5),
                ("x", 6),
                (unsigned_v2(FOREIGN), 7),
                (unsigned_v2(guests(65)), 8),
                (unsigned_v2(), 9),
            )
        ),
        *(
            row.under(text(AMY, caveat)).gets(fault, 1)
            for caveat, fault in (("shoe = red", 11), (f"until < {NOON}", 12))
        ),
        command("revoke-key amy-1"),
        row.gets(10),
        Sql("UPDATE keys SET revoked = 0, root = x'00'"),
        row.gets(22),
    ]

# In the first step, the server's files may have at most 512 bytes. The server can open its log, but
# can't write a booking. The server refuses the request and books nothing. In the last step, a
# server without this limit carries out the same request.
SCENES["no storage"] = [BOOK.but(file_limit=512).gets(22), account(), BOOK]

ROWS = [it for it in itertools.chain(*SCENES.values()) if isinstance(it, Row)]

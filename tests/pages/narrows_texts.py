"""A part of page_narrows.py: the page narrows passes, and reads or refuses passes and caveats, in the same way as passtool."""

import base64
import re
from collections import Counter
from dataclasses import replace

import kinds
from narrowing_page import (
    CAVEATS,
    CHOICES,
    FAULTS,
    FORMS,
    PASSES,
    SPOILED,
    VECTORS,
    amys,
    draw,
    drawn_line,
    drawn_pass,
    drawn_spelling,
    fields_of,
    is_understood_by_tool,
    narrowed_by_tool,
    reading_by_tool,
    unpadded,
    written,
)
from page_browser import check
from reference import passes
from reference.passes import Pass, packet, v2_field as field


def narrows_as_passtool(page):
    choices = [
        sorted(draw.sample(CHOICES, draw.randint(1, 5)), key=CHOICES.index) for _ in range(PASSES)
    ]
    drawn = [
        (FORMS[place % 3], drawn_pass(), list(map(drawn_line, its)))
        for place, its in enumerate(choices)
    ]
    texts = [drawn_spelling(form, it) for form, it, _ in drawn]
    fields = [fields_of(*lines) for _, _, lines in drawn]
    answers = page.each("narrow", list(zip(texts, fields)))
    for (form, it, lines), text, answer in zip(drawn, texts, answers):
        wanted = kinds.text(it, *lines, form=form)
        by_tool = narrowed_by_tool(text, lines)
        check(by_tool == wanted, "passtool and the formats differ", text, lines, by_tool, wanted)
        check(
            answer.get("text") == wanted,
            "the page narrows differently",
            text,
            lines,
            answer,
            wanted,
        )
        check(
            [limit["isNew"] for limit in answer["limits"]]
            == [False] * len(it.caveats) + [True] * len(lines),
            "new limits",
            text,
        )
    counts = Counter(form for form, _, _ in drawn)
    print(
        f"{len(drawn)} passes narrowed by one to five choices, {counts['v1']} in V1, {counts['v2']} in V2 and {counts['json']} in JSON: "
        "each is the pass that passtool makes"
    )


def refuses_to_write_as_passtool(page):
    full, nearly = amys("v2", *["guests <= 1"] * 64), amys("v2", *["guests <= 1"] * 62)
    eight = ["kind = court", "facility = " + ",".join(["a" * 24] * 8)]
    rows = [
        (full, ["kind = court"], "65"),
        (nearly, ["kind = court", "guests <= 1", "spend <= 1"], "65"),
        *((amys(form, "x" * (5900 if form != "json" else 8050)), eight, "bytes") for form in FORMS),
    ]
    for text, lines, words in rows:
        fault = narrowed_by_tool(text, lines)
        answer = page.narrow(text, *fields_of(*lines))
        check(
            fault == ("fault 1: too long" if words == "bytes" else "fault 4: too many caveats"),
            "passtool",
            lines,
            fault,
        )
        check(
            "can't be narrowed with these limits" in answer.get("fault", ""),
            "a pass that becomes too large",
            lines,
            answer,
        )
        check(words in answer["fault"], "the size in the answer", lines, answer)
    at_most = page.narrow(nearly, ("kind", ["court"]), ("guests", "1"))
    check(
        at_most.get("text") == narrowed_by_tool(nearly, ["kind = court", "guests <= 1"]),
        "64 limits",
        at_most,
    )
    print(f"{len(rows)} passes that would become too large are refused, as passtool does")


README_PASS = Pass(
    b"http://mybank/",
    b"we used our secret key",
    [b"test = caveat"],
    bytes.fromhex("197bac7a044af33332865b9266e26d493bdd668a660e44d88ce1a998c23dbd67"),
)
KEYID = Pass(
    b"http://example.org/",
    b"keyid",
    [],
    bytes.fromhex("7cdee792511c5bc6f528485805dfe9b24e785e28e2a99301f9d711c609e38ef7"),
)
S64 = '"s64":"fN7nklEcW8b1KEhYBd_psk54XijiqZMB-dcRxgnjjvc"'
SHORT = '"i":"keyid",' + S64 + "}"


def faulty_texts():
    """Returns texts that the desk refuses as passes, each with its fault number and with words from the page's explanation."""
    v1, v2, known = passes.v1_bytes(README_PASS), passes.v2_bytes(KEYID), written("v2", KEYID)
    third_v1 = v1.replace(
        packet(b"cid", b"test = caveat"),
        packet(b"cid", b"a") + packet(b"vid", b"b") + packet(b"cl", b""),
    )
    third_v2 = field(2, b"a") + field(4, b"") + b"\0"

    def many(count, more=b"", behind=b""):
        caveats = (field(2, b"guests <= 1") + b"\0") * count + more
        return unpadded(
            b"\2"
            + field(2, b"keyid")
            + b"\0"
            + caveats
            + b"\0"
            + field(6, KEYID.signature)
            + behind
        )

    def with_member(member):
        return "{" + member + "," + SHORT

    def nested(depth):
        return '{"i":' + "[" * depth + "]" * depth + "," + SHORT

    guests = '{"i":"guests <= 1"}'
    return [
        # base64
        ("!", 2, "“!” at position 1"),
        ("Ag EJ", 2, "a space or a line break at position 3"),
        ("AgEJ\nAgEJ", 2, "a space or a line break at position 5"),
        ("\u00a0", 2, "a space or a line break at position 1"),
        ("A", 2, "breaks off"),
        ("Ag=E", 2, "“=” at position 3"),
        ("😀", 2, "“😀” at position 1"),
        ("Bearer " + known, 2, "position 7"),
        ("https://club.example/" + known, 2, "“:” at position 6"),
        (known.replace("_", "/").replace("-", "_"), 2, "two base64 alphabets"),
        (known + "==", 2, "the wrong number of = signs"),
        (known[:-1] + "d", 2, "ends with a wrong character"),
        ("====", 2, "the wrong number of = signs"),
        # no form
        ("Aw", 2, "doesn't begin like a pass"),
        ("MDA", 2, "breaks off in the location"),
        ("Zw", 2, "doesn't begin like a pass"),
        # V1
        (unpadded(v1 + b"x"), 2, "continues after the signature"),
        (unpadded(b"0003"), 2, "a length of 3"),
        (unpadded(b"0003location http://mybank/\n"), 2, "a length of 3"),
        (unpadded(b"001Clocation"), 2, "“001C”"),
        (
            unpadded(v1.replace(b"001cloc", b"001Cloc")),
            2,
            "“001C” where the length of the location should be",
        ),
        (
            unpadded(v1.replace(b"location", b"Location")),
            2,
            "“Location” where the location should be",
        ),
        (unpadded(v1.replace(b"001cloc", b"001bloc")), 2, "The length of the location is wrong"),
        (
            unpadded(v1.replace(b"cid ", b"vid ")),
            2,
            "“vid” where a caveat or the signature should be",
        ),
        (written("v1", replace(KEYID, signature=bytes(31))), 2, "31 bytes, not 32"),
        # V2
        (unpadded(b"\2\2\x85\0keyid"), 2, "isn't written with the fewest possible bytes"),
        (
            unpadded(v2.replace(b"\5keyid", b"\x85\0keyid")),
            2,
            "isn't written with the fewest possible bytes",
        ),
        (unpadded(v2 + b"\0"), 2, "continues after the signature"),
        (unpadded(b"\2\2\xff\xff\xff\x7f"), 2, "greater than the length of the whole text"),
        (unpadded(b"\2"), 2, "breaks off in the identifier"),
        (unpadded(b"\2\6\1a"), 2, "something else where the identifier should be"),
        (
            unpadded(b"\2" + field(2, b"a") + field(4, b"a")),
            2,
            "continues where the identifier should end",
        ),
        (written("v2", replace(KEYID, signature=bytes(33))), 2, "33 bytes, not 32"),
        (unpadded(v2[:-40]), 2, "breaks off in"),
        # JSON
        ("{", 2, "breaks off"),
        ("{}", 2, "Field i is missing"),
        ("[]", 2, "“[” at position 1"),
        ("{i", 2, "at position 2"),
        ('{"i":"keyid"}', 2, "Field s is missing"),
        ("{" + S64 + "}", 2, "Field i is missing"),
        ("{" + SHORT + "x", 2, "more text after the end"),
        ('{"i":"keyid","s64":"fN7nklEcW8b1KEhYBd_psk54XijiqZMB-dcRxgnjjg"}', 2, "31 bytes, not 32"),
        ("\ufeff{" + SHORT, 2, "at position 1"),
        (unpadded(b'{"\xff'), 2, "isn't valid UTF-8"),
        ('{"i":"a\nb",' + S64 + "}", 2, "a quoted text without"),
        ('{"i":"\\ud800",' + S64 + "}", 2, "an incomplete character"),
        (nested(127), 2, "more than 127 nested brackets"),
        *(
            (with_member('"v":' + it), 2, "isn't the whole number 2")
            for it in ("1", "2.0", "2e0", "-2", "null", '"2"')
        ),
        (with_member('"v":1e999'), 2, "too large"),
        (with_member('"v":02'), 2, "a comma or }"),
        (with_member('"i64":"_w"'), 2, "i and field i64 can't both be there"),
        (with_member('"c":null'), 2, "isn't a list"),
        (with_member('"c":{}'), 2, "isn't a list"),
        (with_member('"c":["a"]'), 2, "Caveat 1 isn't an object"),
        (with_member('"c":[{"l":"x"}]'), 2, "Field i of caveat 1 is missing"),
        (with_member('"x":1'), 2, "a field “x”"),
        (with_member('"c":[{"i":"a","i64":"_w"}]'), 2, "Field i of caveat 1 and field i64"),
        (with_member('"l":null'), 2, "Field l isn't a text"),
        (with_member('"l":"a","l64":"YQ"'), 2, "l and field l64 can't both be there"),
        (with_member('"l64":"_"'), 2, "Field l64 breaks off"),
        (
            with_member('"s":"0123456789abcdef0123456789abcdef"'),
            2,
            "s and field s64 can't both be there",
        ),
        (with_member('"c":[{"i":"a","v64":"_w","x":1}]'), 2, "Caveat 1 has a field “x”"),
        (with_member('"__proto__":1'), 2, "“__proto__”"),
        # third-party caveats, too many caveats, and texts that are too long
        (unpadded(third_v1), 3, "Caveat 1 needs"),
        (many(0, third_v2), 3, "Caveat 1 needs"),
        (
            unpadded(
                b"\2"
                + field(2, b"a")
                + b"\0"
                + field(1, b"")
                + third_v2
                + b"\0"
                + field(6, KEYID.signature)
            ),
            3,
            "Caveat 1 needs",
        ),
        (with_member('"c":[{"i":"a"},{"i":"a","v":"b"}]'), 3, "Caveat 2 needs"),
        (with_member('"c":[{"i":"a","v64":"_w"}]'), 3, "Caveat 1 needs"),
        (with_member('"c":[{"i":"a","l":""}]'), 3, "Caveat 1 needs"),
        (with_member('"c":[{"i":"a","l64":""}]'), 3, "Caveat 1 needs"),
        (many(65), 4, "The pass has 65 limits"),
        (many(64, third_v2), 3, "Caveat 65 needs"),
        (many(65, behind=b"\0"), 2, "continues after"),
        (with_member('"c":[' + ",".join([guests] * 65) + "]"), 4, "The pass has 65 limits"),
        (
            with_member('"c":[' + ",".join([guests] * 65) + ",{}]"),
            2,
            "Field i of caveat 66 is missing",
        ),
        (
            with_member('"c":[' + ",".join([guests] * 65) + ',{"i":"x","v64":""}]'),
            3,
            "Caveat 66 needs",
        ),
        ("{" * 8193, 1, "8,193 bytes"),
        ("A" * 8193, 1, "8,193 bytes"),
        ("é" * 4097, 1, "8,194 bytes"),
        ("{" * 8192, 2, "a quoted text without"),
        ("{" + SHORT + " " * 8128, 1, "8,193 bytes"),
    ]


def readable_texts():
    """Returns unusual texts that passtool accepts, such as a pass with 64 caveats."""
    v2, known = passes.v2_bytes(KEYID), written("v2", KEYID)
    return [
        *(it["text"] for it in VECTORS["also read as the third pass"]),
        known,
        f" \n{known}\n ",
        written("v1", KEYID),
        written("json", KEYID),
        written("v1", README_PASS),
        unpadded(v2.replace(field(1, KEYID.location), field(1, b""))),
        "{" + SHORT,
        "{" + SHORT + " " * 8127,
        written(
            "v1", Pass(b"", b"", [b"", b"x\n000acid y\n", packet(b"cid", b"vid a\n")], bytes(32))
        ),
        '{"i":' + "[" * 126 + "]" * 126 + "," + SHORT,
        '{"v":1.5,"v":2,' + SHORT,
        '{"i64":"_w",' + S64 + "}",
        '{"i":"a","i":"b",' + S64 + "}",
        '{"i":"\\"\\\\\\u0000\\u00e9\\/\\ud83d\\ude00",' + S64 + "}",
        unpadded(
            b"\2"
            + field(2, b"k")
            + b"\0"
            + (field(2, b"guests <= 1") + b"\0") * 64
            + b"\0"
            + field(6, bytes(32))
        ),
        unpadded(
            b"\2"
            + field(2, b"k")
            + b"\0"
            + field(2, b"x" * 128)
            + b"\0"
            + field(2, b"x" * 5000)
            + b"\0\0"
            + field(6, bytes(32))
        ),
        '{"s":"0123456789abcdef0123456789abcdef","i":"' + "\u2028é\x7f" + '","l":"","c":[]}',
        written("v2", Pass(b"", b"amy-1", [], bytes(32))),
    ]


def compare_reading(text, answer):
    """Checks that the page and passtool read a text in the same way. Returns the fault number, or 0 if the text has no fault."""
    # Unlike passtool, the page ignores spaces around a text, except when it checks the text's length.
    cut = text.removesuffix("\n")
    wanted = 1 if len(cut.encode()) > 8192 else reading_by_tool(cut)
    if isinstance(wanted, int):
        check(
            answer["fault"] and FAULTS[answer["fault"][0]] == wanted and not answer["shown"],
            "a faulty text",
            text,
            wanted,
            answer,
        )
        check(
            len(answer["fault"]) == 3 and all(answer["fault"]),
            "an answer without an explanation",
            text,
            answer,
        )
        return wanted
    facts, caveats = wanted
    check(
        not answer["fault"] and answer["facts"] == facts,
        "a pass that is read differently",
        text,
        wanted,
        answer,
    )
    check(
        [limit["text"] for limit in answer["limits"]] == caveats,
        "other limits",
        text,
        wanted,
        answer,
    )
    return 0


def answers_faulty_texts(page):
    rows = faulty_texts()
    answers = page.each("read", [text for text, _, _ in rows])
    for (text, fault, words), answer in zip(rows, answers):
        check(compare_reading(text, answer) == fault, "another fault", text, fault, answer)
        check(
            words in answer["fault"][1], "the page doesn't say what is wrong", text, words, answer
        )
    # Cuts off a valid text at each length from 1. If the text is empty or blank, the page shows no fault.
    for form, it in [("v1", README_PASS), ("v2", KEYID), ("json", README_PASS)]:
        whole = written(form, it)
        cuts = [whole[:length] for length in range(1, len(whole))]
        for text, answer in zip(cuts, page.each("read", cuts)):
            check(compare_reading(text, answer) == 2, "a truncated text", text, answer)
    empty = page.each("read", ["", " \n"])
    check(
        all(not answer["fault"] and not answer["shown"] for answer in empty), "an empty text", empty
    )
    texts = readable_texts()
    for text, answer in zip(texts, page.each("read", texts)):
        check(compare_reading(text, answer) == 0, "a pass that isn't read", text, answer)
    print(
        f"{len(rows)} faulty texts get the right answers, and so do known passes truncated at any length; {len(texts)} odd texts are read"
    )


def changed(text, what, letters):
    """Returns the text with one change: a letter is removed, inserted, doubled or replaced."""
    place = draw.randrange(len(text))
    rest = text[place + 1 :]
    return (
        text[:place]
        + [
            rest,
            draw.choice(letters) + text[place] + rest,
            text[place] * 2 + rest,
            draw.choice(letters) + rest,
        ][what]
    )


def spoiled(text):
    """Returns the text with a random change."""
    what = draw.randrange(9)
    if what == 4 and not text.startswith("{"):
        return spoiled_bytes(text)
    if what == 5:
        return with_third_party(text)
    if what == 6:
        return text[: max(draw.randrange(len(text)), 1)]
    return changed(text, min(what, 3), 'AZaz09-_+/=\n {}[]",:\\QgwBCx1u')


def bytes_of(text):
    return bytearray(base64.urlsafe_b64decode(text + "=" * (-len(text) % 4)))


def with_third_party(text):
    """Returns the text with an added field that only third-party caveats have. The place of the field is random."""
    if text.startswith("{"):
        return re.sub(r'\{"i', draw.choice(['{"v":"","i', '{"l64":"_w","i']), text, count=1)
    data = bytes_of(text)
    if data[0] == 2:
        ends = data.split(b"\0")
        ends[draw.randrange(len(ends))] += b"\4\0"
        return unpadded(b"\0".join(ends))
    caveat = draw.choice([*re.finditer(b"cid ", data)] or [None])
    place = caveat.start() - 4 + int(data[caveat.start() - 4 : caveat.start()], 16) if caveat else 0
    data[place:place] = draw.choice([b"0009vid \n", b"0008cl \n", b"000avid x\n0008cl \n"])
    return unpadded(bytes(data))


def spoiled_bytes(text):
    data = bytes_of(text)
    place = draw.randrange(len(data))
    if draw.random() < 0.5:
        data[place] = draw.choice([0, 1, 2, 4, 6, 10, 32, data[place] ^ 1, draw.randrange(256)])
    else:
        data[place:place] = draw.choice(
            [b"\0", b"\1\0", b"\4\0", b"000acid y\n", b"0009vid \n", draw.randbytes(1)]
        )
    return unpadded(bytes(data))


def reads_spoiled_texts(page):
    texts = [spoiled(written(draw.choice(FORMS), drawn_pass())) for _ in range(SPOILED)]
    counts = Counter(
        compare_reading(text, answer) for text, answer in zip(texts, page.each("read", texts))
    )
    print(
        f"{len(texts)} damaged passes are read as passtool does: {counts[0]} are still passes, {counts[2]} malformed, "
        f"{counts[3]} have third-party caveats"
    )


# Texts of caveats in addition to docs/vectors.json. NEAR_MISSES are almost valid texts, and EDGES have values at their limits.
NEAR_MISSES = [
    " ",
    "kind",
    "kind =",
    "kind = ",
    "kind=court",
    "kind  = court",
    "kind = court ",
    " kind = court",
    "kind = courts",
    "kind = court\n",
    "kind = court,boat",
    "kınd = court",
    "facility = ,",
    "facility = a,",
    "facility = ,a",
    "facility = a, b",
    "facility = a,,b",
    "facility = A",
    "facility = a_b",
    "facility = é",
    "hours = 08-8",
    "hours = 00-25",
    "hours = 24-24",
    "hours = 18-20-22",
    "hours = 18–20",
    "hours = +8-10",
    "days = 1999-12-31..2000-01-01",
    "days = 2099-12-31..2100-01-01",
    "days = 2026-5-1..2026-5-2",
    "days = 2026-05-01...2026-05-02",
    "days = 2026-05-01..",
    "days = 2026-04-31..2026-05-02",
    "days = 2026-00-01..2026-05-02",
    "days = now",
    "days = 2026-05-00..2026-05-02",
    "days = 2026-13-01..2027-01-01",
    "days = 2100-02-28..2100-02-28",
    "until <= 2026-05-01T18:00",
    "until < 2026-05-01T18:00:00",
    "until < 2026-05-01",
    "until < 2026-05-01T8:00",
    "until < 2026-05-01T18:00Z",
    "until < 2026-02-30T18:00",
    "until < 2026-05-01t18:00",
    "guests <= ",
    "guests <= +1",
    "guests <= 1.0",
    "guests < 2",
    "guests <= 1 ",
    "guests <= ٣",
    "guests <= 100",
    "guests <= 1e1",
    "spend <= ",
    "spend <= 00",
    "spend <= 0600",
    "spend <= 1,000",
    "spend <= -0",
    "spend < 600",
    "actions = View",
    "actions = view, book",
    "actions = read",
    "actions = ,view",
    "weekday = ",
    "weekday = fri,fri",
    "weekday = mon-fri",
    "weekdays = mon",
    "weekday = monday",
    "test = caveat",
    "guests <= 1\0",
    "\0",
    "guests <= ¹",
    "-",
    "--",
    "--any",
    "-h",
]
EDGES = [
    "facility = a",
    "facility = 0-",
    "facility = " + ",".join(["a" * 24] * 8),
    "hours = 00-01",
    "hours = 23-24",
    "days = 2000-02-29..2000-02-29",
    "until < 2000-01-01T00:00",
    "actions = account",
    "weekday = sun",
    "weekday = mon,sun",
]


def near_line():
    line, what = drawn_line(draw.choice(CHOICES)), draw.randrange(6)
    if what in (0, 1, 3):
        return changed(line, what, " 0123456789abZ-,.<=:Té\n\t")
    if what == 2:
        return line + draw.choice([" ", ",", "0", "\n", line[-1], ",a", ",sun", ",view"])
    if what == 4:
        place = draw.randrange(len(line))
        return line[:place] + line[place : place + 2][::-1] + line[place + 2 :]
    words = line.split(",")
    draw.shuffle(words)
    return ",".join(words)


def understands_as_passtool(page):
    texts = [
        *EDGES,
        *NEAR_MISSES,
        *(it["caveat"] for it in VECTORS["caveats"]),
        *VECTORS["not understood"],
    ]
    texts += [
        drawn_line(draw.choice(CHOICES)) if draw.random() < 0.3 else near_line()
        for _ in range(CAVEATS - len(texts))
    ]
    answers = page.each(
        "read", [amys("json", *texts[place : place + 50]) for place in range(0, len(texts), 50)]
    )
    limits = [limit for answer in answers for limit in answer["limits"]]
    check(len(limits) == len(texts), "limits that aren't shown", len(limits))
    understood = 0
    for text, limit in zip(texts, limits):
        # A program's argument can't contain a zero byte, so the test doesn't pass such a text to passtool.
        wanted = "\0" not in text and is_understood_by_tool(text)
        check(limit["understood"] == wanted, "understood differently", repr(text), wanted, limit)
        check(
            wanted or "doesn't understand this limit" in limit["words"],
            "a limit that isn't understood",
            limit,
        )
        understood += wanted
    check(understood < len(texts) < understood * 5, "texts of both kinds", understood)
    # Bytes that aren't text.
    odd = [b"\xff", b"kind = court\xa0", b"kind = caf\xe9", b"\xef\xbb\xbfkind = court"]
    for limit in page.each("read", [amys("v2", *odd)])[0]["limits"]:
        check(not limit["understood"], "bytes that aren't text", limit)
    print(f"{len(texts)} texts of caveats: the page understands the same {understood} as passtool")

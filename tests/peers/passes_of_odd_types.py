#!/usr/bin/env -S /usr/bin/python3 -B -m pytest -q -p no:cacheprovider
"""The modules for Python, Node.js and Go refuse values of odd types, and read no foreign memory.

The file odd_types/table.txt has the answer of each language to each value. No answer takes a
second. A pass keeps its bytes, even if the pass outlives its deletion, or if eight threads make and
drop passes.
"""

import copy
import gc
import re
import subprocess
from concurrent.futures import ThreadPoolExecutor
from datetime import date, datetime

import pytest

import bindings
import desk

pytestmark = [
    pytest.mark.programs,
    pytest.mark.needs("pass_c"),
    pytest.mark.wants("gcc libc6-dev pkg-config golang-go nodejs"),
]

HERE = desk.TESTS / "peers" / "odd_types"
PLACE = {"python": 0, "node": 1, "go": 2}
TEXT = "AgEJY2x1Yi1kZXNrAglrZXk6YW15LTEAAAYgDsU-vMVpq3Ex5_BQk6D5VX6TimC0IfCk7Dn6nv7TIJk"

# The values in Go. A value whose expression depends on the place has one for each place.
VALUES_OF_GO = {
    "nothing": "nil",
    "true": "true",
    "a number": "5",
    "a fraction": "18.5",
    "a number below 0": "-1",
    "a number above all": "1 << 70",
    "a list of numbers": "[]int{65, 103}",
    "an object that states a length of 50,000,000": "lengthy{50_000_000}",
    "a string": '"kind = court"',
    "an empty string": '""',
    "a mutable array of bytes": {
        "text": "text",
        "root": "root",
        "signer": "root",
        "identifier": "name",
        "location": "name",
        "caveat": "name",
        "line": "name",
    },
    "an array of wider numbers": "[]uint16{65, 103}",
    "50,000,000 letters": {
        "text": "letters",
        "caveat": "string(letters)",
        "identifier": "letters",
        "location": "letters",
        "line": "string(letters)",
        "facility": "string(letters)",
        "moment": "letters",
    },
    "the first moment of the language": "time.Time{}",
}
CALLS_OF_GO = {
    "text": "made(clubpass.Parse(VALUE))",
    "root": "made(clubpass.Mint(VALUE, name, nil))",
    "signer": "truth(minted.Verify(VALUE))",
    "caveat": "made(minted.Narrow(VALUE))",
    "identifier": "made(clubpass.Mint(root, VALUE, nil))",
    "location": "made(clubpass.Mint(root, name, VALUE))",
    "line": "truth(clubpass.IsCaveat(VALUE))",
    "facility": "asked(view(VALUE, 18, moment))",
    "hour": 'asked(view("court-1", VALUE, moment))',
    "moment": 'asked(view("court-1", 18, VALUE))',
    "ask": "asked(VALUE)",
}


def rows_of(language):
    """Returns the rows of the table that a language plays: place, value, answer."""
    found = []
    for line in (HERE / "table.txt").read_text(encoding="utf-8").splitlines():
        if line and not line.startswith("#"):
            place, value, *answers = re.split(r"  +", line)
            if answers[PLACE[language]] != "-":
                found.append((place, value, answers[PLACE[language]]))
    assert len(found) > 50
    return found


def played(words, rows):
    asked = "".join(f"{place}|{value}\n" for place, value, _ in rows)
    ended = subprocess.run(words, input=asked, capture_output=True, text=True, timeout=300)
    assert ended.returncode == 0, ended.stderr
    return list(zip(rows, ended.stdout.splitlines(), strict=True))


@pytest.mark.parametrize("language", ["python", "node"])
def test_odd_types(library, language):
    rows = rows_of(language)
    words = bindings.program(language, library, HERE, "odd")
    wrong = [(*row, found) for row, found in played(words, rows) if found != row[2]]
    assert not wrong


def source_of_go(room, name, rows):
    """Writes a program in Go that plays rows. Returns the program, and the number of the line of
    the first row."""
    lines = []
    for place, value, _ in rows:
        spelled = VALUES_OF_GO[value]
        spelled = spelled if isinstance(spelled, str) else spelled[place]
        call = CALLS_OF_GO[place].replace("VALUE", spelled)
        lines.append(f"\tplay(func() string {{ return {call} }})")
    before, after = (HERE / "odd.go.txt").read_text(encoding="utf-8").split("// ROWS\n")
    made = room / f"{name}.go"
    made.write_text(before + "\n".join(lines) + "\n" + after, encoding="utf-8")
    return made, before.count("\n") + 1


def test_odd_types_in_go(library):
    rows = [row for row in rows_of("go") if row[2] != "type"]
    source, _ = source_of_go(library, "odd", rows)
    words = bindings.go_program(library, source)
    wrong = [(*row, found) for row, found in played(words, rows) if found != row[2]]
    assert not wrong


def test_go_compiles_no_other_type(library):
    """The compiler refuses each of these rows, and names the row's line."""
    rows = [row for row in rows_of("go") if row[2] == "type"]
    source, first = source_of_go(library, "refused", rows)
    ended = bindings.go_build(library, source, "-gcflags=-e")
    assert ended.returncode
    refused = {int(it) for it in re.findall(r"refused\.go:(\d+):", ended.stderr)}
    assert [row for place, row in enumerate(rows, first) if place not in refused] == []


def test_faults_from_python(clubpass):
    with pytest.raises(clubpass.TooLong):
        clubpass.Pass.parse("A" * 8193)
    with pytest.raises(clubpass.Malformed):
        clubpass.Pass.parse(TEXT[:-1])
    full = clubpass.Pass.parse(TEXT).narrow(*["a = b"] * 64)
    with pytest.raises(clubpass.TooMany):
        full.narrow("a = b")
    assert len(full.caveats) == 64
    with pytest.raises(clubpass.NoRoom):
        clubpass.Pass.mint(b"root", b"a" * 4096, b"b" * 4097)
    with pytest.raises(clubpass.TooLong):
        clubpass.Pass.mint(b"root", b"a" * 6144).to("v2")
    with pytest.raises(ValueError, match="no such form"):
        full.to("v3")
    with pytest.raises(TypeError):
        clubpass.Pass()


@pytest.mark.parametrize("spoiled", ["\ud800", f"{TEXT}\udfff", '\ud800{"v":2}', '{"v\ud800":2}'])
def test_texts_with_half_a_character(clubpass, spoiled):
    """json.loads makes such a text of an escape."""
    with pytest.raises(clubpass.Malformed):
        clubpass.Pass.parse(spoiled)
    assert not clubpass.is_caveat(spoiled)


@pytest.mark.parametrize(
    ("moment", "hour"), [(datetime(2100, 1, 1), 18), (datetime(2026, 1, 1), 24)]
)
def test_requests_out_of_range(clubpass, moment, hour):
    ask = clubpass.Ask("book", moment, "court-1", date(2026, 1, 1), hour)
    with pytest.raises(clubpass.NotAnAsk):
        clubpass.Pass.parse(TEXT).first_fault(ask)


@pytest.mark.parametrize("root", ["root", bytearray(b"root"), None])
def test_a_root_is_bytes(clubpass, root):
    with pytest.raises(TypeError):
        clubpass.Pass.parse(TEXT).verify(root)
    with pytest.raises(TypeError):
        clubpass.Pass.mint(root, "key:a-1")


def test_passes_of_equal_parts_are_equal(clubpass):
    made = clubpass.Pass.parse(TEXT)
    texts = [made.to(form) for form in ("v1", "v2", "json")]
    assert len({clubpass.Pass.parse(it) for it in texts}) == 1
    assert eval(repr(made), {"Pass": clubpass.Pass}) == made
    assert copy.copy(made) is made is copy.deepcopy(made)


def test_a_pass_that_outlives_its_deletion(clubpass):
    """An object that the garbage collector deletes can keep its pass. Such a pass isn't the next
    one that somebody makes."""
    kept = []

    class Holder:
        def __init__(self, held):
            self.held, self.cycle = held, self

        def __del__(self):
            kept.append(self.held)

    wanted = []
    for number in range(20):
        made = clubpass.Pass.mint(b"root", f"key:mine-{number}")
        wanted.append(str(made))
        Holder(made)
    del made
    gc.collect()
    others = [clubpass.Pass.mint(b"root", f"key:other-{number}") for number in range(40)]
    assert sorted(map(str, kept)) == sorted(wanted)
    assert len(set(map(str, others))) == 40


def test_passes_of_threads(clubpass):
    """A pass doesn't change while eight threads make and drop other passes."""

    def busy(number):
        minted = [clubpass.Pass.mint(b"root", f"key:{number}-{it}") for it in range(40)]
        kept, texts = minted[::2], [str(it) for it in minted[::2]]
        del minted
        for it in range(300):
            other = clubpass.Pass.parse(texts[it % 20]).narrow(f"guests <= {it % 50}")
            assert other.verify(b"root") and other.caveats == [f"guests <= {it % 50}".encode()]
        assert [str(it) for it in kept] == texts and all(it.verify(b"root") for it in kept)

    with ThreadPoolExecutor(8) as pool:
        list(pool.map(busy, range(8)))

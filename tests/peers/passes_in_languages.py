#!/usr/bin/env -S /usr/bin/python3 -B -m pytest -q -p no:cacheprovider
"""The library of passes, called from C, Python, Go and Node.js, agrees with docs/vectors.json.

docs/vectors.json has each pass in V1, V2 and JSON, other texts of the same passes, and texts that
aren't passes. The file also says for each caveat and each request whether the caveat allows the
request. The test also mints and narrows each pass again. The examples in bindings/ narrow the pass
of README.
"""

import json
import subprocess

import pytest

import desk
from bindings import BINDINGS, LANGUAGES, program
from reference import passes

pytestmark = [
    pytest.mark.programs,
    pytest.mark.needs("passtool pass_c"),
    pytest.mark.wants("mypy gcc libc6-dev pkg-config golang-go nodejs"),
]

VECTORS = json.loads((desk.ROOT / "docs" / "vectors.json").read_text(encoding="utf-8"))
HERE = desk.TESTS / "peers" / "passes_from_c"
FORMS = ["v1", "v2", "json"]
THIRD = VECTORS["passes"][2]
FAULTS = {
    "fault 1: too long": 1,
    "fault 2: malformed": 2,
    "fault 3: third-party caveat": 3,
    "fault 4: too many caveats": 4,
}


def bytes_of(owner, name):
    return bytes.fromhex(owner[f"{name}_hex"]) if f"{name}_hex" in owner else owner[name].encode()


def caveats_of(vector):
    return [
        bytes.fromhex(it["hex"]) if isinstance(it, dict) else it.encode()
        for it in vector["caveats"]
    ]


def spelled(data):
    return data.hex() or "-"


def told(vector, form):
    """Returns the line that the program in each language must print for a pass."""
    parts = [
        spelled(bytes_of(vector, "location")),
        spelled(bytes_of(vector, "identifier")),
        ",".join(map(spelled, caveats_of(vector))) or "-",
    ]
    texts = [vector[it].encode().hex() for it in FORMS]
    again = passes.chain(
        bytes.fromhex(vector.get("root", "00")), bytes_of(vector, "identifier"), caveats_of(vector)
    )
    return " ".join(
        [
            form,
            *parts,
            vector["signature"],
            *texts,
            again.hex(),
            "signed" if "root" in vector else "not signed",
        ]
    )


def lines():
    """Yields each line of the programs' input, with the line that the programs must then print."""
    for vector in VECTORS["passes"]:
        for form in FORMS:
            if form in vector:
                yield f"pass {vector.get('root', '00')} {vector[form].encode().hex()}", told(
                    vector, form
                )
    for vector in VECTORS["also read as the third pass"]:
        yield f"pass 00 {vector['text'].encode().hex()}", told(THIRD, vector["form"])
    for vector in VECTORS["not passes"]:
        yield f"pass 00 {bytes_of(vector, 'text').hex() or '-'}", f"fault {FAULTS[vector['fault']]}"
    yield from verdicts()


def words_of(request):
    """Returns a request's action, kind, moment, facility, day, hour, guests, points owed and points
    spent."""
    commands = (it.split() for it in VECTORS["club"]["commands"])
    facilities = {
        name: (kind, int(price))
        for _, command, _, name, kind, _, price, *_ in (
            it for it in commands if it[1] == "add-facility"
        )
    }
    words = request["path"].strip("/").split("/")
    if words == ["account"]:
        return f"account - {request['at']} - - 0 0 0 0"
    kind, price = facilities.get(words[1], ("-", 0))
    action = {"PUT": "book", "DELETE": "cancel", "GET": "view"}[request["method"]]
    guests = request.get("guests", 0)
    owed = price * (guests + 1) if action == "book" else 0
    return f"{action} {kind} {request['at']} {' '.join(words[1:4])} {guests} {owed} 0"


def narrowed(*caveats):
    """Returns the text of a pass with these caveats, made by tests/reference."""
    made = passes.minted(b"root", b"key:a-1")
    for caveat in caveats:
        made = made.narrowed(caveat.encode())
    return passes.text_of(made, "v2").hex()


def verdicts():
    for vector in VECTORS["caveats"]:
        yield f"caveat {spelled(vector['caveat'].encode())}", "yes"
        for name, request in VECTORS["asks"].items():
            wanted = "allows" if vector[name] == "allows" else f"{vector[name]} 2"
            yield f"ask {narrowed('guests <= 49', vector['caveat'])} {words_of(request)}", wanted
    book = words_of(VECTORS["asks"]["book"])
    for line in VECTORS["not understood"]:
        yield f"caveat {spelled(line.encode())}", "no"
        yield f"ask {narrowed('guests <= 49', 'kind = court', line)} {book}", "not understood 3"
    for points, wanted in [
        ("600 0", "allows"),
        ("600 1", "denies 1"),
        ("601 0", "denies 1"),
        ("1 600", "denies 1"),
        ("0 601", "allows"),
    ]:
        yield f"ask {narrowed('spend <= 600')} {book.removesuffix('600 0')}{points}", wanted
    for old, new in [
        ("2026-04-20T12:00", "1999-12-31T23:59"),
        ("2026-04-20T12:00", "2100-01-01T00:00"),
        ("2026-05-01", "1999-12-31"),
        (" 18 ", " 24 "),
        (" 18 ", " 274 "),
        ("court-1", "Court-1"),
        ("court-1", "a" * 25),
    ]:
        yield f"ask {narrowed()} {book.replace(old, new)}", "no ask"


@pytest.mark.parametrize("language", LANGUAGES)
def test_vectors(library, language):
    given, wanted = zip(*lines())
    words = program(language, library, HERE, "tell")
    found = subprocess.run(
        words, input="".join(f"{it}\n" for it in given), check=True, capture_output=True, text=True
    ).stdout.splitlines()
    assert len(found) == len(wanted)
    for asked, line, right in zip(given, found, wanted):
        assert line == right, asked


@pytest.mark.parametrize("language", LANGUAGES)
def test_lent_pass_of_the_page(library, language):
    """The example narrows the pass in README, and prints the new pass and the word `signed`."""
    page = (desk.ROOT / "README.md").read_text(encoding="utf-8")
    text = next(it for it in page.split() if it.startswith("AgEJ"))
    words = program(language, library, BINDINGS / language, "lend")
    lent = subprocess.run(
        [desk.program("passtool"), "narrow", "kind = court"],
        input=text,
        check=True,
        capture_output=True,
        text=True,
    ).stdout
    assert (
        subprocess.run(words, input=f"{text}\n", check=True, capture_output=True, text=True).stdout
        == f"{lent}signed\n"
    )


def test_types_of_the_module():
    """The Python module has type annotations for type checkers."""
    checked = subprocess.run(
        ["/usr/bin/mypy", "--strict", "--cache-dir=/dev/null", BINDINGS / "python" / "clubpass"],
        capture_output=True,
        text=True,
    )
    assert checked.returncode == 0, checked.stdout

#!/usr/bin/env -S /usr/bin/python3 -B -m pytest -q -p no:cacheprovider
"""`passtool` and the server agree with docs/vectors.json about passes, invalid texts, caveats and
replies.

docs/vectors.json has each pass in each form, and other texts of one pass. docs/vectors.json also
has the verdict of each caveat on each request, and each reply byte for byte. Between some requests,
the test runs commands of the office, and each command prints its expected lines. Python's standard
library must compute the same signatures. pymacaroons must write the same V1 and V2 texts, for the
passes that it can write.
"""

import contextlib
import itertools
import json

import pytest
from pymacaroons import Macaroon

import desk
from conftest import Club
from kinds import Command, Row
from reference import passes

pytestmark = [
    pytest.mark.pages,
    pytest.mark.quick,
    pytest.mark.needs("clubdesk passtool"),
    pytest.mark.wants("python3-pymacaroons"),
]

VECTORS = json.loads((desk.ROOT / "docs" / "vectors.json").read_text(encoding="utf-8"))
FORMS = list(passes.FORMS)
THIRD = VECTORS["passes"][2]


def each(vectors):
    """Makes a test for each vector, named after the vector."""
    names = [it if isinstance(it, str) else it.get("what") or it["caveat"] for it in vectors]
    return pytest.mark.parametrize("vector", vectors, ids=names)


def bytes_of(owner, name):
    return bytes.fromhex(owner[f"{name}_hex"]) if f"{name}_hex" in owner else owner[name].encode()


def caveats_of(vector):
    return [
        bytes.fromhex(it["hex"]) if isinstance(it, dict) else it.encode()
        for it in vector["caveats"]
    ]


def shown(data):
    return "".join(
        "\\\\" if b == 0x5C else chr(b) if 0x20 <= b <= 0x7E else f"\\x{b:02x}" for b in data
    )


def texts_of(vector):
    """Returns the location, the identifier and the caveats as texts, or None if one of them isn't
    UTF-8."""
    try:
        return [
            it.decode()
            for it in (
                bytes_of(vector, "location"),
                bytes_of(vector, "identifier"),
                *caveats_of(vector),
            )
        ]
    except UnicodeDecodeError:
        return None


WITH_A_ROOT = [it for it in VECTORS["passes"] if "root" in it]
OF_WORDS = [it for it in WITH_A_ROOT if texts_of(it) is not None]


@each(WITH_A_ROOT)
def test_signatures_by_the_standard_library(vector):
    """The signatures in the vector are the chain of signatures under the root."""
    minted = passes.minted(bytes.fromhex(vector["root"]), bytes_of(vector, "identifier"))
    chain = [
        it.signature.hex()
        for it in itertools.accumulate(caveats_of(vector), passes.Pass.narrowed, initial=minted)
    ]
    assert chain == vector["signatures"] and chain[-1] == vector["signature"]


@each(WITH_A_ROOT)
def test_texts_by_pymacaroons(vector):
    """pymacaroons can write only passes in ASCII with an identifier, and in V2 only passes with a
    location."""
    texts = texts_of(vector)
    if texts is None or not all(it.isascii() for it in texts) or not texts[1]:
        pytest.skip("pymacaroons counts characters instead of bytes, and needs an identifier")
    location, identifier, *caveats = texts
    for version in (1, 2) if location else (1,):
        macaroon = Macaroon(
            location=location,
            identifier=identifier,
            key=bytes.fromhex(vector["root"]),
            version=version,
        )
        for caveat in caveats:
            macaroon.add_first_party_caveat(caveat)
        assert macaroon.serialize() == vector[FORMS[version - 1]]


@pytest.mark.parametrize("form", FORMS)
@each(VECTORS["passes"])
def test_pass_in_a_form(passtool, vector, form):
    text = vector[form]
    for other in FORMS:
        assert passtool("convert", "--form", other, given=text) == (0, vector[other] + "\n")
    lines = [
        f"form {form}",
        f"location {shown(bytes_of(vector, 'location'))}",
        f"identifier {shown(bytes_of(vector, 'identifier'))}",
    ]
    lines += [f"caveat {n} {shown(caveat)}" for n, caveat in enumerate(caveats_of(vector), 1)] + [
        f"signature {vector['signature']}"
    ]
    assert passtool("show", given=text) == (0, "\n".join(lines) + "\n")
    if "root" not in vector:
        return
    other_root = f"{int(vector['root'][:2], 16) ^ 1:02x}{vector['root'][2:]}"
    assert passtool("verify", "--root", vector["root"], given=text) == (0, "signed\n")
    assert passtool("verify", "--root", other_root, given=text) == (1, "not signed\n")


@pytest.mark.parametrize("form", FORMS)
@each(OF_WORDS)
def test_pass_is_minted_and_narrowed(passtool, vector, form):
    location, identifier, *caveats = texts_of(vector)
    words = [
        "--root",
        vector["root"],
        f"--id={identifier}",
        f"--location={location}",
        "--form",
        form,
        "--",
    ]
    assert passtool("mint", *words, *caveats) == (0, vector[form] + "\n")
    if caveats:
        assert passtool("narrow", "--any", "--", *caveats, given=passtool("mint", *words)[1]) == (
            0,
            vector[form] + "\n",
        )


@each(VECTORS["also read as the third pass"])
def test_another_text_of_the_third_pass(passtool, vector):
    assert passtool("convert", "--form", "v2", given=vector["text"]) == (0, THIRD["v2"] + "\n")
    assert passtool("show", given=vector["text"])[1].split("\n")[0] == f"form {vector['form']}"


@each(VECTORS["not passes"])
def test_text_that_is_no_pass(passtool, vector):
    assert passtool("show", given=vector["text"]) == (3, vector["fault"] + "\n")


@pytest.fixture(scope="module")
def made(clubdesk, tmp_path_factory):
    """Makes the club of the vectors. `amy` is the pass that the club's first add-key command
    prints."""
    club = Club(clubdesk, tmp_path_factory.mktemp("made") / "club")
    printed = [
        club.does(command.removeprefix("clubdesk ").replace(" CLUB", ""))
        for command in VECTORS["club"]["commands"]
    ]
    club.amy = next(it for it in printed if it != "done")
    return club


def verdict(passtool, club, amy, caveat, asked):
    """Sends a request under amy's pass with this caveat added, and returns the caveat's verdict."""
    passed = passtool("narrow", "--any", "--", caveat, given=amy)[1].strip()
    body = f'{{"guests":{asked["guests"]}}}' if "guests" in asked else None
    reply = club.ask(Row(asked["method"], asked["path"], body, passed).data, asked["at"]).value
    assert reply.get("caveat", 1) == 1
    return {11: "not understood", 12: "denies"}.get(reply.get("fault"), "allows")


@pytest.mark.parametrize("name", VECTORS["asks"])
@each(VECTORS["caveats"])
def test_verdict_on_a_caveat(passtool, club, made, vector, name):
    assert (
        verdict(passtool, club, made.amy, vector["caveat"], VECTORS["asks"][name]) == vector[name]
    )


@pytest.mark.parametrize("name", ["book", "account"])
@each(VECTORS["not understood"])
def test_caveat_that_is_not_understood(passtool, club, made, vector, name):
    assert verdict(passtool, club, made.amy, vector, VECTORS["asks"][name]) == "not understood"
    assert passtool("narrow", "--", vector, given=made.amy) == (5, "caveat 1 not understood\n")


def row_of(exchange):
    return Row(
        raw=exchange["request"].encode(), moment=exchange["at"], wanted=exchange["reply"].encode()
    )


@each(VECTORS["runs"])
def test_replies_of_a_run(club, vector):
    club.play(map(row_of, vector["exchanges"]))


def command_of(step):
    """Returns the command of a step, with the output or the refusal that it must print."""
    _, name, _, *values = step["command"].split()
    is_refused = step["prints"].startswith("refused: ")
    return Command(
        (name, *values),
        "" if is_refused else step["prints"] + "\n",
        step["prints"] if is_refused else "",
    )


@pytest.mark.parametrize("is_served", [False, True], ids=["file", "door"])
@each(VECTORS["office"])
def test_commands_between_requests(club, vector, is_served):
    """Runs each command on the club's file, directly or while a server runs. Sends each request to
    a new server."""
    for step in vector["steps"]:
        with club.served() if is_served and "command" in step else contextlib.nullcontext():
            club.play([command_of(step) if "command" in step else row_of(step)])

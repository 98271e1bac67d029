#!/usr/bin/env -S /usr/bin/python3 -B -m pytest -q -p no:cacheprovider
"""passtool reads and writes passes of each length, with a caveat of each first byte, and texts with
padding, indentation or base64.

The passes and their texts come from the rules in Python (tests/reference). Each length of a text is
tried in JSON, from the shortest text to 8,192 bytes. In base64, the lengths differ by at most 16.
Each text in base64 is also read with padding.
"""

import base64
import json
from concurrent.futures import ThreadPoolExecutor

import pytest

from reference import passes

pytestmark = [pytest.mark.programs, pytest.mark.quick, pytest.mark.needs("passtool")]

ROOT = bytes.fromhex("00112233445566778899aabbccddeeff")
VERIFY = ["verify", "--root", ROOT.hex()]
LONGEST = 8192
AT_ONCE = 4


def minted(identifier: bytes, caveats: list[bytes], location: bytes = b"club-desk") -> passes.Pass:
    return passes.minted(ROOT, identifier, location, caveats)


def text_in(form: str, it: passes.Pass) -> str:
    return passes.text_of(it, form).decode()


def padded(text: str) -> str:
    return text + "=" * (-len(text) % 4)


def each(passtool, runs: list[tuple[list[str], str, str]]):
    """Runs passtool with arguments and an input, and expects the output with status 0."""
    with ThreadPoolExecutor(AT_ONCE) as pool:
        told = pool.map(lambda run: passtool(*run[0], given=run[1]), runs)
        for run, (status, output) in zip(runs, told):
            assert (status, output) == (0, run[2] + "\n"), run[:2]


def test_json_of_each_length(passtool):
    """A text of each length is read, up to the longest."""
    shortest = len(text_in("json", minted(b"", [], b"")))
    texts = [
        text_in("json", minted(b"k" * more, [], b"")) for more in range(LONGEST - shortest + 1)
    ]
    assert [len(it) for it in texts] == list(range(shortest, LONGEST + 1))
    each(passtool, [(VERIFY, it, "signed") for it in texts])


@pytest.mark.parametrize("form, longest", [("v1", 6067), ("v2", 6104)])
def test_base64_of_many_lengths(passtool, form: str, longest: int):
    """A text in base64 is read with padding and without."""
    lengths = [*range(0, longest, 11), *range(longest - 3, longest + 1)]
    texts = [text_in(form, minted(b"k" * it, [], b"")) for it in lengths]
    assert len(texts[-1]) == LONGEST
    each(passtool, [(VERIFY, it, "signed") for text in texts for it in (text, padded(text))])


@pytest.mark.parametrize("form", passes.FORMS)
def test_caveats_of_each_first_byte(passtool, form: str):
    """A pass is shown and converted if its caveats begin with any bytes."""
    for first in range(0, 256, 64):
        caveats = [bytes([it]) + b" = x" for it in range(first, first + 64)]
        it = minted(b"key:amy-1", caveats)
        runs = [
            (["convert", "--form", to], text_in(form, it), text_in(to, it)) for to in passes.FORMS
        ]
        each(passtool, [(VERIFY, text_in(form, it), "signed"), *runs])


LONG = [
    ("an identifier of 6,000 bytes", minted(b"\xff" * 6000, [])),
    ("an identifier of 4,500 bytes", minted(b"\xff" * 4500, [])),
    ("64 caveats of 60 bytes", minted(b"key:amy-1", [b"abcdefghij" * 6] * 64)),
]


def shown(it: passes.Pass, form: str) -> str:
    """Returns what `passtool show` prints, without the last line feed."""

    def plain(data: bytes) -> str:
        return "".join(chr(b) if 0x20 <= b <= 0x7E else f"\\x{b:02x}" for b in data)

    lines = [f"form {form}", f"location {plain(it.location)}", f"identifier {plain(it.identifier)}"]
    lines += [f"caveat {n} {plain(caveat)}" for n, caveat in enumerate(it.caveats, 1)]
    return "\n".join([*lines, f"signature {it.signature.hex()}"])


@pytest.mark.parametrize("it", [it for _, it in LONG], ids=[what for what, _ in LONG])
def test_long_passes(passtool, it: passes.Pass):
    """A long pass is shown, verified and converted, also from JSON in base64."""
    texts = {form: text_in(form, it) for form in passes.FORMS}
    in_base64 = base64.urlsafe_b64encode(texts["json"].encode()).decode()
    inputs = [*texts.items(), ("json", in_base64)]
    for form, text in (run for run in inputs if len(run[1]) <= LONGEST):
        runs = [(["convert", "--form", to], text, texts[to]) for to in passes.FORMS]
        each(passtool, [(VERIFY, text, "signed"), (["show"], text, shown(it, form)), *runs])


@pytest.mark.parametrize("indent", [None, 0, 1, 2, 8, "\t"])
def test_indented_json(passtool, indent: int | str | None):
    """JSON with line feeds and indentation is read, also with caveats that aren't UTF-8."""
    it = minted(b"key:amy-1", [b"guests <= 1", b"\xff\xfe", b"", "ü".encode()])
    text = json.dumps(json.loads(text_in("json", it)), indent=indent, ensure_ascii=False)
    each(passtool, [(["convert", "--form", "v1"], text, text_in("v1", it))])
    each(passtool, [(["convert", "--form", "json"], text, text_in("json", it))])


@pytest.mark.parametrize("form", passes.FORMS)
def test_narrowing_by_two_caveats(passtool, form: str):
    """A pass is narrowed by two caveats at once."""
    caveats = [b"guests <= 2", b"kind = court"]
    before, after = minted(b"key:amy-1", []), minted(b"key:amy-1", caveats)
    words = ["narrow", *(it.decode() for it in caveats)]
    each(passtool, [(words, text_in(form, before), text_in(form, after))])

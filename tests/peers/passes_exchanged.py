#!/usr/bin/env -S /usr/bin/python3 -B -m pytest -q -p no:cacheprovider
"""The library of passes exchanges passes with libmacaroons and pymacaroons.

libmacaroons and pymacaroons narrow and verify passes that our library mints. Our library narrows
and verifies passes that these two libraries mint.
"""

import ctypes
import random

import pytest
from pymacaroons import Macaroon, Verifier
from pymacaroons.exceptions import MacaroonInvalidSignatureException
from pymacaroons.serializers import JsonSerializer

pytestmark = [
    pytest.mark.programs,
    pytest.mark.needs("pass_c"),
    pytest.mark.wants("python3-pymacaroons gcc libc6-dev libmacaroons-dev"),
]

FORMS = ["v1", "v2", "json"]
PASSES = 300


@pytest.fixture
def drawn():
    """Returns a function that draws a root, an identifier, a location and caveats in ASCII, because
    some of the libraries accept only ASCII."""
    draw = random.Random(20260501)

    def line():
        return "".join(chr(draw.randint(33, 126)) for _ in range(draw.randint(1, 40)))

    def draw_pass():
        caveats = [line() for _ in range(draw.randint(0, 8))]
        return draw.randbytes(draw.randint(1, 64)), line(), line(), caveats

    return draw_pass


class Pymacaroons:
    """Calls pymacaroons, which has its own reader and writer for JSON."""

    def __init__(self, form):
        self.version = 1 if form == "v1" else 2
        self.words = [JsonSerializer()] if form == "json" else []

    def minted(self, root, identifier, location):
        return Macaroon(location=location, identifier=identifier, key=root, version=self.version)

    def read(self, text):
        return Macaroon.deserialize(text, *self.words)

    def text(self, found):
        return found.serialize(*self.words)

    def verify(self, text, root):
        """Verifies a pass with any caveats. Raises an error if the root didn't sign the pass."""
        verifier = Verifier()
        verifier.satisfy_general(lambda _: True)
        return verifier.verify(self.read(text), root)


@pytest.mark.parametrize("form", FORMS)
def test_pymacaroons_narrows_as_the_library_does(clubpass, drawn, form):
    theirs = Pymacaroons(form)
    for _ in range(PASSES):
        root, identifier, location, caveats = drawn()
        ours = clubpass.Pass.mint(root, identifier, location)
        made = theirs.minted(root, identifier, location)
        narrowed = theirs.read(ours.to(form))
        for caveat in caveats:
            made.add_first_party_caveat(caveat)
            narrowed.add_first_party_caveat(caveat)
        wanted = ours.narrow(*caveats)
        assert clubpass.Pass.parse(theirs.text(made)) == wanted
        assert clubpass.Pass.parse(theirs.text(narrowed)) == wanted


@pytest.mark.parametrize("form", FORMS)
def test_pymacaroons_verifies_as_the_library_does(clubpass, drawn, form):
    theirs = Pymacaroons(form)
    for _ in range(PASSES):
        root, identifier, location, caveats = drawn()
        signed = clubpass.Pass.mint(root, identifier, location).narrow(*caveats)
        other = clubpass.Pass.mint(root + b"!", identifier, location).narrow(*caveats)
        assert theirs.verify(signed.to(form), root) and signed.verify(root)
        with pytest.raises(MacaroonInvalidSignatureException):
            theirs.verify(other.to(form), root)
        assert not other.verify(root)


class Libmacaroons:
    """Calls functions of Debian's libmacaroons through ctypes. This library reads and writes only
    V1."""

    def __init__(self):
        self.c = ctypes.CDLL("libmacaroons.so.0")
        for name in ("create", "deserialize", "add_first_party_caveat", "verifier_create"):
            getattr(self.c, f"macaroon_{name}").restype = ctypes.c_void_p
        self.c.macaroon_serialize_size_hint.restype = ctypes.c_size_t
        self.fault = ctypes.c_int()

    def call(self, name, *arguments):
        """Calls a function of the library. A bytes object becomes two arguments, an address and a
        length. A number becomes a length, and any other value an address."""
        passed = []
        for it in arguments:
            passed += [it, ctypes.c_size_t(len(it))] if isinstance(it, bytes) else [it]
        return getattr(self.c, f"macaroon_{name}")(*passed, ctypes.byref(self.fault))

    def minted(self, root, identifier, location):
        return ctypes.c_void_p(self.call("create", location, root, identifier))

    def narrowed(self, at, caveats):
        for caveat in caveats:
            at = ctypes.c_void_p(self.call("add_first_party_caveat", at, caveat))
            assert at
        return at

    def read(self, text):
        at = self.c.macaroon_deserialize(text, ctypes.byref(self.fault))
        assert at
        return ctypes.c_void_p(at)

    def text(self, at):
        room = self.c.macaroon_serialize_size_hint(at)
        out = ctypes.create_string_buffer(room)
        assert self.call("serialize", at, out, ctypes.c_size_t(room)) == 0
        return out.value

    def verifies(self, at, root, caveats):
        verifier = ctypes.c_void_p(self.c.macaroon_verifier_create())
        for caveat in caveats:
            self.call("verifier_satisfy_exact", verifier, caveat)
        return self.call("verify", verifier, at, root, None, ctypes.c_size_t(0)) == 0


@pytest.fixture(scope="module")
def libmacaroons():
    return Libmacaroons()


def test_libmacaroons_narrows_as_the_library_does(clubpass, drawn, libmacaroons):
    for _ in range(PASSES):
        root, identifier, location, caveats = drawn()
        wanted = clubpass.Pass.mint(root, identifier, location).narrow(*caveats)
        lines = [it.encode() for it in caveats]
        made = libmacaroons.minted(root, identifier.encode(), location.encode())
        text = libmacaroons.text(libmacaroons.narrowed(made, lines))
        assert clubpass.Pass.parse(text) == wanted
        read = libmacaroons.read(wanted.to("v1").encode())
        text = libmacaroons.text(libmacaroons.narrowed(read, [b"more = 1"]))
        assert clubpass.Pass.parse(text) == wanted.narrow("more = 1")


def test_libmacaroons_verifies_as_the_library_does(clubpass, drawn, libmacaroons):
    for _ in range(PASSES):
        root, identifier, location, caveats = drawn()
        lines = [it.encode() for it in caveats]
        signed = clubpass.Pass.mint(root, identifier, location).narrow(*caveats)
        read = libmacaroons.read(signed.to("v1").encode())
        assert libmacaroons.verifies(read, root, lines)
        assert not libmacaroons.verifies(read, root + b"!", lines)

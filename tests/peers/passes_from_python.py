#!/usr/bin/env -S /usr/bin/python3 -B
"""The library of passes, called from Python, agrees with `passtool` on 100,000 random or damaged
texts.

A seed determines the texts. The texts are passes with random bytes in V1, V2 or JSON, with up to 64
caveats. The test damages some of the texts. In some of these, the test changes, inserts, removes or
doubles bytes in the text, or in the data that the text encodes. The test truncates others, writes
them in another alphabet of base64, or changes names in JSON. For each text, the test runs one
command of passtool (`show`, `convert`, `narrow` or `verify`), and makes the corresponding calls of
the library. The test compares the output, the fault number, and whether the pass is signed. Most
caveats are valid or almost valid lines of the caveat language, and the others are random bytes. The
library must understand exactly the caveats that `narrow` accepts without `--any`.

  tests/peers/passes_from_python.py [--count N] [--seed N]
"""
# pytestmark = [mark.programs, mark.needs("passtool pass_c"), mark.wants("gcc libc6-dev")]

import argparse
import base64
import os
import random
import subprocess
import sys
import tempfile
from collections import Counter
from concurrent.futures import ThreadPoolExecutor
from pathlib import Path

sys.path[:0] = [str(Path(__file__).resolve().parents[1] / it) for it in ("lib", "")]
import desk
from both import expect

FORMS = ["v1", "v2", "json"]
LINES = [
    "kind = court",
    "facility = court-1,court-2",
    "hours = 18-20",
    "days = 2026-05-01..2026-05-31",
    "weekday = sat,sun",
    "until < 2026-05-01T18:00",
    "guests <= 2",
    "spend <= 600",
    "actions = view,book",
]
NUMBERS = {"TooLong": 1, "Malformed": 2, "ThirdParty": 3, "TooMany": 4}


class Draws:
    """Draws texts, the root of each text, and a command of passtool for each text."""

    def __init__(self, clubpass, seed):
        self.clubpass, self.draw = clubpass, random.Random(seed)

    def bytes(self, most):
        draw = self.draw
        size = draw.choice([0, 1, draw.randint(2, 40), draw.randint(2, 40), draw.randint(40, most)])
        if draw.random() < 0.6:
            return "".join(
                draw.choice('abcz019-:/ "\\\n\x7fäß€\U0001f3be') for _ in range(size)
            ).encode()[:size]
        return draw.randbytes(size)

    def line(self):
        line = self.draw.choice(LINES)
        if self.draw.random() < 0.3:
            place = self.draw.randrange(len(line))
            line = (
                line[:place]
                + self.draw.choice("0123456789abt ,<=-:T")
                + line[place + self.draw.randrange(2) :]
            )
        return line

    def minted(self):
        draw, root = self.draw, self.draw.randbytes(self.draw.randint(1, 64))
        made = self.clubpass.Pass.mint(root, self.bytes(200), self.bytes(60))
        count = draw.choice([0, 1, 2, 3, 3, 5, draw.randint(0, 64), 64])
        long = draw.random() < 0.05
        for _ in range(count):
            try:
                made = made.narrow(
                    self.line() if draw.random() < 0.6 else self.bytes(300 if long else 80)
                )
            except self.clubpass.NoRoom:
                break
        form = draw.choice(FORMS)
        try:
            return root, made.to(form).encode(), form
        except self.clubpass.TooLong:
            return root, b"A" * 8193, form

    def edited(self, data):
        """Returns the bytes with one to three changes."""
        draw, data = self.draw, bytearray(data)
        for _ in range(draw.choice([1, 1, 1, 2, 3])):
            place = draw.randrange(len(data) + 1)
            what = draw.randrange(7)
            if what == 0 and place < len(data):
                data[place] = draw.randrange(256)
            elif what == 1 and place < len(data):
                data[place] ^= 1 << draw.randrange(8)
            elif what == 2:
                data[place:place] = draw.randbytes(draw.randint(1, 3))
            elif what == 3:
                del data[place : place + draw.randint(1, 3)]
            elif what == 4:
                data[place:place] = data[place : place + draw.randint(1, 40)]
            elif what == 5:
                del data[place:]
            elif data:
                data.append(draw.choice(data))
        return bytes(data)

    def in_base64(self, data):
        draw = self.draw
        text = (base64.urlsafe_b64encode if draw.random() < 0.5 else base64.b64encode)(data)
        return text if draw.random() < 0.4 else text.rstrip(b"=")

    def spoiled_json(self, text):
        draw = self.draw
        old, new = draw.choice(
            [
                (b'"i":', b'"i64":'),
                (b'"c":', b'"c" : '),
                (b'"v":2', b'"v":1'),
                (b'"v":2', b'"v":2.0'),
                (b'"s64":', b'"s":'),
                (b'"i"', b'"\\u0069"'),
                (b'{"i"', b'{"v64":"AA","i"'),
                (b'{"i"', b'{"l":"there","i"'),
                (b',"v":2', b""),
                (b'"l":', b'"l64":'),
                (b"}", b"}\n"),
                (b"[", b"[\t"),
                (b'"v":2', b'"v":2,"w":3'),
                (b'"v":2', b'"v":2,"v":2'),
                (b"a", b"\\u0061"),
                (b"a", b"\xff"),
            ]
        )
        return text.replace(old, new, draw.choice([1, -1]))

    def text(self):
        """Root and text."""
        root, text, form = self.minted()
        draw = self.draw
        what = draw.random()
        if what < 0.35 or form != "json" and len(text) == 8193:
            return root, text
        if what < 0.38:
            return root, draw.randbytes(draw.choice([0, 1, 5, 60, 300]))
        if what < 0.40:
            return root, text + text[:1] * draw.choice([8190, 8191, 8192, 8193])
        if what < 0.55:
            return root, self.edited(text)
        if form == "json":
            text = self.spoiled_json(text)
            return root, self.in_base64(text) if draw.random() < 0.3 else text
        data = base64.urlsafe_b64decode(text + b"=" * (-len(text) % 4))
        return root, self.in_base64(self.edited(data) if draw.random() < 0.8 else data)

    def case(self):
        root, text = self.text()
        what = self.draw.choice(["show", "show", "convert", "narrow", "verify", "verify"])
        if what == "narrow":
            words = [self.line() for _ in range(self.draw.choice([1, 1, 2, 5]))]
            return text, ["narrow", *self.draw.choice([[], ["--any"]]), "--", *words]
        if what == "convert":
            return text, ["convert", "--form", self.draw.choice(FORMS)]
        if what == "verify":
            other = self.draw.random() < 0.3
            return text, ["verify", "--root", (self.draw.randbytes(16) if other else root).hex()]
        return text, ["show"]


def shown(data):
    return "".join(
        "\\\\" if b == 0x5C else chr(b) if 0x20 <= b <= 0x7E else f"\\x{b:02x}" for b in data
    )


def line(name, data):
    return f"{name} {shown(data)}\n"


def by_library(clubpass, text, words):
    """Calls the library, and returns the exit status, standard output and fault line that passtool
    must have."""
    command = words[0]
    if command == "narrow" and "--any" not in words:
        for number, caveat in enumerate(words[2:], 1):
            if not clubpass.is_caveat(caveat):
                return 5, "", f"caveat {number} not understood\n"
    try:
        found = clubpass.Pass.parse(text)
        if command == "verify":
            return (
                (0, "signed\n", "")
                if found.verify(bytes.fromhex(words[2]))
                else (1, "not signed\n", "")
            )
        if command == "convert":
            return 0, found.to(words[2]) + "\n", ""
        if command == "narrow":
            return 0, str(found.narrow(*words[words.index("--") + 1 :])) + "\n", ""
        told = [
            f"form {found.form}\n",
            line("location", found.location),
            line("identifier", found.identifier),
        ]
        told += [line(f"caveat {number}", caveat) for number, caveat in enumerate(found.caveats, 1)]
        return 0, "".join(told) + f"signature {found.signature.hex()}\n", ""
    except clubpass.PassError as error:
        return 3, "", f"fault {NUMBERS[type(error).__name__]}:"


def by_passtool(tool, text, words):
    ended = subprocess.run([tool, *words], input=text + b"\n", capture_output=True)
    return ended.returncode, ended.stdout.decode(), ended.stderr.decode()


def compare(clubpass, tool, case):
    text, words = case
    wanted, found = by_passtool(tool, text, words), by_library(clubpass, text, words)
    told = wanted[2][: len(found[2])] if wanted[0] == 3 else wanted[2]
    expect((text, words), found, (*wanted[:2], told))
    return f"{words[0]} {wanted[0]}" + (f" {told}" if wanted[0] == 3 else "")


def main():
    parser = argparse.ArgumentParser(description=__doc__.partition("\n\n")[0])
    parser.add_argument("--count", type=int, default=100_000)
    parser.add_argument("--seed", type=int, default=1)
    given = parser.parse_args()
    tool = desk.program("passtool")
    with tempfile.TemporaryDirectory() as room:
        subprocess.run([desk.ROOT / "bin" / "library", room], check=True, stdout=subprocess.DEVNULL)
        os.environ["CLUBPASS_LIBRARY"] = f"{room}/lib/libclubpass.so.0"
        sys.path.insert(0, f"{room}/lib/python3")
        import clubpass
    draws, told = Draws(clubpass, given.seed), Counter()
    with ThreadPoolExecutor(len(os.sched_getaffinity(0))) as pool:
        for start in range(0, given.count, 1000):
            cases = [draws.case() for _ in range(min(1000, given.count - start))]
            told.update(pool.map(lambda case: compare(clubpass, tool, case), cases))
    print(f"{given.count} texts, seed {given.seed}: {dict(sorted(told.items()))}")
    faults = {name for name in told if " 3 " in name}
    expect(
        "faults that occurred",
        {name.split()[-1] for name in faults},
        {f"{number}:" for number in NUMBERS.values()},
    )


if __name__ == "__main__":
    main()

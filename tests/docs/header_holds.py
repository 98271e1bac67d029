#!/usr/bin/env -S /usr/bin/python3 -B -m pytest -q -p no:cacheprovider
"""include/clubpass.h declares the functions, structs and numbers of the library's sources.

The header declares each exported function of crates/pass_c/src/exports.rt with the same arguments,
in the same order, and with C's types for them. The header declares no other function. The members
of both structs have the names, the order and the types of the fields in crates/pass_calls/src. The
header's limits, faults, forms, actions and kinds have the numbers of the sources.
"""

import re

import pytest

import desk

pytestmark = [pytest.mark.pages, pytest.mark.quick]

HEADER = re.sub(
    r"/\*.*?\*/",
    "",
    (desk.ROOT / "include" / "clubpass.h").read_text(encoding="utf-8"),
    flags=re.DOTALL,
)
NUMBERS = {"u8": "uint8_t", "u16": "uint16_t", "u32": "uint32_t", "u64": "uint64_t"}
# The types of results that are enumerations in C, by function. Another u32 is a fault.
RESULTS = {"clubpass_form": "clubpass_form_number"}
# The constants of Rattle that have another name in C.
LIMITS = {
    "MAX_TEXT": "MAX_TEXT",
    "MAX_CAVEATS": "MAX_CAVEATS",
    "ROOM": "ROOM",
    "MAX_NAME_LEN": "MAX_NAME",
}


def source(crate: str, file: str) -> str:
    """Returns a file of a crate without comments."""
    text = (desk.ROOT / "crates" / crate / "src" / file).read_text(encoding="utf-8")
    return re.sub(r"//.*", "", text)


EXPORTS = source("pass_c", "exports.rt")
CODES = source("pass_calls", "code.rt")


def constants(text: str) -> dict[str, int]:
    """Returns the numbers that the source gives to constants."""
    found = re.findall(r"const (\w+): \w+ = (\d+);", text)
    return {name: int(number) for name, number in found}


def enumerated() -> dict[str, int]:
    """Returns the numbers that the header gives to names, without `CLUBPASS_`."""
    found = re.findall(r"CLUBPASS_(\w+) = (\d+)", HEADER)
    return {name: int(number) for name, number in found}


SIZES = constants(
    source("pass_forms", "envelope.rt")
    + source("pass_forms", "pass.rt")
    + source("pass_calls", "object.rt")
    + source("club_values", "name.rt")
)


def parameter(name: str, kind: str) -> list[str]:
    """Returns C's declarations of an argument."""
    if kind == "Global":
        return []
    plain = {
        "&PassObject": "const clubpass *",
        "&mut PassObject": "clubpass *",
        "&AskObject": "const clubpass_ask *",
        "&mut usize": "size_t *",
        "&mut [u8; 32]": "uint8_t *",
        "usize": "size_t ",
        "u32": "uint32_t ",
    }
    if kind == "&[u8]":
        return [f"const uint8_t *{name}", f"size_t {name}_len"]
    if kind == "&mut [u8]":
        return [f"uint8_t *{name}", "size_t room"]
    return [plain[kind] + name]


def result(name: str, kind: str) -> str:
    """Returns C's type for the result of a function."""
    if kind == "u32":
        return RESULTS.get(name, "clubpass_fault")
    return {"": "void", "usize": "size_t", "bool": "bool"}[kind]


def exported() -> dict[str, tuple[str, list[str]]]:
    """Returns C's result and arguments of each exported function, by name."""
    pattern = r'extern "C" fn (\w+)\(([^)]*)\)(?: -> (\w+))?\s'
    functions = {}
    for name, arguments, kind in re.findall(pattern, EXPORTS):
        pairs = re.findall(r"(\w+): ([^,;]*(?:; 32\])?)\s*(?:,|$)", " ".join(arguments.split()))
        words = [word for it in pairs for word in parameter(*it)]
        functions[name] = (result(name, kind), words)
    return functions


def declared() -> dict[str, tuple[str, list[str]]]:
    """Returns the result and the arguments of each function in the header, by name."""
    pattern = r"CLUBPASS_(?:CHECK|NONNULL)\s(\w+) (clubpass_\w+)\(([^)]*)\);"
    functions = {}
    for kind, name, arguments in re.findall(pattern, HEADER):
        functions[name] = (kind, [" ".join(it.split()) for it in arguments.split(",")])
    return functions


def fields(text: str, name: str) -> list[tuple[str, str, int | None]]:
    """Returns the name, the number type and the length of each field of a struct in Rattle. The
    length of a number is None."""
    body = re.search(rf"pub struct {name} \{{(.*?)\n\}}", text, re.DOTALL)[1]
    found = re.findall(r"pub (\w+): (?:\[(\w+); (\w+)\]|(\w+)),", body)
    return [
        (field, NUMBERS[kind or number], size_of(size) if size else None)
        for field, kind, size, number in found
    ]


def size_of(size: str) -> int:
    return int(size) if size.isdigit() else SIZES[size]


def members(name: str) -> list[tuple[str, str, int | None]]:
    """Returns the name, the type and the length of each member of a struct in the header. The
    names have no `_` at their ends."""
    body = re.search(rf"typedef struct {name} \{{(.*?)\}}", HEADER, re.DOTALL)[1]
    found = re.findall(r"(\w+) (\w+?)_?(?:\[CLUBPASS_(\w+)\])?;", body)
    numbers = enumerated()
    return [(member, kind, numbers[size] if size else None) for kind, member, size in found]


def test_functions():
    """The header declares the exported functions."""
    assert len(exported()) == 13
    assert declared() == exported()


@pytest.mark.parametrize(
    "file, struct, name",
    [("object.rt", "PassObject", "clubpass"), ("ask.rt", "AskObject", "clubpass_ask")],
)
def test_members(file: str, struct: str, name: str):
    """A struct of the header has the fields of the struct in the sources."""
    assert members(name) == fields(source("pass_calls", file), struct)


def test_codes():
    """The header's faults and forms have the numbers of the sources."""
    numbers, codes = enumerated(), constants(CODES)
    assert len(codes) == 16
    assert {name: numbers[name] for name in codes} == codes


def test_limits():
    """The header's limits are those of the sources."""
    numbers = enumerated()
    assert {name: numbers[c] for name, c in LIMITS.items()} == {
        name: SIZES[name] for name in LIMITS
    }
    assert numbers["SIGNATURE"] == 32


@pytest.mark.parametrize(
    "function, names",
    [
        ("action_of", {"View": "VIEW", "Book": "BOOK", "Cancel": "CANCEL", "Account": "ACCOUNT"}),
        ("kind_of", {"None": "NO_KIND", "Court": "COURT", "Boat": "BOAT", "Room": "ROOM_KIND"}),
    ],
)
def test_numbers_of_an_ask(function: str, names: dict[str, str]):
    """The header's actions and kinds have the numbers that the sources read."""
    body = re.search(rf"fn {function}\(.*?\n\}}", source("pass_calls", "ask.rt"), re.DOTALL)[0]
    read = {
        name: int(number)
        for number, name in re.findall(r"(\d) => Some\((?:Some\()?(?:\w+::)?(\w+)\)", body)
    }
    numbers = enumerated()
    assert read == {name: numbers[c] for name, c in names.items()}

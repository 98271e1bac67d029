"""Finds lines, functions, files and lists of parameters that are larger than CONTRIBUTING.md allows,
in Python, JavaScript, shell and CSS. tests/lint.py prints them."""

import ast
import re
from pathlib import Path
from typing import Iterator

MOST_COLUMNS = 100
MOST_LINES = 40  # of a function, which must have fewer
MOST_LINES_OF_A_FILE = 400  # which must have fewer
MOST_PARAMETERS = 6
# A line may be longer if a text without a space fills it, such as a pass or an address. Then a
# search for the text finds the line.
TEXT = re.compile(r"\s*(?:[\w.]+[ =(:]+)?[rbf]?[\"'`]\S*[\"'`)\],;]*|\s*(?:#|//) \S+")
ENDINGS = (".py", ".mjs", ".js", ".css", ".sh", ".bats")
FIRST_LINES = {"python": ".py", "sh": ".sh", "bash": ".sh", "bats": ".bats"}


def kind_of(path: Path) -> str:
    """Returns the ending that a file of its language has, or "" for other languages."""
    if path.suffix in ENDINGS:
        return path.suffix
    with path.open(errors="replace", encoding="utf-8") as file:
        first = file.readline()
    found = re.match(r"#!.*?/(?:env +(?:-S +)?)?(?:\S*/)?(python|bash|sh|bats)", first)
    return FIRST_LINES[found[1]] if found and not path.suffix else ""


def functions_of_python(text: str) -> Iterator[tuple[str, int, int, int]]:
    """Yields the name of each function, the number of its first line, the number of its lines
    without its head and docstring, and the number of its parameters."""
    for it in ast.walk(ast.parse(text)):
        if not isinstance(it, (ast.FunctionDef, ast.AsyncFunctionDef)):
            continue
        body = it.body[1:] if ast.get_docstring(it) and len(it.body) > 1 else it.body
        given = it.args
        parameters = [*given.posonlyargs, *given.args, *given.kwonlyargs]
        own = [each for each in parameters if each.arg not in ("self", "cls")]
        yield it.name, it.lineno, (it.end_lineno or 0) - body[0].lineno + 1, len(own)


SHELL = re.compile(r"^( *)(?:function +)?(\w+) ?\(\) *[({]$")
SCRIPT = re.compile(
    r"^( *)(?:export )?(?:static )?(?:async )?(?:function\*? ?)?(?:const )?(\w+)"
    r"(?: = (?:async )?)? ?\(.*\) (?:=> )?\{$"
)


def functions_of_lines(text: str, head: re.Pattern[str]) -> Iterator[tuple[str, int, int, int]]:
    """Yields the same of a language whose functions end with a bracket in the column of their
    head."""
    lines = text.splitlines()
    for number, line in enumerate(lines, 1):
        found = head.match(line)
        if not found or found[2] in ("if", "for", "while", "switch", "catch"):
            continue
        ends = (f"{found[1]}}}", f"{found[1]})")
        last = next((at for at in range(number, len(lines)) if lines[at].startswith(ends)), number)
        parameters = re.search(r"\(([^()]*)\)", line)
        names = [it for it in parameters[1].split(",") if it.strip()] if parameters else []
        is_object = bool(parameters and parameters[1].startswith("{"))
        yield found[2], number, last - number, 1 if is_object else len(names)


def of_file(path: Path) -> Iterator[str]:
    """Yields what is too large in a file."""
    kind = kind_of(path)
    if not kind:
        return
    text = path.read_text(encoding="utf-8")
    lines = text.splitlines()
    long = [
        number
        for number, line in enumerate(lines, 1)
        if len(line) > MOST_COLUMNS and not TEXT.fullmatch(line)
    ]
    if long:
        yield f"longer than {MOST_COLUMNS} columns: {path}:{long[0]}: {len(long)} lines"
    if len(lines) >= MOST_LINES_OF_A_FILE:
        yield f"a file of {len(lines)} lines: {path}"
    functions = (
        functions_of_python(text)
        if kind == ".py"
        else functions_of_lines(text, SHELL if kind in (".sh", ".bats") else SCRIPT)
    )
    for name, number, count, parameters in functions:
        if count >= MOST_LINES:
            yield f"a function of {count} lines: {path}:{number}: {name}"
        if parameters > MOST_PARAMETERS:
            yield f"a function of {parameters} parameters: {path}:{number}: {name}"


def below(folder: Path) -> Iterator[str]:
    """Yields what is too large in the files of a folder and of the folders below it."""
    for path in sorted(folder.rglob("*")):
        if path.is_file() and not {"out", "__pycache__"} & set(path.parts):
            yield from of_file(path)

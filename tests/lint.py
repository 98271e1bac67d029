#!/usr/bin/env -S /usr/bin/python3 -B
"""Finds names defined twice, lines that are too long, unused files, misspelt words and unidiomatic
English.

The program also finds functions, files and crates that are too large, numbers without units, and
versions that differ. The program checks the English only in added lines.

The program prints each slip with its place. The status is 1 if there is a slip. These are slips:
- Two modules in specs/ define the same name, and TWINS doesn't list the name.
- A line is too long. The limit is 100 columns for code, comments and clauses, and 160 for imports,
  specs and proofs.
- A function's body has 40 lines or more, a file of code has 800 or more, or a file of proofs has
  400 or more.
- A crate has more than 100 functions.
- Python, JavaScript, shell or CSS in the folders of SIZED exceeds the limits of tests/lib/sizes.py.
- A public docstring has a number but no unit.
- The version in the newest heading of CHANGELOG.md differs from the code's version.
- A module in specs/ or proofs/ is never imported, a file of code has no `mod` line, or no page
  names a script.
- A crate's proofs/Common re-exports a name that none of the crate's proofs imports.
- The old text of a mutant's edit doesn't appear exactly once in its file, or a crate has two edits
  of the same name.
- A planted fault (tests/planted.py) replaces bytes that its file no longer contains.
- A page or a text of web/ has a word that neither aspell nor tests/lib/words.txt knows.
- A sentence on an added line breaks a rule of tests/lib/prose.py, for example because it has more
  than 30 words.
- The subject of an added commit has no area, isn't an imperative, or is longer than 60 letters.
Added lines and commits are those that this clone has and its upstream branch doesn't have.
  tests/lint.py                  checks all crates, the pages, and the added lines and commits
  tests/lint.py club_core ..     checks these crates and the lines added to them
  tests/lint.py --since COMMIT   regards the lines and commits since COMMIT as added
"""
# pytestmark = [mark.quick, mark.wants("aspell aspell-en aspell-de")]

import argparse
import os
import re
import shutil
import subprocess
import sys
from collections import defaultdict
from pathlib import Path

sys.path.insert(0, str(Path(__file__).resolve().parent / "lib"))
import more_edits
import planted
import prose
import sizes
from spec_files import spelled_out

ROOT = Path(__file__).resolve().parent.parent
os.chdir(ROOT)
# Folders whose Python, JavaScript, shell and CSS is within the limits of tests/lib/sizes.py.
SIZED = ("bindings", "examples", "tests/reference")
# Names that two modules in specs/ may define, each with the reason.
TWINS = {
    "◌>>=◌": "the bind of `do`, which each kind of result defines",
    "Entry table_of": (
        "points in a reply, or a row in a program's table of commands; a table of SQL, or of"
        " commands"
    ),
    "header_at caveat_at optional_at wide_at": (
        "the readings of V1 and V2 state the same about two layouts"
    ),
    "Answers": "the answers in rows of tables, and the results of calls with arguments",
    "ReadsArguments of_arguments": "how both programs read their arguments",
    "is_key_of": "whether a member's key has a name, in a club and in the reference's lists",
    "EndsWith exit_status fault_line fault_output fault_status": (
        "the faults of both programs, their lines and statuses"
    ),
}
UNITS = re.compile(
    (
        "byte|bit|character|letter|digit|column|line|caveat|pass|place|person|guest|booking|point|day|hour|minute|second|moment|year|name|fault"
        "|status|connection|port|version|row|request|key|field|case|number|memory|count|length"
    ),
    re.IGNORECASE,
)
# A line that begins with a string literal, or with a field and its string literal, may be longer.
# Then a search for a long text, such as a pass, finds the line. An attribute may be longer because
# it can't be broken.
LITERAL = r' *([a-z_]+: )?b?"'
FN = re.compile(r"( *)(?:pub(?:\([a-z]+\))? )?(?:const )?(?:extern \"C\" )?fn (\w*)")


def texts_below(folder, *endings):
    return {
        it: it.read_text(encoding="utf-8")
        for it in sorted(Path(folder).rglob("*"))
        if it.suffix in endings and "out" not in it.parts
    }


FILES = texts_below("crates", ".rt", ".antt")


def of_crate(crate, part, ending):
    """Returns the texts of the files with this ending below a folder of a crate."""
    return {
        it: text
        for it, text in FILES.items()
        if it.parts[1:3] == (crate, part) and it.suffix == ending
    }


def twice_defined(crates):
    """Yields a slip for each name that two modules in specs/ define at their top level. A
    definition has its name before a colon, or after `record` or `data`."""
    homes = defaultdict(list)
    for file, text in FILES.items():
        if file.parts[2] == "specs":
            for name in {
                a or b
                for a, b in re.findall(
                    (
                        r"^(?:(?:pub )?(?:record|data) (\S+)|(?:(?:abbrev|unfoldable|opaque)"
                        r" )?(?:pub )?(\S+) :(?: |$))"
                    ),
                    text,
                    re.MULTILINE,
                )
            }:
                homes[name].append(file)
    twins = " ".join(TWINS).split()
    for name, files in sorted(homes.items()):
        if len(files) > 1 and name not in twins and {it.parts[1] for it in files} & set(crates):
            yield f"defined twice: {name} in {' '.join(map(str, files))}"
    yield from (f"unused twin: {name}" for name in twins if len(homes[name]) < 2)


def too_long(crate):
    for file, text in FILES.items():
        is_code = file.parts[2] == "src" and file.suffix == ".rt"
        for most, but in (
            [(100, rf" *ghost use|{LITERAL}| *#\["), (160, LITERAL)]
            if is_code
            else [(160, LITERAL)]
        ):
            found = [
                n
                for n, line in enumerate(text.splitlines(), 1)
                if len(line) > most and not re.match(but, line)
            ]
            if found and file.parts[1] == crate:
                yield f"longer than {most} columns: {file}:{found[0]}: {len(found)} lines"


def too_large(crate):
    """Yields a slip for each size limit of CONTRIBUTING.md that the crate exceeds. The body of a
    function is the text between its braces."""
    code = of_crate(crate, "src", ".rt")
    for file, text in code.items():
        name, start = "", 0
        for number, line in enumerate(text.splitlines(), 1):
            if found := FN.match(line):
                (indent, name), start = found.groups(), 0
            if (
                name
                and not start
                and (
                    line == indent + "{"
                    or line.startswith(indent)
                    and re.match(r" *(\)|(pub|const|fn) ).*\{$", line)
                )
            ):
                start = number
            elif start and line == indent + "}":
                if number - start > 40:
                    yield f"a function of {number - start - 1} lines: {file}:{start}: {name}"
                name, start = "", 0
    for most, files in ((800, code), (400, of_crate(crate, "proofs", ".antt"))):
        yield from (
            f"a file of {text.count(chr(10))} lines: {file}"
            for file, text in files.items()
            if text.count("\n") >= most
        )
    functions = sum(bool(FN.match(line)) for text in code.values() for line in text.splitlines())
    if functions > 100 and not crate.endswith(("_tests", "scenarios")):
        yield f"more than 100 functions: {crate} has {functions}"


def without_unit(crate):
    """Yields a slip for each docstring of a public item that has a number without a unit."""
    for file, whole in of_crate(crate, "src", ".rt").items():
        for found in re.finditer(r"^((?: */// .*\n)+)(?: *#\[.*\n)* *pub ", whole, re.MULTILINE):
            text = " ".join(re.findall(r"/// (.*)", found[1]))
            plain = re.sub("`[^`]*`", "", text)
            plain = re.sub(
                (
                    r"below 0|RFC [0-9]+|FIPS"
                    r" [0-9-]+|SHA-256|[0-9]+-[0-9]+-[0-9]+(T[0-9:]+)?|[A-Za-z-]+[0-9]+"
                ),
                "",
                plain,
            )
            if (
                re.search("[0-9]", plain)
                and not re.search("[0-9] [a-z-]*(bytes|hexa|decimal)", plain)
                and not UNITS.search(plain)
                and "test" not in file.name
            ):
                yield (
                    f"number without a unit: {file}:{whole.count(chr(10), 0, found.start()) + 1}:"
                    f" {text}"
                )


MOD = re.compile(r"^(?:pub )?mod (\S+)$", re.MULTILINE)


def unused_modules(crate, part):
    """Yields a slip for each module that no other file imports, and for each file that its folder's
    list doesn't name. The list is in Lib.antt, or in the file with the folder's name."""
    top = Path("crates", crate, part)
    for file, text in of_crate(crate, part, ".antt").items():
        above = top / "Lib.antt" if file.parent == top else file.parent.with_suffix(".antt")
        listed = MOD.findall(FILES.get(above, ""))
        if not listed or file.name == "Lib.antt":
            continue
        if file.stem not in listed:
            yield f"not listed in {above}: {file}"
        path = r"(\.|::)".join([part, *file.relative_to(top).with_suffix("").parts])
        cited = re.compile(rf"({crate}\.|crate::){path}([^A-Za-z0-9_]|$)", re.MULTILINE)
        if not MOD.search(text) and not any(
            cited.search(spelled_out(it))
            for other, it in FILES.items()
            if file.stem in it and other != file
        ):
            yield f"never imported: {file}"


def unused_names(crate):
    """Yields a slip for each name that proofs/Common.antt re-exports and no proof imports."""
    common = Path("crates", crate, "proofs", "Common.antt")
    taken = "".join(
        names + ", "
        for text in of_crate(crate, "proofs", ".antt").values()
        for names in re.findall(
            rf"^use Rattle\.{crate}\.proofs\.Common\.\{{(.*)\}}$", spelled_out(text), re.MULTILINE
        )
    )
    for names in re.findall(
        r"^(?:unfoldable )?pub use .*\.\{(.*)\}$", spelled_out(FILES.get(common, "")), re.MULTILINE
    ):
        yield from (
            f"no proof imports {name} from {common}"
            for name in names.split(", ")
            if name not in taken.split(", ")
        )


def unused_code(crate):
    for file in of_crate(crate, "src", ".rt"):
        above = [file.parent.with_suffix(".rt"), file.parent / "lib.rt", file.parent / "main.rt"]
        if file.stem not in ("lib", "main") and not any(
            re.search(rf"^ *(pub(\([a-z]+\))? )?mod {file.stem};", FILES.get(it, ""), re.MULTILINE)
            for it in above
        ):
            yield f"no mod line for: {file}"


def stale_edits(crate):
    names = set()
    for edit in more_edits.edits_of(Path("crates", crate)):
        if edit.name in names:
            yield f"two edits with one name: {crate} {edit.name}"
        names.add(edit.name)
        try:
            if not more_edits.edited_texts(Path("crates", crate), edit):
                yield f"edit changes nothing: {crate} {edit.name}"
        except (more_edits.NoVerdict, OSError) as fault:
            yield f"edit doesn't apply: {crate} {edit.name}: {fault.args[-1]}"


def stale_plants():
    """Yields a slip for each fault of tests/planted.py whose file no longer contains the bytes.
    Skips faults in built programs."""
    for name, (file, old, *_) in planted.PLANTS.items():
        if file not in planted.PROGRAMS and old.encode() not in Path(file).read_bytes():
            yield f"a planted fault doesn't apply: {name}: {file} has no {old}"


def other_versions():
    version = subprocess.run(
        ["bin/version"], capture_output=True, text=True, check=True
    ).stdout.strip()
    found = re.search(
        "^## ([^ ,]*), 20[0-9-]*$", Path("CHANGELOG.md").read_text(encoding="utf-8"), re.MULTILINE
    )
    if not found or found[1] != version:
        yield f"differs from version {version}: CHANGELOG.md: {found and found[1]}"


def unnamed_scripts():
    pages = "".join(
        it.read_text(encoding="utf-8")
        for it in (Path("README.md"), Path("CONTRIBUTING.md"), *Path("docs").glob("*.md"))
    )
    for script in sorted(
        [*Path("tests").rglob("*.sh"), *Path("bin").iterdir(), *Path("deploy").iterdir()]
    ):
        if str(script) not in pages:
            yield f"no page mentions: {script}"


def too_large_elsewhere():
    for folder in SIZED:
        yield from sizes.below(Path(folder))


def install_aspell():
    """Installs aspell if it is missing, the caller is root, and the system has apt-get."""
    if not shutil.which("aspell") and os.geteuid() == 0 and shutil.which("apt-get"):
        for words in (
            ["update"],
            ["install", "-y", "--no-install-recommends", "aspell", "aspell-en", "aspell-de"],
        ):
            subprocess.run(
                ["apt-get", "-o", "DPkg::Lock::Timeout=300", *words],
                stdin=subprocess.DEVNULL,
                stdout=subprocess.DEVNULL,
                check=False,
            )


def worded(named, since):
    """Yields the slips of wording in added lines. If no crates are named, also yields the misspelt
    words of all pages."""
    base = since or prose.base_of(ROOT)
    if base:
        for below in [f"crates/{it}/" for it in named] or [""]:
            yield from prose.of_change(ROOT, base, below)
    if not named:
        yield from prose.unused_exceptions(ROOT)
        install_aspell()
        try:
            yield from prose.misspellings(ROOT)
        except prose.Missing as fault:
            print(f"the spelling wasn't checked: {fault}")


def main():
    parser = argparse.ArgumentParser(usage="tests/lint.py [--since COMMIT] [CRATE ..]")
    parser.add_argument("named", nargs="*", metavar="CRATE")
    parser.add_argument(
        "--since",
        metavar="COMMIT",
        help="checks the prose of the lines and commits since this commit",
    )
    given = parser.parse_args()
    if (
        given.since
        and prose.git(ROOT, "rev-parse", "--verify", "--quiet", given.since + "^{commit}") is None
    ):
        parser.error(f"no commit {given.since}")
    named = given.named
    crates = named or sorted(it.name for it in Path("crates").iterdir() if it.is_dir())
    slips = list(twice_defined(crates))
    for crate in crates:
        slips += [
            *too_long(crate),
            *too_large(crate),
            *without_unit(crate),
            *unused_modules(crate, "specs"),
            *unused_modules(crate, "proofs"),
            *unused_names(crate),
            *unused_code(crate),
            *stale_edits(crate),
        ]
    if not named:
        slips += [*other_versions(), *unnamed_scripts(), *stale_plants(), *too_large_elsewhere()]
    slips += worded(named, given.since)
    print(*slips, f"{len(slips)} slips", sep="\n")
    return 1 if slips else 0


sys.exit(main())

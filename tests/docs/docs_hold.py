#!/usr/bin/env -S /usr/bin/python3 -B -m pytest -q -p no:cacheprovider
"""The commands, outputs, links and names on the pages are correct.

The test compares README.md, CONTRIBUTING.md, the pages of docs/, and the README.md of each crate
with the rest of the repository.
- The test runs each ```console block. The blocks of a page run one after the other, in a new folder
  for each page. The variable PATH includes bin/ and a folder with the built programs. A line that
  begins with `$ ` is a command, and the lines after it are the command's standard output and error.
  The test ignores empty lines and spaces at the end of a line. The test may replace port 8080 with
  a free port.
- The docstrings of the tests below describe the other checks.
The variables CLUBDESK and PASSTOOL have the paths of the programs. If a variable is unset, the test
proves and builds its program first.
  tests/docs/docs_hold.py                    every page
  tests/docs/docs_hold.py -k DESK            the pages whose names have this word
  tests/docs/docs_hold.py --no-commands ..   only the checks that need no program of ours
"""

import os
import re
import shlex
import subprocess
from pathlib import Path

import pytest

import desk

pytestmark = [
    pytest.mark.pages,
    pytest.mark.quick("--no-commands", wants="", needs=""),
    pytest.mark.needs("clubdesk passtool"),
    pytest.mark.wants("curl sqlite3 openssl gcc libc6-dev pkg-config golang-go nodejs"),
]

os.chdir(desk.ROOT)
PAGES = [
    "README.md",
    "CONTRIBUTING.md",
    *(
        str(it)
        for pattern in ("docs/**/*.md", "crates/*/README.md")
        for it in sorted(Path().glob(pattern))
    ),
]
TEXTS = {page: Path(page).read_text(encoding="utf-8") for page in PAGES}
CODE = {
    str(it): it.read_text(encoding="utf-8")
    for it in sorted(Path("crates").glob("*/**/*"))
    if re.fullmatch(
        r"(?!.*/out/).*(/src/.*\.rt|/(specs|proofs)/.*\.antt|\.edit|/more-edits\.txt)", str(it)
    )
}
WORD = re.compile(r"[^A-Za-z0-9_]+")
each_page = pytest.mark.parametrize("page", PAGES)


def blocks(page, language):
    return re.findall(rf"^```{language}\n(.*?)^```", TEXTS[page], re.MULTILINE | re.DOTALL)


def prose(page):
    """Returns the text of a page without its code blocks."""
    return re.sub(r"^```.*?^```.*?\n", "", TEXTS[page], flags=re.MULTILINE | re.DOTALL)


def ticked(text):
    """Returns the texts in backticks that contain no space."""
    return sorted(set(re.findall(r"`([^` \n]+)`", text)))


# ---- the definitions in crates/


def found(endings, pattern):
    return {
        (file, file.split("/")[1], *it.groups())
        for file, text in CODE.items()
        if file.endswith(endings)
        for it in re.finditer(pattern, text, re.MULTILINE)
    }


def within(places, pattern):
    """Returns the matches of a pattern in these texts, each with the place of its text."""
    return {
        (*place, name)
        for *place, text in places
        for name in re.findall(pattern, text, re.MULTILINE)
    }


HEAD = r"^ *(?:pub(?:\([a-z]+\))? )?(?:final )?(?:const )?(?:extern \"C\" )?"
RECORD = r"^ *(?:pub )?record "
FUNCTIONS = found(".rt", rf"{HEAD}fn (\w+)")
CLAUSES = within(
    found(".rt", rf"(?s){HEAD}fn (\w+)(.*?)(?={HEAD}fn |\Z)"), r"^ *ensures ([a-z_0-9]+) "
)
FIELDS = within(
    found(".antt", rf"(?s){RECORD}(\S+)(.*?)(?={RECORD}|^[^ \n-]|\Z)"), r"^ +pub ([A-Za-z_0-9]+) :"
)
ITEMS = FUNCTIONS.union(
    found(
        ".rt",
        (
            rf"{HEAD}(?:(?:struct|enum|trait|type|mod|static|abbrev) |ghost (?=[A-Za-z_]+(?:"
            r" =|:)))(\w+)"
        ),
    ),
    found(".rt", r"^ *(?:pub )?const ([A-Z]\w*)"),
    found(".rt", "^    pub ([a-z_]+): "),
    found(".rt", rf"{HEAD}([A-Z][A-Za-z]+)(?: \{{|\(|,|$)"),
    found(".antt", r"^ *(?:pub )?(?:record|data) (\S+)"),
    found(".antt", r"^ *(?:abbrev |unfoldable )?(?:pub )?(\S+) +(?::|where)(?= |$)"),
)
IN_FILE = {(it[0], it[-1]) for it in ITEMS | CLAUSES | FIELDS}
CRATES = {crate for _, crate, _ in ITEMS}
DEFINED = {it[1:] for it in ITEMS}
CLAUSES = {it[1:] for it in CLAUSES}
LIBRARIES = {
    word
    for line in Path("crates.txt").read_text(encoding="utf-8").splitlines()
    if line[:1] not in ("", "#")
    for word in line.replace(":", " ").split()
}
# For each crate, the names of std that its page mentions although its code doesn't use them.
OF_STD = {"test_kit": {"expect"}}


# ---- every page


@each_page
def test_quoted_lines_are_in_a_file(page):
    """Each paragraph of a ```rust, ```antt or ```text block is in a file of crates/. The
    indentation may differ."""
    texts = [re.sub(r"^ +", "", text, flags=re.MULTILINE) for text in CODE.values()]
    for language in ("rust", "antt", "text"):
        for quote in (
            it
            for block in blocks(page, language)
            for it in re.split(r"\n\n+", re.sub(r"^ +", "", block, flags=re.MULTILINE))
        ):
            assert any(quote in text for text in texts), f"in no file of crates/:\n{quote}"


def anchors(page):
    """Returns the anchors of a page's headings. An anchor is the heading in lower case, with dashes
    in place of spaces, and without punctuation except `-` and `_`."""
    text = re.sub(
        r"^```.*?^```.*?\n",
        "",
        Path(page).read_text(encoding="utf-8"),
        flags=re.MULTILINE | re.DOTALL,
    )
    return {
        re.sub(r"[^a-z0-9 _-]", "", it.lower()).replace(" ", "-")
        for it in re.findall(r"^#+ (.*)", text, re.MULTILINE)
    }


@each_page
def test_links_lead_to_pages_and_headings(page):
    for link in re.findall(r"\]\(((?!https?:)[^)]+)\)", prose(page)):
        path, _, heading = link.partition("#")
        file = Path(page).parent / path if path else Path(page)
        assert file.exists(), f"no file {link}"
        assert not heading or heading in anchors(file), f"no heading {link}"


@each_page
def test_files_and_names_are_there(page):
    """Each file that a page names exists. If a crate's page names a file or a folder of the crate,
    the file or folder exists. Each name `crate::..::name` or `Type::name` has a definition."""
    words = ticked(prose(page))
    scripts = [
        it
        for block in blocks(page, "sh")
        for it in re.findall(r"^(?:bin|tests|deploy)/[a-z_./]+", block, re.MULTILINE)
    ]
    for path in [*words, *scripts]:
        if re.match(r"(crates|docs|tests|bin|deploy|man)/", path) and not re.search(
            r"[*<]|NAME|CRATE|(^|/)out(/|$)", path
        ):
            assert Path(path.split(":")[0]).exists(), f"no file {path}"
        if page.startswith("crates/") and re.match(r"(src|specs|proofs|must-fail)/", path):
            assert (Path(page).parent / path).exists(), f"no file {path}"
    if page in ("docs/proofs/PROMISES.md", "docs/proofs/COMPUTED.md", "docs/proofs/AUDIT.md"):
        return  # other tests check the promises; docs/proofs/AUDIT.md is generated, and mentions functions of libraries
    for word in words:
        if re.fullmatch(r"[A-Za-z_]+(::[A-Za-z_0-9]+)+", word):
            crate, *_, name = word.split("::")
            assert (
                (crate, name) in DEFINED
                if crate in CRATES
                else any(name == it for _, it in DEFINED)
            ), f"no {word}"


@pytest.mark.parametrize("page", [it for it in PAGES if it.startswith("crates/")])
def test_bare_names_of_a_crate(page):
    """A crate's page mentions no unknown plain names. A known name is a word of the crate's code, a
    file of its folder, another crate's definition, a crate or a library."""
    folder = Path(page).parent
    crate, names = folder.name, {name for _, name in DEFINED}
    code = "\n".join(
        re.sub(r"//.*|^--.*", "", text, flags=re.MULTILINE)
        for file, text in CODE.items()
        if file.startswith(f"{folder}/")
    )
    known = {*WORD.split(code), *names, *LIBRARIES, *OF_STD.get(crate, ())}
    for word in ticked(prose(page)):
        assert (
            not re.fullmatch(r"[A-Za-z_][A-Za-z_0-9]*", word)
            or word in known
            or (folder / word).exists()
        ), f"no {word}"


@each_page
def test_definitions_are_in_their_files(page):
    """A list of definitions has the form `Definitions: NAME, .. in FILE; NAME, .. in FILE`. Each
    FILE of the list defines the names before it. A FILE without a folder is in the folder of the
    FILE before it. FILE may also be a folder of specs/. If FILE is a folder, a file in this folder
    defines each name."""
    for line in re.findall(r"Definitions?: (`.*)", prose(page)):
        pieces, names, folder = line.split("`"), [], ""
        for before, piece in zip(pieces[::2], pieces[1::2]):
            if not before.endswith(" in "):
                names.append(piece)
                continue
            place = piece if "/" in piece else f"{folder}/{piece}"
            folder = re.sub(r"/[A-Za-z0-9_]*\.antt$", "", place)
            for name in names:
                assert any(
                    name == it and (file == place or file.startswith(place + "/"))
                    for file, it in IN_FILE
                ), f"no definition {name} in {place}"
            names = []
        assert not names, f"no file of the definitions {names}"


@each_page
def test_passes_are_written_under_temporary_names(page):
    """A command that prints a pass must write to a file whose name ends in .new (`> pass.new && mv
    pass.new pass`). If the command wrote to the old file and were refused, the shell would already
    have emptied the file."""
    commands = [
        it
        for block in blocks(page, "console")
        for it in re.findall(r"^\$ (.*)", block, re.MULTILINE)
    ]
    for command in [
        *commands,
        *(line for block in blocks(page, "sh") for line in block.splitlines()),
    ]:
        if re.search(
            r"(^|[ |])(passtool|clubdesk|office [a-z]+) (mint|narrow|convert|add-key|rotate-key) ",
            command,
        ):
            assert not re.search(
                r">|[|] *tee ", re.sub(r'"[^"]*"|>&?[ ]*[^ ]*\.new', "", command)
            ), command


# ---- single pages


def test_laws():
    """README lists the laws of docs/proofs/PROMISES.md in the same order. Each law ends in a link
    to docs/proofs/PROMISES.md. The text of the link names a function and one of the function's
    clauses. tests/audit.py checks the functions and clauses of docs/proofs/PROMISES.md.
    """
    title = r"^\d+\. \*\*(.*?)\.\*\*"
    laws = re.findall(title, TEXTS["docs/proofs/PROMISES.md"], re.MULTILINE)
    rows = re.findall(
        title
        + r" .*\(\[`([^`]*)`: `([^`]*)`.*\]\(docs/proofs/PROMISES\.md#the-law-of-the-desk\)\)$",
        TEXTS["README.md"],
        re.MULTILINE,
    )
    assert [law for law, _, _ in rows] == laws
    for _, function, clause in rows:
        assert (function, clause) in {it[1:] for it in CLAUSES}, f"{function}: {clause}"


def test_first_page_is_short():
    assert len(TEXTS["README.md"].split()) < 900


def test_sizes_on_the_first_page():
    """README's numbers of lines are right to a twentieth. The lines to believe are those of
    docs/proofs/AUDIT.md."""
    number = r"(\d[\d,]*)"
    given = re.search(
        (
            rf"about {number} lines of code, {number} of definitions and {number} of proofs\..*"
            rf" {number} lines of definitions"
        ),
        TEXTS["README.md"],
    )
    counted = [
        sum(len(it.read_text(encoding="utf-8").splitlines()) for it in Path("crates").glob(files))
        for files in ("*/src/**/*.rt", "*/specs/**/*.antt", "*/proofs/**/*.antt")
    ]
    counted.append(
        int(
            re.search(
                rf"^\| together \| \| \d+ \| {number} ", TEXTS["docs/proofs/AUDIT.md"], re.MULTILINE
            )[1]
        )
    )
    for said, lines in zip(given.groups(), counted, strict=True):
        assert abs(int(said.replace(",", "")) - lines) <= lines / 20, (said, lines)


def test_layers():
    """The table of docs/LAYERS.md has the layers (`# NAME: WHAT`) and the crates of crates.txt, in
    the same order."""
    crates, page = Path("crates.txt").read_text(encoding="utf-8"), TEXTS["docs/LAYERS.md"]
    order = re.findall(r"^# ([^:\n]*):|^([a-z][a-z_0-9]*)[ :]", crates, re.MULTILINE)
    assert re.findall(r"^\| \*\*([^*]*)\*\* \||^\| `([a-z_0-9]+)` \|", page, re.MULTILINE) == order


def test_tour():
    """Each question has three to six steps of the form `PATH`: `NAME`, .. If PATH is a file of
    code, the file defines NAME. If PATH isn't a file of code, the file contains NAME."""
    questions = re.split(r"^## ", TEXTS["docs/TOUR.md"], flags=re.MULTILINE)[1:]
    assert len(questions) == 24
    for question in questions:
        steps = re.findall(r"^\d+\. (.*)", question, re.MULTILINE)
        assert 3 <= len(steps) <= 6, question
        for step in steps:
            path, name = re.match(r"`([^`]*)`: `([^`]*)`", step).groups()
            assert (
                (path, name.split("::")[-1]) in IN_FILE
                if path in CODE
                else name in Path(path).read_text(encoding="utf-8")
            ), step


def test_audit_is_made_of_the_sources():
    """docs/proofs/AUDIT.md is exactly the output of tests/audit.py. The clauses of a function that
    states a promise depend on a definition of specs/computed/ only if docs/proofs/PROMISES.md names
    it, or if a named definition depends on it. In the second part of docs/TOUR.md, each step of a
    path cites the next step."""
    subprocess.run(["tests/audit.py", "--strict"], check=True, stdout=subprocess.DEVNULL)


def test_table_of_groups():
    """The table of docs/TESTING.md has each group of tests/pytest.ini, with the group's
    description."""
    groups = re.findall(
        r"^ +(\w+): group: (.*)$",
        Path("tests/pytest.ini").read_text(encoding="utf-8"),
        re.MULTILINE,
    )
    assert groups
    assert (
        re.findall(
            r"^\| `(\w+)` \| ([^|\n]*) \|$",
            TEXTS["docs/TESTING.md"].partition("## Groups")[2],
            re.MULTILINE,
        )
        == groups
    )


def test_testing_names_each_crate():
    for crate in re.findall(
        r"^([a-z][a-z_0-9]*)[ :]", Path("crates.txt").read_text(encoding="utf-8"), re.MULTILINE
    ):
        assert f"`{crate}`" in TEXTS["docs/TESTING.md"], crate


def test_glossary_gives_words_of_code():
    known = {word for text in CODE.values() for word in WORD.split(text)}
    items = re.findall(r"^- \*\*.*", TEXTS["docs/GLOSSARY.md"], re.MULTILINE)
    assert len(items) > 100
    words = {it.split("::")[-1] for it in ticked("\n".join(items))}
    assert not {it for it in words if re.fullmatch("[A-Za-z_0-9]+", it)} - known


def test_each_decision_has_its_day_and_status():
    """Each paragraph below a heading of docs/DECISIONS.md begins with the decision. The paragraph
    ends with the day on which the decision was written down, and with a status."""
    sections = re.split(r"^## .*\n", TEXTS["docs/DECISIONS.md"], flags=re.MULTILINE)[1:]
    for paragraph in (it for section in sections for it in re.split(r"\n\n+", section.strip())):
        assert re.fullmatch(
            (
                r"\*\*.* \*20\d\d-\d\d-\d\d, (accepted|measured|stand-in)(, changed"
                r" 20\d\d-\d\d-\d\d)?\*"
            ),
            paragraph,
        ), paragraph


def test_index_names_each_page():
    for page in PAGES:
        assert (
            not page.startswith("docs/")
            or page == "docs/INDEX.md"
            or f"({Path(page).relative_to('docs')})" in TEXTS["docs/INDEX.md"]
        ), page


@pytest.mark.parametrize("page", ["README.md", "docs/TRUST.md"])
def test_logic_is_that_of_the_toolchain(page):
    version = subprocess.run(["rt", "version"], check=True, capture_output=True, text=True).stdout
    assert version.strip().rpartition(" logic ")[2] in TEXTS[page]


# ---- commands


def squeezed(text):
    """Removes carriage returns, spaces at the end of a line, and empty lines."""
    return [line.rstrip(" ") for line in text.replace("\r", "").split("\n") if line.rstrip(" ")]


def script_of(text):
    """Turns a page's commands into a script that prints each command before it runs the command.
    `$?` is the status of the previous command. After a command that ends in `&`, the script waits
    until the command has printed something."""
    lines = ["trap 'kill $(jobs -p) 2>/dev/null' EXIT", 'again() { return "$1"; }']
    for command in re.findall(r"^\$ (.*)", text, re.MULTILINE):
        is_behind = command.endswith(" &")
        lines += [
            f'ended=$?; printf "%s\\n" {shlex.quote("$ " + command)}',
            *(['printed=$(wc -c <"$OUT")'] if is_behind else []),
            'again "$ended"',
            command,
        ]
        if is_behind:
            lines.append(
                'for wait in $(seq 100); do [ "$(wc -c <"$OUT")" = "$printed" ] || break; sleep'
                " 0.1; done"
            )
    return "\n".join(lines)


def free_port(number):
    """Returns the first free port from this number on. A port that a program has just used isn't
    free."""
    is_used = any(
        f":{number:04X} " in it.read_text()
        for it in (Path("/proc/net/tcp"), Path("/proc/net/tcp6"))
        if it.exists()
    )
    return free_port(number + 1) if is_used else number


@pytest.mark.built
@pytest.mark.parametrize("page", [it for it in PAGES if blocks(it, "console")])
def test_commands(page, tmp_path):
    port = free_port(8080 + PAGES.index(page))
    text = re.sub(r"(:|--port )8080", rf"\g<1>{port}", "\n".join(blocks(page, "console")))
    room, out = tmp_path / "room", tmp_path / "out"
    room.mkdir()
    # A page's commands may use these folders of the repository.
    for folder in ("bin", "deploy", "bindings"):
        (room / folder).symlink_to(desk.ROOT / folder)
    # The file .curlrc makes curl print a line feed after each reply, because the body of a reply
    # has no line feed at its end.
    (tmp_path / ".curlrc").write_text('silent\nshow-error\nnoproxy = "*"\nwrite-out = "\\n"\n')
    # The test builds the page's programs before it runs the commands. Without this step, the output
    # of a build would count as a program's output, and a proof would use up the page's time.
    given = tmp_path / "given"
    given.mkdir()
    for name in ("passtool", "clubdesk"):
        if name in text:
            (given / name).symlink_to(desk.program(name))
    if "bin/library" in text:
        subprocess.run(["bin/library", tmp_path / "library"], check=True, stdout=subprocess.DEVNULL)
    with open(out, "wb") as printed:
        subprocess.run(
            ["sh", "-c", script_of(text)],
            cwd=room,
            stdin=subprocess.DEVNULL,
            stdout=printed,
            stderr=printed,
            timeout=600,
            check=False,
            env={
                **os.environ,
                "PATH": f"{given}:{desk.ROOT}/bin:{os.environ['PATH']}",
                "CURL_HOME": str(tmp_path),
                "OUT": str(out),
            },
        )
    assert squeezed(out.read_text(encoding="utf-8")) == squeezed(text)


@pytest.mark.built
def test_what_readme_tries_unproved():
    script = next(
        re.search(r"^cd crates.*?rt try.*?$", it, re.MULTILINE | re.DOTALL)
        for it in blocks("README.md", "sh")
        if "rt try" in it
    )[0]
    tried = subprocess.run(["sh", "-c", script], capture_output=True, text=True, check=False)
    assert tried.stdout == "signed\n" and tried.stderr.endswith("proved=no\n")

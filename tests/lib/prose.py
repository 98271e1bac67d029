"""Finds the sentences of the repository, and the patterns in a sentence that make an English reader
stop. tests/lint.py and tests/docs/sentences.py use this module.

This module represents a paragraph as a list of (line number, text). Paragraphs, list items and
table cells of pages are paragraphs. So are the paragraphs of docstrings, comments and help texts,
and the texts of web/src/words. Their texts have no markup and no tags, and have CODE in place of
inline code.

CONTRIBUTING.md has the rules of wording. PATTERNS and FIRST have the rules that a regular
expression can check, each with a remedy. EXCEPTIONS has the texts that may break a rule, each with
its reason."""

import ast
import re
import shutil
import subprocess

CODE = "§"
MOST_WORDS = 30
MOST_LETTERS = 60
# (pattern, remedy). The patterns of FIRST match only at the beginning of a sentence.
PATTERNS = [
    (re.compile(pattern, re.IGNORECASE), remedy)
    for pattern, remedy in (
        (r"\bexactly if\b", "write 'if and only if', or 'exactly when'"),
        (r"\bso (many|often)\b(?! (\w+ )?(that|as)\b)", "name the number: 'n times'"),
        (r"\b(of|by|for|to) (which|whom|whose)\b", "make it two sentences"),
        (r"\b(each|every one) in its (case|turn)\b", "write which case"),
        (r"\b(is|are) (not )?to be\b", "'must', or say who does it"),
        (r"\bfor want of\b", "'without', 'because .. is missing'"),
        (r"\bfrom (here|there) on\b", "'from now on', 'after that'"),
        (r"\b(lies?|stands?) in\b", "'is in'"),
        (r"\bwhatever becomes of\b", "name the cases"),
    )
]
FIRST = [
    (re.compile(pattern), remedy)
    for pattern, remedy in (
        (r"(What|Whatever|Whoever|Whichever|Who|How) (?!.*\?$)", "begin with a noun, not a clause"),
        (
            r"That (an?|the|its?|they|each|every|no|nobody|all|there|this|what|some|those|"
            + CODE
            + r")\b",
            "begin with a noun, not a clause",
        ),
    )
]
# Maps (file, words of a sentence) to the reason why the sentence may break a rule.
EXCEPTIONS = {
    ("CONTRIBUTING.md", "exactly if"): "names the wording to avoid",
    ("CONTRIBUTING.md", "so many"): "names the wording to avoid",
    ("CONTRIBUTING.md", "of which"): "names the wording to avoid",
    (
        "crates/clubdesk_arguments/src/table.rt",
        "Exit status:",
    ): "the help's table of statuses, no sentence",
    (
        "crates/passtool_commands/src/table.rt",
        "Exit status:",
    ): "the help's table of statuses, no sentence",
    ("deploy/clubdesk-setup", "[--title TITLE]"): "a line of usage, no sentence",
}
# Files that this module doesn't read: generated pages, data, and texts that tests compare byte for
# byte.
LEFT_OUT = re.compile(
    r"docs/proofs/AUDIT\.md|.*/more-edits\.txt|.*\.(told|png|svg|lock|toml|edit)|.*/stdout|tests/lib/words\.txt|docs/vectors\.json|web/[a-z]+\.(html|js|webmanifest)"
)
# The areas with which the subject of a commit may begin, apart from the crates.
AREAS = {"docs", "tests", "web", "deploy", "bin", "ci", "man", "examples"}
IMPERATIVE = re.compile(
    r"[a-z]\S*(?<![^su]s)(?<!ed)(?<!ing)\b|(pass|process|discuss|compress|express|need|feed|bring|embed|seed|speed)\b"
)
PAGES = ["README.md", "CONTRIBUTING.md", "CHANGELOG.md", "SECURITY.md"]


class Missing(Exception):
    """Raised if a check needs a program that the machine doesn't have."""


# ---- paragraphs


def plain(text):
    """Returns a line of Markdown without its markup."""
    text = re.sub(r"`+[^`]*`+", CODE, text)
    text = re.sub(r"!?\[((?:[^\[\]]|\[[^\]]*\])*)\]\([^)]*\)", r"\1", text)
    text = re.sub(r"<?https?://\S+|<[^<>]*>", CODE, text)
    return re.sub(r"\*+|(?<!\w)_|_(?!\w)", "", text).strip()


def of_markdown(lines):
    """Returns the paragraphs of numbered lines of Markdown."""
    found, open_one, fence, was_blank = [], None, False, True
    for number, line in lines:
        if line.lstrip().startswith(("```", "~~~")):
            fence, open_one = not fence, None
        elif (
            fence
            or (line.startswith("    ") and was_blank)
            or re.match(r"\s{2,}\S.*\S\s{3,}\S", line)
        ):
            open_one = None  # code, or a line of usage in columns
        elif not line.strip():
            open_one = None
        elif line.lstrip().startswith("|"):
            open_one = None
            cells = (
                []
                if re.fullmatch(r"[\s|:-]+", line)
                else re.sub(r"`[^`]*`", lambda it: it[0].replace("|", " "), line)
                .strip()
                .strip("|")
                .split("|")
            )
            found += [[(number, plain(it))] for it in cells if it.strip()]
        elif line.startswith("#"):
            open_one = None
            found.append([(number, "# " + plain(line.lstrip("# ")))])
        else:
            item = re.match(r"\s*(?:[-*+]|\d+\.) +(.*)", line)
            if item or open_one is None:
                open_one = []
                found.append(open_one)
            open_one.append((number, plain(item[1] if item else line)))
        was_blank = not line.strip()
    return found


def runs(lines, pattern):
    """Groups neighbouring comment lines, and returns the groups without the comment signs."""
    found, last = [], None
    for number, line in lines:
        if comment := re.match(pattern, line):
            if last != number - 1:
                found.append([])
            found[-1].append((number, comment[1]))
            last = number
    return found


def of_comments(lines, pattern):
    return [it for run in runs(lines, pattern) for it in of_markdown(run)]


def of_python(text, lines):
    try:
        nodes = [
            it
            for it in ast.walk(ast.parse(text))
            if isinstance(it, (ast.Module, ast.ClassDef, ast.FunctionDef)) and ast.get_docstring(it)
        ]
    except SyntaxError:
        return []
    found = []
    for node in nodes:
        first, last, indent = (
            node.body[0].lineno,
            node.body[0].end_lineno,
            " " * node.body[0].col_offset,
        )
        inside = [
            (number, line.removeprefix(indent).replace('"""', ""))
            for number, line in lines[first - 1 : last]
        ]
        found += of_markdown(inside)
    return found


def of_help(lines):
    """Returns the help texts of a table of commands, which are its string literals of several
    words. Leaves out examples."""
    text = "\n".join(line for _, line in lines)
    found = []
    for literal in re.finditer(
        r'"((?:[^"\\]|\\.)*)"', re.sub(r"//.*", lambda it: re.sub(r"\S", " ", it[0]), text)
    ):
        first = text.count("\n", 0, literal.start()) + 1
        shown = literal[1].partition("Example:")[0]
        found += (
            of_markdown([(first + place, line) for place, line in enumerate(shown.split("\n"))])
            if shown.count(" ") > 2
            else []
        )
    return found


def of_texts(text):
    """Returns the English texts of the office. In the table of texts, the first text of each pair
    is English."""
    pairs = [
        it.value
        for it in ast.parse(text).body
        if isinstance(it, ast.Assign) and getattr(it.targets[0], "id", "") in ("TEXTS", "REFUSALS")
    ]
    return [
        [(it.elts[0].lineno, it.elts[0].value)]
        for pair in pairs
        for it in pair.values
        if isinstance(it, ast.Tuple) and isinstance(it.elts[0], ast.Constant)
    ]


def paragraphs(path, text):
    """Returns the paragraphs of a file, or an empty list if the file contains no prose."""
    name = str(path)
    lines = list(enumerate(text.splitlines(), 1))
    first = text.partition("\n")[0]
    if LEFT_OUT.fullmatch(name):
        return []
    if name.endswith(".md"):
        return of_markdown(lines)
    if name.endswith("/src/table.rt"):
        return of_comments(lines, r"\s*//[/!]? ?(.*)") + of_help(lines)
    if name.endswith(("club_office/texts.py", "club_office/refusals.py")):
        return of_texts(text)
    if name.endswith(".rt"):
        return of_comments(lines, r"\s*//[/!]? ?(.*)")
    if name.endswith(".antt"):
        return of_comments(lines, r"\s*-- ?(.*)")
    if name.endswith((".mjs", ".js", ".go", ".c")):
        return of_comments(
            lines, r"\s*(?:///?|/?\*+/?)(?!\S) ?(.*)"
        )  # no dereference, such as `*at = 1`
    if re.fullmatch(r"web/src/words/[a-z]+\.json", name):
        return [
            [(number, it)]
            for number, line in lines
            for it in re.findall(r'(?:: |\[|, )"((?:[^"\\]|\\.)*)"', line)
        ]
    if re.fullmatch(r"man/.*\.[1-8]", name):
        return [it for run in runs(lines, r"([^.'].*)") for it in of_markdown(run)]
    comments = [
        (number, line)
        for number, line in lines
        if not re.match(r"#!|# (shellcheck|pytestmark)", line.strip())
    ]
    if "python" in first or name.endswith(".py"):
        return of_python(text, lines) + of_comments(comments, r"\s*#+ ?(.*)")
    if (
        first.startswith("#!")
        or name.startswith("deploy/")
        or name.endswith((".sh", ".bats", ".conf"))
    ):
        return of_comments(comments, r"\s*#+ ?(.*)")
    return []


def sentences(paragraph):
    """Yields the sentences of a paragraph, each with its line numbers. Skips headings. The two dots
    of an ellipsis don't end a sentence."""
    joined, starts = "", []
    for number, text in paragraph:
        starts.append((len(joined), number))
        joined += text + " "
    if joined.startswith("# "):
        return
    begin = 0
    for end in re.finditer(r"(?<!\.)[.!?][)\"'*]*(?=\s+[A-ZÄÖÜ" + CODE + r"(\"'])|$", joined):
        if sentence := joined[begin : end.end()].strip():
            begin += len(joined[begin:]) - len(joined[begin:].lstrip())
            first = max(place for place, _ in starts if place <= begin)
            yield {number for place, number in starts if first <= place < end.end()}, sentence
        begin = end.end()


def words_of(sentence):
    return [it for it in sentence.split() if re.search(rf"\w|{CODE}", it)]


# ---- patterns


def remedies(sentence):
    """Yields the remedy for each fault of a sentence."""
    if (count := len(words_of(sentence))) > MOST_WORDS:
        yield f"{count} words, {MOST_WORDS} at most"
    is_whole = sentence.endswith((".", "!")) and len(words_of(sentence)) > 4
    yield from (
        f"'{it[0].strip()}': {remedy}"
        for pattern, remedy in PATTERNS
        for it in [pattern.search(sentence)]
        if it
    )
    yield from (
        f"'{it[0].strip()} ..': {remedy}"
        for pattern, remedy in FIRST
        for it in [pattern.match(sentence)]
        if it and is_whole
    )


def is_excepted(file, sentence):
    return any(file == its_file and words in sentence for its_file, words in EXCEPTIONS)


def foreign(file, text, added=None):
    """Yields a line of text for each slip in the sentences of a file. If `added` is given, checks
    only sentences on these lines."""
    for paragraph in paragraphs(file, text):
        for numbers, sentence in sentences(paragraph):
            if (added is None or numbers & added) and not is_excepted(str(file), sentence):
                yield from (
                    f"prose: {file}:{min(numbers)}: {remedy}: {sentence[:90]}"
                    for remedy in remedies(sentence)
                )


def unused_exceptions(root):
    for (file, words), reason in EXCEPTIONS.items():
        text = (root / file).read_text(encoding="utf-8") if (root / file).exists() else ""
        if words not in " ".join(text.split()):
            yield f"unused exception: {file}: {words}: {reason}"


def subject_faults(subject, crates):
    """Yields the faults of a commit's subject."""
    area, colon, rest = subject.partition(": ")
    if len(subject) > MOST_LETTERS:
        yield f"{len(subject)} letters, {MOST_LETTERS} at most"
    if not colon or area not in {*AREAS, *crates}:
        yield "no area: a crate, or one of " + " ".join(sorted(AREAS))
    elif not IMPERATIVE.match(rest):
        yield "not an imperative after the area"


# ---- what a change adds


def git(root, *words):
    done = subprocess.run(
        ["git", "-C", str(root), *words], capture_output=True, text=True, check=False
    )
    return done.stdout if done.returncode == 0 else None


def base_of(root):
    """Returns the commit at which this branch left its upstream branch. If there is no upstream
    branch, returns HEAD. Outside a clone, returns None."""
    if git(root, "rev-parse", "--show-toplevel") is None or not (root / ".git").exists():
        return None
    return (
        git(root, "merge-base", "HEAD", "@{upstream}") or git(root, "rev-parse", "HEAD") or ""
    ).strip() or None


def added_lines(root, base):
    """Returns, for each changed file, the numbers of the lines added since the base. For an
    untracked file, the value is None."""
    found, file = {}, None
    for line in git(
        root, "diff", "--unified=0", "--no-color", "--no-ext-diff", "-M", base, "--"
    ).splitlines():
        if line.startswith("+++ "):
            file = line[6:] if line.startswith("+++ b/") else None
        elif (hunk := re.match(r"@@ -\S+ \+(\d+)(?:,(\d+))? @@", line)) and file:
            start, count = int(hunk[1]), int(hunk[2] or 1)
            found.setdefault(file, set()).update(range(start, start + count))
    for file in git(root, "ls-files", "--others", "--exclude-standard").splitlines():
        found[file] = None
    return found


def of_change(root, base, below=""):
    """Yields a line of text for each slip in lines and in subjects of commits that were added since
    the base."""
    for file, added in added_lines(root, base).items():
        path = root / file
        if path.is_file() and file.startswith(below):
            try:
                yield from foreign(file, path.read_text(encoding="utf-8"), added)
            except UnicodeDecodeError:
                continue
    crates = [it.name for it in (root / "crates").iterdir()]
    for line in (
        git(root, "log", "--no-merges", "--format=%h %s", f"{base}..HEAD").splitlines()
        if not below
        else ()
    ):
        name, _, subject = line.partition(" ")
        yield from (
            f"subject: {name}: {fault}: {subject}" for fault in subject_faults(subject, crates)
        )


# ---- spelling


def spelled(root):
    """Yields the files that aspell must check, each with its language. The files are the pages and
    the texts of web/."""
    pages = [
        *map(root.joinpath, PAGES),
        *sorted((root / "docs").glob("**/*.md")),
        *sorted(root.glob("crates/*/README.md")),
    ]
    yield from ((it, "en") for it in pages if it.name != "AUDIT.md")
    yield root / "web/src/words/en.json", "en"
    yield root / "web/src/words/de.json", "de_DE"


def known_words(root):
    """Returns the project's own words by language."""
    found, language = {}, None
    for line in (root / "tests/lib/words.txt").read_text(encoding="utf-8").splitlines():
        if line.startswith("# "):
            language = line[2:].split(":")[0]
        elif line.strip():
            found.setdefault(language, set()).add(line.strip())
    return found


def misspelt(text, language):
    """Returns the words of a text that aspell doesn't know."""
    if not shutil.which("aspell"):
        raise Missing("aspell is missing: apt-get install aspell aspell-en aspell-de")
    done = subprocess.run(
        ["aspell", f"--lang={language}", "--encoding=utf-8", "list"],
        input=text,
        capture_output=True,
        text=True,
        check=False,
    )
    if done.returncode:
        raise Missing(f"aspell fails: {done.stderr.strip()}")
    return set(done.stdout.split())


def misspellings(root):
    """Yields a line of text for each word that neither aspell nor tests/lib/words.txt knows. Skips
    names of files."""
    known, texts = known_words(root), {}
    for path, language in spelled(root):
        file = str(path.relative_to(root))
        for paragraph in paragraphs(file, path.read_text(encoding="utf-8")):
            text = " ".join(it for _, it in paragraph).lstrip("# ")
            text = re.sub(rf"\S*\w[./]\w\S*|\{{[a-z]+\}}|\\n|{CODE}[\w-]*|'s\b", " ", text)
            texts.setdefault(language, []).append((file, paragraph[0][0], text))
    for language, found in texts.items():
        unknown = misspelt("\n".join(text for _, _, text in found), language) - known.get(
            language, set()
        )
        pattern = re.compile(rf"(?<!\w)({'|'.join(map(re.escape, sorted(unknown)))})(?!\w)")
        yield from (
            f"misspelt: {file}:{line}: {word}"
            for file, line, text in found
            if unknown
            for word in sorted(set(pattern.findall(text)))
        )

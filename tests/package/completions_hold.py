#!/usr/bin/env -S /usr/bin/python3 -B -m pytest -q -p no:cacheprovider
"""bash, zsh and fish complete exactly the commands, options and values of `--help`.

bin/completions prints the completions of a program for a shell. In real shells, the test compares these
completions with the `--help` of clubdesk, passtool and office. For each command, the shell offers the words
that begin with the typed prefix. The shell also offers the command's options, the values of the options,
and file names for FILE. The command line of office has a club before the command, so the shell also offers
the configured clubs.
"""

import os
import shutil
import subprocess
from pathlib import Path

import pexpect
import pytest

import desk
from helps import names_of, options_of, printed, words_of

pytestmark = [
    pytest.mark.package,
    pytest.mark.needs("clubdesk passtool"),
    pytest.mark.wants("python3-pexpect zsh fish"),
]

COMPLETIONS = desk.ROOT / "bin" / "completions"
FORMS = {"v1", "v2", "json"}
CLUBS = {"rowing", "tennis"}


class Shell:
    """A shell that reads the file of completions. `offers` returns the completions that the shell offers after these words."""

    def __init__(self, name, folder):
        self.name, self.folder = name, folder


class Bash(Shell):
    """Calls the file's completion function in the same way as readline does."""

    def offers(self, *words):
        script = (
            f'source "{self.folder}/{self.name}.bash"; COMP_WORDS=("$@"); COMP_CWORD=$(($# - 1)); '
            f'_{self.name}; printf "%s\\n" "${{COMPREPLY[@]}}"'
        )
        return set(printed("bash", "--norc", "-c", script, "bash", self.name, *words).split())


class Fish(Shell):
    def offers(self, *words):
        line = " ".join([self.name, *words])
        text = printed(
            "fish",
            "--no-config",
            "-c",
            f"source {self.folder}/{self.name}.fish; complete -C '{line}'",
        )
        return {it.split("\t")[0] for it in text.splitlines()}


class Zsh(Shell):
    """Runs an interactive shell at a pseudo-terminal. When the test sends a tab, the shell writes the offered words to a file."""

    def __init__(self, name, folder):
        super().__init__(name, folder)
        self.out, site, setup = (Path(folder, it) for it in ("offered", "site", "setup.zsh"))
        site.mkdir(exist_ok=True)
        shutil.copy(Path(folder, f"{name}.zsh"), site / f"_{name}")
        setup.write_text(
            f"""PROMPT= RPROMPT= HISTFILE= fpath=({site} $fpath)
autoload -Uz compinit; compinit -u -d {folder}/zcompdump
zstyle ':completion:*' menu no
compadd() {{
    local -a found
    if [[ " $* " == *' -'[OAD]' '* ]]; then builtin compadd "$@"; return; fi
    builtin compadd -A found "$@"
    print -rl -- $found >>{self.out}
    builtin compadd "$@"
}}
offered() {{ _main_complete; print END; }}
zle -C offered list-choices offered
bindkey '^I' offered
print READY
"""
        )
        self.terminal = pexpect.spawn(
            "zsh", ["-f", "-i"], timeout=20, env={**os.environ, "TERM": "dumb", "HOME": str(folder)}
        )
        self.terminal.delaybeforesend = None
        self.terminal.sendline(f"source {setup}")
        self.terminal.expect("\nREADY")

    def offers(self, *words):
        self.out.write_text("")
        self.terminal.send("\x15" + " ".join([self.name, *words]) + "\t")
        self.terminal.expect("END")
        return set(self.out.read_text().split())


def longs(found):
    """Drops the short options, because some shells offer them in addition to the long options."""
    return {it for it in found if it.startswith("--")}


def shorts(found):
    return {it for it in found if not it.startswith("-")}


def names(found):
    """Removes the slash at the end of a folder's name."""
    return {it.rstrip("/") for it in found}


def hold_command(shell, before, text, files):
    """Compares the words that the shell offers after a command with the command's help text."""
    options, words = options_of(text), words_of(text)
    assert longs(shell.offers(*before, "--")) == {f"--{it}" for it in options}, before
    for option, value in options.items():
        if value in ("FILE", "FOLDER"):
            assert names(shell.offers(*before, f"--{option}", "club")) == files, (before, option)
        elif value:
            assert shell.offers(*before, f"--{option}", "") - {"--"} == (
                FORMS if option == "form" else set()
            ), (before, option)
    for at, word in enumerate(words):
        given = [*before, *["x"] * at]
        if word == "KIND":
            assert shell.offers(*given, "") == {"court", "boat", "room"}, given
        else:
            assert names(shell.offers(*given, "club")) == (files if word == "FILE" else set()), (
                given,
                word,
            )
        if word != "FILE" and "form" in options:
            assert shell.offers(*given, "--form", "") == FORMS, (given, word)


@pytest.fixture(params=["clubdesk", "passtool", "office"])
def program(request, tmp_path, monkeypatch):
    """Makes a folder with a program, its completions, files that the shells can offer, and configured clubs.
    Returns the program's path."""
    monkeypatch.chdir(tmp_path)
    monkeypatch.setenv("OFFICE_CONF", str(tmp_path / "conf"))
    (tmp_path / "conf").mkdir()
    for name in ("club", "club-other", *(f"conf/{it}.conf" for it in CLUBS), "conf/rowing.health"):
        (tmp_path / name).touch()
    path = (
        desk.ROOT / "deploy" / "office"
        if request.param == "office"
        else desk.program(request.param)
    )
    (tmp_path / request.param).symlink_to(shutil.which(path))
    for shell in ("bash", "zsh", "fish"):
        (tmp_path / f"{request.param}.{shell}").write_text(
            printed(COMPLETIONS, shell, tmp_path / request.param)
        )
    return tmp_path / request.param


@pytest.mark.parametrize("kind", [Bash, Zsh, Fish])
def test_completions(program, kind):
    shell = kind.__name__.lower()
    subprocess.run(
        [shell, "--no-execute" if kind is Fish else "-n", f"{program}.{shell}"], check=True
    )
    files = {it.name for it in program.parent.iterdir() if it.name.startswith("club")}
    shell, top = kind(program.name, program.parent), printed(program, "--help")
    club = ["rowing"] if top.startswith("usage: ") else []
    commands = names_of(top)
    if club:
        assert shorts(shell.offers("")) == CLUBS
        assert longs(shell.offers("--")) == {f"--{it}" for it in options_of(top)}
    assert shorts(shell.offers(*club, "")) == commands
    first = min(commands)[:2]
    assert shell.offers(*club, first) == {it for it in commands if it.startswith(first)}
    assert longs(shell.offers(*club, "--")) == {f"--{it}" for it in options_of(top)}
    for command in sorted(commands - {"help"}):
        hold_command(
            shell,
            [*club, command],
            printed(program, *club, command, "--help")
            if club
            else printed(program, "help", command),
            files,
        )
    if not club:
        assert shell.offers("help", "") == commands - {"help"}
    assert not shorts(shell.offers(*club, "no-such", "x"))


@pytest.mark.parametrize(
    "words", [[], ["bash"], ["csh", "x"], ["bash", "x", "y"], ["bash", "none"]]
)
def test_words_that_completions_refuse(tmp_path, words):
    ended = subprocess.run([COMPLETIONS, *words], cwd=tmp_path, capture_output=True, check=False)
    assert ended.returncode != 0 and ended.stdout == b""

"""Reads the `--help` output of one of our programs or of deploy/office: the names of commands,
options and arguments."""

import os
import re
import subprocess


def printed(*words):
    return subprocess.run(
        words, check=True, capture_output=True, text=True, env={**os.environ, "COLUMNS": "200"}
    ).stdout


def between(text, first):
    """Returns the indented and empty lines that directly follow the line `FIRST:`, where FIRST is
    the value of `first`."""
    lines = text.splitlines()
    if f"{first}:" not in lines:
        return []
    after = lines[lines.index(f"{first}:") + 1 :]
    return after[
        : next((at for at, line in enumerate(after) if line and line[0] != " "), len(after))
    ]


def names_of(text):
    return {
        line.split()[0]
        for line in between(text, "Commands") + between(text, "commands")
        if re.match(r" {2,4}[a-z]", line)
    }


def options_of(text):
    """Returns each long option, with the name of its value if the option has one."""
    lines = between(text, "Options") + between(text, "options")
    return {
        found[1]: found[2]
        for line in lines
        if (found := re.match(r" .*?--([a-z-]+)(?: <?([A-Z-]+))?", line))
    }


def words_of(text):
    return re.findall(
        r"^  [<\[]?([A-Z|-]+)",
        "\n".join(between(text, "Arguments") + between(text, "positional arguments")),
        re.M,
    )

"""Builds the library of passes, and programs in C, Go and Node.js that use the library."""

import os
import subprocess
from pathlib import Path

import desk

BINDINGS = desk.ROOT / "bindings"
NODE_HEADERS = Path("/usr/include/node")
WARNINGS = ["-O1", "-Wall", "-Wextra", "-Werror"]
LANGUAGES = ("c", "python", "go", "node")


def build_library(room: Path) -> None:
    """Builds the library in a folder, and sets the environment variables that each language
    needs."""
    subprocess.run([desk.ROOT / "bin" / "library", room], check=True, stdout=subprocess.DEVNULL)
    os.environ.update(
        PKG_CONFIG_PATH=f"{room}/lib/pkgconfig",
        LD_LIBRARY_PATH=f"{room}/lib",
        PYTHONPATH=f"{room}/lib/python3",
        CLUBPASS_LIBRARY=f"{room}/lib/libclubpass.so.0",
        CLUBPASS_NODE=f"{room}/clubpass.node",
        CLUBPASS_JS=f"{BINDINGS}/node/clubpass.js",
        GOPATH=f"{room}/go",
        GO111MODULE="off",
        GOCACHE=f"{room}/cache",
    )


def flags() -> list[str]:
    """Returns the compiler's flags for the library."""
    words = ["pkg-config", "--cflags", "--libs", "clubpass"]
    return subprocess.run(words, check=True, capture_output=True, text=True).stdout.split()


def c_program(room: Path, source: Path) -> list[str]:
    built = room / source.stem
    subprocess.run(["gcc", *WARNINGS, "-std=gnu11", "-o", built, source, *flags()], check=True)
    return [str(built)]


def go_build(room: Path, source: Path, *words: str) -> subprocess.CompletedProcess[str]:
    """Compiles a program in Go. Returns the finished process of the compiler."""
    package = room / "go" / "src" / "clubpass"
    if not package.exists():
        package.parent.mkdir(parents=True)
        package.symlink_to(BINDINGS / "go" / "clubpass")
    built = room / f"{source.stem}-of-go"
    return subprocess.run(
        ["go", "build", *words, "-o", built, source], capture_output=True, text=True
    )


def go_program(room: Path, source: Path) -> list[str]:
    ended = go_build(room, source)
    assert ended.returncode == 0, ended.stderr
    return [str(room / f"{source.stem}-of-go")]


def node_program(room: Path, source: Path) -> list[str]:
    addon = room / "clubpass.node"
    if not (NODE_HEADERS / "node_api.h").exists():  # Debian's package of Node.js has no headers
        subprocess.run(
            ["apt-get", "install", "-y", "--no-install-recommends", "libnode-dev"],
            check=True,
            stdout=subprocess.DEVNULL,
        )
    if not addon.exists():
        of_addon = [BINDINGS / "node" / "clubpass.c", f"-I{NODE_HEADERS}", *flags()]
        subprocess.run(["gcc", "-shared", "-fPIC", *WARNINGS, "-o", addon, *of_addon], check=True)
    return ["node", str(source)]


def program(language: str, room: Path, folder: Path, name: str) -> list[str]:
    """Returns the words that run a program in a language. Compiles the program if necessary."""
    if language == "c":
        return c_program(room, folder / f"{name}.c")
    if language == "go":
        return go_program(room, folder / f"{name}.go")
    if language == "node":
        return node_program(room, folder / f"{name}.js")
    return ["/usr/bin/python3", str(folder / f"{name}.py")]

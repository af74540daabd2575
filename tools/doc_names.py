#!/usr/bin/env python3
"""Looks for names in backticks that the repository doesn't have.

    python3 tools/doc_names.py              README.md, CONTRIBUTING.md and all of docs/*.md
    python3 tools/doc_names.py FILE..       these pages

A name exists where it is a file or folder, or a word of the sources, definitions, proofs, data,
examples, bindings or tools, or one of OUTSIDE below. Words of capital letters alone are places for
a name or a number. It prints each line with a name that is missing; the status is 1 where there is
one, and 2 where nothing was looked at."""
from __future__ import annotations

import pathlib
import re
import sys

TOP = pathlib.Path(__file__).resolve().parent.parent
FOLDERS = ("crates", "tools", "include", "bindings", ".ci", "web")
TEXTS = (
    *(".rt", ".antt", ".edit", ".rows", ".txt", ".h", ".py", ".sh", ".md", ".s", ".v", ".awk"),
    *(".c", ".rs", ".toml", ".js", ".html", ""),
)
WORD = re.compile(r"[A-Za-z_][A-Za-z0-9_-]*")
NAME = re.compile(r"[A-Za-z_][A-Za-z0-9_]*")
# Names of other programs, of the kit and of systems, and what a page makes up or says that there
# isn't.
OUTSIDE = frozenset("""
    rt fmt tidy plant dac8208d650f15bf byteorder memmove memset callgrind man xargs parallel
    sshlogin wasm64 wasm_import_module libc
    bashrc zshrc vimrc fpath compinit modeline runtimepath
    res segment macro stz bra lax center quit fire press1 put_ _always_fails xEF xBB xBF
    """.split())


def pages() -> list[pathlib.Path]:
    """The pages of the repository."""
    return [TOP / "README.md", TOP / "CONTRIBUTING.md", *sorted((TOP / "docs").glob("*.md"))]


def known_words() -> set[str]:
    """All words of the sources, and all names of files and folders."""
    words = set(OUTSIDE)
    for folder in FOLDERS:
        for path in (TOP / folder).rglob("*"):
            if {"out", "target", "__pycache__"} & set(path.parts):
                continue
            words.add(path.name)
            words.update(re.split(r"\W+", path.name))
            if path.is_file() and path.suffix in TEXTS and path != pathlib.Path(__file__).resolve():
                text = path.read_text(errors="replace")
                words.update(WORD.findall(text))
                words.update(NAME.findall(text))
    words.update(WORD.findall((TOP / "crates.txt").read_text()))
    return words


def missing(quoted: str, words: set[str]) -> list[str]:
    """The words of a quoted text that the repository doesn't have."""
    if (TOP / quoted).exists():
        return []
    names = [word for word in NAME.findall(quoted) if len(word) > 2 and word not in words]
    return [word for word in names if not re.fullmatch(r"[A-Z]+", word)]


def main(names: list[str]) -> int:
    """Looks at these pages, or at all; the status."""
    words, looked, wrong = known_words(), 0, 0
    for page in [pathlib.Path(name) for name in names] or pages():
        for number, line in enumerate(page.read_text().splitlines(), 1):
            for quoted in re.findall(r"`([^`]+)`", line):
                looked += 1
                for word in missing(quoted, words):
                    print(f"{page.resolve().relative_to(TOP)}:{number}: {word} of `{quoted}`")
                    wrong += 1
    if not looked:
        print("doc_names.py: no name was looked at", file=sys.stderr)
        return 2
    return 1 if wrong else 0


if __name__ == "__main__":
    sys.exit(main(sys.argv[1:]))

#!/usr/bin/env python3
"""Does the commands of docs/GUIDE.md as a reader does who pastes them, in order, in one shell. gravitar has to be on the path.

    python3 tools/doc_pasted.py

It begins at the top of a copy of this repository, without what git ignores. A block of lines is of commands if it has `$` lines, which
are taken alone then, or if each of its lines begins with a program. `tools/quick.sh` isn't done: the program of the path takes its
place. A block that needs a program which isn't there is passed over, and printed. The last line is `N passed, M failed, K skipped`,
with a block a count; the status is 1 where a line fails, and 2 where nothing was tried."""
from __future__ import annotations

import pathlib
import shutil
import subprocess
import sys
import tempfile

TOP = pathlib.Path(__file__).resolve().parent.parent
PAGE = TOP / "docs" / "GUIDE.md"
PROGRAMS = {"awk", "ca65", "cat", "cd", "cl65", "cp", "cut", "echo", "gravitar", "grep", "head", "ld65", "mkdir", "printf", "python3", "sed",
            "sh", "sox", "sort", "tail"}
# What a recipe needs that it doesn't name in its line.
NEEDS = {"film.sh": ["gnuplot"], "picture.sh": ["gnuplot"], "wav.sh": ["sox"], "stereo.sh": ["sox"], "movie.sh": ["gnuplot", "sox", "ffmpeg"]}
SECONDS = 600


def blocks(text: str) -> list[list[str]]:
    """The blocks of indented lines."""
    found: list[list[str]] = [[]]
    for line in text.splitlines():
        if line.startswith("    "):
            found[-1].append(line[4:])
        elif found[-1]:
            found.append([])
    return [block for block in found if block]


def commands(block: list[str]) -> list[str]:
    """The commands of a block; none if it isn't one of commands."""
    typed = [line[2:] for line in block if line.startswith("$ ")]
    if typed:
        return typed
    return block if all(line.split()[0] in PROGRAMS for line in block) else []


def lacks(lines: list[str]) -> list[str]:
    """The programs of these commands that aren't there."""
    text = "\n".join(lines)
    needed = {line.split()[0] for line in lines} - {"cd"} | {tool for recipe, tools in NEEDS.items() if recipe in text for tool in tools}
    return sorted(tool for tool in needed if not shutil.which(tool))


def copy(folder: pathlib.Path) -> None:
    """The files of this repository that git knows, and the new ones that it doesn't ignore."""
    names = subprocess.run(["git", "ls-files", "-z", "--cached", "--others", "--exclude-standard"], cwd=TOP, capture_output=True, text=True,
                           check=True).stdout.split("\0")
    for name in filter(None, names):
        source, target = TOP / name, folder / name
        if source.is_symlink() or source.is_file():
            target.parent.mkdir(parents=True, exist_ok=True)
            shutil.copy2(source, target, follow_symlinks=False)


def main() -> int:
    """Does all; the status."""
    program = shutil.which("gravitar")
    if not program:
        print("doc_pasted.py: no gravitar on the path", file=sys.stderr)
        return 2
    passed, skipped, script = 0, 0, ["set -e"]
    for number, block in enumerate(blocks(PAGE.read_text())):
        lines = commands(block)
        if not lines:
            continue
        missing = lacks(lines)
        if missing:
            print(f"passed over, no {', '.join(missing)}: {lines[0]}")
            skipped += 1
            continue
        passed += 1
        script += [f"echo block {number} >&3", *lines]
    with tempfile.TemporaryDirectory() as work:
        home, top = pathlib.Path(work, "home"), pathlib.Path(work, "top")
        home.mkdir()
        copy(top)
        quick = top / "tools" / "quick.sh"
        quick.write_text(f'#!/bin/sh\ncp "{program}" "$1"\n')
        quick.chmod(0o755)
        done = subprocess.run(["bash", "-c", f"exec 3>'{work}/at'\n" + "\n".join(script)], cwd=top, capture_output=True, text=True,
                              stdin=subprocess.DEVNULL, timeout=SECONDS, env={"HOME": str(home), "PATH": "/usr/local/bin:/usr/bin:/bin"},
                              check=False)
        reached = pathlib.Path(work, "at").read_text().split()[1::2]
        if done.returncode:
            print(f"failed in block {reached[-1]}: {blocks(PAGE.read_text())[int(reached[-1])][:3]}")
            print(done.stderr[-2000:])
            print(f"{len(reached) - 1} passed, 1 failed, {skipped} skipped")
            return 1
    print(f"{passed} passed, 0 failed, {skipped} skipped")
    return 0 if passed else 2


if __name__ == "__main__":
    sys.exit(main())

#!/usr/bin/env python3
"""Does each `$` line of the pages, and compares what comes with what the page shows. gravitar has to be on the path.

    python3 tools/doc_commands.py

The pages are README.md, CONTRIBUTING.md and docs/*.md. It works in a copy of examples/, after its session.sh; a line that begins with
`tools/` is done at the top of the repository. A `$` line inside a block that begins otherwise is part of a row, and isn't done. A line
that needs a program which isn't there is passed over, and printed. It also looks whether examples/session.sh has each `$` line of the
guide that needs gravitar alone, whatever file its text goes to, and with `--until` where the whole run is long for the gate.
The last line is `N passed, M failed, K skipped`. The status is 1 where something differs, and 2 where nothing was tried."""
from __future__ import annotations

import pathlib
import re
import shutil
import subprocess
import sys
import tempfile
from typing import Iterator, NamedTuple, Optional

TOP = pathlib.Path(__file__).resolve().parent.parent
SECONDS = 120


class Command(NamedTuple):
    """A `$` line, with the lines of its block up to the next one."""

    line: str
    shown: list[str]


def commands(text: str) -> list[Command]:
    """The `$` lines of a page, but for those of rows."""
    found: list[Command] = []
    begun, shown = False, None
    for line in text.splitlines():
        inside = line.startswith("    ")
        if inside and line.startswith("    $ ") and (not begun or shown is not None):
            shown = []
            found.append(Command(line[6:], shown))
        elif inside and shown is not None:
            shown.append(line[4:])
        elif not inside:
            shown = None
        begun = inside
    return found


def missing(line: str) -> Optional[str]:
    """A program of a line that this machine hasn't."""
    programs = [part.split()[0] for part in line.split("|")]
    if "both.sh" in line:
        programs.append("ca65")
    return next((program for program in programs if not (shutil.which(program) or (TOP / program).exists())), None)


def difference(command: Command, folder: pathlib.Path) -> Optional[str]:
    """What a command gives other than it shows."""
    where = TOP if command.line.startswith("tools/") else folder
    try:
        done = subprocess.run(command.line, shell=True, cwd=where, capture_output=True, text=True, stdin=subprocess.DEVNULL,
                              timeout=SECONDS, check=False)
    except subprocess.TimeoutExpired:
        return f"not ended within {SECONDS} seconds"
    if done.stdout.splitlines() != command.shown or done.returncode != 0:
        return f"status {done.returncode}\n{done.stdout}{done.stderr}"
    return None


def missing_in_session() -> Iterator[str]:
    """The `$` lines of the guide that need gravitar alone, and that session.sh hasn't."""
    def bare(line: str) -> str:
        return re.sub(r" --until 100000$", "", line.split(" > ")[0].strip())
    session = {bare(line) for line in (TOP / "examples/session.sh").read_text().splitlines()}
    for command in commands((TOP / "docs/GUIDE.md").read_text()):
        if command.line.startswith("gravitar ") and "|" not in command.line and bare(command.line) not in session:
            yield f"session.sh hasn't: {command.line}"


def main() -> int:
    """Does all; the status."""
    if not shutil.which("gravitar"):
        print("doc_commands.py: no gravitar on the path", file=sys.stderr)
        return 2
    wrong, passed, skipped = list(missing_in_session()), 0, 0
    with tempfile.TemporaryDirectory() as work:
        folder = pathlib.Path(work) / "examples"
        shutil.copytree(TOP / "examples", folder)
        session = subprocess.run(["sh", "session.sh"], cwd=folder, stdout=subprocess.DEVNULL, stdin=subprocess.DEVNULL, check=False)
        if session.returncode:
            wrong.append(f"examples/session.sh: status {session.returncode}")
        for page in (TOP / "README.md", TOP / "CONTRIBUTING.md", *sorted((TOP / "docs").glob("*.md"))):
            for command in commands(page.read_text()):
                lacks = missing(command.line)
                if lacks:
                    print(f"{page.name}: passed over, no {lacks}: {command.line}")
                    skipped += 1
                    continue
                differs = difference(command, folder)
                if differs:
                    wrong.append(f"{page.name}: {command.line}: {differs}")
                else:
                    passed += 1
    print("\n".join(wrong), end="\n" if wrong else "")
    print(f"{passed} passed, {len(wrong)} failed, {skipped} skipped")
    if not passed + len(wrong):
        return 2
    return 1 if wrong else 0


if __name__ == "__main__":
    sys.exit(main())

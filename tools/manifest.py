#!/usr/bin/env python3
"""A run and all of its files in one text file, which sha256sum checks years later.

    python3 tools/manifest.py make MANIFEST LOG PROGRAM IMAGE TAPE [--state F] [--earom F] [--timers] [--version TEXT] [--save F]
    python3 tools/manifest.py check MANIFEST

`make` does the run, writes its log to LOG, the last board to the F of --save, and the manifest. It leaves a file of cells as it was,
and a new one with `.after` at the end of its name. `check`, in the same folder, compares all files with their sums, does the run
again, and compares what it gives. The sums alone are checked by `sha256sum -c MANIFEST`; the other lines of a manifest begin with
`#`, which sha256sum passes over. --version is what a person calls this program; without it, it is the version of include/gravitar.h at the
top of this repository, if it is there, and the commit. Names are those of plain files, without line feeds, as seen from the manifest's folder.

The status is 0 where all is done or the same, 1 where something differs, and 2 where a file is absent or a line can't be read."""
from __future__ import annotations

import hashlib
import pathlib
import re
import shlex
import subprocess
import sys
import tempfile
from typing import NamedTuple, Optional

TITLE = "# A run of gravitar. Check the files: sha256sum -c THIS. Check the run: tools/manifest.py check THIS"


class Refused(Exception):
    """What can't be done."""


class Run(NamedTuple):
    """A run by the names of its files."""

    program: str
    image: str
    tape: str
    state: Optional[str] = None
    earom: Optional[str] = None
    timers: bool = False

    def words(self, cells: Optional[str], save: Optional[str]) -> list[str]:
        """Its command line, with the cells in a file of their own."""
        options = [*(("--state", self.state) if self.state else ()), *(("--earom", cells) if cells else ()),
                   *(("--timers",) if self.timers else ()), *(("--save", save) if save else ())]
        program = self.program if "/" in self.program else f"./{self.program}"
        return [program, "run", self.image, self.tape, *options]

    def done(self, log: pathlib.Path, save: Optional[pathlib.Path], cells: Optional[pathlib.Path]) -> int:
        """Does it; its status."""
        if self.earom and cells:
            cells.write_bytes(pathlib.Path(self.earom).read_bytes())
        with log.open("wb") as out:
            words = self.words(str(cells) if self.earom and cells else None, str(save) if save else None)
            status = subprocess.run(words, stdout=out, stdin=subprocess.DEVNULL, check=False).returncode
        if status not in (0, 3):
            raise Refused(f"{' '.join(words)}: status {status}")
        return status


def sum_of(name: str) -> str:
    """The SHA-256 of a file, as sha256sum prints it."""
    if any(mark in name for mark in "\n\r\\"):
        raise Refused(f"a name that sha256sum writes in another way: {name!r}")
    return hashlib.sha256(pathlib.Path(name).read_bytes()).hexdigest()


def commit() -> str:
    """The one version number, that of include/gravitar.h, and the folder's commit."""
    folder = pathlib.Path(__file__).resolve().parent
    header = folder.parent / "include" / "gravitar.h"
    found = re.search(r"#define GRAVITAR_VERSION (\d+)", header.read_text()) if header.is_file() else None
    version = [found.group(1)] if found else []
    try:
        version += subprocess.run(["git", "-C", str(folder), "describe", "--always", "--dirty"], capture_output=True, text=True,
                                  check=True).stdout.split()
    except (OSError, subprocess.CalledProcessError):
        version = version or ["unknown"]
    return " ".join(version)


def make(manifest: str, log: str, run: Run, version: str, save: Optional[str]) -> list[str]:
    """Does a run; the lines of its manifest."""
    after = f"{run.earom}.after" if run.earom else None
    status = run.done(pathlib.Path(log), pathlib.Path(save) if save else None, pathlib.Path(after) if after else None)
    fields = [("version", version), ("status", str(status)), ("program", run.program), ("image", run.image), ("tape", run.tape),
              ("state", run.state), ("cells", run.earom), ("timers", "yes" if run.timers else None), ("log", log), ("board", save),
              ("cells-after", after)]
    names = [run.program, run.image, run.tape, run.state, run.earom, log, save, after]
    lines = [TITLE, *(f"# {key}: {value}" for key, value in fields if value),
             f"# command: {shlex.join(run.words(run.earom, save))} > {shlex.quote(log)}"]
    lines += [f"{sum_of(name)}  {name}" for name in dict.fromkeys(names) if name]
    pathlib.Path(manifest).write_text("\n".join(lines) + "\n")
    return lines


def read(manifest: str) -> tuple[dict[str, str], dict[str, str]]:
    """The fields and the sums of a manifest."""
    fields: dict[str, str] = {}
    sums: dict[str, str] = {}
    for number, line in enumerate(pathlib.Path(manifest).read_text().splitlines(), 1):
        if line.startswith("# ") and number > 1:
            key, _, value = line[2:].partition(": ")
            fields[key] = value
        elif number > 1 and len(line) > 66 and line[64:66] == "  ":
            sums[line[66:]] = line[:64]
        elif number > 1 or line != TITLE:
            raise Refused(f"{manifest}: line {number} is none of a manifest")
    for key in ("program", "image", "tape", "log", "status"):
        if key not in fields or (key != "status" and fields[key] not in sums):
            raise Refused(f"{manifest}: no {key}")
    return fields, sums


def check(manifest: str) -> list[str]:
    """What differs."""
    fields, sums = read(manifest)
    wrong = [f"{name}: another sum" for name, told in sums.items() if sum_of(name) != told]
    if wrong:
        return wrong
    run = Run(fields["program"], fields["image"], fields["tape"], fields.get("state"), fields.get("cells"), "timers" in fields)
    with tempfile.TemporaryDirectory() as folder:
        made = {key: pathlib.Path(folder, key) for key in ("log", "board", "cells-after")}
        status = run.done(made["log"], made["board"] if "board" in fields else None, made["cells-after"])
        if str(status) != fields["status"]:
            wrong.append(f"the run: status {status}, not {fields['status']}")
        wrong += [f"the run: another {key}" for key, path in made.items() if key in fields and sum_of(str(path)) != sums[fields[key]]]
    return wrong


def main(words: list[str]) -> int:
    """Does a command line; the status."""
    try:
        if len(words) == 2 and words[0] == "check":
            wrong = check(words[1])
            print("\n".join(wrong) if wrong else f"{words[1]}: all files and the run are the same")
            return 1 if wrong else 0
        if len(words) < 6 or words[0] != "make":
            raise Refused("usage: manifest.py make MANIFEST LOG PROGRAM IMAGE TAPE [OPTIONS], or manifest.py check MANIFEST")
        _, manifest, log, program, image, tape, *options = words
        given: dict[str, str] = {}
        while options:
            option = options.pop(0)
            if option == "--timers":
                given[option] = "yes"
            elif option in ("--state", "--earom", "--version", "--save") and options:
                given[option] = options.pop(0)
            else:
                raise Refused(f"no option {option}")
        run = Run(program, image, tape, given.get("--state"), given.get("--earom"), "--timers" in given)
        make(manifest, log, run, given.get("--version") or commit(), given.get("--save"))
        return 0
    except (Refused, OSError, UnicodeDecodeError) as fault:
        print(f"manifest.py: {fault}", file=sys.stderr)
        return 2


if __name__ == "__main__":
    sys.exit(main(sys.argv[1:]))

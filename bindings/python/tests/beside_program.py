"""Holds `gravitar.command` against the program, over random command lines and files.

    python3 beside_program.py PROGRAM [--lines N] [--seed S]

Each command line is done twice: by the program in a folder with the files, and by `command` over
the same files. Status, output, note and all files afterwards have to be the same bytes. The lines
are decided by the seed alone. Among them are words of no form, absent and bad files, and jams. The
last line has how many were done and how many differ; the status is 1 where one differs, and 2 where
nothing was tried or a status from 0 to 5 that comes often is missing.
"""
from __future__ import annotations

import argparse
import collections
import pathlib
import random
import subprocess
import sys
import tempfile
from typing import Dict

import gravitar

EXAMPLES = pathlib.Path(__file__).resolve().parents[3] / "examples"
ORDERS = [
    "regs", "go", "step 3", "dev", "until 300", "mem 0000 20", "dis f000 4", "vdis 2000 3",
    "watch 0010", "break 9010",
    "stopvg", "clear", "step 1", "step 1", "step 1", "go", "bad", "break 901",
]
PORTS = ["IN0", "IN3", "IN4", "P0", "Q3", "IN9"]

Files = Dict[str, bytes]


class Maker:
    """Makes command lines and files out of a seed."""

    def __init__(self, seed: int) -> None:
        self.random = random.Random(seed)
        self.sources = []
        for name in ("latch", "score", "ship", "square", "tune"):
            pair = [(EXAMPLES / name / f"{name}.{kind}").read_bytes() for kind in "sv"]
            self.sources.append((*pair, gravitar.assemble(*pair)))

    def tape(self) -> bytes:
        end = self.random.choice([0, 10, 500, 9_000, 30_000])
        clocks = sorted(self.random.randrange(end + 1) for _ in range(self.random.randrange(6)))
        ports = PORTS if self.random.random() < 0.05 else PORTS[:-1]
        entries = (
            f"{clock} {self.random.choice(ports)} {self.random.randrange(256):02X}\n"
            for clock in clocks
        )
        return ("".join(entries) + f"{end} END\n").encode()

    def image(self, image: bytes) -> bytes:
        """The image, often with wrong bytes, so that many jam."""
        pick = self.random.random()
        if pick < 0.7:
            return image
        changed = bytearray(image)
        where = range(len(changed)) if pick < 0.85 else range(14_336, 14_336 + 60)
        for _ in range(self.random.randrange(1, 400) if pick < 0.85 else 4):
            changed[self.random.choice(where)] = self.random.choice([2, self.random.randrange(256)])
        return bytes(changed)

    def files(self) -> Files:
        processor, generator, image = self.random.choice(self.sources)
        files = {"i": self.image(image), "t": self.tape(), "c": processor, "v": generator}
        begin = ["run", "i", "t", "--until", str(self.random.choice([1, 77, 400])), "--save", "b"]
        files.update(gravitar.command(begin, {"i": files["i"], "t": b"1000 END\n"}).files)
        files["e"] = bytes(self.random.randrange(256) for _ in range(64))
        orders = self.random.choices(
            ORDERS if self.random.random() < 0.2 else ORDERS[:-2], k=self.random.randrange(8)
        )
        files["d"] = "".join(order + "\n" for order in orders).encode()
        if self.random.random() < 0.1:
            files = {name: content for name, content in files.items() if self.random.random() < 0.7}
        if files and self.random.random() < 0.1:
            name = self.random.choice(list(files))
            files[name] = files[name][: self.random.randrange(len(files[name]) + 1)]
        return files

    def number(self) -> str:
        return str(self.random.randrange(9_000))

    def options(self) -> list[str]:
        options = []
        names = ["--until", "--cuts", "--save", "--cost", "--timers", "--state", "--earom"]
        for option in self.random.sample(names, self.random.choice([0, 0, 1, 1, 2, 3, 4])):
            cuts = ",".join(
                str(self.random.randrange(9_000)) for _ in range(self.random.randrange(1, 5))
            )
            value = {
                "--until": self.number(), "--cuts": ",".join(sorted(cuts.split(","), key=int)),
                "--save": self.random.choice("siet"), "--state": "b", "--earom": "e",
            }.get(option)
            options += [option] if value is None else [option, value]
        return options

    def words(self) -> list[str]:
        if self.random.random() < 0.01:
            return ["soak", "7"][: self.random.choice([1, 2])]
        pick = self.random.choice
        words = pick([
            ["run", "i", "t"], ["run", "i", "t"], ["run", "i", "t"], ["run", "i", "t"], [
                "asm", "c", "v", "o"
            ],
            ["debug", "i", "t", "d"], ["show", "b"], [
                "pcm", "i", "t", pick(["1", "8", "34", "0"])
            ], ["frames", "i", "t"],
            ["seek", "i", "t", "7,3," + self.number()], ["profile", "i", "t"], ["bad"], [],
        ])
        # A command that takes no option, or only some, gets one that it doesn't take now and then.
        takes = {
            "run": "--until --cuts --save --cost --timers --state --earom",
            "debug": "--timers --state --earom",
        }.get(words[0] if words else "", "--until --timers --state --earom").split()
        options, kept = self.options(), []
        stray = self.random.random() < 0.1
        while options:
            size = 1 if options[0] in ("--cost", "--timers") else 2
            if stray or (options[0] in takes and words[:1] not in (["asm"], ["show"], ["bad"], [])):
                kept += options[:size]
            options = options[size:]
        return words + kept


def by_program(
    program: pathlib.Path, words: list[str], files: Files, folder: pathlib.Path
) -> tuple:
    """What the program does in a folder of its own."""
    for path in folder.iterdir():
        path.unlink()
    for name, content in files.items():
        (folder / name).write_bytes(content)
    done = subprocess.run(
        [
            program, *words
        ], cwd=folder, stdin=subprocess.DEVNULL, capture_output=True, timeout=60, check=False)
    after = {path.name: path.read_bytes() for path in folder.iterdir()}
    return done.returncode, done.stdout, done.stderr, after


def by_call(words: list[str], files: Files) -> tuple:
    done = gravitar.command(words, files)
    return done.status, done.out, done.note, {**files, **done.files}


def main() -> int:
    parser = argparse.ArgumentParser()
    parser.add_argument("program", type=pathlib.Path)
    parser.add_argument("--lines", type=int, default=500)
    parser.add_argument("--seed", type=int, default=1)
    given = parser.parse_args()
    program = given.program.resolve()
    if given.lines < 1 or not program.is_file():
        parser.error("no program, or no line to do")
    maker, seen, differ = Maker(given.seed), collections.Counter(), 0
    with tempfile.TemporaryDirectory() as folder:
        for number in range(given.lines):
            words, files = maker.words(), maker.files()
            mine, its = by_call(words, files), by_program(
                program, words, files, pathlib.Path(folder)
            )
            seen[its[0]] += 1
            if mine != its:
                differ += 1
                names = [
                    name for name in {**mine[3], **its[3]} if mine[3].get(name) != its[3].get(name)
                ]
                parts = [
                    what
                    for what, one, other in zip(("status", "output", "note"), mine, its)
                    if one != other
                ]
                print(f"line {number}: {' '.join(words)!r} differs: {', '.join(parts + names)}")
    statuses = ", ".join(f"{count} with status {status}" for status, count in sorted(seen.items()))
    print(f"{given.lines} command lines ({statuses}), {differ} differ")
    if differ:
        return 1
    return 2 if given.lines >= 500 and not {0, 2, 3, 4, 5} <= set(seen) else 0


if __name__ == "__main__":
    sys.exit(main())

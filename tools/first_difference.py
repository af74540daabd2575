#!/usr/bin/env python3
"""Finds the first clock at which two runs differ: two programs, or one program with two images, two tapes or two boards.

    python3 tools/first_difference.py [--piece N] [--names FILE] SIDE -- SIDE

A SIDE is `PROGRAM IMAGE TAPE`, with --state F, --earom F and --timers as `gravitar run` takes them, or the one name of a log, for an
emulator that writes a log alone. A log is in the form of docs/FORMATS.md. Both sides are done in pieces of N clocks (4,000,000), each
from the boards that were saved at the end of the last one, and compared line by line up to the first clock with another line.

Where both sides are programs that save boards, it then looks for the first clock at which their boards differ: 64 boards of each side
at a time, and on between the last two that are the same and the first two that aren't. It shows what differs, by the names of
tools/board_diff.py, and both boards' text.

The status is 0 where the logs are the same, 1 where they differ, and 2 where a side can't be done."""
from __future__ import annotations

import os
import pathlib
import subprocess
import sys
import tempfile
import threading
from typing import Iterator, NamedTuple, Optional, Union

import board_diff

PIECE = 4_000_000
CUTS = 64
MOST = 2**48
SECONDS = 600


class Refused(Exception):
    """A side that can't be done."""


class Line(NamedTuple):
    """A line of a log with its clock."""

    clock: int
    text: str


def read_lines(text: str) -> list[Line]:
    """The lines of a log, but for the count of `--cost`."""
    lines = []
    for line in text.splitlines():
        words = line.split(" ")
        if words[0] == "C":
            continue
        if len(words) < 2 or not words[1].isdigit():
            raise Refused(f"no line of a log: {line}")
        lines.append(Line(int(words[1]), line))
    return lines


class LogSide:
    """A log that was written before."""

    boards = False

    def __init__(self, name: str) -> None:
        self.name = name
        try:
            self.lines = read_lines(pathlib.Path(name).read_text())
        except (OSError, UnicodeDecodeError) as fault:
            raise Refused(f"{name}: {fault}") from fault
        self.place = 0
        self.end = self.lines[-1].clock if self.lines else 0

    def upto(self, limit: int) -> list[Line]:
        """The next lines, those before a clock; all that are left if the log ends by then."""
        begin = self.place
        while self.place < len(self.lines) and (self.lines[self.place].clock < limit or limit > self.end):
            self.place += 1
        return self.lines[begin:self.place]


class ProgramSide:
    """A program over an image and a tape, which is run in pieces."""

    boards = True

    def __init__(self, words: list[str], folder: pathlib.Path) -> None:
        self.program, self.image, self.tape, *options = words
        self.name = " ".join(words)
        self.state: Optional[str] = None
        self.first: list[str] = []      # what is given for the first piece alone
        self.always: list[str] = []
        while options:
            if options[0] == "--timers":
                self.always.append(options.pop(0))
            elif options[0] in ("--state", "--earom") and len(options) > 1:
                self.first += [options.pop(0), options.pop(0)]
            else:
                raise Refused(f"no option of a side: {options[0]}")
        if "--earom" in self.first:     # its file isn't changed
            at = self.first.index("--earom") + 1
            copy = folder / "cells"
            copy.write_bytes(pathlib.Path(self.first[at]).read_bytes())
            self.first[at] = str(copy)
        self.folder = folder
        self.piece = 0
        self.later: list[Line] = []     # lines of this piece behind its limit
        self.end = self.tape_end()

    def tape_end(self) -> int:
        """The clock of the tape's last line."""
        try:
            last = pathlib.Path(self.tape).read_text().splitlines()[-1].split(" ")
            return int(last[0])
        except (OSError, ValueError, IndexError) as fault:
            raise Refused(f"{self.tape}: {fault}") from fault

    def start(self) -> list[str]:
        """The options with which the next piece begins."""
        return (["--state", self.state] if self.state else self.first) + self.always

    def run(self, words: list[str], pass_fds: tuple[int, ...] = ()) -> str:
        """What a run prints."""
        try:
            done = subprocess.run([self.program, "run", self.image, self.tape, *words], capture_output=True, text=True,
                                  stdin=subprocess.DEVNULL, timeout=SECONDS, pass_fds=pass_fds, check=False)
        except (OSError, subprocess.TimeoutExpired) as fault:
            raise Refused(f"{self.name}: {fault}") from fault
        if done.returncode not in (0, 3):
            raise Refused(f"{self.name}: status {done.returncode}: {done.stderr.strip()}")
        return done.stdout

    def upto(self, limit: int) -> list[Line]:
        """The next lines, those before a clock. The board at the end of it is where the next piece begins."""
        self.before = self.start()
        board = str(self.folder / f"board{self.piece % 2}")
        lines = self.later + read_lines(self.run([*self.start(), "--until", str(min(limit, MOST)), "--save", board]))
        self.piece += 1
        self.state = board
        if limit > self.end or lines[-1].text.startswith("X"):
            self.later = []
            return lines
        lines.pop()                     # the E line of this piece
        self.later = [line for line in lines if line.clock >= limit]
        return [line for line in lines if line.clock < limit]

    def boards_at(self, clocks: list[int]) -> list[bytes]:
        """The boards of the last piece at rising clocks, each as it is in that clock."""
        reading, writing = os.pipe()
        chunks: list[bytes] = []

        def read() -> None:
            while chunk := os.read(reading, 1 << 16):
                chunks.append(chunk)
        reader = threading.Thread(target=read)
        reader.start()
        try:
            self.run([*self.before, "--cuts", ",".join(map(str, clocks)), "--until", str(clocks[-1]), "--save", f"/dev/fd/{writing}"],
                     (writing,))
        finally:
            os.close(writing)
            reader.join()
            os.close(reading)
        data = b"".join(chunks)
        if len(data) != board_diff.LENGTH * (len(clocks) + 1):
            raise Refused(f"{self.name}: {len(data)} bytes for {len(clocks)} boards")
        return [data[k * board_diff.LENGTH:(k + 1) * board_diff.LENGTH] for k in range(len(clocks))]

    def show(self, board: bytes) -> str:
        """A board's text."""
        file = self.folder / "shown"
        file.write_bytes(board)
        done = subprocess.run([self.program, "show", str(file)], capture_output=True, text=True, stdin=subprocess.DEVNULL,
                              timeout=SECONDS, check=False)
        return done.stdout


Side = Union[LogSide, ProgramSide]


def first_line(one: list[Line], other: list[Line]) -> Optional[int]:
    """The place of the first line that differs."""
    for place, (mine, yours) in enumerate(zip(one, other)):
        if mine.text != yours.text:
            return place
    return None if len(one) == len(other) else min(len(one), len(other))


class Difference(NamedTuple):
    """Where two logs differ first: the clock, the lines before it, and the line of each side, if it has one."""

    clock: int
    begin: int                          # the clock at which this piece begins
    before: list[Line]
    lines: tuple[Optional[Line], Optional[Line]]


class Boards(NamedTuple):
    """The last clock at which the boards of both sides are the same, and both boards a clock later."""

    clock: int
    same: bytes
    differ: tuple[bytes, bytes]


def find_boards(sides: tuple[ProgramSide, ProgramSide], low: int, high: int) -> Optional[Boards]:
    """The first difference of the boards between two clocks; none if they differ at the first or are the same at the last."""
    same = None
    while True:
        step = max(1, -(-(high - low) // CUTS))
        clocks = sorted({*range(low, high, step), high})
        boards = [side.boards_at(clocks) for side in sides]
        place = next((k for k, pair in enumerate(zip(*boards)) if pair[0] != pair[1]), None)
        if not place:
            return None
        low, high, same = clocks[place - 1], clocks[place], boards[0][place - 1]
        if high - low <= 1:
            return Boards(low, same, (boards[0][place], boards[1][place]))


def find_line(sides: tuple[Side, Side], piece: int) -> tuple[Optional[Difference], Optional[Boards]]:
    """The first difference of the logs, and that of the boards if it is in an earlier piece."""
    begin, before, boards = 0, [], None
    while True:
        limit = begin + piece
        parts = [side.upto(limit) for side in sides]
        place = first_line(*parts)
        if place is not None:
            lines = tuple(part[place] if place < len(part) else None for part in parts)
            clock = min(line.clock for line in lines if line)
            return Difference(clock, begin, (before + parts[0][:place])[-3:], lines), boards
        if limit > max(side.end for side in sides) or (parts[0] and parts[0][-1].text.startswith("X")):
            return None, boards
        boards = boards or find_saved(sides, begin, limit)
        before = (before + parts[0])[-3:]
        begin = limit


def find_saved(sides: tuple[Side, Side], low: int, high: int) -> Optional[Boards]:
    """The first difference of the boards in a piece whose logs are the same, if they differ at its end."""
    first, second = sides
    if not (isinstance(first, ProgramSide) and isinstance(second, ProgramSide) and first.state and second.state):
        return None
    if pathlib.Path(first.state).read_bytes() == pathlib.Path(second.state).read_bytes():
        return None
    return find_boards((first, second), low, high)


def report(sides: tuple[Side, Side], difference: Difference, boards: Optional[Boards],
           names: Optional[dict[int, str]]) -> Iterator[str]:
    """The lines about a difference."""
    yield f"the logs differ first at clock {difference.clock}"
    for line in difference.before:
        yield f"  both   {line.text}"
    for name, line in zip(("first ", "second"), difference.lines):
        yield f"  {name} {line.text if line else '(no line)'}"
    if not all(isinstance(side, ProgramSide) for side in sides):
        return
    first, second = sides
    assert isinstance(first, ProgramSide) and isinstance(second, ProgramSide)
    found = boards or find_boards((first, second), difference.begin, difference.clock + 1)
    if not found:
        yield "the boards are no guide: they differ from the beginning, or are the same where the logs differ"
        return
    yield f"the boards differ first in clock {found.clock}"
    for line in board_diff.differences(*found.differ, names):
        yield f"  {line}"
    yield f"both boards at {found.clock}:"
    yield from ("  " + line for line in first.show(found.same).splitlines())
    for name, side, board in zip(("first", "second"), (first, second), found.differ):
        yield f"the {name} board at {found.clock + 1}:"
        yield from ("  " + line for line in side.show(board).splitlines())


def side(words: list[str], folder: pathlib.Path) -> Side:
    """A side by its words."""
    if len(words) == 1:
        return LogSide(words[0])
    if len(words) < 3:
        raise Refused("a side is PROGRAM IMAGE TAPE, or the name of a log")
    folder.mkdir()
    return ProgramSide(words, folder)


def main(words: list[str]) -> int:
    """Does a command line; the status."""
    piece, names = PIECE, None
    try:
        while len(words) > 1 and words[0] in ("--piece", "--names"):
            if words[0] == "--piece":
                piece = int(words[1])
            else:
                names = board_diff.load_names(words[1])
            words = words[2:]
        if words.count("--") != 1 or piece < 1:
            raise Refused("usage: first_difference.py [--piece N] [--names FILE] SIDE -- SIDE")
        middle = words.index("--")
        with tempfile.TemporaryDirectory() as work:
            folder = pathlib.Path(work)
            sides = side(words[:middle], folder / "first"), side(words[middle + 1:], folder / "second")
            difference, boards = find_line(sides, piece)
            if not difference:
                print("the logs are the same" + (f"; the boards differ from clock {boards.clock} on" if boards else ""))
                return 0
            print("\n".join(report(sides, difference, boards, names)))
            return 1
    except (Refused, OSError, ValueError) as fault:
        print(f"first_difference.py: {fault}", file=sys.stderr)
        return 2


if __name__ == "__main__":
    sys.exit(main(sys.argv[1:]))

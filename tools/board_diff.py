#!/usr/bin/env python3
"""Shows where two saved boards differ: each field by its name, RAM and vector RAM by ranges, and the EAROM's cells.

    python3 tools/board_diff.py BOARD BOARD [--names FILE]
    python3 tools/board_diff.py --text BOARD           all of one board as lines, for git's textconv

The names are those that `gravitar show` prints and docs/FORMATS.md explains; a field that `show` leaves out has one of its own.
With --names a range of RAM gets the name of its first byte, from a file that examples/recipes/labels.awk made. The status is 0 where
the boards are the same, 1 where they differ, and 2 where a file is no board."""
from __future__ import annotations

import pathlib
import sys
from typing import Iterator, NamedTuple

LENGTH = 4356
CELLS, RAM, VECTOR_RAM = 196, 260, 2308
ROW = 16                                # bytes a line of --text


class Field(NamedTuple):
    """A number of a saved board: where it is, how many bytes it has, and how it is shown."""

    name: str
    offset: int
    size: int = 1
    signed: bool = False
    hexadecimal: bool = False

    def value(self, board: bytes) -> str:
        """It as text."""
        number = int.from_bytes(board[self.offset:self.offset + self.size], "little", signed=self.signed)
        return f"{number:0{2 * self.size}X}" if self.hexadecimal else str(number)


def numbered(name: str, offset: int, count: int, size: int = 1, first: int = 1, hexadecimal: bool = False) -> list[Field]:
    """An array, each element a field."""
    return [Field(f"{name} {first + k}", offset + k * size, size, hexadecimal=hexadecimal) for k in range(count)]


def pokey(name: str, at: int) -> list[Field]:
    """The fields of a POKEY."""
    return [
        *numbered(f"{name} audf", at, 4, hexadecimal=True),
        *numbered(f"{name} audc", at + 4, 4, hexadecimal=True),
        Field(f"{name} audctl", at + 8, hexadecimal=True),
        Field(f"{name} skctl", at + 9, hexadecimal=True),
        Field(f"{name} irqen", at + 10),
        Field(f"{name} irqst", at + 11),
        Field(f"{name} register of 4 bits", at + 12, hexadecimal=True),
        Field(f"{name} register of 5 bits", at + 13, hexadecimal=True),
        Field(f"{name} register of 9 bits", at + 14, 2, hexadecimal=True),
        Field(f"{name} register of 17 bits", at + 16, 4, hexadecimal=True),
        Field(f"{name} prescaler by 28", at + 20),
        Field(f"{name} prescaler by 114", at + 21),
        *numbered(f"{name} pulses left", at + 22, 4, 4),
        Field(f"{name} tone bits", at + 38, hexadecimal=True),
        Field(f"{name} high-pass bits", at + 39, hexadecimal=True),
        Field(f"{name} pot count", at + 40),
        *numbered(f"{name} pot target", at + 41, 8, first=0, hexadecimal=True),
        *numbered(f"{name} level", at + 49, 4),
    ]


FIELDS: list[Field] = [
    Field("version", 0),
    *numbered("letter", 1, 3, hexadecimal=True),
    Field("clock", 4, 8),
    Field("cpu pc", 12, 2, hexadecimal=True),
    *(Field(f"cpu {name}", 14 + k, hexadecimal=True) for k, name in enumerate("axysp")),
    Field("jam", 19),
    Field("jam opcode", 20, hexadecimal=True),
    Field("board out", 21, hexadecimal=True),
    *(Field(f"board {name}", 22 + k, hexadecimal=True) for k, name in enumerate(("in0", "in3", "in4"))),
    Field("div phase", 25, 2),
    Field("div irq", 27),
    Field("div dog", 28),
    Field("div reset", 29),
    Field("mid kind", 30),
    Field("mid clocks", 31),
    *numbered("mid byte", 32, 6, hexadecimal=True),
    *numbered("zero", 38, 6),
    Field("vg halted", 44),
    Field("vg phase", 45),
    Field("vg pc", 46, 2),
    Field("vg sp", 48),
    Field("vg colour", 49),
    Field("vg intensity", 50),
    Field("vg lin", 51),
    Field("vg bin", 52),
    Field("vg brightness", 53),
    *numbered("vg word byte", 54, 4, hexadecimal=True),
    *numbered("vg stack", 58, 4, 2, first=0),
    Field("beam x", 66, 4, signed=True),
    Field("beam y", 70, 4, signed=True),
    Field("vector x", 74, 4, signed=True),
    Field("vector y", 78, 4, signed=True),
    Field("vector clocks left", 82, 2),
    *pokey("pk1", 84),
    *pokey("pk2", 137),
    Field("earom addr", 190, hexadecimal=True),
    Field("earom data", 191, hexadecimal=True),
    Field("earom control", 192, hexadecimal=True),
    Field("earom hold", 193, 2),
    Field("earom out", 195, hexadecimal=True),
    *numbered("cell", CELLS, 64, first=0, hexadecimal=True),
]
MEMORIES = (("ram", RAM, 0x0000), ("vector ram", VECTOR_RAM, 0x2000))
MEMORY = 2048


def ranges(old: bytes, new: bytes) -> Iterator[tuple[int, int]]:
    """The ranges of bytes that differ, each as its begin and its end."""
    begin = None
    for place in range(len(old) + 1):
        differs = place < len(old) and old[place] != new[place]
        if differs and begin is None:
            begin = place
        if not differs and begin is not None:
            yield begin, place
            begin = None


def shown(data: bytes) -> str:
    """Bytes as text, the first 16 of them."""
    return data[:ROW].hex(" ").upper() + (" .." if len(data) > ROW else "")


def differences(old: bytes, new: bytes, names: dict[int, str] | None = None) -> Iterator[str]:
    """A line for each field, and for each range of memory, that differs."""
    for field in FIELDS:
        if field.value(old) != field.value(new):
            yield f"{field.name}: {field.value(old)} -> {field.value(new)}"
    for name, offset, address in MEMORIES:
        before, after = old[offset:offset + MEMORY], new[offset:offset + MEMORY]
        for begin, end in ranges(before, after):
            place = f"{address + begin:04X}" + (f"-{address + end - 1:04X}" if end - begin > 1 else "")
            called = (names or {}).get(address + begin)
            yield f"{name} {place}{f' {called}' if called else ''}: {shown(before[begin:end])} -> {shown(after[begin:end])}"


def text(board: bytes) -> Iterator[str]:
    """All of a board, a line a field, and 16 bytes of memory a line."""
    for field in FIELDS:
        yield f"{field.name}: {field.value(board)}"
    for name, offset, address in MEMORIES:
        for place in range(0, MEMORY, ROW):
            yield f"{name} {address + place:04X}: {shown(board[offset + place:offset + place + ROW])}"


def load(name: str) -> bytes:
    """The bytes of a saved board."""
    board = pathlib.Path(name).read_bytes()
    if len(board) != LENGTH or board[1:4] != b"GVS" or board[0] not in (1, 2):
        raise ValueError(f"{name}: no saved board")
    return board


def load_names(name: str) -> dict[int, str]:
    """The names of a file with lines `HHHH NAME`; of two for one address the first one."""
    found: dict[int, str] = {}
    for line in pathlib.Path(name).read_text().splitlines():
        address, called = line.split()
        found.setdefault(int(address, 16), called)
    return found


def main(words: list[str]) -> int:
    """Does a command line; the status."""
    names = None
    if len(words) == 4 and words[2] == "--names":
        words, names = words[:2], words[3]
    if len(words) != 2 or words[1].startswith("--"):
        print("usage: board_diff.py BOARD BOARD [--names FILE], or board_diff.py --text BOARD", file=sys.stderr)
        return 2
    try:
        if words[0] == "--text":
            print("\n".join(text(load(words[1]))))
            return 0
        lines = list(differences(load(words[0]), load(words[1]), load_names(names) if names else None))
    except (OSError, ValueError) as fault:
        print(f"board_diff.py: {fault}", file=sys.stderr)
        return 2
    print("\n".join(lines), end="\n" if lines else "")
    return 1 if lines else 0


if __name__ == "__main__":
    sys.exit(main(sys.argv[1:]))

#!/usr/bin/env python3
"""Plants 100 differences at random clocks, and looks whether first_difference.py finds each one.

    python3 tools/planted_differences.py PROGRAM

The numbers are always the same. A difference is one more line of a tape (50), which a program without it is compared with; the same
beside a log alone (25); a line that is changed, missing or new in a log (25). The clock of the first line that differs is counted by
comparing the whole logs here, and the boards have to differ from the clock of the tape's line on. The last line is
`N passed, M failed`; the status is 1 where one isn't found, and 2 where nothing was tried."""
from __future__ import annotations

import pathlib
import random
import subprocess
import sys
import tempfile

import first_difference
from first_difference import LogSide, ProgramSide

END = 600_000
# It copies IN3 to the output latch and IN4 to a channel of POKEY 1 where they change, and draws nothing.
SOURCE = """
        .org $9000
start:  lda #3
        sta $600F
        lda #20
        sta $6000
again:  sta $8980
        lda $8000
        cmp $10
        beq other
        sta $10
        sta $8800
other:  lda $8800
        cmp $11
        beq again
        sta $11
        and #15
        ora #$10
        sta $6001
        jmp again
        .org $FFFC
        .word start
"""


def tape(numbers: random.Random) -> list[tuple[int, str, int]]:
    """Forty inputs, each another byte than the one before."""
    return sorted((numbers.randrange(100, END - 5_000), numbers.choice(("IN3", "IN4")), numbers.randrange(256)) for _ in range(40))


def write(path: pathlib.Path, entries: list[tuple[int, str, int]]) -> None:
    """A tape's file."""
    path.write_text("".join(f"{clock} {port} {byte:02X}\n" for clock, port, byte in entries) + f"{END} END\n")


def log(program: str, image: pathlib.Path, path: pathlib.Path) -> str:
    """The log of a tape."""
    return subprocess.run([program, "run", str(image), str(path)], capture_output=True, text=True, check=True).stdout


def clock_of(one: str, other: str) -> int:
    """The first clock at which two whole logs differ."""
    first, second = one.splitlines(), other.splitlines()
    place = next(k for k in range(len(first) + 1) if first[k:k + 1] != second[k:k + 1])
    return min(int(lines[place].split(" ")[1]) for lines in (first, second) if place < len(lines))


def planted_tape(entries: list[tuple[int, str, int]], numbers: random.Random) -> tuple[int, list[tuple[int, str, int]]]:
    """A tape with one more line that changes a port, and its clock."""
    while True:
        clock, port = numbers.randrange(100, END - 5_000), numbers.choice(("IN3", "IN4"))
        before = [byte for at, name, byte in entries if name == port and at <= clock]
        after = [at for at, name, _ in entries if name == port and at > clock]
        byte = numbers.randrange(256)
        # It has to be another byte, for longer than the program takes to look again; IN4 in a bit that is heard.
        if (before or [255])[-1] & 15 != byte & 15 and (after or [END])[0] > clock + 200 and all(at != clock for at, _, _ in entries):
            return clock, sorted([*entries, (clock, port, byte)])


def planted_log(text: str, numbers: random.Random) -> str:
    """A log with a line that is changed, missing, or new."""
    lines = text.splitlines()
    place = numbers.randrange(len(lines) - 1)
    kind = numbers.randrange(3)
    if kind == 0:
        lines[place] = lines[place][:-1] + ("1" if lines[place][-1] != "1" else "2")
    elif kind == 1:
        del lines[place]
    else:
        lines.insert(place, f"W {lines[place].split(' ')[1]}")
    return "\n".join(lines) + "\n"


def attempt(number: int, program: str, folder: pathlib.Path) -> None:
    """One planted difference; an AssertionError where it isn't found."""
    numbers = random.Random(number)
    image, first, second = folder / "img", folder / "first.tape", folder / "second.tape"
    entries = tape(numbers)
    write(first, entries)
    whole = log(program, image, first)
    piece = numbers.choice((END * 2, 150_000, 37_000))
    work = folder / str(number)
    work.mkdir()
    planted = None
    if number < 75:
        planted, changed = planted_tape(entries, numbers)
        write(second, changed)
        other = log(program, image, second)
    else:
        other = planted_log(whole, numbers)
    expected = clock_of(whole, other)
    (folder / "other.log").write_text(other)
    one = first_difference.side([program, str(image), str(first)], work / "first")
    two = first_difference.side([program, str(image), str(second)], work / "second") if number < 50 else LogSide(str(folder / "other.log"))
    difference, boards = first_difference.find_line((one, two), piece)
    assert difference and difference.clock == expected, f"{difference} is not at {expected}"
    if isinstance(one, ProgramSide) and isinstance(two, ProgramSide):
        boards = boards or first_difference.find_boards((one, two), difference.begin, difference.clock + 1)
        assert boards and boards.clock == planted, f"{boards and boards.clock} is not {planted}"
    # The same run beside its own log has none.
    (folder / "same.log").write_text(whole)
    same = first_difference.side([program, str(image), str(first)], work / "same"), LogSide(str(folder / "same.log"))
    assert first_difference.find_line(same, piece)[0] is None, "a difference from its own log"


def main(words: list[str]) -> int:
    """Does all; the status."""
    if len(words) != 1:
        print("usage: planted_differences.py PROGRAM", file=sys.stderr)
        return 2
    passed, failed = 0, 0
    with tempfile.TemporaryDirectory() as work:
        folder = pathlib.Path(work)
        (folder / "s").write_text(SOURCE)
        (folder / "v").write_text("")
        try:
            subprocess.run([words[0], "asm", *(str(folder / name) for name in ("s", "v", "img"))], stdout=subprocess.DEVNULL, check=True)
        except (OSError, subprocess.CalledProcessError) as fault:
            print(f"planted_differences.py: {fault}", file=sys.stderr)
            return 2
        for number in range(100):
            try:
                attempt(number, words[0], folder)
                passed += 1
            except (AssertionError, first_difference.Refused) as fault:
                failed += 1
                print(f"failed {number}: {fault}")
    print(f"{passed} passed, {failed} failed")
    return 1 if failed else 0


if __name__ == "__main__":
    sys.exit(main(sys.argv[1:]))

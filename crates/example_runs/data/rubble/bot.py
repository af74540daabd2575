#!/usr/bin/env python3
"""Plays Rubble: a coin, a start, and then a shot at the rock that it can hit first. It prints the tape of what it did.

    python3 bot.py PROGRAM IMAGE SECONDS > TAPE

It makes one run of some pictures after another, each from the board that the last one saved, and looks at the RAM of
that board, as a person looks at the picture. After the half of SECONDS it fires no more, so that the game ends. The
same program and image give the same tape."""
from __future__ import annotations

import math
import pathlib
import subprocess
import sys
import tempfile
from typing import NamedTuple, Optional

HZ = 1_512_000
TURN = 2 * 24_576                       # clocks between two looks: two pictures
RAM = 260                               # where a saved board has it
SHOT = 60 * 16 / 256                    # how far a shot goes in a picture
LEFT, RIGHT, ENGINE, FIRE = 8, 4, 16, 2


class Thing(NamedTuple):
    """A thing of the field: its kind, its place and its way in a picture."""

    kind: int
    x: float
    y: float
    vx: float
    vy: float


def number(low: int, high: int) -> float:
    """Two bytes of a place or a speed."""
    value = low + 256 * high
    return (value - 65_536 if value >= 32_768 else value) / 256


def things(board: bytes) -> list[Thing]:
    """What a board has in the field; rubble.s has where."""
    def at(address: int, k: int) -> float:
        return number(board[RAM + address + k], board[RAM + address + 32 + k])
    return [Thing(board[RAM + 0x200 + k], at(0x220, k), at(0x260, k), at(0x2A0, k), at(0x2E0, k)) for k in range(24)]


def wrapped(distance: float, field: float) -> float:
    """The shorter way around."""
    return (distance + field / 2) % field - field / 2


def aim(ship: Thing, rock: Thing) -> Optional[tuple[float, float]]:
    """After how many pictures a shot meets a rock, and the heading for it."""
    x, y = wrapped(rock.x - ship.x, 256), wrapped(rock.y - ship.y, 224)
    for after in range(1, 36):
        there_x, there_y = x + (rock.vx - ship.vx) * after, y + (rock.vy - ship.vy) * after
        if math.hypot(there_x, there_y) <= SHOT * after + 3:
            return after, math.atan2(there_x, there_y) / math.tau * 64 % 64
    return None


def buttons(board: bytes, look: int, fires: bool) -> int:
    """The buttons that are down after this board."""
    ship, *others = things(board)
    heading, down = board[RAM + 0x19], 0
    rocks = [thing for thing in others if 1 <= thing.kind <= 3]
    best = None
    for rock in rocks:
        aimed = aim(ship, rock)
        if aimed:
            after, wanted = aimed
            turn = wrapped(wanted - heading, 64)
            if best is None or after + 2 * abs(turn) < best[0]:
                best = after + 2 * abs(turn), turn
    if best:
        down |= RIGHT if best[1] > 1 else LEFT if best[1] < -1 else 0
        if fires and abs(best[1]) <= 2 and look % 3 == 0:
            down |= FIRE
    elif look % 40 < 8:                 # nothing is near: it flies there
        down |= ENGINE
    if look % 97 < 9 or (not fires and look % 3):
        down |= ENGINE
    return down


def play(program: str, image: str, seconds: float, folder: pathlib.Path) -> list[str]:
    """The lines of the tape."""
    board, tape, end = folder / "board", folder / "tape", int(seconds * HZ)
    plan = {2.5: ("IN0", 0x3D), 2.6: ("IN0", 0x3F), 4.0: ("IN4", 0xDF), 4.1: ("IN4", 0xFF)}
    lines, clock, look, last, state, ended = [], 0, 0, 0, [], None
    while clock < end:
        added = [f"{int(second * HZ)} {port} {byte:02X}" for second, (port, byte) in plan.items() if clock <= second * HZ < clock + TURN]
        if state:
            saved = board.read_bytes()
            mode = saved[RAM + 0x12]
            if mode == 2:
                ended = clock
            if ended and mode == 0 and clock > ended + 2 * HZ:      # a second game
                second, ended = clock / HZ, None
                plan = {second + 1: ("IN0", 0x3D), second + 1.1: ("IN0", 0x3F), second + 1.5: ("IN4", 0xDF), second + 1.6: ("IN4", 0xFF)}
                end = int((second + 6) * HZ)
            down = buttons(saved, look, clock < end / 2) if mode == 1 else 0
            if down != last:
                added.insert(0, f"{clock} IN3 {255 - down:02X}")
                last = down
        clock += TURN
        tape.write_text("\n".join(added + [f"{clock} END"]) + "\n")
        subprocess.run([program, "run", image, str(tape), "--save", str(board), *state], stdout=subprocess.DEVNULL, check=True)
        state = ["--state", str(board)]
        lines += added
        clock = int.from_bytes(board.read_bytes()[4:12], "little")
        look += 1
    return lines + [f"{end} END"]


def main(words: list[str]) -> int:
    """Prints the tape."""
    if len(words) != 3:
        print("usage: bot.py PROGRAM IMAGE SECONDS", file=sys.stderr)
        return 2
    with tempfile.TemporaryDirectory() as folder:
        print("\n".join(play(words[0], words[1], float(words[2]), pathlib.Path(folder))))
    return 0


if __name__ == "__main__":
    sys.exit(main(sys.argv[1:]))

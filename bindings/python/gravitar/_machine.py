"""A board that runs."""
from __future__ import annotations

import array
import bisect
import sys
from typing import Iterator, Mapping, NamedTuple, Optional, Sequence, Tuple

from ._calls import (
    CLOCK_LIMIT, CLOCKS_A_SECOND, FRAME, Bytes, Error, Record, Stretch, Stroke, advance, given,
    power_on, record_list, records, samples, stroke_list, whole,
)
from ._command import command, with_addresses

PORTS = ("IN0", "IN3", "IN4", *(f"{chip}{pot}" for chip in "PQ" for pot in range(8)))

# An instruction, an interrupt or a reset that is under way ends after so many clocks at most.
_SEQUENCE = 8


class Picture(NamedTuple):
    """A line of `gravitar frames`: the picture that a write of 8840 begins, and how many strokes it
    has. `box` has the least x and y and the greatest x and y of their ends; without a stroke it is
    None."""

    number: int
    clock: int
    strokes: int
    box: Optional[Tuple[int, int, int, int]]


class Routine(NamedTuple):
    """A line of `gravitar profile`: where a routine begins, how often it was entered, and its own
    clocks and accesses of devices. `name` is that of `names`, or empty."""

    address: int
    name: str
    entries: int
    clocks: int
    accesses: int


class Machine:
    """A board that runs: an image, the bytes of the board, and the inputs to come.

    The inputs are a tape's, or else those that `set` gives. `clock` is the board's, `jammed` says
    whether an undocumented opcode has stopped its processor, and `log` has the lines of the last
    `run` or `samples`, unless `records` or `frames` ran after it: then it is empty.

    `run`, `records`, `frames` and `samples` move the board on. `debug`, `profile`, `pictures` and
    `show` look at it, or at the clocks to come, and leave it where it is. A run that is ended by
    Ctrl-C leaves it where it was.

    A Machine belongs to one thread at a time: nothing in it is locked. Two Machines know nothing of
    each other.
    """

    def __init__(
        self,
        image: Bytes,
        board: Optional[Bytes] = None,
        tape: Optional[Bytes] = None,
        timers: bool = False,
    ) -> None:
        self._image, self._tape = given(image)[0], None if tape is None else given(tape)[0]
        self._timers, self._changes = bool(timers), b""
        whole_tape = b"0 END\n" if self._tape is None else self._tape
        first = power_on() if board is None else board
        self._take(advance(self._image, first, whole_tape, 0, False, self._timers))
        # The entries of a tape that the library has read, without its END, and their clocks.
        self._lines = [line + b"\n" for line in whole_tape.rstrip(b"\n").split(b"\n")[:-1]]
        self._clocks = [int(line.partition(b" ")[0]) for line in self._lines]

    def save(self) -> bytes:
        """The board, as `gravitar run --save` has it."""
        return self._board

    def load(self, board: Bytes) -> None:
        """Goes on from a board. Inputs that were set and not yet run are dropped."""
        self._take(advance(self._image, board, b"0 END\n", 0, False, self._timers))

    def set(self, port: str, value: int) -> None:
        """Sets a port, such as IN3, from the next clock on."""
        if self._tape is not None:
            raise ValueError("the inputs are those of the tape")
        if port not in PORTS:
            raise Error(4, 1, f"{port!r} names no port")
        self._changes += b"%d %s %02X\n" % (self.clock, port.encode(), whole("value", value, 255))

    def run(self, clocks: int) -> bytes:
        """Runs that many clocks, and returns the log on the way."""
        end = self._end(clocks)
        self._take(advance(self._image, self._board, self._inputs(end), end, False, self._timers))
        return self.log

    def records(self, clocks: int) -> list[Record]:
        """Runs that many clocks, and returns the records on the way."""
        return record_list(self._records(clocks))

    def frames(self, count: int, clocks: int = FRAME) -> Iterator[list[Stroke]]:
        """Runs stretches of so many clocks, and yields the strokes of each."""
        for _ in range(whole("count", count, CLOCK_LIMIT)):
            yield stroke_list(self._records(clocks))

    def samples(self, count: int, per: int = 34) -> array.array:
        """Runs `count` times `per` clocks, and returns a sample for each `per` of them.

        So nothing is left out between two calls. A sample is the sum of both POKEYs' levels over
        its clocks. It takes two runs: one for the samples and one for the board and its log.
        """
        count, per = whole("count", count, CLOCK_LIMIT), whole("per", per, 65_535, 1)
        end = self._end(count * per)
        output, stretch = samples(
            self._image, self._board, self._inputs(end), count, per, self._timers
        )
        levels = array.array("I")
        levels.frombytes(output)
        if sys.byteorder == "big":
            levels.byteswap()
        self._take(stretch)
        return levels

    def show(self) -> str:
        """The text of the board, as `gravitar show` has it."""
        return command(["show", "board"], {"board": self._board}, check=True).out.decode()

    def debug(
        self, script: str, clocks: int = CLOCKS_A_SECOND, names: Optional[Mapping[str, int]] = None
    ) -> str:
        """What a script of the debugger prints (docs/DEBUGGER.md), from the board on. `go` ends
        after so many clocks.

        With the names of `labels` a script may have `break thrust` for `break 9123`.
        """
        end = self._end(clocks)
        script = with_addresses(script, names or {})
        return self._ahead(
            "debug", self._inputs(end, 0), ["script"], {"script": script.encode()}
        ).decode()

    def profile(self, clocks: int, names: Optional[Mapping[str, int]] = None) -> list[Routine]:
        """Where the next clocks go, routine by routine, by `gravitar profile`; with the names of
        `labels`."""
        named: dict[int, str] = {}
        for name, address in (names or {}).items():
            named.setdefault(address, name)
        return [
            Routine(int(words[1], 16), named.get(int(words[1], 16), ""), *map(int, words[2:]))
            for words in self._lines_of("profile", clocks) if words[0] == b"R"
        ]

    def pictures(self, clocks: int) -> list[Picture]:
        """The pictures that the next clocks draw, by `gravitar frames`. The first begins at the
        board's clock."""
        rows = (
            list(map(int, words[1:]))
            for words in self._lines_of("frames", clocks)
            if words[0] == b"F"
        )
        return [Picture(*row[:3], tuple(row[3:]) or None) for row in rows]

    def _lines_of(self, verb: str, clocks: int) -> Iterator[Sequence[bytes]]:
        end = self._end(clocks)
        out = self._ahead(verb, self._inputs(end), ["--until", str(end)], {})
        return (line.split() for line in out.splitlines())

    def _ahead(
        self, verb: str, tape: bytes, words: Sequence[str], files: Mapping[str, bytes]
    ) -> bytes:
        """The output of a command that begins at the board and stores nothing."""
        words = [
            verb, "image", "tape", *words, "--state", "board",
            *(["--timers"] if self._timers else [])
        ]
        return command(
            words, {"image": self._image, "tape": tape, "board": self._board, **files}, check=True
        ).out

    def _end(self, clocks: int) -> int:
        return self.clock + whole("clocks", clocks, CLOCK_LIMIT)

    def _records(self, clocks: int) -> bytes:
        end = self._end(clocks)
        stretch = records(self._image, self._board, self._inputs(end), end, False, self._timers)
        self._take(stretch._replace(output=b""))
        return stretch.output

    def _inputs(self, end: int, over: int = _SEQUENCE) -> bytes:
        """The inputs of the clocks up to an end, and of those up to a boundary behind it, as a
        tape."""
        after = min(end + over, CLOCK_LIMIT)
        first, behind = bisect.bisect_left(self._clocks, self.clock), bisect.bisect_right(
            self._clocks, after
        )
        return self._changes + b"".join(self._lines[first:behind]) + b"%d END\n" % after

    def _take(self, stretch: Stretch) -> None:
        self._board, self.log, self.clock, self.jammed = stretch
        self._changes = b""

"""The calls of include/gravitar.h by ctypes. Bytes go in and come out, and no call changes those
that it is given."""
from __future__ import annotations

import ctypes
import operator
import os
import pathlib
import struct
import threading
from typing import Any, Callable, NamedTuple, Union

Bytes = Union[bytes, bytearray, memoryview]

BOARD_LEN = 4356
IMAGE_LEN = 43008
CLOCK_LIMIT = 1 << 48
CLOCKS_A_SECOND = 1_512_000
FRAME = 25_000
STROKE, POKEY_1, POKEY_2, LATCH, WATCHDOG = range(5)

# A long run is done in stretches of so many clocks, so that Ctrl-C is noticed between two of them.
STRETCH = 10_000_000

_RECORD = struct.Struct("<QI6iI")
_VERSION = 3
_DONE, _JAMMED, _NO_ROOM, _NO_MEMORY = 0, 1, 6, 7
_NAMES = [
    "done", "jammed", "image", "board", "tape", "number", "no room", "no memory",
    "processor source", "generator source", "board length", "board version", "request",
]
# A buffer of more bytes isn't kept for the next call.
_KEPT_LEN = 1 << 26
_kept = threading.local()


class Error(Exception):
    """Bytes or a number that the library refuses: the status and the place of its header, and its
    words."""

    def __init__(self, status: int, place: int, words: str = "") -> None:
        super().__init__(status, place, words)
        self.status, self.place, self.words = status, place, words

    def __str__(self) -> str:
        name = _NAMES[self.status] if self.status < len(_NAMES) else f"status {self.status}"
        return f"{name}: {self.words or self.place}"


class Stretch(NamedTuple):
    """The end of a stretch of a run, and what was put out on the way: lines of the log, records, or
    samples."""

    board: bytes
    output: bytes
    clock: int
    jammed: bool


class Stroke(NamedTuple):
    """A stroke of the beam, in the last clock of its drawing."""

    clock: int
    x0: int
    y0: int
    x1: int
    y1: int
    colour: int
    intensity: int


class Record(NamedTuple):
    """A record of the board. By its kind its values are: STROKE x0, y0, x1, y1, colour, intensity;
    POKEY_1 and POKEY_2 four levels, 0 to 15; LATCH the byte written to the output latch; WATCHDOG,
    a reset, none. There are six values, and those that the kind doesn't have are 0."""

    clock: int
    kind: int
    values: tuple


class Report(ctypes.Structure):
    """`struct gravitar_report`."""

    _fields_ = [("clock", ctypes.c_uint64), ("used", ctypes.c_uint64), ("place", ctypes.c_uint64)]


def _load() -> ctypes.CDLL:
    """The library, with the types of its calls."""
    here = pathlib.Path(__file__).resolve().parent
    folder = here if (here / "libgravitar.so").exists() else os.environ.get("GRAVITAR_LIB", here)
    calls = ctypes.CDLL(str(pathlib.Path(folder).resolve() / "libgravitar.so"))
    if calls.gravitar_version() != _VERSION:
        raise ImportError(
            f"{folder} has version {calls.gravitar_version()} of the calls, not {_VERSION}"
        )
    given, written = [ctypes.c_char_p, ctypes.c_size_t], [
        ctypes.POINTER(ctypes.c_char), ctypes.c_size_t
    ]
    number, clock, report = ctypes.c_uint32, ctypes.c_uint64, ctypes.POINTER(Report)
    stretch = [*given, *written, *given, clock, number, number, *written, report]
    for name, types in {
        "version": [],
        "power_on": written,
        "advance": stretch,
        "records": stretch,
        "pcm": stretch,
        "assemble": [*given, *given, *written, *written, report],
        "command": [*given, *written, report],
    }.items():
        call = getattr(calls, "gravitar_" + name)
        call.argtypes, call.restype = types, number
    return calls


calls = _load()


def given(content: Bytes) -> tuple[bytes, int]:
    """Bytes, with their length. Whatever has bytes is taken: bytes, a bytearray, a memoryview."""
    if isinstance(content, str):
        raise TypeError("bytes are wanted, not a str: read a file in mode 'rb', or encode the text")
    content = content if type(content) is bytes else bytes(memoryview(content))
    return content, len(content)


def whole(name: str, number: Any, most: int, least: int = 0) -> int:
    """A whole number from `least` to `most`, or a refusal by its name. ctypes would cut it."""
    try:
        number = operator.index(number)
    except TypeError:
        raise TypeError(f"{name}: {number!r} is no whole number") from None
    if not least <= number <= most:
        raise Error(5, number, f"{name}: {number} is out of range")
    return number


def answer(call: Callable[..., int], room: int) -> tuple[int, Report, bytes]:
    """The status of a call that writes to a buffer, its report, and what it wrote.

    The buffer begins with so much room. Where it is too short it is at least doubled, and the call
    is made again. It is kept for this thread's next call. Meanwhile nobody else has it, so a
    signal's handler may make calls too.
    """
    kept = _kept.__dict__
    buffer, report = kept.pop(room, None), Report()
    if buffer is None:
        buffer = ctypes.create_string_buffer(room)
    while True:
        status = call(buffer, len(buffer), ctypes.byref(report))
        if status != _NO_ROOM:
            break
        buffer = ctypes.create_string_buffer(max(report.used, 2 * len(buffer)))
    wrote = ctypes.string_at(buffer, min(report.used, len(buffer)))
    if len(buffer) <= _KEPT_LEN:
        kept[room] = buffer
    return status, report, wrote


def refusal(status: int, report: Report, words: bytes) -> Exception:
    """The exception for a status."""
    if status == _NO_MEMORY:
        return MemoryError("the library has no memory")
    return Error(status, report.place, words.decode("utf-8", "replace"))


def power_on() -> bytes:
    """The board at power-on."""
    board = ctypes.create_string_buffer(BOARD_LEN)
    calls.gravitar_power_on(board, BOARD_LEN)
    return board.raw


def assemble(processor: Bytes, generator: Bytes) -> bytes:
    """The image of a processor's source and a generator's."""
    image, note, report = ctypes.create_string_buffer(IMAGE_LEN), ctypes.create_string_buffer(
        256
    ), Report()
    status = calls.gravitar_assemble(
        *given(processor), *given(generator), image, IMAGE_LEN, note, 256, ctypes.byref(report))
    if status != _DONE:
        raise refusal(status, report, note.raw[: min(256, report.used)])
    return image.raw


def _one(
    call: Any, image: Bytes, board: Bytes, tape: Bytes, clock: int, number: int, timers: bool
) -> Stretch:
    """Makes one call."""
    image, tape, (board, board_len) = given(image), given(tape), given(board)
    after = ctypes.create_string_buffer(board, max(1, board_len))
    status, report, output = answer(
        lambda *room: call(
            *image, after, board_len, *tape, clock, number, bool(timers), *room
        ), 1 << 16)
    if status not in (_DONE, _JAMMED):
        raise refusal(status, report, output)
    return Stretch(after.raw, output, report.clock, status == _JAMMED)


def _clock_of(board: Bytes) -> int:
    return int.from_bytes(board[4:12], "little")


def _is_far(board: Bytes, clock: int) -> bool:
    """Whether a run from a board to a clock is done in stretches."""
    return _clock_of(board) + STRETCH < clock <= CLOCK_LIMIT


def _run(
    call: Any, image: Bytes, board: Bytes, tape: Bytes, clock: Any, boundary: bool, timers: bool
) -> Stretch:
    """Runs to a clock, in stretches. Such a run is the run that is done at once."""
    (image, _), (tape, _), (board, _) = given(image), given(tape), given(board)
    clock, outputs = whole("clock", clock, (1 << 64) - 1), []
    while _is_far(board, clock):
        part = _one(call, image, board, tape, _clock_of(board) + STRETCH, 0, timers)
        board = part.board
        outputs.append(part.output)
        if part.jammed:
            return part._replace(output=b"".join(outputs))
    part = _one(call, image, board, tape, clock, bool(boundary), timers)
    return part._replace(output=b"".join([*outputs, part.output]))


def advance(
    image: Bytes, board: Bytes, tape: Bytes, clock: int, boundary: bool = True, timers: bool = False
) -> Stretch:
    """The board at the first boundary between instructions from a clock on, or at just that clock,
    and the log."""
    return _run(calls.gravitar_advance, image, board, tape, clock, boundary, timers)


def records(
    image: Bytes, board: Bytes, tape: Bytes, clock: int, boundary: bool = True, timers: bool = False
) -> Stretch:
    """The same board, and the records on the way, 40 bytes each: `record_list` reads them."""
    return _run(calls.gravitar_records, image, board, tape, clock, boundary, timers)


def record_list(output: bytes) -> list[Record]:
    """The records of the output of `records`."""
    return [
        Record(clock, kind, tuple(values))
        for clock, kind, *values, _ in _RECORD.iter_unpack(output)
    ]


def stroke_list(output: bytes) -> list[Stroke]:
    """The strokes among them."""
    return [
        Stroke(clock, *values)
        for clock, kind, *values, _ in _RECORD.iter_unpack(output)
        if kind == STROKE
    ]


def samples(
    image: Bytes, board: Bytes, tape: Bytes, count: int, per: int, timers: bool = False
) -> tuple[bytes, Stretch]:
    """`count` samples of `per` clocks each, four bytes a sample, and the board at just their end,
    with the log.

    There are less where the board is jammed. A call for samples ends at a boundary, so the board
    comes from a second run. Both are done in stretches.
    """
    outputs, logs, most = [], [], max(1, STRETCH // per)
    while True:
        now = min(count, most)
        end = _clock_of(board) + now * per
        outputs.append(
            _one(calls.gravitar_pcm, image, board, tape, end, per, timers).output[: 4 * now]
        )
        part = _one(calls.gravitar_advance, image, board, tape, end, 0, timers)
        logs.append(part.output)
        count, board = count - now, part.board
        if part.jammed or not count:
            return b"".join(outputs), part._replace(output=b"".join(logs))


def pcm(
    image: Bytes, board: Bytes, tape: Bytes, clock: int, per: int, timers: bool = False
) -> Stretch:
    """The board at the first boundary from a clock on, and a sample, four bytes, for each `per`
    clocks.

    A run of more than STRETCH clocks is made twice, for the board at the end of each stretch.
    """
    (image, _), (tape, _), (board, _) = given(image), given(tape), given(board)
    clock, per, before = whole("clock", clock, (1 << 64) - 1), whole("per", per, (1 << 32) - 1), b""
    if 0 < per < 65_536 and _is_far(board, clock):
        count = (clock - _clock_of(board)) // per
        before, stretch = samples(image, board, tape, count - 1, per, timers)
        board = stretch.board
    part = _one(calls.gravitar_pcm, image, board, tape, clock, per, timers)
    return part._replace(output=before + part.output)


def strokes(log: bytes) -> list[Stroke]:
    """The strokes of a log."""
    return [Stroke(*map(int, line.split()[1:])) for line in log.split(b"\n") if line[:1] == b"S"]

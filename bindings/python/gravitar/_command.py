"""The command line of the program `gravitar` as a call: words and files go in, and nothing is read
or written."""
from __future__ import annotations

import re
import struct
from typing import Iterator, Mapping, NamedTuple, Optional, Sequence, Tuple

from ._calls import Bytes, answer, calls, given, refusal

_DONE = 0
_HEAD = struct.Struct("<4Q")


class Done(NamedTuple):
    """What a command line did: its status, 0 to 5, its output, its note, and its stores in their
    order."""

    status: int
    out: bytes
    note: bytes
    stores: Tuple[Tuple[str, bytes], ...]

    @property
    def files(self) -> dict[str, bytes]:
        """The stores as files: of several under one name the last."""
        return dict(self.stores)


class CommandError(Exception):
    """A command line that didn't end with status 0. `done` is what it did."""

    def __init__(self, words: Sequence[str], done: Done) -> None:
        super().__init__(words, done)
        self.words, self.done = words, done

    def __str__(self) -> str:
        said = self.done.note.decode("utf-8", "replace").strip()
        return f"{' '.join(self.words)!r}: status {self.done.status}{said and ': ' + said}"


def command(
    words: Sequence[str], files: Optional[Mapping[str, Bytes]] = None, *, check: bool = False
) -> Done:
    """Does a command line of the program, such as `["run", "i", "t"]`, over files in memory.

    A file that isn't among `files` is absent. They stay as they are: what the command stores is in
    `stores`. It gives byte for byte what the program gives over such files, and 3 for an
    undocumented opcode, 4 for a bad file. With `check` another status than 0 is a CommandError. One
    call does it, which Ctrl-C doesn't end: give it an `--until`.
    """
    if isinstance(words, (str, bytes)):
        raise TypeError("words: a list of words is wanted")
    words = list(words)
    request, length = given(_request(words, files or {}))
    status, report, wrote = answer(
        lambda *room: calls.gravitar_command(request, length, *room), 1 << 20
    )
    if status != _DONE:
        raise refusal(status, report, b"")
    done = _done(wrote)
    if check and done.status != 0:
        raise CommandError(words, done)
    return done


def _text(what: str, text: str) -> bytes:
    if not isinstance(text, str):
        raise TypeError(f"{what}: {text!r} is no str")
    return text.encode()


def _request(words: Sequence[str], files: Mapping[str, Bytes]) -> bytes:
    """The bytes of docs/FORMATS.md, "A command line as bytes"."""
    pieces = [_text("words", word) for word in words]
    for name, content in files.items():
        pieces += [_text("files", name), given(content)[0]]
    counts = (len(words).to_bytes(8, "little"), len(files).to_bytes(8, "little"))
    return b"".join(
        [*counts, *(part for piece in pieces for part in (len(piece).to_bytes(8, "little"), piece))]
    )


def _pieces(content: bytes) -> Iterator[bytes]:
    """The pieces that stand behind their lengths."""
    at = 0
    while at < len(content):
        end = at + 8 + int.from_bytes(content[at : at + 8], "little")
        yield content[at + 8 : end]
        at = end


def _done(wrote: bytes) -> Done:
    status, text, note, _ = _HEAD.unpack_from(wrote)
    at = _HEAD.size + text
    pieces = _pieces(wrote[at + note :])
    stores = tuple((name.decode(), content) for name, content in zip(pieces, pieces))
    return Done(status, wrote[_HEAD.size : at], wrote[at : at + note], stores)


# The lines of a source that give a name: a label, or NAME = a number.
_LABEL = re.compile(rb"[ \t]*([A-Za-z_][A-Za-z_0-9]*)[ \t]*:(.*)", re.DOTALL)
_NUMBER = re.compile(
    rb"[ \t]*([A-Za-z_][A-Za-z_0-9]*)[ \t]*=[ \t]*(\$[0-9A-Fa-f]+|%[01]+|[0-9]+)[ \t\r]*"
)
_LISTED = re.compile(rb"([0-9A-F]{4}) ([0-9]+):((?: [0-9A-F]{2})+)")


def _number(text: bytes) -> int:
    base = {b"$": 16, b"%": 2}.get(text[:1])
    return int(text[1:], base) if base else int(text)


def _labels(source: bytes, listing: Mapping[int, Tuple[int, int]]) -> Iterator[Tuple[str, int]]:
    """The labels of a source. Of each line of it that gives bytes the listing has the address, and
    how many."""
    here: Optional[int] = None
    waiting: list[str] = []
    for number, line in enumerate(source.split(b"\n"), 1):
        rest = line.partition(b";")[0]
        label = _LABEL.fullmatch(rest)
        if label:
            waiting.append(label[1].decode())
            rest = label[2]
        if number in listing:
            address, length = listing[number]
            here = address + length
            yield from ((name, address) for name in waiting)
            waiting = []
        elif re.match(rb"[ \t]*\.org\b", rest):
            if here is not None:
                yield from ((name, here) for name in waiting)
            here, waiting = None, []
    if here is not None:
        yield from ((name, here) for name in waiting)


def labels(processor: Bytes, generator: Bytes) -> dict[str, int]:
    """The names of two sources with their values, for `Machine.debug` and `Machine.profile`.

    First come the processor's labels, then the generator's, by the listing of `gravitar asm`; then
    each NAME = NUMBER of the processor's. Of two with one name the first is there.
    """
    sources = (given(processor)[0], given(generator)[0])
    listing = command(["asm", "c", "v", "i"], dict(zip("cv", sources)), check=True).out
    lines: tuple[dict, dict] = ({}, {})
    for line in listing.split(b"\n"):
        listed = _LISTED.fullmatch(line)
        if listed:
            address = int(listed[1], 16)
            lines[address < 0x9000][int(listed[2])] = (address, len(listed[3]) // 3)
    found = [pair for source, its in zip(sources, lines) for pair in _labels(source, its)]
    for line in sources[0].split(b"\n"):
        number = _NUMBER.fullmatch(line.partition(b";")[0])
        if number:
            found.append((number[1].decode(), _number(number[2])))
    first: dict[str, int] = {}
    for name, value in found:
        first.setdefault(name, value)
    return first


_ADDRESSED = {"break", "watch", "mem", "dis", "vdis"}


def with_addresses(script: str, names: Mapping[str, int]) -> str:
    """A script of the debugger with addresses in the place of names. Four hexadecimal digits stay
    an address."""
    lines = script.split("\n")
    for at, line in enumerate(lines):
        words = line.split(" ")
        if len(words) > 1 and words[0] in _ADDRESSED and words[1] in names:
            if not re.fullmatch("[0-9A-Fa-f]{4}", words[1]):
                lines[at] = " ".join([words[0], "%04X" % names[words[1]], *words[2:]])
    return "\n".join(lines)

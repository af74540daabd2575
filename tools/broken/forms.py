"""What the documents say of words, files and notes, written anew from docs/COMMANDS.md, docs/FORMATS.md and docs/DEBUGGER.md."""
import functools
import operator
import re

CLOCK_LIMIT = 1 << 48
RUN_LIKE = (b"run", b"debug", b"pcm", b"frames", b"seek", b"profile")
NAMES = {
    b"run": ("image", "tape"),
    b"asm": ("source", "source", "out"),
    b"debug": ("image", "tape", "script"),
    b"show": ("board",),
    b"soak": ("number",),
    b"pcm": ("image", "tape", "per"),
    b"frames": ("image", "tape"),
    b"seek": ("image", "tape", "clocks"),
    b"profile": ("image", "tape"),
}
FOUR = (b"--state", b"--earom", b"--until", b"--timers")
OPTIONS = {
    b"run": FOUR + (b"--cuts", b"--save", b"--cost"),
    b"asm": (),
    b"debug": (b"--state", b"--earom", b"--timers"),
    b"show": (),
    b"soak": (),
    b"pcm": FOUR,
    b"frames": FOUR,
    b"seek": FOUR,
    b"profile": FOUR,
}
# What the next word of an option is; None where it has no value.
VALUES = {
    b"--state": "board",
    b"--earom": "cells",
    b"--until": "number",
    b"--cuts": "cuts",
    b"--save": "out",
    b"--cost": None,
    b"--timers": None,
}
LIMITS = {"image": 43008, "tape": 16777216, "board": 4356, "cells": 64, "source": 1048576, "script": 65536}
USAGE = (
    b"gravitar: usage: run IMAGE TAPE, asm CPUSRC VGSRC OUT, debug IMAGE TAPE SCRIPT, show STATE, soak SEED, "
    b"pcm IMAGE TAPE N, frames IMAGE TAPE, seek IMAGE TAPE N,N,.., profile IMAGE TAPE\n"
)
OUTSIDE = b"gravitar: outside fault\n"
DIGITS = re.compile(rb"[0-9]{1,15}\Z")
ABSENT, FAULT = "absent", "fault"


def number(word, least=0, most=CLOCK_LIMIT):
    """The number of a word, or None."""
    if not DIGITS.match(word) or not least <= int(word) <= most:
        return None
    return int(word)


@functools.lru_cache(64)
def clocks(word):
    """The clocks of a list, or None."""
    numbers = [number(part) for part in word.split(b",")]
    return None if None in numbers or len(numbers) > 1000 else numbers


def fits(kind, word):
    """Whether a word can stand where one of this kind is asked for."""
    if kind == "number":
        return number(word) is not None
    if kind == "per":
        return number(word, 1, 65535) is not None
    if kind == "clocks":
        return clocks(word) is not None
    if kind == "cuts":
        return clocks(word) is not None and clocks(word) == sorted(clocks(word))
    return word != b"" and not word.startswith(b"--")


class Command:
    """A command: its verb, its names and its options."""

    def __init__(self, verb, names, options):
        self.verb, self.names, self.options = verb, names, options

    def reads(self):
        """The files in the order in which they are read, each with its kind."""
        named = list(zip(NAMES[self.verb], self.names))
        given = [(VALUES[o], self.options[o]) for o in (b"--state", b"--earom") if o in self.options]
        files = [f for f in named[:2] + given + named[2:] if f[0] in LIMITS]
        return files

    def stores(self):
        """The names that are stored under, in their order."""
        if self.verb == b"asm":
            return [self.names[2]]
        names = [self.options.get(o) for o in (b"--save", b"--earom")]
        return [n for n in names if n] if self.verb == b"run" else []


def read_options(verb, words):
    """The options of these words, or None."""
    options, rest = {}, list(words)
    while rest:
        option = rest.pop(0)
        if option not in OPTIONS[verb] or option in options:
            return None
        kind = VALUES[option]
        if kind and (not rest or not fits(kind, rest[0])):
            return None
        options[option] = rest.pop(0) if kind else b""
    return options


def read_words(words):
    """The command of these words, or None where they are of no form."""
    return command_of(tuple(words))


@functools.lru_cache(64)
def command_of(words):
    """The same of a tuple."""
    try:
        b"\n".join(words).decode()
    except UnicodeDecodeError:
        return None
    if not words or words[0] not in NAMES:
        return None
    verb, rest = words[0], words[1:]
    count = next((i for i, w in enumerate(rest) if w.startswith(b"--")), len(rest))
    kinds, options = NAMES[verb], read_options(verb, rest[count:])
    if count != len(kinds) or options is None or not all(map(fits, kinds, rest)):
        return None
    return Command(verb, list(rest[:count]), options)


def lines_of(data):
    """The lines of a text; the line feed of the last may be missing."""
    lines = data.split(b"\n")
    return lines[:-1] if lines[-1] == b"" else lines


# ---- tapes

PORTS = {b"IN0", b"IN3", b"IN4"} | {b"%s%d" % (p, n) for p in (b"P", b"Q") for n in range(8)}
ENTRY = re.compile(rb"([0-9]{1,15}) (?!END )([^ \n]*) [0-9A-Fa-f]{2}\Z")
END = re.compile(rb"([0-9]{1,15}) END\Z")


def tape_line(line, before, ended):
    """The cause of a tape's line, with its clock and whether it is the END."""
    if ended:
        return b"after end", before, ended
    end = END.match(line)
    match = end or ENTRY.match(line)
    if not match:
        return b"form", before, ended
    clock = int(match[1])
    if not end and match[2] not in PORTS:
        return b"port", before, ended
    if clock > CLOCK_LIMIT:
        return b"clock", before, ended
    return (b"falls" if clock < before else None), clock, bool(end)


def read_tape(data):
    """The cause why these bytes are no tape, or None; and the clock of END."""
    if len(data) > LIMITS["tape"]:
        return b"too long", 0
    clock, ended, at = 0, False, 0
    for at, line in enumerate(lines_of(data), 1):
        cause, clock, ended = tape_line(line, clock, ended)
        if cause:
            return b"line %d: %s" % (at, cause), 0
    return (None, clock) if ended else (b"line %d: no end" % (at + 1), 0)


# ---- scripts of the debugger

SHAPES = re.compile(
    rb"(?:(?P<stop>break|watch) (?P<address>[0-9A-Fa-f]{4})|(?P<count>step|until) (?P<number>[0-9]{1,15})"
    rb"|(?P<shown>mem|dis|vdis) (?P<from>[0-9A-Fa-f]{4}) (?P<many>[0-9]{1,15})|(?P<alone>stopvg|clear|go|regs|dev)|)\Z"
)
MANY = {b"mem": 256, b"dis": 64, b"vdis": 64}


def is_command(line, stops):
    """Whether a line of a script has a form, beside the stops that stand: their number of each kind."""
    match = SHAPES.match(line)
    if not match:
        return False
    if match["stop"]:
        address = int(match["address"], 16)
        stops[match["stop"]] = stops.get(match["stop"], 0) + 1
        seen = match["stop"] == b"break" or address <= 0x07FF or 0x2000 <= address <= 0x27FF
        return seen and stops[match["stop"]] <= 16
    if match["count"] == b"step":
        return number(match["number"], 1, 1000000) is not None
    if match["count"]:
        return number(match["number"]) is not None
    if match["shown"]:
        address = int(match["from"], 16)
        even = match["shown"] != b"vdis" or (0x2000 <= address <= 0x5FFF and address % 2 == 0)
        return even and number(match["many"], 1, MANY[match["shown"]]) is not None
    if match["alone"] == b"clear":
        stops.clear()
    return True


def script_cause(data):
    """The cause why these bytes are no script, or None."""
    if len(data) > LIMITS["script"]:
        return b"too long"
    stops = {}
    for at, line in enumerate(lines_of(data), 1):
        if not is_command(line, stops):
            return b"line %d: command" % at
    return None


# ---- saved boards

DOCUMENTED = frozenset(
    bytes.fromhex(
        "0001050608090A0D0E101115161819 1D1E20212425262829 2A2C2D2E3031353638393D3E4041454648494A4C4D4E"
        "5051555658595D5E6061656668696A6C6D6E7071757678797D7E8184858688 8A8C8D8E9091949596 98999A9D"
        "A0A1A2A4A5A6A8A9AAACADAEB0B1B4B5B6B8B9BABCBDBEC0C1C4C5C6C8C9CACCCDCED0D1D5D6D8D9DDDE"
        "E0E1E4E5E6E8E9EAECEDEEF0F1F5F6F8F9FDFE"
    )
)
# Offset, bytes, least and greatest value: what stands behind the processor's place. POKEYs from their own first byte.
MIDDLE = [(38 + i, 1, 0, 0) for i in range(6)]
GENERATOR = (
    [(44, 1, 0, 1), (45, 1, 0, 5), (46, 2, 0, 8191), (48, 1, 0, 3), (49, 1, 0, 7), (50, 1, 0, 15), (52, 1, 0, 7), (53, 1, 0, 15)]
    + [(58 + 2 * i, 2, 0, 8191) for i in range(4)]
    + [(at, -4, -(1 << bits), 1 << bits) for at, bits in ((66, 30), (70, 30), (74, 27), (78, 27))]
)
POKEY = (
    [(10, 1, 0, 7), (11, 1, 0, 7), (12, 1, 0, 15), (13, 1, 0, 31), (14, 2, 0, 511), (16, 4, 0, 131071), (20, 1, 0, 27)]
    + [(21, 1, 0, 113)]
    + [(22 + 4 * i, 4, 1, 65542) for i in range(4)]
    + [(38, 1, 0, 15), (39, 1, 0, 3), (40, 1, 0, 228)]
    + [(49 + i, 1, 0, 15) for i in range(4)]
)
POKEYS = [(at + base, size, low, high) for base in (84, 137) for at, size, low, high in POKEY]
EAROM = [(190, 1, 0, 63), (192, 1, 0, 15), (193, 2, 0, 1512)]


def field(data, at, size):
    """The number of a field; a negative size is a signed one's."""
    return int.from_bytes(data[at : at + abs(size)], "little", signed=size < 0)


def front_fields(data):
    """The fields up to the processor's place, with their ranges."""
    jammed = data[19] == 1
    bad = [o for o in range(256) if o not in DOCUMENTED]
    inside = data[0] == 2 and data[30] != 0
    yield 1, data[1:4] == b"GVS"
    yield 4, field(data, 4, 8) <= CLOCK_LIMIT + (0 if inside else 16)
    yield 18, data[18] & 0x30 == 0
    yield 19, data[19] <= 1
    yield 20, data[20] in bad if jammed else data[20] == 0
    yield 22, data[22] <= 0x3F
    yield 25, field(data, 25, 2) <= 6143
    for at, most in ((27, 1), (28, 7), (29, 2)):
        yield at, data[at] <= most
    if data[0] == 1:
        yield from ((at, data[at] == 0) for at in range(30, 38))
        return
    yield 30, data[30] <= (0 if jammed else 3)
    yield 31, 1 <= data[31] <= 6 if data[30] else data[31] == 0


def back_fields(data):
    """The fields behind the processor's place."""
    for at, size, low, high in MIDDLE + GENERATOR:
        yield at, low <= field(data, at, size) <= high
    left = field(data, 82, 2)
    yield 82, 1 <= left <= 8192 if data[45] == 5 else left == 0
    for at, size, low, high in POKEYS + EAROM:
        yield at, low <= field(data, at, size) <= high


def board_causes(data):
    """The causes that these bytes may be refused for as a board; None among them where they may be good."""
    if len(data) != LIMITS["board"]:
        return [b"length %d" % min(len(data), LIMITS["board"] + 1)]
    if data[0] not in (1, 2):
        return [b"version %d" % data[0]]
    for at, good in front_fields(data):
        if not good:
            return [b"field %d" % at]
    # Whether the processor can stand inside the sequence is left open here.
    inside = data[0] == 2 and data[30] != 0
    if not inside and data[32:38] != bytes(6):
        return [b"field 32"]
    open_ = [b"field 32"] if inside else []
    for at, good in back_fields(data):
        if not good:
            return open_ + [b"field %d" % at]
    return open_ + [None]


# ---- notes

SOURCE_CAUSES = (
    b"bad token|bad number|no such form|twice named|unknown name|out of range|outside rom|overlap"
)
SOURCE = re.compile(rb"line ([1-9][0-9]*): (?:" + SOURCE_CAUSES + rb")\Z")


def length_cause(kind, data):
    """The cause of a file that has to have one length."""
    return [None if len(data) == LIMITS[kind] else b"length %d" % min(len(data), LIMITS[kind] + 1)]


def note(name, cause):
    return b"gravitar: %s: %s\n" % (name, cause)


def exactly(text):
    return functools.partial(operator.eq, text)


def source_refused(name, data):
    """Whether a note is one on a line of this source."""

    def fits_note(text):
        head, tail = note(name, b"").rstrip(b"\n"), text[:-1]
        match = SOURCE.match(tail[len(head) :])
        good = text.startswith(head) and text.endswith(b"\n")
        return bool(good and match and int(match[1]) <= len(lines_of(data)))

    return fits_note


def refusals(kind, name, data):
    """Pairs of a status and what its note has to fit, for a file that is found; and whether it may be good."""
    if kind == "source":
        if len(data) > LIMITS[kind]:
            return [(4, exactly(note(name, b"too long")))], False
        return [(4, source_refused(name, data))], True
    if kind == "board":
        causes = board_causes(data)
    elif kind == "tape":
        causes = [read_tape(data)[0]]
    elif kind == "script":
        causes = [script_cause(data)]
    else:
        causes = length_cause(kind, data)
    return [(4, exactly(note(name, c))) for c in causes if c is not None], None in causes


def answers(command, look):
    """What may come for a command: pairs of a status and what its note has to fit. `look` tells what is found under a name."""
    came = []
    for kind, name in command.reads():
        found = look(name)
        if found is ABSENT:
            return came + [(5, exactly(note(name, b"absent")))]
        if found is FAULT:
            return came + [(6, exactly(OUTSIDE))]
        refused, good = refusals(kind, name, found)
        came += refused
        if not good:
            return came
    return came + [(0, exactly(b""))]

"""The rows of crates/board_rows/data as steps; FORMAT.txt beside them says how they are written."""
import re

STEPS = (b"file", b"patch", b"length", b"copy", b"$")
EXPECTED = (b"status", b"note", b"store", b"at", b"same", b"keep", b"text", b"out")
SPAN = re.compile(rb"\{(\d+)\.\.(\d+)\}")


def content(lines):
    """The bytes of lines of content."""
    parts = []
    for line in lines:
        if line[:1] == b"|":
            parts.append(line[1:] + b"\n")
        elif line[:1] == b"\\":
            parts.append(line[1:])
        elif line[:1] == b":":
            for word in line[1:].split():
                byte, _, times = word.partition(b"*")
                parts.append(bytes([int(byte, 16)]) * int(times or 1))
    return b"".join(parts)


def spread(match):
    """The numbers of a {A..B}, joined by commas."""
    return b",".join(b"%d" % n for n in range(int(match[1]), int(match[2]) + 1))


def words_of(line):
    """The words of a command behind the program's name."""
    return [SPAN.sub(spread, word) for word in line.split(b" ")[2:]]


def blocks(text):
    """The rows and what is given: a name for what is given (else None), and the lines."""
    name, lines = None, []
    for line in text.split(b"\n"):
        if line.startswith((b"row ", b"given ")):
            yield name, lines
            name, lines = (line[6:] if line.startswith(b"given ") else None), []
        elif line and not line.startswith(b"#"):
            lines.append(line)
    yield name, lines


def steps_of(lines, given):
    """The steps of a row: each a list of the step's line and its content. What stands behind `once` is long, and left out."""
    step, mine = None, False
    for line in lines:
        word = line.split(b" ")[0]
        if line == b"once":
            break
        if word == b"with" or word in STEPS:
            if step:
                yield step
            step, mine = None, True
        if word == b"with":
            yield from steps_of(given[line[5:]], given)
        elif word in STEPS:
            step = [line]
        elif word in EXPECTED:
            mine = False
        elif mine and step:
            step.append(line)
    if step:
        yield step


def read(paths):
    """The steps of each row of these files."""
    text, given, rows = b"\n".join(path.read_bytes() for path in paths), {}, []
    for name, lines in blocks(text):
        if name is not None:
            given[name] = lines
        rows.append(list(steps_of(lines, given)))
    return rows


def make(step, files):
    """Does a step that makes a file, over a folder's files by their names."""
    words, made = step[0].split(b" "), content(step[1:])
    if words[0] == b"file":
        files[words[1]] = made
    elif words[0] == b"patch":
        old, at = files[words[1]], int(words[2])
        files[words[1]] = old[:at] + made + old[at + len(made) :]
    elif words[0] == b"length":
        files[words[1]] = files[words[1]][: int(words[2])].ljust(int(words[2]), b"\0")
    elif words[0] == b"copy":
        files[words[2]] = files[words[1]]

#!/usr/bin/env python3
"""Holds the numbers of the pages against the sources that they count, and against one another.

    python3 tools/facts.py [--check]  prints what differs; the status is 1 where something does,
                                      and 2 where there are no facts
    python3 tools/facts.py --list     prints each fact with its places
    python3 tools/facts.py --shared   prints the numbers that two pages have and no fact names:
                                      some are the same fact

A fact is a number, or several, that stand in sentences of pages. `#` is the number's place in a
sentence. Each sentence has to be there, and its numbers have to be those of all the others, and
those of the sources where they can be counted."""
from __future__ import annotations

import collections
import pathlib
import re
import sys
from typing import Callable, Iterator, NamedTuple, Optional

TOP = pathlib.Path(__file__).resolve().parent.parent
NUMBER = r"(\d[\d,]*(?:\.\d+)?)"


class Fact(NamedTuple):
    """A fact: its name, the numbers as the sources have them, or None, and its sentences, each
    with its page."""

    name: str
    count: Optional[Callable[[], list[str]]]
    places: list[tuple[str, str]]


def text_of(path: str) -> str:
    """A page in one line, so that a sentence is found over the ends of its lines."""
    return " ".join((TOP / path).read_text().split())


def rows() -> list[str]:
    """How many rows the suite has, and how many commands stand in them."""
    texts = [file.read_text() for file in (TOP / "crates/board_rows/data").glob("*.rows")]
    lines = [line for text in texts for line in text.splitlines()]
    count = sum(line.startswith(("row ", "given ")) for line in lines)
    return [str(count), str(sum(line.startswith("$ gravitar") for line in lines))]


def crates() -> list[str]:
    """How many crates there are."""
    lines = (TOP / "crates.txt").read_text().splitlines()
    return [str(sum(bool(re.match(r"\w+[\w ]*:", line)) for line in lines))]


def mutants() -> list[str]:
    """How many mutants there are."""
    return [str(sum(1 for _ in (TOP / "crates").glob("*/must-fail/*.edit")))]


def number_in(path: str, pattern: str) -> Callable[[], list[str]]:
    """The number of a pattern where it first stands in a file."""
    return lambda: re.findall(pattern, (TOP / path).read_text())[:1]


def header(name: str) -> Callable[[], list[str]]:
    """A number that the header for C defines."""
    return number_in("include/gravitar.h", rf"#define {name} (\d+)")


def matches(path: str, pattern: str) -> Callable[[], list[str]]:
    """How often a pattern stands in the files of a path."""
    found_in = re.compile(pattern, re.MULTILINE)
    return lambda: [str(sum(len(found_in.findall(file.read_text())) for file in TOP.glob(path)))]


README = "README.md"
TESTING, PERFORMANCE, DECISIONS, EMBED, MANY, COMMANDS, FORMATS, SUITE, PROVED = (
    f"docs/{name}.md"
    for name in "TESTING PERFORMANCE DECISIONS EMBED MANY COMMANDS FORMATS SUITE PROVED".split()
)
SHARED = (README, TESTING, PERFORMANCE, DECISIONS, EMBED, MANY)
FACTS = [
    Fact("rows and commands", rows, [
        (TESTING, "# rows with # commands"),
        (SUITE, "# rows with # commands"),
    ]),
    Fact("rows", lambda: rows()[:1], [
        (SUITE, "`1..#`"),
    ]),
    Fact("crates", crates, [
        (TESTING, "The gate passes # crates"),
    ]),
    Fact("mutants", mutants, [
        (TESTING, "wants # mutants refused"),
    ]),
    Fact("bytes of a board", header("GRAVITAR_BOARD_LEN"), [
        (EMBED, "board is the # bytes"),
        (COMMANDS, "43,008, # and 64"),
        (FORMATS, "# bytes. Numbers have their low byte first"),
        ("include/gravitar.h", "A board is # bytes"),
    ]),
    Fact("bytes of an image", header("GRAVITAR_IMAGE_LEN"), [
        (EMBED, "an image # bytes"),
        (COMMANDS, "the right ones are #, 4,356"),
        (FORMATS, "An image has exactly # bytes"),
        ("docs/REFUSALS.md", "or more; # is right"),
    ]),
    Fact("bytes of a record", None, [
        (EMBED, "A record has # bytes"),
        (EMBED, "in the same order, # bytes for each"),
        (DECISIONS, "Records come as bytes, # for each"),
    ]),
    Fact("version of the calls", header("GRAVITAR_VERSION"), [
        (EMBED, "the version of the calls, #"),
        ("docs/gravitar.1", '"gravitar #" "User commands"'),
        ("web/core.js", "const VERSION = #, DONE"),
        ("bindings/rust/Cargo.toml", 'version = "#.0.0"'),
    ]),
    Fact("tests in Python", matches("bindings/python/tests/*.py", r"^ +def test_"), [
        (EMBED, "python3: # tests"),
    ]),
    Fact("bytes of a line", None, [
        (EMBED, "five lines of at most # bytes"),
        (PROVED, "A line has room for # bytes"),
    ]),
    Fact("clocks of a frame", None, [
        (PERFORMANCE, "400 calls of # clocks, a frame each"),
        (EMBED, "one call of # clocks:"),
        (EMBED, "just the clock # further"),
        (EMBED, "Frames of # clocks"),
    ]),
    Fact("cuts and numbers of seek", None, [
        (COMMANDS, "1 to # of them"),
        (COMMANDS, "at 1 to # clocks"),
        (COMMANDS, "any # numbers cost one run"),
        (DECISIONS, "room for the start and # more"),
        (PERFORMANCE, "Any # numbers of `seek`"),
        (PROVED, "its cuts don't fall and are at most #"),
    ]),
    Fact("the highest divisor of pcm", None, [
        (COMMANDS, "N from 1 to #. A sample"),
        (DECISIONS, "a number between 1 and #,"),
        (EMBED, "`gravitar_pcm` of # clocks a sample"),
    ]),
    Fact("the last clock", None, [
        (COMMANDS, "at most 2^#. Each number"),
        (FORMATS, "and is at most 2^#."),
        ("docs/DEBUGGER.md", "a clock, at most 2^#"),
        (PROVED, "The limit is at most 2^#;"),
    ]),
    Fact("stack", None, [
        ("include/gravitar.h", "The thread has # KiB of stack"),
        (EMBED, "the header asks for # KiB"),
        (COMMANDS, "stack can't grow to # KiB"),
    ]),
    Fact("the C library's version", None, [
        (README, "needs version # or later of the GNU C library"),
        (MANY, "version # of the GNU C library"),
    ]),
    Fact(
        "bytes of a block",
        number_in("crates/outside_io/src/block_writer.rt", r"BLOCK_LEN: usize = (\d+)"),
        [
            (DECISIONS, "in a block of # bytes"),
            (DECISIONS, "in blocks of # bytes"),
            (PROVED, "At most # bytes wait in it"),
        ],
    ),
    Fact("the tries of a press", None, [
        (MANY, "These lines do # tries"),
        (MANY, "| # tries from one board"),
    ]),
    Fact("the last clock of the workload", None, [
        (COMMANDS, "resets 0 sum 10376636 clock #"),
        (PERFORMANCE, "the long run, # clocks with its own tape"),
    ]),
]


def found(page: str, sentence: str) -> list[tuple[str, ...]]:
    """The numbers of a sentence, wherever it stands in a page."""
    pattern = re.escape(sentence).replace(r"\#", NUMBER).replace("#", NUMBER)
    places = re.finditer(pattern, text_of(page))
    return [tuple(plain(number) for number in match.groups()) for match in places]


def plain(number: str) -> str:
    """A number without its commas."""
    return number.replace(",", "")


def wrong(fact: Fact) -> Iterator[str]:
    """What differs in a fact."""
    want = tuple(fact.count()) if fact.count else None
    if want == ():
        yield f"{fact.name}: the sources no longer say it"
        return
    for page, sentence in fact.places:
        came = found(page, sentence)
        if not came:
            yield f"{fact.name}: {page} doesn't say: {sentence}"
        for numbers in came:
            want = want or numbers
            if numbers != want:
                said, wanted = ", ".join(numbers), ", ".join(want)
                yield f"{fact.name}: {page} says {said} and not {wanted}: {sentence}"


def shared() -> Iterator[str]:
    """The numbers of two digits or more that stand in two pages and in no fact."""
    sentences = [place for fact in FACTS for place in fact.places]
    named = {number for place in sentences for numbers in found(*place) for number in numbers}
    places: dict[str, dict[str, list[str]]]
    places = collections.defaultdict(lambda: collections.defaultdict(list))
    for page in SHARED:
        text = re.sub(r"\]\([^)]*\)", "]", text_of(page))
        for match in re.finditer(r"(?<![\w.,#/$-])" + NUMBER + r"(?!\w)", text):
            number = plain(match.group(1))
            if len(number) > 1 and number not in named:
                places[number][page].append(text[max(0, match.start() - 30) : match.end() + 30])
    for number, by_page in sorted(places.items(), key=lambda item: (len(item[0]), item[0])):
        if len(by_page) > 1:
            yield number
            for page, there in by_page.items():
                yield from (f"    {page}: {place}" for place in there)


def main(words: list[str]) -> int:
    """Does what the words ask for; the status."""
    if words == ["--shared"]:
        print("\n".join(shared()))
        return 0
    if words == ["--list"]:
        for fact in FACTS:
            print(fact.name + (": " + ", ".join(fact.count()) if fact.count else ""))
            print("".join(f"    {page}: {sentence}\n" for page, sentence in fact.places), end="")
        return 0
    if words not in ([], ["--check"]) or not FACTS:
        print(__doc__, file=sys.stderr)
        return 2
    lines = [line for fact in FACTS for line in wrong(fact)]
    print("\n".join(lines), end="\n" if lines else "")
    return 1 if lines else 0


if __name__ == "__main__":
    sys.exit(main(sys.argv[1:]))

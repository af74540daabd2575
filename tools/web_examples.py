"""Makes web/examples.js: the examples' sources, tapes and cells as a script that a page reads.

    python3 tools/web_examples.py           writes it
    python3 tools/web_examples.py --check   status 1 where it isn't what the examples give
"""
import json
import pathlib
import sys

ROOT = pathlib.Path(__file__).resolve().parent.parent
OUT = ROOT / "web" / "examples.js"
# Title, layout of web/controls.js, tape, and cells of each example; the first one starts the page.
EXAMPLES = {
    "ship": ("Ship: fly around a planet", "ship", "ship.tape", None),
    "rubble": ("Rubble: rocks that break", "Gravitar", "rubble.tape", None),
    "square": ("Square: shrinking pictures", "no keys", "square.tape", None),
    "tune": ("Tune: a round for two voices", "no keys", "tune.tape", None),
    "score": ("Score: a number that stays", "one button", "first.tape", "blank.cells"),
    "latch": ("Latch: the smallest program", "no keys", "latch.tape", None),
}


def example(name: str) -> dict[str, object]:
    """One example as the page takes it."""
    folder = ROOT / "examples" / name
    title, layout, tape, cells = EXAMPLES[name]
    return {
        "title": title,
        "layout": layout,
        "processor": (folder / f"{name}.s").read_text(),
        "generator": (folder / f"{name}.v").read_text(),
        "tape": (folder / tape).read_text(),
        "cells": (folder / cells).read_bytes().hex() if cells else None,
    }


def script() -> str:
    """The text of web/examples.js."""
    all_of_them = {name: example(name) for name in EXAMPLES}
    return (
        "// The examples, made by tools/web_examples.py from the folder examples/.\n"
        "'use strict';\n\n"
        f"const GRAVITAR_EXAMPLES = {json.dumps(all_of_them, indent=1)};\n"
        "if (typeof module === 'object') module.exports = GRAVITAR_EXAMPLES;\n"
    )


def main(words: list[str]) -> int:
    """Writes the file, or compares it."""
    if words == ["--check"]:
        same = OUT.exists() and OUT.read_text() == script()
        print(f"{OUT.relative_to(ROOT)}: {'as the examples give it' if same else 'differs'}")
        return 0 if same else 1
    OUT.write_text(script())
    return 0


if __name__ == "__main__":
    sys.exit(main(sys.argv[1:]))

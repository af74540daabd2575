#!/usr/bin/env python3
"""Draws the crates by layer, from crates.txt, into docs/crates.svg.

A crate stands one layer above the highest crate of the repository that it stands on. A line leads
to each of these, but to one on which it stands through another too. Libraries of the kit aren't
drawn.

It also looks at the table of crates in docs/MAP.md: each crate is in one row, below all that it
stands on.

    python3 tools/crates_drawing.py            writes the drawing
    python3 tools/crates_drawing.py --check    writes nothing; fails where the drawing is another
"""
from __future__ import annotations

import pathlib
import re
import sys
from typing import Dict, Iterator, List

TOP = pathlib.Path(__file__).resolve().parent.parent
DRAWING = TOP / "docs" / "crates.svg"
WIDTH, HEIGHT, GAP, RISE, MARGIN, LABEL = 116, 22, 8, 74, 12, 18
# Each crate with crates that it stands on.
Crates = Dict[str, List[str]]


def read_crates() -> Crates:
    """Each crate with the crates of the repository that it stands on."""
    lines = (TOP / "crates.txt").read_text().splitlines()
    rows = [line.split(":", 1) for line in lines if line.strip() and not line.startswith("#")]
    named = {head.split()[0]: below.split() for head, below in rows}
    return {crate: [b for b in below if b in named] for crate, below in named.items()}


def all_below(crates: Crates, crate: str) -> set[str]:
    """All that a crate stands on, at once or through others."""
    return set(crates[crate]).union(*(all_below(crates, b) for b in crates[crate]))


def layer_of(crates: Crates, crate: str) -> int:
    """The layer in which a crate stands, from 1 on."""
    return 1 + max((layer_of(crates, b) for b in crates[crate]), default=0)


def drawn_lines(crates: Crates) -> Crates:
    """For each crate those below it that it doesn't stand on through another too."""
    return {
        crate: [b for b in below if not any(b in all_below(crates, other) for other in below)]
        for crate, below in crates.items()
    }


def placed(crates: Crates, lines: Crates) -> tuple[dict[str, tuple[float, int]], int, int]:
    """The place of each box: how far right, and its layer. Each row is put in order a few times, by
    the middle of the boxes to which lines lead: down from the top row, and up again."""
    layers: dict[int, list[str]] = {}
    for crate in sorted(crates):
        layers.setdefault(layer_of(crates, crate), []).append(crate)
    above = {b: [crate for crate in lines if b in lines[crate]] for b in crates}
    most, top = max(len(row) for row in layers.values()), max(layers)
    right: dict[str, float] = {}

    def spread(row: list[str]) -> None:
        step = (WIDTH + GAP) * most / len(row)
        right.update({crate: MARGIN + LABEL + step * (at + 0.5) for at, crate in enumerate(row)})

    def middle(near: Crates, crate: str) -> float:
        boxes = near[crate] or [crate]
        return sum(right[other] for other in boxes) / len(boxes)

    for row in layers.values():
        spread(row)
    for turn in range(8):
        near, order = (lines, range(1, top + 1)) if turn % 2 else (above, range(top, 0, -1))
        for layer in order:
            layers[layer].sort(key=lambda crate: (middle(near, crate), crate))
            spread(layers[layer])
    places = {crate: (right[crate], layer) for layer, row in layers.items() for crate in row}
    return places, most, top


def drawing(crates: Crates) -> str:
    """The drawing, as SVG."""
    lines = drawn_lines(crates)
    places, most, top = placed(crates, lines)
    wide = 2 * MARGIN + LABEL + (WIDTH + GAP) * most
    high = 2 * MARGIN + HEIGHT + RISE * (top - 1)

    def y(layer: int) -> int:
        return MARGIN + RISE * (top - layer)

    out = [
        f'<svg xmlns="http://www.w3.org/2000/svg" viewBox="0 0 {wide} {high}" '
        'font-family="sans-serif" font-size="11">',
        "<!-- made by tools/crates_drawing.py from crates.txt -->",
        f'<rect width="{wide}" height="{high}" fill="white"/>',
    ]
    for layer in range(1, top + 1):
        out.append(f'<text x="{MARGIN}" y="{y(layer) + 15}" fill="#888888">{layer}</text>')
    for crate, below in lines.items():
        x0, layer0 = places[crate]
        for b in below:
            x1, layer1 = places[b]
            y0, y1 = y(layer0) + HEIGHT, y(layer1)
            way = f"M{x0:.0f} {y0} C{x0:.0f} {y0 + 36} {x1:.0f} {y1 - 36} {x1:.0f} {y1}"
            out.append(f'<path d="{way}" fill="none" stroke="#a8b4c4"/>')
    for crate, (x, layer) in places.items():
        box = f'x="{x - WIDTH / 2:.0f}" y="{y(layer)}" width="{WIDTH}" height="{HEIGHT}"'
        out.append(f'<rect {box} rx="4" fill="#eef3fa" stroke="#5b7aa6"/>')
        out.append(f'<text x="{x:.0f}" y="{y(layer) + 15}" text-anchor="middle">{crate}</text>')
    return "\n".join(out + ["</svg>", ""])


def faults(crates: Crates) -> Iterator[str]:
    """What is wrong with the table of crates in docs/MAP.md."""
    table = (TOP / "docs" / "MAP.md").read_text().split("## Crates")[1].split("\n## ")[0]
    lines = [line.split("|")[2] for line in table.splitlines() if line.count("|") >= 4]
    rows = [re.findall(r"`([a-z0-9_]+)`", line) for line in lines]
    row_of = {crate: at for at, row in enumerate(rows) for crate in row}
    listed = [crate for row in rows for crate in row]
    yield from (f"{c} isn't in the table" for c in crates if c not in row_of)
    yield from (f"{c} is no crate" for c in row_of if c not in crates)
    yield from (f"{c} is in the table twice" for c in row_of if listed.count(c) > 1)
    for crate, row in row_of.items():
        higher = [b for b in crates.get(crate, []) if row_of.get(b, -1) >= row]
        yield from (f"{crate} stands above {b}, on which it stands" for b in higher)


def main(words: list[str]) -> int:
    """Draws, or compares where it is asked to; the status."""
    crates = read_crates()
    wrong = [f"docs/MAP.md: {fault}" for fault in faults(crates)]
    text = drawing(crates)
    if "--check" not in words:
        DRAWING.write_text(text)
    elif not DRAWING.exists() or DRAWING.read_text() != text:
        wrong.append("docs/crates.svg: make it again by tools/crates_drawing.py")
    layers = max(layer_of(crates, crate) for crate in crates)
    print("\n".join(wrong) or f"{len(crates)} crates in {layers} layers")
    return 1 if wrong else 0


if __name__ == "__main__":
    sys.exit(main(sys.argv[1:]))

"""Runs a board and draws what it draws.

    python3 picture.py PROCESSOR.s GENERATOR.v TAPE CLOCK PICTURE.svg

writes the log to the output, and the strokes as an SVG picture. It needs the package gravitar.
"""
import pathlib
import sys

import gravitar


# What a picture shows, from the middle to its right and upper edge (docs/BOARD.md).
X, Y = 9_830_400, 7_372_800


def picture(strokes):
    """An SVG picture of the strokes, y upwards. The bits of a colour are red, green and blue here."""
    lines = [
        f'<svg xmlns="http://www.w3.org/2000/svg" viewBox="{-X} {-Y} {2 * X} {2 * Y}" stroke-width="40000">',
        f'<rect x="{-X}" y="{-Y}" width="{2 * X}" height="{2 * Y}"/>',
    ]
    for it in strokes:
        rgb = ",".join(str(17 * it.intensity * (it.colour >> bit & 1)) for bit in (2, 1, 0))
        lines.append(f'<path stroke="rgb({rgb})" d="M{it.x0} {-it.y0}L{it.x1} {-it.y1}"/>')
    return "\n".join([*lines, "</svg>", ""])


def main(processor, generator, tape, clock, out):
    sources = [pathlib.Path(name).read_bytes() for name in (processor, generator, tape)]
    machine = gravitar.Machine(gravitar.assemble(*sources[:2]), tape=sources[2])
    log = b""
    while machine.clock < int(clock) and not machine.jammed:
        log += machine.run(min(gravitar.FRAME, int(clock) - machine.clock))
    sys.stdout.buffer.write(log)
    pathlib.Path(out).write_text(picture(gravitar.strokes(log)))


main(*sys.argv[1:])

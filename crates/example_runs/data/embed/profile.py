"""Where a board's clocks go, routine by routine, with the names of the source.

    python3 profile.py PROCESSOR.s GENERATOR.v TAPE CLOCKS

writes the lines of `gravitar profile`, each with the label at its address. It needs the package
gravitar.
"""
import pathlib
import sys

import gravitar


def main(processor: str, generator: str, tape: str, clocks: str) -> None:
    sources = [pathlib.Path(name).read_bytes() for name in (processor, generator)]
    machine = gravitar.Machine(gravitar.assemble(*sources), tape=pathlib.Path(tape).read_bytes())
    for it in machine.profile(int(clocks), gravitar.labels(*sources)):
        print(f"R {it.address:04X} {it.entries} {it.clocks} {it.accesses} {it.name}".rstrip())


main(*sys.argv[1:])

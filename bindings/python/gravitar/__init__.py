"""The board for Python: the calls of include/gravitar.h by ctypes, a machine over them, and the
program's commands.

    import gravitar
    machine = gravitar.Machine(gravitar.assemble(processor_source, generator_source))
    machine.set("IN3", 0xFB)
    for strokes in machine.frames(60):
        ...
    for clock, kind, values in machine.records(25_000):
        ...
    saved = machine.save()
    print(machine.debug("until 100000\\nregs\\n"))

    done = gravitar.command(["run", "i", "t", "--save", "b"], {"i": image, "t": tape})
    print(done.status, done.out, done.note, done.files["b"])

Boards, images, tapes and logs are bytes, and no call changes those that it is given. The library is
libgravitar.so beside this file, or else in the folder that GRAVITAR_LIB names.
"""
from ._calls import (
    BOARD_LEN, CLOCK_LIMIT, CLOCKS_A_SECOND, FRAME, IMAGE_LEN, LATCH, POKEY_1, POKEY_2, STROKE,
    WATCHDOG, Error, Record, Stretch, Stroke, _VERSION, advance, assemble, pcm, power_on,
    record_list, records, strokes,
)
from ._command import CommandError, Done, command, labels
from ._jobs import map
from ._machine import PORTS, Machine, Picture, Routine

# The package's version is that of the calls, GRAVITAR_VERSION of the header.
__version__ = str(_VERSION)

"""Changes a module of the kit, as strip_checks.py leaves it, into one for wasm32.

    to_wasm32.py MODULE.ll > OUT.ll

The module counts lengths in 64 bits and lays its memory out by bytes, with 8 for an address. That
stays: only an address in a register has 32 bits. So each load and store of an address, and each
pair that has one, goes through an i64. What this script doesn't know stops it.
"""

import re
import sys
from typing import Iterator

LAYOUT = "e-m:e-p:32:32-p10:8:8-p20:8:8-i64:64-i128:128-n32:64-S128-ni:1:10:20"
LOAD = re.compile(r"^(\s+)(%\S+) = load ptr, (.*?)((?:, !\w+ !\d+)*)$")
STORE = re.compile(r"^(\s+)store ptr (.+), (ptr (?:%\S+|@\S+), align \d+)$")
PART = re.compile(r"^(\s+)(%\S+) = extractvalue (\{ \w+, \w+ \}) (%\S+), (\d)$")
PAIR = re.compile(r"\{ (\w+), (\w+) \}")
STATIC = re.compile(r"^(@\S+ = .*?)<\{(.*?)\}>(.*)$")
PLACE = re.compile(r"\bptr (getelementptr[^(]*\([^)]*\)|@[\w.]+|null)")
FOR_X86 = re.compile(r'"(probe-stack|stack-probe-size|target-cpu|frame-pointer)"="[^"]*"')
# What may not be left: an address that is loaded, stored or kept in a list, and floating point.
LEFT = re.compile(
    r"\b(load|store) ptr|\{ ptr,|, ptr \}|[\[<]\d+ x ptr|insertvalue|\b(float|double)\b")
NAME_OR_TEXT = re.compile(r'"[^"]*"')


def wide(line: str) -> str:
    """A line whose pairs have a number in the place of an address."""
    def pair(it: re.Match) -> str:
        return "{ %s, %s }" % tuple("i64" if kind == "ptr" else kind for kind in it.groups())

    return PAIR.sub(pair, line)


def static(line: str) -> str:
    """A static, in which four zeros follow each address."""
    head, types, values = STATIC.match(line).groups()
    types = re.sub(r"\bptr\b", "ptr, [4 x i8]", types)
    return f"{head}<{{{types}}}>" + PLACE.sub(r"ptr \1, [4 x i8] zeroinitializer", values)


def instruction(line: str, number: int) -> Iterator[str]:
    """An instruction, as one or two. The number makes a name of its own."""
    if it := LOAD.match(line):
        blanks, name, place, _ = it.groups()
        yield f"{blanks}{name}.w = load i64, {place}"
        yield f"{blanks}{name} = inttoptr i64 {name}.w to ptr"
    elif it := STORE.match(line):
        blanks, value, place = it.groups()
        yield f"{blanks}%w.{number} = ptrtoint ptr {value} to i64"
        yield f"{blanks}store i64 %w.{number}, {place}"
    elif (it := PART.match(line)) and PAIR.match(it[3])[int(it[5]) + 1] == "ptr":
        blanks, name, pair, value, place = it.groups()
        yield f"{blanks}{name}.w = extractvalue {wide(pair)} {value}, {place}"
        yield f"{blanks}{name} = inttoptr i64 {name}.w to ptr"
    else:
        line = wide(line).replace("= ptrtoaddr ", "= ptrtoint ")
        yield line.replace("= alloca ptr,", "= alloca i64,")


def changed(line: str, number: int) -> Iterator[str]:
    """The lines in the place of one."""
    if line.startswith("target datalayout"):
        yield f'target datalayout = "{LAYOUT}"'
    elif line.startswith("target triple"):
        yield 'target triple = "wasm32-unknown-unknown"'
    elif line.startswith("attributes"):
        yield FOR_X86.sub("", line)
    elif line.startswith("@"):
        yield static(line) if re.search(r"\bptr\b", NAME_OR_TEXT.sub("", line)) else line
    else:
        yield from instruction(line, number)


def main() -> None:
    for number, line in enumerate(open(sys.argv[1])):
        for it in changed(line.rstrip("\n"), number):
            if not it.startswith("@") and LEFT.search(NAME_OR_TEXT.sub("", it)):
                sys.exit(f"to_wasm32.py: line {number + 1} is of an unknown form: {it}")
            print(it)


main()

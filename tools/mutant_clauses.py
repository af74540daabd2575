"""The clause at which the prover refuses a mutant, as `rt must-fail` or `rt ci` printed it.

The first line of an edit of crates/*/must-fail says where it is refused:

    # refused at the clause calls of Engine::run
    # refused at the condition room of take in SyncedMachine::window
    # refused at the law window-price of Budgets

More words may follow behind a colon. `tools/mutants --clauses LOG` compares these lines with a log,
and `--write` puts them into the edits.
"""
from __future__ import annotations

import pathlib
import re
from typing import Iterator, NamedTuple, Optional

LINE = re.compile(
    r"rt: must-fail (\w+)/(\w+)\.edit: refused, as it must be(?: \((only because.*?)\))?: (.*)"
)
PLACE = re.compile(r"(?:note: |error: )?(?:\./)?((?:src|proofs|specs)/[\w/.-]+):(\d+):\d+: ")
LOOP = r"(?:loop|\w+-(?:init|preserved|smaller))"
GOAL = re.compile(r"\(?`((?:returns|%s|overflow|invariant_of|[\w-]+-requires)[\w-]*)`" % LOOP)
FUNCTION = re.compile(r"\s*(?:pub(?:\(\w+\))? )?(?:unsafe |const |extern \"C\" )*fn (\w+)")
OWNER = re.compile(r"impl(?:<.*?>)? (?:[\w:]+(?:<.*?>)? for )?(\w+)|(?:pub )?trait (\w+)")
INVARIANT = "`invariant` of the struct's `impl Model` holds"
# Refusals that show no clause: the proof of the right body no longer reads as one.
BY_ACCIDENT = (
    "types differ",
    "types first differ",
    "has no field",
    "can be named from here",
    "is not in scope",
)
HEADER = "# refused at "
# A definition is no body, so what refuses a wrong one is a law about it.
DEFINITION = re.compile(r"^file: specs/", re.M)
LAW = re.compile(r"(?:\./)?proofs/(\w+)\.antt:\d+:\d+: error: `([\w-]+)`")


class Refusal(NamedTuple):
    """Where an edit was refused, in the words of its first line, or why that can't be said."""

    edit: str
    header: Optional[str]
    reason: str


def function_at(source: str, line: int) -> Optional[str]:
    """The function around a line of a source, or behind its attributes there, with its type."""
    name, lines = None, source.splitlines()
    while line < len(lines) and lines[line - 1].lstrip().startswith("#["):
        line += 1
    for text in reversed(lines[:line]):
        if name is None:
            found = FUNCTION.match(text)
            name = found and found.group(1)
            if name and not text.startswith(" "):
                return name
        else:
            found = OWNER.match(text)
            if found:
                return "%s::%s" % (found.group(1) or found.group(2), name)
    return name


def function_of(path: str) -> str:
    """The function whose answers stand in a file of proofs, with its type."""
    parts = pathlib.PurePosixPath(path).parts[:-1]
    return "::".join(parts[-2:]) if parts[-2][:1].isupper() else parts[-1]


def function_in(crate: pathlib.Path, path: str, line: str) -> str:
    """The function that a place in a crate's sources or proofs belongs to."""
    if path.startswith("proofs/"):
        return function_of(path)
    return function_at((crate / path).read_text(), int(line)) or "?"


def words_of(goal: str, function: str) -> str:
    """What a goal of the prover asks for, in words."""
    called = re.match(r"(\w+)[\w-]*?-requires(?:-clause-(\w+))?", goal)
    if called:
        name = called.group(2) + " " if called.group(2) else ""
        return "the condition %sof %s in %s" % (name, called.group(1), function)
    if goal.startswith("returns"):
        clause = re.search(r"-clause-(\w+)", goal)
        name = clause.group(1) + " " if clause else ""
        return "the clause %sof %s" % (name, function)
    if re.match(LOOP, goal):
        part = "measure" if "-smaller" in goal else "invariant"
        return "the %s of the loop in %s" % (part, function)
    if goal.startswith("overflow"):
        return "the arithmetic of %s" % function
    return "the invariant of a value in %s" % function


def law_of(top: pathlib.Path, edit: str, message: str) -> Optional[str]:
    """The law that refused an edit of a definition, in words; none for an edit of a body."""
    path, law = edit_file(top, edit), LAW.match(message)
    if not law or not path.exists() or not DEFINITION.search(path.read_text()):
        return None
    return "the law %s of %s" % (law.group(2), law.group(1))


def refusals(top: pathlib.Path, log: str) -> Iterator[Refusal]:
    """The refusals in a log."""
    for line in log.splitlines():
        told = LINE.match(line)
        if not told:
            continue
        crate, name, because, message = told.groups()
        edit = "%s/%s" % (crate, name)
        place, goal = PLACE.match(message), GOAL.search(message)
        law = law_of(top, edit, message)
        if law:
            yield Refusal(edit, HEADER + law, "")
        elif because:
            yield Refusal(edit, None, because)
        elif any(accident in message for accident in BY_ACCIDENT):
            reason = "by an answer that was written for the right body: %s" % message[:100]
            yield Refusal(edit, None, reason)
        elif not place or not (goal or INVARIANT in message):
            yield Refusal(edit, None, "in words that tell no clause: %s" % message[:100])
        else:
            function = function_in(top / "crates" / crate, *place.groups())
            what = words_of(goal.group(1) if goal else "invariant_of", function)
            yield Refusal(edit, HEADER + what, "")


def edit_file(top: pathlib.Path, edit: str) -> pathlib.Path:
    """The file of an edit that is named CRATE/NAME."""
    crate, name = edit.split("/")
    return top / "crates" / crate / "must-fail" / (name + ".edit")


def first_line(text: str) -> Optional[str]:
    """The line of an edit that says where it is refused, without the words behind its colon."""
    line = text.split("\n", 1)[0]
    return line.split(": ", 1)[0] if line.startswith(HEADER) else None


def with_first_line(text: str, header: str) -> str:
    """An edit with this first line; words behind the colon of the one that it had stay."""
    line, _, rest = text.partition("\n")
    if not line.startswith(HEADER):
        return header + "\n" + text
    _, colon, more = line.partition(": ")
    return header + colon + more + "\n" + rest


def differences(top: pathlib.Path, log: str) -> Iterator[str]:
    """What is wrong with the first lines of the edits in a log."""
    for refusal in refusals(top, log):
        path = edit_file(top, refusal.edit)
        if not path.exists():
            yield "%s: there is no such edit" % refusal.edit
            continue
        said = first_line(path.read_text())
        if refusal.header is None:
            yield "%s: refused %s" % (refusal.edit, refusal.reason)
        elif said is None:
            wanted = refusal.header[2:]
            yield "%s: its first line doesn't say where it is refused: %s" % (refusal.edit, wanted)
        elif said != refusal.header:
            yield "%s: says '%s', and was %s" % (refusal.edit, said[2:], refusal.header[2:])


def write(top: pathlib.Path, log: str) -> int:
    """Puts the first lines into the edits in a log, and returns how many changed."""
    changed = 0
    for refusal in refusals(top, log):
        path = edit_file(top, refusal.edit)
        if refusal.header is not None and path.exists():
            text = path.read_text()
            new = with_first_line(text, refusal.header)
            if new != text:
                path.write_text(new)
                changed += 1
    return changed

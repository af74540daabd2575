#!/usr/bin/env python3
"""Looks for links of the pages that lead nowhere or to the wrong place, lines too long, and tables
whose rows differ in their cells.

    python3 tools/doc_links.py           prints what is wrong; the status is 1 where something is
    python3 tools/doc_links.py --mend    also puts the right line into each link whose line moved,
                                         and the real path into one through examples/

It reads README.md, CONTRIBUTING.md, CHANGELOG.md and docs/*.md.

- A file and a heading have to be there. A label that is a file's name has to end the path.
- A label in backticks over a source or a definition has to be a name that the file defines: a
  function, a clause, a type, a constant, a definition.
- PROVED, READING and MAP link to lines, and the line has to define the name. Other pages link to
  files alone; --mend takes the line away.
- A link to a clause says whose clause it is, since one file has many clauses of one name:
  `clause` of `function`, or several clauses of one function. A section in which a sentence says
  "the clauses are those of `function`" needs no more. The line has to be in the contract of that
  function.
- No link leads through `examples`, which is itself a link: a forge doesn't follow it.
- Prose has at most 100 columns, outside tables, code and images, and links count by their text;
  a cell of a table has at most 160. All rows of a table have as many cells."""
from __future__ import annotations

import os
import pathlib
import re
import sys
from typing import Iterator, NamedTuple, Optional

TOP = pathlib.Path(__file__).resolve().parent.parent
WIDTH = 100
CELL = 160
# `examples` is a link, since the gate wants its files below crates/.
THROUGH = re.compile(r"\]\(((?:\.\./)*)examples(?=[/)#]|$)")
WITH_LINES = ("PROVED.md", "READING.md", "MAP.md")
LINK = re.compile(r"\[([^\]]+)\]\(([^)\s#]*)(?:#([^)\s]*))?\)")
NAMED = r"\[`[^`]+`\]\([^)\s]+\)"
OWNER = re.compile(rf"(?:(?:,|,? and)\s+{NAMED})*\s+of\s+\[?`(\w+)`")
SECTION_OWNER = re.compile(r"[Tt]he\s+clauses\s+are\s+those\s+of\s+\[?`(\w+)`")
ENDINGS = "antt|rt|rows|py|sh|md|txt|edit|c|h|s|v|script|toml"
FILE_NAME = re.compile(rf"`?((?:[\w.-]+/)*[\w.-]+\.(?:{ENDINGS}))`?")
FUNCTION = re.compile(r"^\s*(?:pub(?:\(\w+\))? )?(?:unsafe |const |extern \"C\" )*fn (\w+)")


class Link(NamedTuple):
    """A link of a page to a line of a source or a definition, the function whose clause it is, and
    whether its own sentence names the function."""

    start: int
    text: str
    name: str
    path: str
    line: int
    owner: Optional[str]
    said: bool


def dead_links(page: pathlib.Path, text: str) -> Iterator[str]:
    """The links of a page to files or headings that aren't there, and labels of other files."""
    name = page.relative_to(TOP)
    for target in re.findall(r"\]\(([^)\s]+)\)", text):
        path, _, heading = target.partition("#")
        file = (page.parent / path) if path else page
        if re.match(r"[a-z]+:", target):
            continue
        if not file.exists():
            yield f"{name}: {target} leads nowhere"
        elif THROUGH.match(f"]({target}"):
            yield f"{name}: {target} leads through the link examples, which a forge doesn't follow"
        elif heading and file.suffix == ".md" and heading not in headings(file):
            yield f"{name}: {target} has no such heading"
    for label, path, _ in LINK.findall(text):
        named = FILE_NAME.fullmatch(label)
        file = os.path.normpath(page.parent / path)
        if named and os.path.exists(file) and not f"/{file}".endswith("/" + named.group(1)):
            yield f"{name}: [{label}] leads to {path}"


def headings(page: pathlib.Path) -> set[str]:
    """The names by which links reach the headings of a page."""
    lines = page.read_text().splitlines()
    found = [re.sub(r"\]\([^)]*\)", "]", line) for line in lines if line.startswith("#")]
    names = [re.sub(r"[^\w\- ]", "", name.lstrip("#").strip().lower()) for name in found]
    return {name.replace(" ", "-") for name in names}


def defines_clause(line: str, name: str) -> bool:
    """Whether a line of a source has the clause of this name."""
    return bool(re.search(rf"\b(ensures|requires) {re.escape(name)}\b", line))


def defines(line: str, name: str) -> bool:
    """Whether a line of a source or a definition defines this name."""
    word = re.escape(name) + r"\b"
    source = rf"\b(fn|struct|enum|trait|const|static|type|ghost|mod) {word}"
    definition = rf"\s*((unfoldable|abbrev) )?pub ((record|data) )?{word}"
    return defines_clause(line, name) or bool(re.search(source, line) or re.match(definition, line))


def functions(lines: list[str]) -> list[Optional[str]]:
    """For each line of a source the function whose contract or body it is in."""
    owners: list[Optional[str]] = []
    for line in lines:
        match = FUNCTION.match(line)
        owners.append(match.group(1) if match else owners[-1] if owners else None)
    return owners


def line_links(text: str) -> Iterator[Link]:
    """The links of a page to lines, each with the function that its sentence or section names."""
    for match in LINK.finditer(text):
        label, path, anchor = match.groups()
        if not (label.startswith("`") and anchor and re.fullmatch(r"L\d+", anchor)):
            continue
        said = OWNER.match(text, match.end())
        owner = said.group(1) if said else section_owner(text, match.start())
        name, line = label.strip("`"), int(anchor[1:])
        yield Link(match.start(), match.group(0), name, path, line, owner, said is not None)


def section_owner(text: str, place: int) -> Optional[str]:
    """The function whose clauses a section is about, of the sections that a place is in."""
    marks = list(re.finditer(r"^(#+) ", text, re.MULTILINE))
    deepest = 7
    for mark, after in zip(reversed(marks), reversed([*marks[1:], None])):
        if mark.start() <= place and len(mark.group(1)) < deepest:
            deepest = len(mark.group(1))
            found = SECTION_OWNER.search(text, mark.start(), after.start() if after else len(text))
            if found:
                return found.group(1)
    return None


def wrong_lines(page: pathlib.Path, text: str) -> Iterator[tuple[Link, Optional[int], str]]:
    """Each link of a page to a line that isn't its name's, with the line that is, or None, and what
    is wrong."""
    for link in line_links(text):
        file = page.parent / link.path
        if not file.exists():
            continue
        lines = file.read_text().splitlines()
        owners = functions(lines)
        here = lines[link.line - 1] if 0 < link.line <= len(lines) else ""
        places = [place for place, line in enumerate(lines, 1) if defines(line, link.name)]
        clauses = [place for place in places if defines_clause(lines[place - 1], link.name)]
        others = [place for place in places if place not in clauses]
        theirs = [place for place in clauses if owners[place - 1] == link.owner]
        if theirs and (link.said or link.line not in others):
            if link.line not in theirs:
                yield link, nearest(theirs, link.line), f"the clause of `{link.owner}` is in line"
        elif clauses and not others or defines_clause(here, link.name):
            owner = owners[(link.line if link.line in clauses else clauses[0]) - 1]
            if link.owner:
                yield link, None, f"`{link.owner}` has no such clause"
            else:
                yield link, None, f"of which function is the clause? of `{owner}`?"
        elif link.line not in others:
            place = nearest(others, link.line)
            yield link, place, "it is in line" if place else "no such name"


def nearest(places: list[int], line: int) -> Optional[int]:
    """The place that is nearest to a line."""
    return min(places, key=lambda place: abs(place - line), default=None)


def mended(page: pathlib.Path, text: str) -> str:
    """The text of a page with its links to lines, and those through `examples`, put right."""
    text = THROUGH.sub(r"](\1crates/example_runs/data", text)
    if page.name not in WITH_LINES:
        return re.sub(r"(\]\([^)\s#]+)#L\d+\)", r"\1)", text)
    for link, place, _ in reversed(list(wrong_lines(page, text))):
        if place:
            right = re.sub(r"#L\d+\)$", f"#L{place})", link.text)
            text = text[: link.start] + right + text[link.start + len(link.text) :]
    return text


def wrong_names(page: pathlib.Path, text: str) -> Iterator[str]:
    """Of a page without links to lines those that it has, and links with names that their files
    don't define."""
    for match in LINK.finditer(text):
        label, path, anchor = match.groups()
        file = page.parent / path
        if anchor and re.fullmatch(r"L\d+", anchor):
            yield f"{page.relative_to(TOP)}: {match.group(0)}: this page links to no lines"
        elif re.fullmatch(r"`\w+`", label) and file.suffix in (".rt", ".antt") and file.exists():
            if not any(defines(line, label.strip("`")) for line in file.read_text().splitlines()):
                yield f"{page.relative_to(TOP)}: {match.group(0)}: no such name"


def long_lines(page: pathlib.Path, text: str) -> Iterator[str]:
    """The lines of prose and the cells of tables that are too long."""
    for number, line in enumerate(text.splitlines(), 1):
        at = f"{page.relative_to(TOP)}:{number}"
        seen = re.sub(r"\]\([^)]*\)", "]", line)
        if line.startswith("|"):
            longest = max(len(cell.strip()) for cell in re.split(r"(?<!\\)\|", seen))
            if longest > CELL:
                yield f"{at}: a cell of {longest} characters"
        elif len(seen) > WIDTH and not line.startswith(("    ", "<", "![")):
            yield f"{at}: {len(seen)} columns"


def uneven_rows(page: pathlib.Path, text: str) -> Iterator[str]:
    """The rows of a table with more or fewer cells than its first one."""
    wanted = 0
    for number, line in enumerate(text.splitlines(), 1):
        row = re.fullmatch(r"\|(.*?)(?:(?<!\\)\|)?\s*", line)
        cells = len(re.split(r"(?<!\\)\|", row.group(1))) if row else 0
        if cells and wanted and cells != wanted:
            yield f"{page.relative_to(TOP)}:{number}: {cells} cells, not {wanted}"
        wanted = wanted or cells if cells else 0


def main(words: list[str]) -> int:
    """Looks at all pages, and mends them where it is asked to; the status."""
    pages = [TOP / "README.md", TOP / "CONTRIBUTING.md", *sorted((TOP / "docs").glob("*.md"))]
    wrong: list[str] = []
    for page in pages:
        text = page.read_text()
        if words == ["--mend"] and mended(page, text) != text:
            text = mended(page, text)
            page.write_text(text)
        wrong += [*dead_links(page, text), *long_lines(page, text), *uneven_rows(page, text)]
        if page.name in WITH_LINES:
            wrong += [f"{page.relative_to(TOP)}: {link.text}: {what}{f' {place}' if place else ''}"
                      for link, place, what in wrong_lines(page, text)]
        else:
            wrong += wrong_names(page, text)
    wrong += dead_links(TOP / "CHANGELOG.md", (TOP / "CHANGELOG.md").read_text())
    print("\n".join(wrong), end="\n" if wrong else "")
    return 1 if wrong else 0


if __name__ == "__main__":
    sys.exit(main(sys.argv[1:]))

"""Takes the checks of `rt try` out of a module's text, and gives each function its source's hint.

    strip_checks.py [--lib] MODULE.ll REPOSITORY > OUT.ll

`#[inline]` in the sources of REPOSITORY becomes LLVM's inlinehint, alwaysinline or noinline. With
--lib the calls of include/gravitar.h get the names that C gives them, and nothing else has a name
outside.
"""

import pathlib
import re
import sys

CHECK = re.compile(r'^\s*(tail )?call void @("rattle-llvm-checks::|llvm\.trap\()')
CALL = re.compile(r'@"gravitar_c::\w+::(gravitar_\w+)"')
INLINE = re.compile(r"\s*#\[inline(?:\((always|never)\))?\]")
HINTS = {"always": "alwaysinline", "never": "noinline", None: "inlinehint"}


def hints_of(repository):
    """The hint of each function, by its crate and its name."""
    hints = {}
    for path in pathlib.Path(repository, "crates").rglob("*.rt"):
        crate = path.parts[path.parts.index("crates") + 1]
        lines = path.read_text().split("\n")
        for n, line in enumerate(lines):
            inline = INLINE.match(line)
            named = inline and re.search(r"\bfn (\w+)", "\n".join(lines[n + 1 : n + 8]))
            if named:
                hints[crate, named.group(1)] = HINTS[inline.group(1)]
    return hints


def with_hint(line, hints):
    """A line that defines a function, with that function's hint."""
    named = re.search(r'@"(\w+)::([^"]*)"', line)
    words = named and [it for it in named.group(2).split("::") if re.fullmatch(r"\w+", it)]
    hint = words and hints.get((named.group(1), words[-1]))
    return re.sub(r"\) #", f") {hint} #", line, count=1) if hint else line


def for_speed(line):
    """A line without the checks of addresses, and for x86-64 processors since 2009."""
    may_unwind = line.startswith("attributes") and "nounwind" not in line
    line = line.replace("sanitize_address", "nounwind" if may_unwind else "")
    line = line.replace('"frame-pointer"="all"', "")
    return line.replace('"target-cpu"="x86-64"', '"target-cpu"="x86-64-v2"')


def for_c(line):
    """A line in which the calls have their names of C, and `main` is hidden."""
    if line.startswith("define") and CALL.search(line):
        line = line.replace("define internal", "define", 1)
    return CALL.sub(r"@\1", line).replace("define i32 @main(", "define internal i32 @main(")


def main():
    if len(sys.argv) not in (3, 4):
        print("strip_checks.py [--lib] MODULE.ll REPOSITORY > OUT.ll", file=sys.stderr)
        sys.exit(2)
    is_lib = sys.argv[1] == "--lib"
    text, repository = sys.argv[-2:]
    hints = hints_of(repository)
    for line in open(text):
        if CHECK.match(line):
            continue
        line = for_c(line) if is_lib else line
        sys.stdout.write(for_speed(with_hint(line, hints) if line.startswith("define") else line))


main()

"""One fault in a good source, made so that docs/ASSEMBLER.md tells its line and its cause."""
import re

from . import forms

# Lines that give no bytes and whose cause is found in the first round, wherever they stand. No source has these names.
ANYWHERE = [
    (b"bad token", (b"@", b"qq9 = 1 ? 2", b"q" * 33 + b":", b"\x01", b"qq9 = \xc3\xa9", b" .org 'A'")),
    (b"bad number", (b"qq9 = 5x", b"qq9 = $", b"qq9 = %2", b"qq9 = 65536", b" .org $G", b"qq9 = %")),
    (b"no such form", (b"qq9 =", b"qq9 = 1 1", b"qq9: qq8:", b" .org", b" .word", b" .word 1,", b" .none 1", b"qq9 = (1)", b"qq9 = 1 +")),
    (b"twice named", (b"qq9: qq9 = 1",)),
    (b"unknown name", (b"qq9 = qq8", b" .org qq8", b"qq9 = 1 + qq8")),
    (b"out of range", (b"qq9 = 65535 + 1", b"qq9 = -65535 - 2", b" .org -1", b" .org 65535 + 1")),
]
LABEL = re.compile(rb"\s*([A-Za-z_][A-Za-z0-9_]*)\s*[:=]")
FIRST = re.compile(rb"([0-9A-F]{4}) ")


def anywhere(rng, lines):
    """A line with a fault between two others: the lines, its number and the cause."""
    cause, texts = rng.choice(ANYWHERE)
    at = rng.randint(0, len(lines))
    return lines[:at] + [rng.choice(texts)] + lines[at:], at + 1, cause


def named_again(rng, lines):
    """A name of the source named again behind its line."""
    named = [(at, m[1]) for at, m in enumerate(map(LABEL.match, lines)) if m]
    if not named:
        return anywhere(rng, lines)
    before, name = rng.choice(named)
    at = rng.randint(before + 1, len(lines))
    return lines[:at] + [name + rng.choice((b":", b":qq9 = 1", b": ; again"))] + lines[at:], at + 1, b"twice named"


def at_end(rng, lines, first, beside):
    """Lines behind the last one whose bytes are refused; `first` is an address with bytes, `beside` one outside the ROM."""
    if rng.random() < 0.4:
        return lines + [b" .org $%04X" % first, b" .word 0"], len(lines) + 2, b"overlap"
    if rng.random() < 0.6:
        return lines + [b" .org $%04X" % beside, b" .word 0"], len(lines) + 2, b"outside rom"
    # Of the second round, as the name could still come; the bytes fall on no others.
    value = rng.choice((b"qq8", b"1 - qq8 + 2"))
    return lines + [b" .org $%04X" % (first ^ 0x0FF0), b" .word " + value], len(lines) + 2, b"unknown name"


def is_free(listing, address):
    """Whether a listing gives no bytes around an address."""
    return all(abs(int(m[1], 16) - address) > 0x400 for m in map(FIRST.match, listing) if m)


def case(rng, words, files, listing):
    """A good `asm` with one fault in one of its sources: its words, its files and its note."""
    files, part = dict(files), rng.randrange(2)
    name = words[1 + part]
    lines = forms.lines_of(files[name])
    low, high, beside = ((0x9000, 0xFFFF, (0x0000, 0x5FFE, 0x8FFE)), (0x2800, 0x5FFE, (0x0000, 0x27FE, 0x6000)))[part]
    given = [text for text in listing.split(b"\n") if FIRST.match(text) and low <= int(text[:4], 16) <= high]
    how = rng.random()
    if how < 0.25 and given:
        first = int(rng.choice(given)[:4], 16)
        lines, line, cause = at_end(rng, lines, first, rng.choice(beside))
        if cause == b"unknown name" and not (low <= first ^ 0x0FF0 <= high and is_free(given, first ^ 0x0FF0)):
            lines, line, cause = anywhere(rng, lines[:-2])
    elif how < 0.4:
        lines, line, cause = named_again(rng, lines)
    else:
        lines, line, cause = anywhere(rng, lines)
    files[name] = b"\n".join(lines) + rng.choice((b"", b"\n"))
    if words[1] == words[2]:
        name = words[1]
    return words, files, forms.note(name, b"line %d: %s" % (line, cause))

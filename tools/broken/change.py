"""Ways to break the bytes of a file and the words of a command."""
import re

from . import forms

NUMBER = re.compile(rb"[0-9]+")
HUGE = [b"0", b"1", b"255", b"256", b"65535", b"65536", b"1000000", b"1000001", b"281474976710656", b"281474976710657"]
HUGE += [b"999999999999999", b"1000000000000000", b"18446744073709551615", b"18446744073709551616", b"000000000000001"]
HUGE += [b"0000000000000001", b"-1", b"+1", b"1e3", b"0x10", b"9" * 40, b"9" * 400, b""]
ODD = [b"\0", b"\xff", b"\x80", b"\r", b"\t", b"\n", b"\r\n", b"\n\n", b" ", b"  ", b"\xc3\xa9", b"\xed\xa0\x80", b"\xef\xbb\xbf"]
ODD += [b"\x1b", b"\x7f", b"'", b'"', b"\\", b"%", b"{}", b"{0}", b"%s%n", b";", b"#", b"END", b"--", b"-", b","]
ODD_WORDS = [b"", b"-", b"--", b"--x", b"---", b"--until", b"--cuts", b"--save", b"--state", b"--earom", b"--cost", b"--timers", b".", b".."]
ODD_WORDS += [b"folder", b"folder/x", b"none", b"none/x", b"i/x", b"i/", b"folder/", b"x" * 255, b"x" * 256, b"y" * 5000, b"\xff", b"a\nb"]
ODD_WORDS += [b"\xc3\xa9", b"\xed\xa0\x80", b"a b", b"*", b"$HOME", b"/dev/null", b"/dev/full", b"/dev/zero", b"/proc/self/mem", b"{", b"%n"]
EXTREMES = [b"\0", b"\1", b"\x7f", b"\x80", b"\xff", b"\xff\xff", b"\0\0\0\0", b"\xff\xff\xff\x7f", b"\0\0\0\x80", b"\xff" * 8]


def span(rng, data, most=64):
    """A range in some bytes: mostly a short one."""
    start = rng.randrange(len(data) + 1)
    return start, min(len(data), start + rng.randint(1, most if rng.random() < 0.8 else max(1, len(data))))


def cut(rng, data, _pool):
    at = rng.randrange(len(data) + 1)
    return data[:at] if rng.random() < 0.8 else data[at:]


def swap(rng, data, _pool):
    a, b = span(rng, data)
    c, d = span(rng, data[b:])
    return data[:a] + data[b + c : b + d] + data[b : b + c] + data[a:b] + data[b + d :]


def flip(rng, data, _pool):
    changed = bytearray(data)
    for _ in range(rng.randint(1, 4) if data else 0):
        changed[rng.randrange(len(data))] ^= 1 << rng.randrange(8)
    return bytes(changed)


def repeat(rng, data, _pool):
    start, end = span(rng, data)
    times = rng.choice((1, 2, 3, 17, 256))
    return data[:end] + data[start:end] * min(times, 1 + 65536 // (end - start + 1)) + data[end:]


def splice(rng, data, pool):
    other = rng.choice(pool)
    start, end = span(rng, other, 256)
    at, to = span(rng, data)
    return data[:at] + other[start:end] + data[rng.choice((at, to)) :]


def delete(rng, data, _pool):
    start, end = span(rng, data)
    return data[:start] + data[end:]


def insert(rng, data, _pool):
    at = rng.randrange(len(data) + 1)
    return data[:at] + rng.choice(ODD) + data[at:]


def huge(rng, data, _pool):
    """Another number in the place of one that stands there."""
    found = list(NUMBER.finditer(data[:65536]))
    if not found:
        return insert(rng, data, _pool)
    match = rng.choice(found)
    return data[: match.start()] + rng.choice(HUGE) + data[match.end() :]


def extreme(rng, data, _pool):
    """Other bytes in the place of some; the length stays."""
    at, put = rng.randrange(len(data) + 1), rng.choice(EXTREMES)
    return (data[:at] + put + data[at + len(put) :])[: len(data)]


def by_lines(rng, data, _pool):
    """A line again elsewhere, away, or swapped with another."""
    lines = data.split(b"\n")
    a, b, how = rng.randrange(len(lines)), rng.randrange(len(lines)), rng.randrange(3)
    if how == 0:
        lines.insert(b, lines[a])
    elif how == 1:
        del lines[a]
    else:
        lines[a], lines[b] = lines[b], lines[a]
    return b"\n".join(lines)


def front(rng, data, _pool):
    """Among the fields of a saved board, in front of its cells."""
    return extreme(rng, data[:196], _pool) + data[196:]


ANY = (cut, swap, flip, repeat, splice, delete, insert)
TEXT = (cut, swap, flip, repeat, splice, delete, insert, huge, huge, by_lines, by_lines)
OF_KIND = {
    "image": ANY + (extreme, extreme, flip, flip, swap),
    "board": ANY + (flip, flip, extreme, front, front, front, front),
    "cells": ANY + (extreme, flip),
    "tape": TEXT,
    "source": TEXT,
    "script": TEXT,
}


def content(rng, kind, data, pool):
    """The bytes of a file, broken in one way or several; now and then longer than such a file may be."""
    if rng.random() < (0.0005 if kind == "tape" else 0.01):
        # A tape of nearly its limit has two million lines, which would take seconds to read here.
        over = forms.LIMITS[kind] + rng.randint(1 if kind == "tape" else -1, 2)
        return (data * (over // max(1, len(data)) + 1))[:over] if data else bytes(over)
    for _ in range(rng.choice((1, 1, 1, 2, 2, 3, 5))):
        data = rng.choice(OF_KIND[kind])(rng, data, pool)
    return data


def word(rng, old):
    """Another word in the place of one. It leads nowhere outside the folder but to what ODD_WORDS has."""
    how = rng.randrange(4)
    if how == 0:
        return rng.choice(ODD_WORDS)
    if how == 1:
        return rng.choice(HUGE)
    if how == 2 and NUMBER.search(old):
        return huge(rng, old, ())
    changed = rng.choice((flip, insert, delete, cut, repeat))(rng, old, ())[:100000]
    return changed.replace(b"\0", b"0").replace(b"/", b"_")


def words(rng, old):
    """The words of a command, broken in one way."""
    new, how = list(old), rng.randrange(6)
    at = rng.randrange(len(new) + 1)
    if how == 0:
        new.insert(at, rng.choice(ODD_WORDS + list(forms.VALUES)))
    elif how == 1 and new:
        del new[at - 1]
    elif how == 2 and new:
        other = rng.randrange(len(new))
        new[at - 1], new[other] = new[other], new[at - 1]
    elif how == 3 and new:
        new[at:at] = new[rng.randrange(len(new)) :][: rng.randint(1, 3)]
    elif new:
        new[at - 1] = word(rng, new[at - 1])
    return new

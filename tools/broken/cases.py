"""A case: words and files, made from good ones by a seed and the case's number alone."""
import random

from . import change, faults, forms

VERBS = [b"run"] * 30 + [b"asm"] * 20 + [b"debug"] * 15 + [b"show"] * 8 + [b"soak"] * 2
VERBS += [b"pcm"] * 7 + [b"frames"] * 6 + [b"seek"] * 6 + [b"profile"] * 6
LONG = 0.0005  # of the runs have no --until, and may go on to any END.
SOAKS = 0.02  # of the commands with `soak` keep a good number.
TOLD = 0.25  # of the commands with `asm` have good sources but for one fault, whose line and cause are known.
CLOCKS = 200000  # the greatest clock of --until, otherwise.


class Case:
    """Words, the files that lie in the folder, and the note where a source has one told fault (else None)."""

    def __init__(self, words, files, told=None):
        self.words, self.files, self.told = words, files, told


def some_clock(rng, most=CLOCKS):
    """A clock: mostly a small one."""
    return rng.randint(0, most >> rng.randrange(15))


def some_cuts(rng):
    """A word of cuts."""
    count = rng.choice((1, 1, 2, 3, 5, 9)) if rng.random() < 0.98 else rng.choice((64, 1000, 1001))
    return b",".join(b"%d" % n for n in sorted(some_clock(rng) for _ in range(count)))


class Maker:
    """Makes the cases of a seed from a corpus."""

    def __init__(self, corpus, seed):
        self.corpus, self.seed = corpus, seed
        self.pool = [data for datas in corpus.kinds.values() for data in datas if data]

    def case(self, number):
        """The case of a number."""
        rng = random.Random(self.seed << 64 | number)
        verb = rng.choice(VERBS)
        if verb == b"asm" and rng.random() < TOLD:
            return Case(*faults.case(rng, *rng.choice(self.corpus.assembled)))
        words, files = rng.choice(self.corpus.commands[verb])
        words, files = list(words), dict(files)
        if forms.read_words(words):
            self.exchange(rng, words, files)
            words = self.optioned(rng, verb, words, files)
        if verb == b"soak" and rng.random() > SOAKS:
            words = [verb, change.word(rng, b"1")]
            if forms.read_words(words):
                words.append(change.word(rng, b"2"))
        self.break_files(rng, words, files)
        for _ in range(rng.choice((0, 0, 0, 0, 0, 0, 0, 1, 1, 2))):
            words = change.words(rng, words)
        if self.is_long(rng, words):
            words = self.shortened(rng, words)
        return Case(words, files)

    def exchange(self, rng, words, files):
        """Puts other files of their kind in the place of some."""
        for kind, name in forms.read_words(words).reads():
            if rng.random() < (0.7 if kind == "board" else 0.2):
                files[name] = rng.choice(self.corpus.kinds[kind])

    def optioned(self, rng, verb, words, files):
        """The command with other options."""
        command = forms.read_words(words)
        options = dict(command.options)
        for option in forms.OPTIONS[verb]:
            draw = rng.random()
            if draw < 0.3:
                options.pop(option, None)
            elif draw < 0.55:
                options[option] = self.value(rng, option, files)
        flat = [verb] + command.names
        for option, value in rng.sample(sorted(options.items()), len(options)):
            flat += [option] if forms.VALUES[option] is None else [option, value]
        return flat

    def value(self, rng, option, files):
        """A value for an option; a file is put into the folder."""
        kind = forms.VALUES[option]
        if kind in ("board", "cells"):
            name = b"s" if kind == "board" else b"e"
            files[name] = rng.choice(self.corpus.kinds[kind])
            return name
        if kind == "number":
            return b"%d" % some_clock(rng)
        return some_cuts(rng) if kind == "cuts" else rng.choice((b"out", b"out", b"s", b"e", b"folder"))

    def break_files(self, rng, words, files):
        """Breaks none or some of the files that the command reads."""
        command = forms.read_words(words)
        for kind, name in command.reads() if command else []:
            if name in files and rng.random() < (0.15 if kind == "image" else 0.3):
                files[name] = change.content(rng, kind, files[name], self.pool)
            elif rng.random() < 0.01:
                files.pop(name, None)

    @staticmethod
    def is_long(rng, words):
        """Whether a command has to be held short: it takes --until, and has none that is small."""
        command = forms.read_words(words)
        if not command or b"--until" not in forms.OPTIONS[command.verb] or rng.random() < LONG:
            return False
        return int(command.options.get(b"--until", CLOCKS + 1)) > CLOCKS

    @staticmethod
    def shortened(rng, words):
        """The same words with a small --until."""
        until = b"%d" % some_clock(rng)
        if b"--until" in words:
            at = words.index(b"--until")
            return words[: at + 1] + [until] + words[at + 2 :]
        return words + [b"--until", until]

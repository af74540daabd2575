"""Further runs over the files of a case that was done, held against the first: the same again, cut elsewhere, with another verb."""
import re

from . import forms, judge

LOG_LINE = re.compile(rb"([SABLW]) (\d+)([^\n]*)\n")
COST = re.compile(rb"C \d+\n\Z")
SAMPLES = 50000  # of more only the number is looked at.
BOARD = re.compile(rb"^clock (\d+)\n(?:.+\n)*?board out (..) .*\n(?:.+\n)*?beam (-?\d+) (-?\d+)$", re.MULTILINE)
NAME = b"again"  # what is stored here is none of the case's names.


def flat(verb, names, options):
    """The words of a command."""
    words = [verb] + list(names)
    for option, value in options.items():
        words += [option] if forms.VALUES[option] is None else [option, value]
    return words


def events(text):
    """The lines of a log but the last ones: a letter, a clock and the rest."""
    return [(m[1], int(m[2]), m[3].split()) for m in LOG_LINE.finditer(text)]


def samples(levels, log, start, end, per):
    """The samples of a log, from the eight levels that the board begins with."""
    sums, weight, clock, left, total = [], sum(levels), start, per, 0
    levels = list(levels)
    for letter, at, numbers in [e for e in log if e[0] in b"AB"] + [(b"", end, [])]:
        clocks = at - clock
        while clocks >= left:
            sums.append(total + weight * left)
            clocks, left, total = clocks - left, per, 0
        total, left, clock = total + weight * clocks, left - clocks, at
        if letter:
            base = 0 if letter == b"A" else 4
            levels[base : base + 4] = map(int, numbers)
            weight = sum(levels)
    return sums


def frames(clocks, log):
    """Of each frame that begins at these clocks, the number of its strokes and their bounds, as the words of its line."""
    strokes, told = [e for e in log if e[0] == b"S"], []
    for begin, end in zip([-1] + clocks[1:], clocks[1:] + [forms.CLOCK_LIMIT * 2]):
        points = [list(map(int, e[2][:4])) for e in strokes if begin < e[1] <= end]
        xs, ys = [x for p in points for x in p[0::2]], [y for p in points for y in p[1::2]]
        told.append([len(points)] + ([min(xs), min(ys), max(xs), max(ys)] if points else []))
    return told


class Again:
    """The further runs of a case. `run` runs words over its files, and gives what came."""

    def __init__(self, run, case, came, rng):
        self.run, self.case, self.came, self.rng = run, case, came, rng
        self.command = forms.read_words(case.words)
        self.verb, self.names, self.options = self.command.verb, self.command.names, self.command.options
        self.wrong = []

    def want(self, holds, text):
        if not holds:
            self.wrong.append(text)

    def judge(self):
        """All that is wrong with three further runs of a `run`, or two of another verb."""
        ways = {
            b"run": [self.itself, self.cut, self.cut, self.sampled, self.framed, self.sought, self.cells, self.full],
            b"asm": [self.itself, self.full],
            b"pcm": [self.itself, self.sampled, self.sampled],
            b"frames": [self.itself, self.framed, self.framed],
        }.get(self.verb, [self.itself])
        for way in self.rng.sample(ways, min(3 if self.verb == b"run" else 2, len(ways))):
            way()
        return self.wrong

    def four(self):
        """The options that all runs take."""
        return {o: v for o, v in self.options.items() if o in forms.FOUR}

    def itself(self):
        came = self.run(self.case.words)
        same = (came.status, came.size, came.text, came.stored) == (self.came.status, self.came.size, self.came.text, self.came.stored)
        self.want(same, "another text or store in the same run again")

    def cut(self):
        """The same run with other cuts, or none: the same text but for the line of --cost, and the same last stores."""
        options = {o: v for o, v in self.options.items() if o != b"--cuts"}
        start, limit = judge.begins_and_ends(self.command, self.case.files)
        if self.rng.random() < 0.8 or b"--cuts" not in self.options:
            cuts = sorted(self.rng.randint(start, max(start, limit)) for _ in range(self.rng.choice((1, 2, 9, 100))))
            options[b"--cuts"] = b",".join(b"%d" % c for c in cuts)
        came = self.run(flat(b"run", self.names, options))
        same = COST.sub(b"", came.text) == COST.sub(b"", self.came.text) if self.came.size <= judge.WHOLE else True
        self.want(same and came.status == self.came.status, "another text with other cuts")
        self.want(came.stored == self.came.stored, "another store with other cuts")

    def log(self):
        """The log of this run, the clock at which it begins, and the one of its last line; None where the log is too long."""
        came = self.came if self.verb == b"run" else self.run(flat(b"run", self.names[:2], self.four()))
        last = judge.ENDED.search(came.text[-300:])
        self.want(last, "a run without a last line")
        if not last or came.size > judge.WHOLE:
            return None
        start = judge.begins_and_ends(self.command, self.case.files)[0]
        return events(came.text), start, int(last[2])

    def sampled(self):
        """The samples are those of the levels that the log has."""
        log = self.log()
        if log is None:
            return
        per = int(self.names[2]) if self.verb == b"pcm" else self.rng.choice((1, 7, 34, 1000))
        came = self.came if self.verb == b"pcm" else self.run(flat(b"pcm", self.names[:2] + [b"%d" % per], self.four()))
        count = (log[2] - log[1]) // per
        self.want(came.size == 4 * count, "%d bytes of samples, not %d" % (came.size, 4 * count))
        if came.size != 4 * count or count > SAMPLES:
            return
        state = self.case.files.get(self.options.get(b"--state"), bytes(4356))
        told = samples(state[133:137] + state[186:190], log[0], log[1], log[2], per)
        self.want(came.text == b"".join(s.to_bytes(4, "little") for s in told), "other samples than the log's levels")

    def framed(self):
        """The frames have the strokes of the log."""
        log = self.log()
        came = self.came if self.verb == b"frames" else self.run(flat(b"frames", self.names[:2], self.four()))
        if log is None or came.size > judge.WHOLE:
            return
        lines = [line.split()[2:] for line in came.text.split(b"\n") if line.startswith(b"F ")]
        told = frames([int(line[0]) for line in lines], log[0])
        self.want([list(map(int, line[1:])) for line in lines] == told, "other strokes in the frames than in the log")

    def cells(self):
        """The cells of --earom stay in a run without a clock, and those of the end are the board's."""
        earom = self.options.get(b"--earom")
        if earom is None or earom not in self.case.files:
            return
        start = judge.begins_and_ends(self.command, self.case.files)[0]
        came = self.run(flat(b"run", self.names, {**self.four(), b"--until": b"%d" % start}))
        self.want(came.stored.get(earom) == self.case.files[earom], "other cells after no clock")
        came = self.run(flat(b"run", self.names, {**self.options, b"--save": NAME}))
        self.want(came.stored.get(earom) == came.stored.get(NAME, b"")[196:260], "other cells than the board's")

    def sought(self):
        """The boards at some L lines and strokes of the log: the latch in front of a write and behind it, the beam at a stroke's end."""
        log, limit = self.log(), judge.begins_and_ends(self.command, self.case.files)[1]
        wanted, latch = [], None
        for letter, clock, numbers in log[0] if log else []:
            if letter == b"L":
                wanted += [(clock, 1, latch)] if latch else []
                wanted += [(clock + 1, 1, numbers[0])]
                latch = numbers[0]
            elif letter == b"S":
                wanted += [(clock + 1, 2, b" ".join(numbers[2:4]))]
            elif letter == b"W":
                latch = None
        wanted = [w for w in wanted if w[0] <= limit]
        wanted = self.rng.sample(wanted, min(20, len(wanted)))
        if not wanted:
            return
        came = self.run(flat(b"seek", self.names[:2] + [b",".join(b"%d" % w[0] for w in wanted)], self.four()))
        boards = [(m[1], m[2], m[3] + b" " + m[4]) for m in BOARD.finditer(came.text)]
        self.want([(int(b[0]), b[w[1]]) for b, w in zip(boards, wanted)] == [(w[0], w[2]) for w in wanted], "another latch or beam in the board than in the log")
        self.want(len(boards) == len(wanted), "%d boards, not %d" % (len(boards), len(wanted)))

    def full(self):
        """With an output that takes nothing: status 6, and each file as it was; a board alone may be stored before the first text."""
        if self.came.size == 0:
            return
        came = self.run(self.case.words, full=True)
        self.want(came.status == 6 and came.note == forms.OUTSIDE, "status %s with a full output" % came.status)
        save = self.options.get(b"--save") if b"--cuts" in self.options else None
        others = [n for n in came.changed if n != save]
        self.want(not others, "stored with a full output: %s" % others)
        data = came.stored.get(save)
        self.want(data is None or None in forms.board_causes(data), "a bad board under %r with a full output" % save)

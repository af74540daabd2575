"""Holds what a command did against what the documents say of every command."""
import os
import re
import stat

from . import forms

NUM, HH = rb"-?\d+", rb"[0-9A-F]{2}"
LAST = rb"(?:E \d+|X \d+ [0-9A-F]{4} [0-9A-F]{2})\n"
LOG = rb"S( -?\d+){7}|[AB]( \d+){5}|L \d+ [0-9A-F]{2}|W \d+"
BOARD = (
    rb"clock \d+\ncpu pc HHHH a HH x HH y HH s HH p HH\njam (?:-|HH)\n(?:mid (?:opcode|interrupt|reset)(?: HH)+\n)?"
    rb"board out HH in0 HH in3 HH in4 HH\ndiv phase \d+ irq [01] dog [0-7] reset [0-2]\n"
    rb"vg halted [01] phase [0-5] pc HHHH sp [0-3] colour [0-7] intensity \d+ lin \d+ bin [0-7]\nbeam -?\d+ -?\d+\n"
    rb"(?:pk[12] audf(?: HH){4} audc(?: HH){4} audctl HH skctl HH irqen [0-7] irqst [0-7] random HH\n){2}"
    rb"earom addr HH control HH hold \d+ out HH\n"
).replace(b"HH", HH)
SPOKEN = (
    rb"stop (?:break HHHH|watch HHHH|vg|step|until|end|jam HHHH HH) at \d+|clock \d+|cpu pc HHHH a HH x HH y HH s HH p HH"
    rb"|(?:board|div|vg|beam|pk[12]|earom) [^\n]*|HHHH: [^\n]*"
).replace(b"HH", HH)
TEXTS = {
    b"run": rb"(?:(?:" + LOG + rb")\n)*" + LAST + rb"(?:C \d+\n)?",
    b"asm": rb"(?:[0-9A-F]{4} [1-9]\d*:(?: [0-9A-F]{2})+\n)*",
    b"debug": rb"(?:(?:" + SPOKEN + rb")\n)*",
    b"show": BOARD,
    b"soak": rb"strokes \d+\nlevels1 \d+\nlevels2 \d+\nlatches \d+\nresets \d+\nsum \d+\nclock \d+\n",
    b"frames": rb"(?:F \d+ \d+ (?:0|[1-9]\d*(?: -?\d+){4})\n)+" + LAST,
    b"seek": rb"(?:" + BOARD + rb")+",
    b"profile": rb"(?:R [0-9A-F]{4} \d+ \d+ \d+\n)*T \d+\n" + LAST,
}
TEXTS = {verb: re.compile(text + rb"\Z") for verb, text in TEXTS.items()}
ENDED = re.compile(rb"(?:\A|\n)([EX]) (\d+)[^\n]*\n(?:C \d+\n)?\Z")
CLOCKS = re.compile(rb"^T (\d+)$", re.MULTILINE)
WHOLE = 1 << 20  # a longer text is looked at by its last line alone.
DEVICES = {b"/dev/null": 0, b"/dev/zero": 1 << 25, b"/dev/full": 1 << 25}


def look_in(files):
    """What is found under a name by a program that stands in the folder of these files."""

    def look(name):
        if name in files:
            return files[name]
        if name in DEVICES:
            return bytes(DEVICES[name])
        try:
            os.stat(name)
            return forms.FAULT
        except FileNotFoundError:
            return forms.ABSENT
        except OSError:
            return forms.FAULT

    return look


def can_store(name, files):
    """Whether a store under a name has to succeed."""
    if name in files or name in DEVICES:
        return name != b"/dev/full"
    head, tail = os.path.split(name)
    try:
        in_folder = stat.S_ISDIR(os.stat(head or b".").st_mode)
    except OSError:
        return False
    return in_folder and 0 < len(tail) <= 255 and not os.path.isdir(name) and not name.startswith(b"/proc")


def begins_and_ends(command, files):
    """The clock at which the command's board begins, and its limit."""
    start = 0
    if b"--state" in command.options:
        start = forms.field(files.get(command.options[b"--state"], b""), 4, 8)
    end = forms.read_tape(files.get(command.names[1], b""))[1]
    return start, min(end, int(command.options.get(b"--until", end)))


def clocks_of(words, files):
    """How many clocks a command has to run."""
    command = forms.read_words(words)
    if command is None or command.verb in (b"asm", b"show"):
        return 0
    if command.verb == b"soak":
        return 20000000
    start, limit = begins_and_ends(command, files)
    clocks = max(0, limit - start)
    # A board that is sought may be reached anew from a kept one, for each number.
    return clocks + 2 * 61440 * len(command.names[2].split(b",")) if command.verb == b"seek" and clocks else clocks


class Judge:
    """Looks at one command: its words and files beside what came."""

    def __init__(self, case, came):
        self.case, self.came, self.wrong = case, came, []
        self.command = forms.read_words(case.words)

    def want(self, holds, text):
        if not holds:
            self.wrong.append(text)

    def judge(self):
        """All that is wrong, a text each."""
        status, answers = self.came.status, self.answers()
        fitting = [(s, fits) for s, fits in answers if s == status or (s == 0 and status == 3)]
        self.want(fitting, "status %s, not %s" % (status, " or ".join(str(s) for s, _ in answers)))
        if fitting:
            self.want(any(fits(self.came.note) for _, fits in fitting), "the note %r" % self.came.note[:300])
        if status in (0, 3) and fitting:
            self.done()
        else:
            # Status 6 comes here by a file that can't be read or by the first name that can't be stored under.
            self.want(status == 6 or self.came.size == 0, "a text of %d bytes after status %s" % (self.came.size, status))
            self.want(not self.came.changed, "stored after status %s: %s" % (status, self.came.changed))
        return self.wrong

    def answers(self):
        """The statuses that may come, each with what its note has to fit."""
        if self.command is None:
            return [(2, forms.exactly(forms.USAGE))]
        if self.case.told:
            return [(4, forms.exactly(self.case.told))]
        answers = forms.answers(self.command, look_in(self.case.files))
        if answers[-1][0] == 0 and not all(can_store(name, self.case.files) for name in self.command.stores()):
            answers[-1] = (6, forms.exactly(forms.OUTSIDE))
        return answers

    def done(self):
        """What holds where the command was done."""
        verb, text = self.command.verb, self.came.text
        if verb == b"pcm":
            self.want(self.came.size % 4 == 0, "a text of %d bytes" % self.came.size)
        elif self.came.size <= WHOLE:
            self.want(TEXTS[verb].match(text), "the text's form: %r" % text[-300:])
        if verb == b"profile" and self.came.size <= WHOLE:
            self.charged()
        if verb in (b"run", b"frames", b"profile"):
            self.ended(ENDED.search(text[-300:]))
        else:
            self.want(self.came.status == 0, "status %s" % self.came.status)
        self.stored(set(self.command.stores()))
        self.stores()

    def ended(self, last):
        """What the last line tells."""
        self.want(last, "no last line")
        if not last:
            return
        start, limit = begins_and_ends(self.command, self.case.files)
        jammed, clock = last[1] == b"X", int(last[2])
        self.want(clock <= max(start, limit) + 16, "the end at %d, with the limit %d" % (clock, limit))
        self.want(jammed or clock >= max(start, limit), "the end at %d, before the limit %d" % (clock, limit))
        jam_told = 3 if jammed and self.command.verb == b"run" else 0
        self.want(self.came.status == jam_told, "status %s behind the line %s" % (self.came.status, last[0]))
        save = self.came.stored.get(self.command.options.get(b"--save"))
        if save and save.startswith(b"\2GVS"):
            self.want(forms.field(save, 4, 8) == clock, "a board at clock %d" % forms.field(save, 4, 8))

    def charged(self):
        """The clocks of all routines are those of the run."""
        clocks = [int(line.split()[3]) for line in self.came.text.split(b"\n") if line.startswith(b"R ")]
        whole, last = CLOCKS.search(self.came.text), ENDED.search(self.came.text[-300:])
        start = begins_and_ends(self.command, self.case.files)[0]
        good = whole and last and sum(clocks) == int(whole[1]) == int(last[2]) - start
        self.want(good, "other clocks in the routines than in the run")

    def stored(self, names):
        """Nothing but these names was stored under."""
        others = sorted(set(self.came.changed) - names)
        self.want(not others, "stored: %s" % others)

    def stores(self):
        """The bytes under each name: those of the last store there."""
        for name in (n for n in self.command.stores() if b"/" not in n):
            data = self.came.stored.get(name)
            size = 64 if name == self.command.options.get(b"--earom") else 4356
            size = 43008 if self.command.verb == b"asm" else size
            self.want(data is not None and len(data) == size, "the store %r" % name)
            if data and size == 4356:
                self.want(None in forms.board_causes(data), "a bad board under %r" % name)
        self.cells()

    def cells(self):
        """The cells that are stored are those of the last board."""
        save, earom = (self.came.stored.get(self.command.options.get(o)) for o in (b"--save", b"--earom"))
        if save and earom and len(save) == 4356 and len(earom) == 64:
            self.want(save[196:260] == earom, "other cells than the board's")

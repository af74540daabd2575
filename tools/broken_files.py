#!/usr/bin/env python3
"""Runs a built program over broken files and words, and holds what it does against the documents.

    broken_files.py PROGRAM [--cases N] [--seed S] [--jobs J] [--first K] [--only K] [--seconds T] [--again P]

Good commands and files are those of crates/board_rows/data and of examples/, and the images, boards and cells that the program
makes of them. A case takes one of them and cuts, swaps, flips, repeats, splices, deletes or inserts bytes, numbers, lines and words.
It is made by S and its number alone. `--only K` does one case and leaves its files; `--first K` begins there.

A quarter of the cases with `asm` have good sources but for one fault, whose line and cause are known (broken/faults.py).

Of each case: the status, the note (byte for byte, but for a source's line and cause where the case has no such fault), that nothing
is written after 2, 4, 5 and 7 and no file changed after these and 6, the form of the text, the stores, the time (T seconds) and the
peak of memory (64 MB, and the limits of the files that the command reads). A share of the cases that were done, P of `--again`, is
run two or three times more over the same files and held against the first run (broken/again.py): the same again, with other cuts, into
an output that takes nothing, the cells against those given and those of the board, and the log against samples, frames and boards.
It prints each wrong case with its number, words and causes, then the counts by verb and status, and last `N passed, M failed`. The status
is 1 where one was wrong, and 2 where nothing was tried: no program, one that makes no images of the rows and the examples, no case.
A command that has more than 2,000,000 clocks to run is given one second, and is counted as unfinished where that doesn't do.
"""
import sys

sys.dont_write_bytecode = True

import argparse
import collections
import contextlib
import os
import pathlib
import pickle
import random
import resource
import shlex
import shutil
import signal
import tempfile
import time
import traceback

from broken import again, cases, corpus, forms, judge

TOP = pathlib.Path(__file__).resolve().parent.parent
MEMORY = 64 << 20
LONG_RUN = 2000000  # clocks from which a run may be unfinished,
LONG_SECONDS = 1  # after this time.
Came = collections.namedtuple("Came", "status text size note changed stored memory seconds late")


class Runner:
    """Runs a program in a folder of its own, which it empties for each command."""

    def __init__(self, program, seconds):
        self.program, self.seconds = os.fsencode(os.path.abspath(program)), seconds
        top = tempfile.mkdtemp(prefix="broken.", dir="/dev/shm" if os.path.isdir("/dev/shm") else None)
        self.top, self.folder = top, os.path.join(top, "files")
        os.mkdir(self.folder)
        os.chdir(self.folder)
        os.mkdir("folder")
        flags = os.O_RDWR | os.O_CREAT
        self.text, self.note = (os.open(os.path.join(top, n), flags) for n in ("text", "note"))
        nothing = os.open(os.devnull, os.O_RDONLY)
        self.streams = [(os.POSIX_SPAWN_DUP2, fd, to) for fd, to in ((nothing, 0), (self.text, 1), (self.note, 2))]
        self.full = (os.POSIX_SPAWN_DUP2, os.open("/dev/full", os.O_WRONLY), 1)
        signal.signal(signal.SIGALRM, self.stop)
        self.child, self.late = 0, False

    def stop(self, *_):
        """The time of a command is over."""
        with contextlib.suppress(ProcessLookupError):  # It may just have ended.
            if self.child:
                os.kill(self.child, signal.SIGKILL)
                self.late = True

    def lay(self, files):
        """Lays these files into the empty folder, with an old time, so that a store shows."""
        for name in os.listdir(b"."):
            if name != b"folder":
                os.unlink(name)
        for name, data in files.items():
            file = os.open(name, os.O_WRONLY | os.O_CREAT, 0o644)
            os.write(file, data)
            os.utime(file, ns=(1, 1))
            os.close(file)

    def spawn(self, words, limit, full):
        """Runs the program for so many seconds at most, and gives its wait status, its use of the machine and its seconds."""
        for stream in (self.text, self.note):
            os.ftruncate(stream, 0)
            os.lseek(stream, 0, os.SEEK_SET)
        self.child, self.late = 0, False
        begin = time.monotonic()
        signal.setitimer(signal.ITIMER_REAL, limit)
        self.child = os.posix_spawn(self.program, [b"gravitar"] + words, {}, file_actions=self.streams + [self.full] * full)
        _, status, use = os.wait4(self.child, 0)
        self.child = 0
        signal.setitimer(signal.ITIMER_REAL, 0)
        return status, use, time.monotonic() - begin

    def run(self, case, words=None, full=False):
        """What comes of a case, or of other words over its files; with `full` the output takes nothing."""
        self.lay(case.files)
        is_long = judge.clocks_of(case.words, case.files) > LONG_RUN
        status, use, seconds = self.spawn(words or case.words, LONG_SECONDS if is_long else self.seconds, full)
        changed = [n for n in os.listdir(b".") if n != b"folder" and (n not in case.files or os.stat(n).st_mtime_ns != 1)]
        changed += [n for n in case.files if not os.path.exists(n)] + [b"folder/" + n for n in os.listdir(b"folder")]
        size = os.fstat(self.text).st_size
        text = os.pread(self.text, size, 0) if size <= judge.WHOLE else os.pread(self.text, 4096, size - 4096)
        stored = {n: pathlib.Path(os.fsdecode(n)).read_bytes() for n in changed if os.path.isfile(n)}
        for name in os.listdir(b"folder"):
            os.unlink(b"folder/" + name)
        code = os.waitstatus_to_exitcode(status)
        return Came(code, text, size, os.pread(self.note, 1 << 20, 0), changed, stored, use.ru_maxrss << 10, seconds, self.late)

    def close(self):
        os.chdir("/")
        shutil.rmtree(self.top)


class Counts:
    """What came of the cases of a worker."""

    def __init__(self):
        self.came = collections.Counter()
        self.memory = collections.Counter()
        self.wrong = self.unfinished = self.own = 0
        self.slowest = (0.0, 0)

    def add(self, other):
        self.came.update(other.came)
        self.memory |= other.memory
        self.own = max(self.own, other.own)
        self.wrong += other.wrong
        self.unfinished += other.unfinished
        self.slowest = max(self.slowest, other.slowest)


def faults_of(case, came, seconds):
    """What is wrong with a case; None where it is unfinished."""
    if came.late:
        clocks = judge.clocks_of(case.words, case.files)
        return None if clocks > LONG_RUN else ["not ended within %d seconds" % seconds]
    if came.status < 0:
        return ["killed by signal %d" % -came.status]
    wrong = judge.Judge(case, came).judge()
    bound = max(MEMORY + sum(forms.LIMITS.values()), own_peak())
    return wrong + (["%d bytes of memory" % came.memory] if came.memory > bound else [])


def own_peak():
    """The peak of this process, which the system also tells for each program that it starts."""
    return resource.getrusage(resource.RUSAGE_SELF).ru_maxrss << 10


def tell(number, case, wrong):
    """A wrong case, in one write."""
    words = " ".join(shlex.quote(w.decode(errors="backslashreplace")) for w in case.words)[:2000]
    os.write(1, ("wrong %d: %s: %s\n" % (number, words, "; ".join(wrong))).encode(errors="backslashreplace"))


def run_again(runner, number, case, came, more):
    """What is wrong with further runs of a case that was done."""
    rng = random.Random(~number)
    if came.late or came.status not in (0, 3) or judge.clocks_of(case.words, case.files) > LONG_RUN or rng.random() >= more:
        return []
    return again.Again(lambda words, full=False: runner.run(case, words, full), case, came, rng).judge()


def take(counts, runner, number, case, options):
    """Does a case, judges it, and counts it."""
    came = runner.run(case)
    wrong = faults_of(case, came, options.seconds)
    if wrong == []:
        wrong = run_again(runner, number, case, came, options.again)
    verb = case.words[0].decode(errors="replace") if case.words and case.words[0] in forms.NAMES else "other"
    if wrong:
        counts.wrong += 1
        tell(number, case, wrong)
    elif wrong is None:
        counts.unfinished += 1
    counts.came[verb, "unfinished" if came.late else came.status] += 1
    counts.own = own_peak()
    counts.memory[verb] = max(counts.memory[verb], came.memory)
    counts.slowest = max(counts.slowest, (0.0 if came.late else came.seconds, number))
    return came


def work(maker, options, numbers):
    """Does the cases of some numbers."""
    runner, counts = Runner(options.program, options.seconds), Counts()
    try:
        for number in numbers:
            case = maker.case(number)
            take(counts, runner, number, case, options)
    finally:
        runner.close()
    return counts


def start(maker, options, job):
    """Starts a process that does its part of the cases, and gives the pipe on which its counts come."""
    reader, writer = os.pipe()
    if os.fork():
        os.close(writer)
        return reader
    status = 1
    try:
        counts = work(maker, options, range(options.first + job, options.first + options.cases, options.jobs))
        with os.fdopen(writer, "wb") as file:
            pickle.dump(counts, file)
        status = 0
    except BaseException:
        traceback.print_exc()
    finally:
        os._exit(status)


def share(maker, options):
    """Does all cases in several processes, and gives their counts together."""
    total, readers = Counts(), [start(maker, options, job) for job in range(options.jobs)]
    for reader in readers:
        with os.fdopen(reader, "rb") as file:
            part = file.read()
        if not part:
            nothing("a process of its own has failed")
        total.add(pickle.loads(part))
    return total


def only(maker, options):
    """Does one case, and leaves its files."""
    case, runner, counts = maker.case(options.only), Runner(options.program, options.seconds), Counts()
    came = take(counts, runner, options.only, case, options)
    runner.lay(case.files)
    print("cd %s && %s %s" % (runner.folder, options.program, " ".join(shlex.quote(os.fsdecode(w)) for w in case.words)))
    print("status %s, %d bytes of text, %.3f seconds, %d bytes of memory" % (came.status, came.size, came.seconds, came.memory))
    print("note %r, stored %r" % (came.note[:300], came.changed))
    return counts


def report(counts, options, seconds):
    """Prints the counts by verb and status."""
    statuses = sorted({status for _, status in counts.came}, key=str)
    print("%-10s" % "" + "".join("%11s" % s for s in statuses) + "    peak MB")
    for verb in sorted({verb for verb, _ in counts.came}):
        row = "".join("%11d" % counts.came[verb, s] for s in statuses)
        print("%-10s" % verb + row + "%11.1f" % (counts.memory[verb] / 2**20))
    print("%d cases from %d on, seed %d, %.0f seconds, %.0f a second" % (options.cases, options.first, options.seed, seconds, options.cases / seconds))
    print("a peak of memory below %.1f MB, which this program had itself, isn't told" % (counts.own / 2**20))
    print("slowest %.2f seconds: case %d" % counts.slowest)
    print("wrong %d, unfinished %d" % (counts.wrong, counts.unfinished))


def at_least(least: int):
    """What reads a number that isn't below this one."""
    def number(word: str) -> int:
        if int(word) < least:
            raise argparse.ArgumentTypeError("below %d: %s" % (least, word))
        return int(word)
    return number


def seconds(word: str) -> float:
    """Reads a time above 0."""
    if not 0 < float(word) < 1e6:
        raise argparse.ArgumentTypeError("no time: %s" % word)
    return float(word)


def read_options() -> argparse.Namespace:
    """The options; words that are none end with status 2."""
    parser = argparse.ArgumentParser(description=__doc__, formatter_class=argparse.RawDescriptionHelpFormatter)
    parser.add_argument("program")
    parser.add_argument("--cases", type=at_least(1), default=2000)
    parser.add_argument("--seed", type=int, default=1)
    parser.add_argument("--jobs", type=at_least(1), default=1)
    parser.add_argument("--first", type=at_least(0), default=0)
    parser.add_argument("--only", type=at_least(0))
    parser.add_argument("--seconds", type=seconds, default=10)
    parser.add_argument("--again", type=float, default=1)
    return parser.parse_args()


def nothing(why: str):
    """Ends where nothing was tried."""
    print("broken_files.py: %s" % why, file=sys.stderr)
    sys.exit(2)


def program_of(word: str) -> str:
    """The whole path of a program."""
    found = shutil.which(word)
    if not found:
        nothing("no program %s" % word)
    return os.path.abspath(found)


def main():
    options = read_options()
    options.program = program_of(options.program)
    try:
        maker = cases.Maker(corpus.Corpus(options.program, TOP), options.seed)
    except (corpus.NoFiles, OSError) as error:
        nothing("this program makes no files to break: %s" % error)
    begin = time.monotonic()
    counts = only(maker, options) if options.only is not None else share(maker, options)
    if options.only is None:
        report(counts, options, time.monotonic() - begin)
    tried = sum(counts.came.values())
    print("%d passed, %d failed" % (tried - counts.wrong, counts.wrong))
    if not tried:
        nothing("no case was tried")
    sys.exit(1 if counts.wrong else 0)


main()

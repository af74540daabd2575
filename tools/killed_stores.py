#!/usr/bin/env python3
"""Kills a built program while it stores boards, reads beside it, and holds each file against the whole boards.

    killed_stores.py PROGRAM [--kills N] [--seconds S] [--folder F]

A run has 1,000 cuts, 100 clocks apart, and stores a board at each. Its program counts at 0010 and writes the count to 27FF too,
so that the parts of two boards never make a third one. A file is whole where it is, byte for byte, one of the 1,001 boards
of the run, which come through a pipe first, or the board that stood there before. `show` reads any other file.

Kills: N by each signal and way (100), at a random moment of the run. Runs that end before the signal aren't counted.
Readers: one beside runs without a pause, S seconds a way (2). It reads as the program does.

`renamed` ways may leave the old board or a new one, and one file more. The ways `in place` may also leave a file that is
refused by its length. A reader beside a store in place may see a tear: it is only counted. The last line is `N passed, M failed`, which are
lines of the tables. The status is 1 where anything else came, and 2 where nothing was tried: no program, one that doesn't store the boards
within 60 seconds, runs of which each ends before its signal, a number of kills or seconds that isn't above 0.
Root gives the way `no leave`, a folder that takes no new file, to the user 65534; without root and setpriv the own user does it.
"""
import sys

sys.dont_write_bytecode = True

import argparse
import collections
import os
import random
import shutil
import signal
import statistics
import subprocess
import tempfile
import time

SOURCE = """
        .org $9000
start:  inc $10
        lda $10
        sta $27FF
        sta $8980
        jmp start
        .org $FFFC
        .word start
"""
CUTS = ",".join(str(100 * n) for n in range(1, 1001))
BOARD, RAM = 4356, 4096
SIGNALS = (signal.SIGKILL, signal.SIGINT, signal.SIGTERM)
RENAMED = ("nothing", "a board")
IN_PLACE = ("a link", "a hard link", "no leave")
NOBODY = 65534
LIMIT = 60  # seconds of a run that isn't killed.
ENDED = 500  # runs one after another that end before the signal.
LONGEST = 0.06  # seconds of a run in which the signal comes.
FORMS = ("old", "new", "absent", "length", "refused", "torn")


def nothing(why: str):
    """Ends where nothing was tried."""
    print("killed_stores.py: %s" % why, file=sys.stderr)
    sys.exit(2)


def ended(child: int) -> int:
    """Waits for a process, kills it where that takes too long, and gives its wait status."""
    until = time.monotonic() + LIMIT
    while time.monotonic() < until:
        pid, status = os.waitpid(child, os.WNOHANG)
        if pid:
            return status
        time.sleep(0.0005)
    os.kill(child, signal.SIGKILL)
    os.waitpid(child, 0)
    raise Late


class Late(Exception):
    """A run that doesn't end."""


class Stores:
    """A folder with a program, its run and a folder for each way."""

    def __init__(self, program, folder):
        self.top = tempfile.mkdtemp(prefix="killed.", dir=folder)
        os.chmod(self.top, 0o755)
        os.chdir(self.top)
        shutil.copy(program, "gravitar")
        self.program, self.null = os.path.join(self.top, "gravitar"), os.open(os.devnull, os.O_RDWR)
        with open("c", "w") as file:
            file.write(SOURCE)
        with open("t", "w") as file:
            file.write("100100 END\n")
        open("v", "w").close()
        try:
            self.do("asm", "c", "v", "i")
        except (subprocess.SubprocessError, OSError) as error:
            self.close()
            nothing("no image: %s" % error)
        self.boards = self.all_boards()
        self.old = self.boards[0][:-RAM] + b"\xa5" * RAM
        self.whole = frozenset(self.boards)
        for way in RENAMED + IN_PLACE:
            os.mkdir(way)
        self.as_nobody = self.prefix()

    def do(self, *words):
        """A command that has to succeed."""
        subprocess.run([self.program, *words], stdin=subprocess.DEVNULL, stdout=subprocess.DEVNULL, stderr=subprocess.DEVNULL, check=True,
                       timeout=LIMIT)

    def all_boards(self):
        """The boards of the run, through a pipe."""
        os.mkfifo("pipe")
        with open("all", "wb") as file:
            reader = subprocess.Popen(["cat", "pipe"], stdout=file)
        hold = os.open("pipe", os.O_WRONLY)
        why = None
        try:
            self.do("run", "i", "t", "--cuts", CUTS, "--save", "pipe")
        except (subprocess.SubprocessError, OSError) as error:
            why = error
        os.close(hold)
        reader.wait()
        with open("all", "rb") as file:
            data = file.read()
        boards = [data[at : at + BOARD] for at in range(0, len(data), BOARD)]
        if len(boards) != 1001 or len(set(boards)) != 1001 or len(data) % BOARD:
            self.close()
            nothing("%d bytes of boards%s" % (len(data), ": %s" % why if why else ""))
        return boards

    def prefix(self):
        """The words in front of a command of the way `no leave`; None where this system doesn't allow it."""
        if os.getuid() != 0:
            return []
        setpriv = shutil.which("setpriv")
        words = [setpriv, "--reuid=%d" % NOBODY, "--regid=%d" % NOBODY, "--clear-groups"]
        tried = setpriv and subprocess.run(words + [self.program, "show", "none"], capture_output=True, check=False)
        return words if tried and tried.returncode == 5 else None

    def close(self):
        os.chdir("/")
        for way in RENAMED + IN_PLACE:
            if os.path.isdir(os.path.join(self.top, way)):
                os.chmod(os.path.join(self.top, way), 0o755)
        shutil.rmtree(self.top)

    def ways(self):
        return [w for w in RENAMED + IN_PLACE if w != "no leave" or self.as_nobody is not None]

    def lay(self, way):
        """Empties the folder of a way, and lays the old board into it."""
        os.chmod(way, 0o755)
        for name in os.listdir(way):
            os.unlink(os.path.join(way, name))
        if way == "nothing":
            return
        name = os.path.join(way, "other" if way in ("a link", "a hard link") else "s")
        with open(name, "wb") as file:
            file.write(self.old)
        if way == "a link":
            os.symlink("other", os.path.join(way, "s"))
        elif way == "a hard link":
            os.link(name, os.path.join(way, "s"))
        elif way == "no leave":
            if self.as_nobody:
                os.chown(name, NOBODY, NOBODY)
            os.chmod(way, 0o555)

    def start(self, way):
        """Starts the run, and gives the number of its process."""
        words = [self.program, "run", "i", "t", "--cuts", CUTS, "--save", os.path.join(way, "s")]
        words = (self.as_nobody if way == "no leave" else []) + words
        streams = [(os.POSIX_SPAWN_DUP2, self.null, to) for to in (0, 1, 2)]
        return os.posix_spawn(words[0], words, {}, file_actions=streams)

    def form(self, data):
        """What the bytes under a name are."""
        if data is None:
            return "absent"
        if data == self.old:
            return "old"
        if data in self.whole:
            return "new"
        return "torn" if len(data) == BOARD else "length"

    def shown(self, way, form):
        """The form that the program tells of a file: `torn` is taken as a board, `refused` for another cause than its length."""
        shown = subprocess.run([self.program, "show", os.path.join(way, "s")], capture_output=True, check=False)
        if shown.returncode == 4:
            return "length" if b": length " in shown.stderr else "refused"
        return "torn" if shown.returncode == 0 else form


def read(name):
    """The bytes of a file as the program reads them: one more than a board has, or all."""
    try:
        file = os.open(name, os.O_RDONLY)
    except FileNotFoundError:
        return None
    data = b""
    while len(data) <= BOARD:
        part = os.read(file, BOARD + 1 - len(data))
        if not part:
            break
        data += part
    os.close(file)
    return data


def span_of(stores, way):
    """How many seconds a run of this way takes, a median."""
    took = []
    for _ in range(7):
        stores.lay(way)
        begin = time.monotonic()
        ended(stores.start(way))
        took.append(time.monotonic() - begin)
    return min(LONGEST, statistics.median(took))


def kill(stores, way, number, span):
    """One run, killed: the form of what stands under the name, and the names of the other files. None where the run ended first."""
    stores.lay(way)
    child = stores.start(way)
    time.sleep(random.uniform(0, span))
    os.kill(child, number)
    if not os.WIFSIGNALED(ended(child)):
        return None
    form = stores.form(read(os.path.join(way, "s")))
    if form not in ("old", "new", "absent"):
        form = stores.shown(way, form)
    return form, [n for n in os.listdir(way) if n not in ("s", "other")]


def allowed(way, form):
    """Whether a killed store may leave this."""
    if form == "absent":
        return way == "nothing"
    return form in ("old", "new") or form == "length" and way in IN_PLACE


def kills(stores, way, number, count, span):
    """A line of the table; whether all came as they may."""
    came, left, good, done, missed = collections.Counter(), 0, True, 0, 0
    while done < count:
        result = kill(stores, way, number, span)
        if result is None:
            missed += 1
            if missed == ENDED:
                nothing("%d runs one after another ended before %s came" % (ENDED, number.name))
            continue
        missed = 0
        form, others = result
        done += 1
        came[form] += 1
        left += len(others)
        own = all(n.startswith("s.") and n.endswith(".new") for n in others)
        good = good and allowed(way, form) and own and len(others) <= (way in RENAMED)
    row = "".join("%9d" % came[f] for f in FORMS)
    print("%-9s %-12s%7d%s%7d%8.1f%s" % (number.name, way, count, row, left, 1000 * span, "" if good else "  wrong"), flush=True)
    return good


def reader(stores, way, seconds):
    """Reads beside a run that is begun anew whenever it ends; a line of the table, and whether all came as they may."""
    stores.lay(way)
    came, runs, child, name = collections.Counter(), 0, 0, os.path.join(way, "s")
    until = time.monotonic() + seconds
    while time.monotonic() < until:
        if not child or os.waitpid(child, os.WNOHANG)[0]:
            child, runs = stores.start(way), runs + 1
        for _ in range(50):
            came[stores.form(read(name))] += 1
    os.kill(child, signal.SIGKILL)
    os.waitpid(child, 0)
    good = way in IN_PLACE or not came["torn"] + came["length"]
    row = "".join("%9d" % came[f] for f in FORMS if f != "refused")
    print("%-12s%7d%9d%s%s" % (way, runs, sum(came.values()), row, "" if good else "  wrong"), flush=True)
    return good


def above_zero(kind: type):
    """What reads a number above 0."""
    def number(word: str):
        if not 0 < kind(word) < 1e9:
            raise argparse.ArgumentTypeError("not above 0: %s" % word)
        return kind(word)
    return number


def read_options() -> argparse.Namespace:
    """The options; words that are none end with status 2."""
    parser = argparse.ArgumentParser(description=__doc__, formatter_class=argparse.RawDescriptionHelpFormatter)
    parser.add_argument("program")
    parser.add_argument("--kills", type=above_zero(int), default=100)
    parser.add_argument("--seconds", type=above_zero(float), default=2)
    parser.add_argument("--folder")
    options = parser.parse_args()
    found = shutil.which(options.program)
    if not found:
        nothing("no program %s" % options.program)
    if options.folder and not os.path.isdir(options.folder):
        nothing("no folder %s" % options.folder)
    options.program = os.path.abspath(found)
    return options


def stop(*_):
    sys.exit(130)


def main():
    options = read_options()
    # A handler, so that the program has these signals as the system gives them, though this script's starter ignores them.
    signal.signal(signal.SIGINT, stop)
    signal.signal(signal.SIGTERM, stop)
    stores, lines = Stores(options.program, options.folder), []
    try:
        print("%-9s %-12s%7s%s%7s%8s" % ("signal", "way", "kills", "".join("%9s" % f for f in FORMS), "left", "ms"))
        for way in stores.ways():
            span = span_of(stores, way)
            for number in SIGNALS:
                lines.append(kills(stores, way, number, options.kills, span))
        print("%-12s%7s%9s%s" % ("read beside", "runs", "reads", "".join("%9s" % f for f in FORMS if f != "refused")))
        for way in stores.ways():
            lines.append(reader(stores, way, options.seconds))
        if stores.as_nobody is None:
            print("skipped the way `no leave`: no other user can run the program")
    except Late:
        print("wrong: a run has not ended within %d seconds" % LIMIT)
        lines.append(False)
    finally:
        stores.close()
    print("%d passed, %d failed" % (sum(lines), len(lines) - sum(lines)))
    sys.exit(0 if all(lines) else 1)


main()

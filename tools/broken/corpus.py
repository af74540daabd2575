"""The good commands and files from which the broken ones are made: those of the rows and of the examples, and what the program makes of them."""
import fcntl
import os
import pathlib
import shutil
import subprocess
import tempfile

from . import forms, rows

# Of the examples, each command with its files as they lie in `examples/`. The runs are cut short by `--until`.
EXAMPLES = """
asm latch/latch.s latch/latch.v latch.img
debug latch.img latch/latch.tape latch/latch.script
asm square/square.s square/square.v square.img
run square.img square/square.tape --until 31000 --cuts 6000,8424,18470,30800 --save square.board
show square.board
debug square.img square/square.tape square/square.script
frames square.img square/square.tape --until 31000
seek square.img square/square.tape 30000,8424,18470 --until 31000
asm tune/tune.s tune/tune.v tune.img
run tune.img tune/tune.tape --until 40000 --save tune.board
pcm tune.img tune/tune.tape 34 --until 40000
profile tune.img tune/tune.tape --until 40000
asm score/score.s score/score.v score.img
run score.img score/first.tape --earom score/blank.cells --save score.board --cost
run score.img score/second.tape --earom score/blank.cells --timers
debug score.img score/first.tape score/score.script --earom score/blank.cells
show score.board
"""
SECONDS = 60  # that a command has.
PIPE = 1 << 20  # bytes that a pipe holds: all boards of a run.
CUTS = b"3,8,9,10,11,30,57,1001,6150,12345"


class NoFiles(Exception):
    """The program doesn't make the files that are to be broken."""


class Corpus:
    """The commands by verb, each its words and its files; and the contents of files by kind."""

    def __init__(self, program, top):
        self.program = program
        self.commands = {verb: [] for verb in forms.NAMES}
        self.kinds = {kind: [] for kind in forms.LIMITS}
        self.assembled = []  # The words, the files and the listings of good sources.
        self.folder = tempfile.mkdtemp(dir="/dev/shm" if os.path.isdir("/dev/shm") else None).encode()
        try:
            self.take_rows(top / "crates" / "board_rows")
            self.take_examples(top / "examples")
            self.take_boards()
        finally:
            shutil.rmtree(self.folder)
        missing = [kind for kind in ("image", "board", "cells") if not self.kinds[kind]]
        if missing or not self.assembled:
            raise NoFiles(", ".join("no " + kind for kind in missing) or "no listing")

    def take_rows(self, suite):
        """Does the steps of all rows, and takes on each command with its files."""
        paths = [suite / "data" / name for name in (suite / "args").read_text().split()]
        for steps in rows.read(paths):
            files = {}
            for step in steps:
                if step[0].startswith(b"$"):
                    self.take(rows.words_of(step[0]), files)
                elif all(name in files for name in step[0].split(b" ")[1:2]) or step[0].startswith(b"file"):
                    rows.make(step, files)

    def take_examples(self, examples):
        """Does the commands of the examples; slashes in names become dots."""
        files = {}
        for path in filter(pathlib.Path.is_file, sorted(examples.glob("*/*"))):
            files[b".".join(str(p).encode() for p in path.parts[-2:])] = path.read_bytes()
        for line in EXAMPLES.split("\n"):
            if line:
                self.take(line.replace("/", ".").encode().split(b" "), files)

    def take_boards(self):
        """Takes on boards of runs over all images at the clocks of CUTS, as they come through a pipe: most stand inside an instruction."""
        pipe = os.path.join(self.folder, b"pipe")
        os.mkfifo(pipe)
        reader = os.open(pipe, os.O_RDWR | os.O_NONBLOCK)
        fcntl.fcntl(reader, fcntl.F_SETPIPE_SZ, PIPE)
        for image in self.kinds["image"]:
            for name, data in ((b"i", image), (b"t", b"9 IN0 2A\n13000 END\n")):
                self.write(name, data)
            self.call([b"run", b"i", b"t", b"--cuts", CUTS, b"--save", b"pipe"])
            try:
                came = os.read(reader, PIPE)
            except BlockingIOError:
                continue
            for at in range(0, len(came), forms.LIMITS["board"]):
                self.add("board", came[at : at + forms.LIMITS["board"]])
        os.close(reader)

    def take(self, words, files):
        """Takes on a command over these files, which become those behind it."""
        command = forms.read_words(words)
        if command is None:
            self.commands[words[0] if words and words[0] in forms.NAMES else b"run"].append((words, dict(files)))
            return
        needed = {name: files[name] for _, name in command.reads() if name in files}
        self.commands[command.verb].append((words, needed))
        for kind, name in command.reads():
            self.add(kind, files.get(name))
        if command.verb == b"asm":
            files.pop(command.names[2], None)
        if command.verb != b"soak":
            text = self.perform(words, files)
        if command.verb == b"asm" and len(files.get(command.names[2], b"")) == 43008:
            self.assembled.append((words, needed, text))
        for name in command.stores():
            kind = {43008: "image", 4356: "board", 64: "cells"}.get(len(files.get(name, b"")))
            self.add(kind, files.get(name))

    def add(self, kind, data):
        if kind and data is not None and data not in self.kinds[kind]:
            self.kinds[kind].append(data)

    def perform(self, words, files):
        """Does a command in a folder with these files, reads what it stored, and gives its text."""
        for name, data in files.items():
            self.write(name, data)
        text = self.call(words)
        for name in os.listdir(self.folder):
            path = os.path.join(self.folder, name)
            with open(path, "rb") as file:
                files[name] = file.read()
            os.unlink(path)
        return text

    def write(self, name, data):
        with open(os.path.join(self.folder, name), "wb") as file:
            file.write(data)

    def call(self, words):
        command = [self.program] + words
        try:
            came = subprocess.run(command, cwd=self.folder, stdin=subprocess.DEVNULL, stdout=subprocess.PIPE, stderr=subprocess.DEVNULL,
                                  check=False, timeout=SECONDS)
        except subprocess.TimeoutExpired as error:
            raise NoFiles("a good command took more than %d seconds" % SECONDS) from error
        return came.stdout

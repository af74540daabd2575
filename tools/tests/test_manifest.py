"""What manifest.py finds: each file of a run is changed, and the run itself, and each change has to be told."""
from __future__ import annotations

import contextlib
import io
import os
import pathlib
import shutil
import subprocess
import tempfile
import unittest

import manifest

# It writes a log of what it read, a board and cells.
PROGRAM = """#!/bin/sh
[ "$1" = run ] || exit 2
image=$2 tape=$3
shift 3
state=none earom=
while [ $# -gt 0 ]; do
    case $1 in --state) state=$2; shift ;; --earom) earom=$2; shift ;; --save) save=$2; shift ;; esac
    shift
done
cat "$image" "$tape"
[ "$state" = none ] || cat "$state"
[ -z "$earom" ] || echo more >>"$earom"
[ -z "${save-}" ] || echo board >"$save"
"""


class Manifests(unittest.TestCase):
    """A folder with a program and its files."""

    def setUp(self) -> None:
        self.work = tempfile.TemporaryDirectory()
        self.addCleanup(self.work.cleanup)
        self.addCleanup(os.chdir, os.getcwd())
        os.chdir(self.work.name)
        self.write("program", PROGRAM)
        os.chmod("program", 0o755)
        for name in ("img", "tape", "begin", "cells"):
            self.write(name, name)
        self.assertEqual(self.status("make", "M", "log", "program", "img", "tape", "--state", "begin", "--earom", "cells", "--timers",
                                     "--version", "of a test", "--save", "end"), 0)

    def write(self, name: str, text: str) -> None:
        pathlib.Path(name).write_text(text)

    def status(self, *words: str) -> int:
        with contextlib.redirect_stdout(io.StringIO()), contextlib.redirect_stderr(io.StringIO()):
            return manifest.main(list(words))

    def test_the_same(self) -> None:
        self.assertEqual(self.status("check", "M"), 0)

    def test_cells_stay(self) -> None:
        self.assertEqual(pathlib.Path("cells").read_text(), "cells")
        self.assertEqual(pathlib.Path("cells.after").read_text(), "cellsmore\n")

    def test_what_it_has(self) -> None:
        fields, sums = manifest.read("M")
        self.assertEqual(fields["version"], "of a test")
        self.assertEqual(set(sums), {"program", "img", "tape", "begin", "cells", "log", "end", "cells.after"})

    @unittest.skipUnless(shutil.which("sha256sum"), "no sha256sum")
    def test_sha256sum_takes_it(self) -> None:
        good = subprocess.run(["sha256sum", "--strict", "-c", "M"], capture_output=True, check=False)
        self.assertEqual(good.returncode, 0)
        self.write("log", "another")
        self.assertNotEqual(subprocess.run(["sha256sum", "-c", "M"], capture_output=True, check=False).returncode, 0)

    def test_each_changed_file(self) -> None:
        for name in ("program", "img", "tape", "begin", "cells", "log", "end", "cells.after"):
            before = pathlib.Path(name).read_bytes()
            pathlib.Path(name).write_bytes(before + b"\n")
            self.assertEqual(self.status("check", "M"), 1, name)
            pathlib.Path(name).write_bytes(before)
        self.assertEqual(self.status("check", "M"), 0)

    def test_another_run(self) -> None:
        # The log, the board or the cells are those of the manifest, and the program gives others.
        for old, new, name in (("cat", "echo; cat", "log"), ("echo board", "echo boards", "board"), ("echo more", "echo mores", "cells")):
            self.write("program", PROGRAM.replace(old, new))
            text = pathlib.Path("M").read_text()
            told = manifest.read("M")[1]["program"]
            self.write("N", text.replace(told, manifest.sum_of("program")))
            self.assertEqual(self.status("check", "N"), 1, name)

    def test_what_is_refused(self) -> None:
        os.remove("tape")
        self.assertEqual(self.status("check", "M"), 2)
        self.write("bad", "no manifest\n")
        for words in ((), ("check",), ("check", "bad"), ("check", "absent"), ("make", "M", "log"),
                      ("make", "N", "log", "program", "img", "tape", "--cuts", "5"), ("make", "N", "log", "program", "img", "absent")):
            self.assertEqual(self.status(*words), 2, words)


if __name__ == "__main__":
    unittest.main()

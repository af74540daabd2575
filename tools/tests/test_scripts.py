"""What the scripts refuse that judge a program: each test plants a fault into a program or a suite of its own."""
from __future__ import annotations

import os
import pathlib
import shutil
import subprocess
import sys
import tempfile
import unittest

TOOLS = pathlib.Path(__file__).resolve().parent.parent
GOOD = """#!/bin/sh
case $1 in
    show) echo "gravitar: $2: absent" >&2; exit 5 ;;
    asm) echo image >"$4" ;;
    run) [ -f "$2" ] || exit 5; echo E 22; echo board >s ;;
esac
"""
SUITE = """
given image
$ gravitar asm c v i
store i
|image
row a file that isn't there
$ gravitar show x
status 5
note gravitar: x: absent
row a run
with image
$ gravitar run i t
|E 22
store s
|board
"""


class Folder(unittest.TestCase):
    """A folder of its own for each test, with a program and a suite."""

    def setUp(self) -> None:
        self.folder = tempfile.mkdtemp()
        self.addCleanup(shutil.rmtree, self.folder)
        self.program = self.write("good", GOOD)
        self.suite = self.write("suite.rows", SUITE)

    def write(self, name: str, text: str) -> str:
        path = pathlib.Path(self.folder, name)
        path.write_text(text)
        path.chmod(0o755)
        return str(path)

    def changed(self, old: str, new: str) -> str:
        """The program with a fault."""
        self.assertIn(old, GOOD)
        return self.write("bad", GOOD.replace(old, new))

    def does(self, *words: str, **settings: str) -> tuple[int, list[str]]:
        """The status and the lines of a command."""
        done = subprocess.run([str(word) for word in words], cwd=self.folder, env={**os.environ, **settings}, stdin=subprocess.DEVNULL,
                              stdout=subprocess.PIPE, stderr=subprocess.STDOUT, text=True, timeout=60, check=False)
        return done.returncode, done.stdout.splitlines()

    def rows(self, *words: str, **settings: str) -> tuple[int, str]:
        """The status and the last line of rows.sh."""
        status, lines = self.does(TOOLS / "rows.sh", *words, **settings)
        return status, lines[-1]


class Rows(Folder):
    """rows.sh."""

    def differs(self, old: str, new: str, count: int = 1) -> None:
        status, last = self.rows(self.changed(old, new), "--seconds", "1", self.suite)
        self.assertEqual((status, last), (1, "%d passed, %d failed" % (3 - count, count)))

    def test_all_is_as_wanted(self) -> None:
        self.assertEqual(self.rows(self.program, self.suite), (0, "3 passed, 0 failed"))

    def test_wrong_programs(self) -> None:
        self.differs("exit 5 ;;", "exit 4 ;;")
        self.differs("echo E 22", "echo E 23")
        self.differs("echo board", "echo broad")
        self.differs("echo board >s", ":")
        self.differs("echo E 22", ": >other; echo E 22")
        self.differs("echo E 22", ": >.hidden; echo E 22")
        self.differs("echo image", "echo imago", 2)

    def test_a_note_with_another_line_feed(self) -> None:
        self.differs('echo "gravitar: $2: absent"', 'printf "gravitar: %s: absent" "$2"')
        self.differs('absent" >&2', 'absent\n" >&2')
        self.differs("echo E 22", "echo E 22; echo >&2")

    def test_programs_that_do_not_end(self) -> None:
        self.differs("echo E 22", "sleep 100")
        self.differs("echo E 22", "yes")

    def test_a_program_that_reads_its_input(self) -> None:
        program = self.changed("case $1 in", "cat >/dev/null\ncase $1 in")
        self.assertEqual(self.rows(program, self.suite), (0, "3 passed, 0 failed"))

    def test_nothing_is_tried(self) -> None:
        good, suite = self.program, self.suite
        for words in ((), ("none", suite), (good, "none.rows"), (good, "--rwo", "a", suite), (good, "--row"), (good, "--row", "no such title", suite),
                      (good, "--seconds", "0", suite), (good, "--part", "3/2", suite), (good, self.folder), (self.folder, suite),
                      (good, self.write("empty.rows", "")), (good, self.write("x.rows", "row a\nfiel b\n")),
                      (good, self.write("y.rows", "row a\nwith none\n$ gravitar run\n")), (good, self.write("z.rows", "row a\nfile b\n")),
                      (good, self.write("u.rows", "$ gravitar run\n"))):
            self.assertEqual(self.rows(*words)[0], 2, words)

    def test_a_machine_that_lacks_something(self) -> None:
        bare = pathlib.Path(self.folder, "bare")
        bare.mkdir()
        for tool in "cat cksum cmp cp dd dirname env grep head ls mkdir mkfifo mktemp mv od rm sed sh sort tail timeout tr uniq wc".split():
            bare.joinpath(tool).symlink_to(shutil.which(tool))
        self.assertEqual(self.rows(self.program, self.suite, PATH=str(bare)), (2, "rows.sh: no awk on the path"))
        bare.joinpath("awk").symlink_to(shutil.which("true"))
        self.assertEqual(self.rows(self.program, self.suite, PATH=str(bare)), (2, "rows.sh: this awk doesn't work"))
        self.assertEqual(self.rows(self.program, self.suite, TMPDIR="/nowhere")[0], 2)

    def test_parts_and_titles(self) -> None:
        self.assertEqual(self.rows(self.program, "--row", "a run", self.suite), (0, "1 passed, 0 failed"))
        for part in ("1/3", "2/3", "3/3"):
            self.assertEqual(self.rows(self.program, "--part", part, self.suite), (0, "1 passed, 0 failed"))

    def test_another_assembler(self) -> None:
        program = self.changed("asm) ", "asm) exit 2;")
        self.assertEqual(self.rows(program, self.suite)[0], 1)
        self.assertEqual(self.rows(program, self.suite, ASM=self.program), (0, "3 passed, 0 failed"))
        self.assertEqual(self.rows(program, self.suite, ASM="none")[0], 2)

    def test_tap(self) -> None:
        _, lines = self.does(TOOLS / "rows.sh", self.changed("echo E 22", "echo E 23"), "--tap", self.suite)
        self.assertEqual(lines[:4], ["TAP version 13", "ok 1 - given image", "ok 2 - row a file that isn't there", "not ok 3 - row a run"])
        self.assertEqual(lines[-2:], ["1..3", "# 2 passed, 1 failed"])
        self.assertTrue(all(line.startswith("#") for line in lines[4:-2]))

    def test_names_of_all_kinds(self) -> None:
        top = pathlib.Path(self.folder, "a b\nc=d")
        data = top / "crates" / "board_rows" / "data"
        data.mkdir(parents=True)
        (top / "tools").mkdir()
        shutil.copy(TOOLS / "rows.sh", top / "tools")
        shutil.copy(self.suite, data / "it's=1 2.rows")
        (data.parent / "args").write_text("it's=1 2.rows\n")
        status, lines = self.does(top / "tools" / "rows.sh", self.program)
        self.assertEqual((status, lines[-1]), (0, "3 passed, 0 failed"))
        self.write("a=b.rows", SUITE)
        self.assertEqual(self.rows("./good", "a=b.rows"), (0, "3 passed, 0 failed"))


class Others(Folder):
    """The other scripts, where nothing can be tried."""

    def test_a_program_that_does_nothing(self) -> None:
        for script in ("refuse_memory.sh", "real_faults.sh"):
            for words in ((), ("none",), ("/bin/true",), (self.program,)):
                self.assertEqual(self.does(TOOLS / script, *words)[0], 2, (script, words))
        for script in ("broken_files.py", "killed_stores.py"):
            for words in ((), ("none",), ("/bin/true",), (self.program,)):
                self.assertEqual(self.does(sys.executable, TOOLS / script, *words)[0], 2, (script, words))

    def test_no_cases(self) -> None:
        for words in (("real_faults.sh", self.program, "0"), ("broken_files.py", self.program, "--cases", "0"),
                      ("broken_files.py", self.program, "--jobs", "-1"), ("killed_stores.py", self.program, "--kills", "0"),
                      ("killed_stores.py", self.program, "--seconds", "0"), ("check.sh", "--shrot"), ("check.sh", "--short", "/nowhere")):
            command = [sys.executable] if words[0].endswith(".py") else []
            self.assertEqual(self.does(*command, TOOLS / words[0], *words[1:])[0], 2, words)

    def test_no_folder_for_temporary_files(self) -> None:
        self.write("cc", "#!/bin/sh\n")
        precious = pathlib.Path(self.folder, "folder")
        precious.mkdir()
        for script in ("real_faults.sh", "refuse_memory.sh", "ca65/both.sh"):
            path = "%s:%s" % (self.folder, os.environ["PATH"])
            self.assertEqual(self.does(TOOLS / script, self.program, TMPDIR="/nowhere", PATH=path)[0], 2, script)
        self.assertTrue(precious.is_dir())

    def test_recipes_without_words(self) -> None:
        for recipe in ("film", "picture", "range", "stereo", "trace", "wav", "who"):
            status, lines = self.does("sh", TOOLS.parent / "examples" / "recipes" / (recipe + ".sh"))
            self.assertEqual(status, 2, recipe)
            self.assertTrue(lines[0].startswith("usage: " + recipe), recipe)


if __name__ == "__main__":
    unittest.main()

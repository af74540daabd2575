"""What first_difference.py says of two logs. tools/planted_differences.py tries it with a program."""
from __future__ import annotations

import contextlib
import io
import pathlib
import tempfile
import unittest

import first_difference

LOG = "".join(f"L {clock} {clock % 251:02X}\n" for clock in range(10, 10_000, 7)) + "E 10001\n"


class Logs(unittest.TestCase):
    """Two logs in a folder of their own."""

    def setUp(self) -> None:
        self.work = tempfile.TemporaryDirectory()
        self.addCleanup(self.work.cleanup)

    def said(self, first: str, second: str, *words: str) -> tuple[int, list[str]]:
        one, other = (pathlib.Path(self.work.name, name) for name in ("one", "other"))
        one.write_text(first)
        other.write_text(second)
        text = io.StringIO()
        with contextlib.redirect_stdout(text), contextlib.redirect_stderr(io.StringIO()):
            status = first_difference.main([*words, str(one), "--", str(other)])
        return status, text.getvalue().splitlines()

    def test_the_same(self) -> None:
        self.assertEqual(self.said(LOG, LOG), (0, ["the logs are the same"]))

    def test_a_cost_is_passed_over(self) -> None:
        self.assertEqual(self.said(LOG, LOG + "C 12\n")[0], 0)

    def test_a_changed_line(self) -> None:
        clock = next(line for line in LOG.splitlines() if int(line.split()[1]) > 5000)
        status, lines = self.said(LOG, LOG.replace(clock, clock[:-1] + "x"), "--piece", "100")
        self.assertEqual(status, 1)
        self.assertEqual(lines[0], f"the logs differ first at clock {clock.split()[1]}")
        self.assertEqual(lines[-2:], [f"  first  {clock}", f"  second {clock[:-1]}x"])

    def test_a_line_that_one_has_alone(self) -> None:
        for piece in ("1", "100", "1000000"):
            self.assertEqual(self.said(LOG, LOG.replace("E 10001\n", "W 9999\nE 10001\n"), "--piece", piece)[1][0],
                             "the logs differ first at clock 9999")

    def test_another_end(self) -> None:
        self.assertEqual(self.said(LOG, LOG.replace("E 10001", "E 10003"))[1][0], "the logs differ first at clock 10001")
        self.assertEqual(self.said(LOG, LOG.replace("E 10001", "X 10001 9000 02"))[0], 1)

    def test_what_is_refused(self) -> None:
        self.assertEqual(self.said(LOG, "no log\n")[0], 2)
        with contextlib.redirect_stderr(io.StringIO()):
            for words in ([], ["a", "--"], ["a", "b"], ["a", "--", "b", "--", "c"], ["--piece", "0", "a", "--", "b"]):
                self.assertEqual(first_difference.main(words), 2, words)


if __name__ == "__main__":
    unittest.main()

"""What the tools that judge pages refuse: each test plants a fault into a page of its own."""
from __future__ import annotations

import pathlib
import shutil
import tempfile
import unittest
import unittest.mock

import crates_drawing
import doc_commands
import doc_links
import doc_names
import doc_pasted
import facts


class Links(unittest.TestCase):
    """doc_links.py, over a page in docs/ that isn't written."""

    page = doc_links.TOP / "docs" / "PLANTED.md"

    def dead(self, text: str) -> list[str]:
        return list(doc_links.dead_links(self.page, text))

    def test_good_links(self) -> None:
        good = "[a](GUIDE.md) [b](../README.md#quick-start) [c](https://example.org)"
        self.assertEqual(self.dead(good), [])

    def test_a_file_that_is_not_there(self) -> None:
        self.assertEqual(len(self.dead("[a](GIUDE.md)")), 1)

    def test_a_heading_that_is_not_there(self) -> None:
        self.assertEqual(len(self.dead("[a](../README.md#slow-start)")), 1)

    def test_a_label_of_another_file(self) -> None:
        good = "[`docs/GUIDE.md`](GUIDE.md) [GUIDE.md](GUIDE.md#looking-inside) [two](GUIDE.md)"
        self.assertEqual(self.dead(good), [])
        self.assertEqual(len(self.dead("[`src/limit.rt`](../tools/doc_links.py)")), 1)

    def test_a_link_through_a_link(self) -> None:
        for text in ("[a](../examples/latch/latch.s)", "[a](../examples)"):
            self.assertEqual(len(self.dead(text)), 1, text)
            mended = doc_links.mended(self.page, text)
            self.assertIn("../crates/example_runs/data", mended)
            self.assertEqual(self.dead(mended), [])

    def test_long_lines(self) -> None:
        good = "a" * 100 + "\n    " + "b" * 120
        self.assertEqual(list(doc_links.long_lines(self.page, good)), [])
        self.assertEqual(len(list(doc_links.long_lines(self.page, "a" * 101))), 1)
        self.assertEqual(len(list(doc_links.long_lines(self.page, "| " + "a" * 161 + " |"))), 1)

    def test_rows_of_a_table(self) -> None:
        good = "| a | b |\n|---|---|\n| 1 | 2 |\n\n| c |\n|---|\n| x \\| y |\n"
        self.assertEqual(list(doc_links.uneven_rows(self.page, good)), [])
        for row in ("| 1 |", "| 1 | 2 | 3 |", "| a | b | c"):
            planted = "| a | b |\n|---|---|\n" + row + "\n| 1 | 2 |\n"
            self.assertEqual(len(list(doc_links.uneven_rows(self.page, planted))), 1, row)


SOURCE = """/// Runs.
pub fn run(&mut self) -> Stop
    requires limit { limit ≤ LAST }
    ensures board { self.new ≡ run_of self.old }
{
}

pub(crate) fn step(&mut self)
    ensures board { self.new ≡ step_of self.old }
    ensures clock { self.old.clock ≤ self.new.clock }
{
}

pub fn board(&self) -> Board
    ensures { result ≡ self.now }
{
}
"""


class LineLinks(unittest.TestCase):
    """doc_links.py over links to lines, each with the function whose clause it is."""

    def setUp(self) -> None:
        self.folder = pathlib.Path(tempfile.mkdtemp())
        self.addCleanup(shutil.rmtree, self.folder)
        (self.folder / "a.rt").write_text(SOURCE)
        self.page = self.folder / "PROVED.md"

    def wrong(self, text: str) -> list[tuple[str, int | None]]:
        return [(link.text, place) for link, place, _ in doc_links.wrong_lines(self.page, text)]

    def mended(self, text: str) -> str:
        return doc_links.mended(self.page, text)

    def test_good_links(self) -> None:
        section = "## A\nThe clauses are those of `run`.\n### B\n[`board`](a.rt#L4)"
        for text in (
            "[`board`](a.rt#L4) of [`run`](a.rt#L2)",
            "[`board`](a.rt#L9) and\n[`clock`](a.rt#L10) of `step`",
            "[`board`](a.rt#L14)",
            "([`limit`](a.rt#L3), [`board`](a.rt#L4) of `run`)",
            section + ". [`clock`](a.rt#L10) of `step`",
        ):
            self.assertEqual(self.wrong(text), [], text)

    def test_a_line_that_moved(self) -> None:
        self.assertEqual(self.wrong("[`run`](a.rt#L1)"), [("[`run`](a.rt#L1)", 2)])
        mended = self.mended("[`run`](a.rt#L1), [`step`](a.rt#L1)")
        self.assertEqual(mended, "[`run`](a.rt#L2), [`step`](a.rt#L8)")

    def test_a_name_that_is_gone(self) -> None:
        self.assertEqual(self.wrong("[`walk`](a.rt#L2)"), [("[`walk`](a.rt#L2)", None)])

    def test_a_clause_of_another_function(self) -> None:
        self.assertEqual(self.wrong("[`board`](a.rt#L4) of `step`"), [("[`board`](a.rt#L4)", 9)])
        mended = self.mended("[`board`](a.rt#L4) of [`step`](a.rt#L8)")
        self.assertEqual(mended, "[`board`](a.rt#L9) of [`step`](a.rt#L8)")
        two = "[`limit`](a.rt#L3) and [`board`](a.rt#L9) of `run`"
        self.assertEqual(self.wrong(two), [("[`board`](a.rt#L9)", 4)])

    def test_a_clause_that_the_function_does_not_have(self) -> None:
        wrong = self.wrong("[`clock`](a.rt#L10) of `run`")
        self.assertEqual(wrong, [("[`clock`](a.rt#L10)", None)])

    def test_a_clause_of_no_named_function(self) -> None:
        self.assertEqual(self.wrong("[`clock`](a.rt#L10)"), [("[`clock`](a.rt#L10)", None)])
        self.assertEqual(self.wrong("[`board`](a.rt#L9)"), [("[`board`](a.rt#L9)", None)])
        section = "## A\nThe clauses are those of `run`.\n## B\n[`limit`](a.rt#L3)"
        self.assertEqual(self.wrong(section), [("[`limit`](a.rt#L3)", None)])

    def test_a_clause_that_has_moved_below_another(self) -> None:
        (self.folder / "a.rt").write_text("//\n" * 6 + SOURCE)
        text = "[`board`](a.rt#L%d) of `run`, [`board`](a.rt#L%d) of `step`, [`board`](a.rt#L%d)"
        self.assertEqual(self.mended(text % (4, 9, 14)), text % (10, 15, 20))

    def test_other_pages_link_to_files(self) -> None:
        self.page = self.folder / "GUIDE.md"
        self.assertEqual(self.mended("[`run`](a.rt#L2) [a](b.md#L)"), "[`run`](a.rt) [a](b.md#L)")
        with unittest.mock.patch.object(doc_links, "TOP", self.folder):
            good = "[`run`](a.rt) [`a.rt`](a.rt) [text](a.rt)"
            self.assertEqual(list(doc_links.wrong_names(self.page, good)), [])
            self.assertEqual(len(list(doc_links.wrong_names(self.page, "[`run`](a.rt#L2)"))), 1)
            self.assertEqual(len(list(doc_links.wrong_names(self.page, "[`walk`](a.rt)"))), 1)


class Names(unittest.TestCase):
    """doc_names.py."""

    words = doc_names.known_words()

    def test_names_that_are_there(self) -> None:
        for quoted in ("gravitar_advance", "tools/rows.sh", "X CLOCK PPPP HH", "lda #5", "xargs"):
            self.assertEqual(doc_names.missing(quoted, self.words), [], quoted)

    def test_stale_names(self) -> None:
        for quoted in ("gravitar_" + "advences", "tools/ro" + "wz.sh"):
            self.assertEqual(len(doc_names.missing(quoted, self.words)), 1, quoted)


class Facts(unittest.TestCase):
    """facts.py, over two pages that aren't written."""

    pages = {
        "one": "It does up to 298 million clocks. It has 3 rows with 1,452 commands.",
        "two": "The best was 298 million clocks.",
    }
    speed = facts.Fact("speed", None, [("one", "up to # million"), ("two", "was # million")])

    def wrong(self, fact: facts.Fact, **pages: str) -> list[str]:
        with unittest.mock.patch.object(facts, "text_of", {**self.pages, **pages}.__getitem__):
            return list(facts.wrong(fact))

    def test_the_same_number(self) -> None:
        self.assertEqual(self.wrong(self.speed), [])

    def test_a_number_changed_in_one_page(self) -> None:
        self.assertEqual(len(self.wrong(self.speed, two="The best was 299 million clocks.")), 1)

    def test_a_sentence_that_is_gone(self) -> None:
        self.assertEqual(len(self.wrong(self.speed, one="It is quick.")), 1)

    def test_numbers_that_the_sources_count(self) -> None:
        places = [("one", "# rows with # commands")]
        self.assertEqual(self.wrong(facts.Fact("rows", lambda: ["3", "1452"], places)), [])
        self.assertEqual(len(self.wrong(facts.Fact("rows", lambda: ["3", "1453"], places))), 1)
        self.assertEqual(len(self.wrong(facts.Fact("rows", lambda: [], places))), 1)


class Drawing(unittest.TestCase):
    """crates_drawing.py, over crates and a table that aren't written."""

    crates = {"low": [], "high": ["low"]}

    def faults(self, *rows: str) -> list[str]:
        table = "".join(f"| | [`{row}`](../crates/{row}) | what it is |\n" for row in rows)
        with unittest.mock.patch.object(pathlib.Path, "read_text", lambda _: "## Crates\n" + table):
            return list(crates_drawing.faults(self.crates))

    def test_a_good_table(self) -> None:
        self.assertEqual(self.faults("low", "high"), [])

    def test_a_crate_above_one_that_it_stands_on(self) -> None:
        self.assertEqual(len(self.faults("high", "low")), 1)

    def test_a_crate_that_is_missing_unknown_or_twice(self) -> None:
        self.assertEqual(len(self.faults("low")), 1)
        self.assertEqual(len(self.faults("low", "high", "other")), 1)
        self.assertEqual(len(self.faults("low", "low", "high")), 1)


class Commands(unittest.TestCase):
    """doc_commands.py."""

    def test_lines_with_what_they_show(self) -> None:
        text = "words\n\n    $ gravitar show s\n    clock 1\n    $ gravitar frames i t\n\nmore\n"
        found = [("gravitar show s", ["clock 1"]), ("gravitar frames i t", [])]
        self.assertEqual(doc_commands.commands(text), found)

    def test_a_row_is_no_command(self) -> None:
        row = "    row a title\n    $ gravitar run i t\n    |E 22\n"
        self.assertEqual(doc_commands.commands(row), [])

    def test_what_differs(self) -> None:
        folder = pathlib.Path(tempfile.gettempdir())
        self.assertIsNone(doc_commands.difference(doc_commands.Command("echo a", ["a"]), folder))
        self.assertIsNotNone(doc_commands.difference(doc_commands.Command("echo a", ["b"]), folder))
        self.assertIsNotNone(doc_commands.difference(doc_commands.Command("false", []), folder))


class Pasted(unittest.TestCase):
    """doc_pasted.py."""

    def test_blocks_of_commands(self) -> None:
        blocks = doc_pasted.blocks("words\n\n    cd examples\n    sh try.sh\n\nmore\n\n    $ cat a > b\n    text\n    $ head b\n")
        self.assertEqual([doc_pasted.commands(block) for block in blocks], [["cd examples", "sh try.sh"], ["cat a > b", "head b"]])

    def test_what_is_no_command(self) -> None:
        for block in (["lamp    = $8800", "        .org $9000"], ["S 8036 -1 -2 3 4 1 10"], ["left = IN3 0", "0.2 left down"]):
            self.assertEqual(doc_pasted.commands(block), [])

    def test_what_is_not_there(self) -> None:
        self.assertEqual(doc_pasted.lacks(["no-such-program a", "cd b"]), ["no-such-program"])


if __name__ == "__main__":
    unittest.main()

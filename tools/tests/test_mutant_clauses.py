"""Tests of tools/mutant_clauses.py, over refusals as the kit prints them."""
from __future__ import annotations

import pathlib
import tempfile
import unittest

from tools import mutant_clauses

SOURCE = """impl<S: Units> Engine<S> {
    /// Runs.
    pub fn run(&mut self, limit: u64) -> Stop
        ensures calls { true }
    {
        self.take(limit)
    }
}

#[inline(always)]
fn free(n: u64) -> u64
    ensures { result ≡ n }
{
    n
}
"""
REFUSED = "rt: must-fail engine/%s.edit: refused, as it must be: %s\n"
CLAUSE = "note: src/engine.rt:3:5: it is not proved that what the function ensures holds (`returns-then-n-clause-calls`)"
UNNAMED = "note: src/engine.rt:10:1: it is not proved that what the function ensures holds (`returns`); the facts allow"
CONDITION = "note: src/engine.rt:6:9: it is not proved that what `take` requires holds (`take-stop-requires-clause-room`)"
INVARIANT = "note: src/engine.rt:6:9: it is not proved that the `invariant` of the struct's `impl Model` holds of its fields (`inv"
ANSWER = "./proofs/engine/Engine/run/Answers.antt:7:5: error: `returns-clause-calls`: `search` found no proof"
ACCIDENT = "./proofs/engine/Engine/run/Answers.antt:7:5: error: `returns-clause-calls`: as printed, the two types first differ"


class Clauses(unittest.TestCase):
    def setUp(self) -> None:
        folder = tempfile.TemporaryDirectory()
        self.addCleanup(folder.cleanup)
        self.top = pathlib.Path(folder.name)
        (self.top / "crates/engine/src").mkdir(parents=True)
        (self.top / "crates/engine/must-fail").mkdir()
        (self.top / "crates/engine/src/engine.rt").write_text(SOURCE)

    def edit(self, name: str, first: str = "") -> None:
        (self.top / "crates/engine/must-fail" / (name + ".edit")).write_text(first + "file: src/engine.rt\n")

    def header(self, message: str) -> object:
        return next(mutant_clauses.refusals(self.top, REFUSED % ("a", message))).header

    def test_a_clause_a_condition_and_an_answer(self) -> None:
        self.assertEqual(self.header(CLAUSE), "# refused at the clause calls of Engine::run")
        self.assertEqual(self.header(UNNAMED), "# refused at the clause of free")
        self.assertEqual(self.header(CONDITION), "# refused at the condition room of take in Engine::run")
        self.assertEqual(self.header(ANSWER), "# refused at the clause calls of Engine::run")

    def test_an_invariant(self) -> None:
        self.assertEqual(self.header(INVARIANT), "# refused at the invariant of a value in Engine::run")

    def test_a_loop_with_and_without_a_label(self) -> None:
        for goal in ("loop-n-preserved", "lines-preserved-then-eq", "vectors-init"):
            message = "note: src/engine.rt:6:9: it is not proved that the loop keeps (`%s`)" % goal
            told = "# refused at the invariant of the loop in Engine::run"
            self.assertEqual(self.header(message), told)

    def test_a_loop_that_never_ends(self) -> None:
        message = "note: src/engine.rt:6:9: it is not proved that it ends (`loop-n-smaller`)"
        told = "# refused at the measure of the loop in Engine::run"
        self.assertEqual(self.header(message), told)

    def test_a_lost_name_is_wrong(self) -> None:
        self.edit("a", "# refused at the clause calls of Engine::run\n")
        because = REFUSED.replace("be:", "be (only because a proof file names what the edit took away):")
        self.assertEqual(len(list(mutant_clauses.differences(self.top, because % ("a", CLAUSE)))), 1)

    def test_a_definition_is_refused_by_a_law(self) -> None:
        (self.top / "crates/engine/must-fail/a.edit").write_text("file: specs/Budget.antt\n")
        message = "./proofs/Budgets.antt:9:5: error: `window-price`: as printed, the two types differ"
        self.assertEqual(self.header(message), "# refused at the law window-price of Budgets")

    def test_an_accident_is_wrong(self) -> None:
        self.edit("a", "# refused at the clause calls of Engine::run\n")
        wrong = list(mutant_clauses.differences(self.top, REFUSED % ("a", ACCIDENT)))
        self.assertEqual(len(wrong), 1)
        self.assertIn("written for the right body", wrong[0])

    def test_another_clause_and_no_line_are_wrong(self) -> None:
        self.edit("a", "# refused at the clause value of Engine::run\n")
        self.edit("b")
        wrong = list(mutant_clauses.differences(self.top, REFUSED % ("a", CLAUSE) + REFUSED % ("b", CLAUSE)))
        self.assertEqual(len(wrong), 2)

    def test_what_is_written_is_right(self) -> None:
        self.edit("a", "# refused at the clause value of Engine::run: as it calls too often\n")
        self.edit("b")
        log = REFUSED % ("a", CLAUSE) + REFUSED % ("b", CONDITION)
        self.assertEqual(mutant_clauses.write(self.top, log), 2)
        self.assertEqual(list(mutant_clauses.differences(self.top, log)), [])
        text = (self.top / "crates/engine/must-fail/a.edit").read_text()
        self.assertTrue(text.startswith("# refused at the clause calls of Engine::run: as it calls too often\nfile: "))
        self.assertEqual(mutant_clauses.write(self.top, log), 0)


if __name__ == "__main__":
    unittest.main()

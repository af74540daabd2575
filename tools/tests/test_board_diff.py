"""What board_diff.py finds: a difference is planted into each byte of a board, and has to be told by the name of its field."""
from __future__ import annotations

import contextlib
import io
import pathlib
import re
import tempfile
import unittest

import board_diff

TOP = pathlib.Path(__file__).resolve().parent.parent.parent
BLANK = b"\x02GVS" + bytes(board_diff.LENGTH - 4)


def planted(*places: int) -> bytes:
    """A blank board with these bytes turned over."""
    board = bytearray(BLANK)
    for place in places:
        board[place] ^= 0xFF
    return bytes(board)


class Fields(unittest.TestCase):
    """The table of fields, beside that of docs/FORMATS.md."""

    def test_each_byte_is_in_one_field(self) -> None:
        covered = [field.offset + k for field in board_diff.FIELDS for k in range(field.size)]
        self.assertEqual(covered, list(range(board_diff.RAM)))

    def test_the_offsets_of_the_page(self) -> None:
        page = (TOP / "docs" / "FORMATS.md").read_text()
        table = page[page.index("## Saved board"):page.index("The fields of a POKEY")]
        rows = re.findall(r"^\| (\d+) \| ([^|]*) \| ([^|]*) \|", table, re.M)
        self.assertGreater(len(rows), 30)
        ours = {field.offset: field for field in board_diff.FIELDS} | {board_diff.RAM: None, board_diff.VECTOR_RAM: None}
        for offset, sizes, name in rows:
            self.assertIn(int(offset), ours, name)
        names = {0: "version", 4: "clock", 21: "board out", 25: "div phase", 46: "vg pc", 66: "beam x", 82: "vector clocks left",
                 190: "earom addr", 193: "earom hold", 196: "cell 0", 84: "pk1 audf 1", 137: "pk2 audf 1"}
        self.assertEqual({offset: ours[offset].name for offset in names}, names)


class Differences(unittest.TestCase):
    """Planted differences."""

    def lines(self, *places: int) -> list[str]:
        return list(board_diff.differences(BLANK, planted(*places)))

    def test_each_byte_of_each_field(self) -> None:
        for field in board_diff.FIELDS:
            for place in range(field.offset, field.offset + field.size):
                lines = self.lines(place)
                self.assertEqual([line.split(": ")[0] for line in lines], [field.name], place)

    def test_each_byte_of_both_memories(self) -> None:
        for name, offset, address in board_diff.MEMORIES:
            for k in range(board_diff.MEMORY):
                self.assertEqual(self.lines(offset + k), [f"{name} {address + k:04X}: 00 -> FF"])

    def test_values(self) -> None:
        self.assertEqual(self.lines(12, 13), ["cpu pc: 0000 -> FFFF"])
        self.assertEqual(self.lines(66, 67, 68, 69), ["beam x: 0 -> -1"])
        self.assertEqual(self.lines(4), ["clock: 0 -> 255"])
        self.assertEqual(self.lines(84 + 49 + 3), ["pk1 level 4: 0 -> 255"])

    def test_ranges(self) -> None:
        at = board_diff.RAM
        self.assertEqual(self.lines(at + 16, at + 17, at + 19), ["ram 0010-0011: 00 00 -> FF FF", "ram 0013: 00 -> FF"])
        self.assertEqual(self.lines(at + 2047, at + 2048), ["ram 07FF: 00 -> FF", "vector ram 2000: 00 -> FF"])
        self.assertTrue(self.lines(*range(at, at + 17))[0].endswith("FF .."))

    def test_all_at_once(self) -> None:
        lines = self.lines(*range(4, board_diff.LENGTH))
        self.assertEqual(len(lines), len(board_diff.FIELDS) - 4 + 2)

    def test_names(self) -> None:
        lines = list(board_diff.differences(BLANK, planted(board_diff.RAM + 16), {16: "left"}))
        self.assertEqual(lines, ["ram 0010 left: 00 -> FF"])

    def test_text_differs_where_the_board_does(self) -> None:
        whole = list(board_diff.text(BLANK))
        for place in range(0, board_diff.LENGTH, 7):
            other = list(board_diff.text(planted(place)))
            self.assertEqual(sum(a != b for a, b in zip(whole, other)), 1, place)


class Commands(unittest.TestCase):
    """The command line."""

    def status(self, *words: str) -> int:
        with contextlib.redirect_stdout(io.StringIO()), contextlib.redirect_stderr(io.StringIO()):
            return board_diff.main(list(words))

    def test_statuses(self) -> None:
        with tempfile.TemporaryDirectory() as folder:
            same, other, none = (f"{folder}/{name}" for name in ("same", "other", "none"))
            pathlib.Path(same).write_bytes(BLANK)
            pathlib.Path(other).write_bytes(planted(300))
            pathlib.Path(none).write_bytes(BLANK[:-1])
            self.assertEqual(self.status(same, same), 0)
            self.assertEqual(self.status(same, other), 1)
            self.assertEqual(self.status("--text", same), 0)
            for words in ((same, none), (same, f"{folder}/absent"), (same,), (), (same, "--text"), (same, same, same)):
                self.assertEqual(self.status(*words), 2, words)


if __name__ == "__main__":
    unittest.main()

"""Tests of `command`, and of what a Machine does by it. Run it where the package is found."""
import copy
import pathlib
import pickle
import unittest

import gravitar

EXAMPLES = pathlib.Path(__file__).resolve().parents[3] / "examples"
SHIP = [(EXAMPLES / "ship" / f"ship.{kind}").read_bytes() for kind in "sv"]
JAM = gravitar.assemble(b".org $9000\ns: .byte 2\n.org $FFFC\n.word s\n", b"")
TAPE = b"0 IN3 FB\n500000 IN3 FD\n900000 IN3 FF\n1500000 END\n"


class Tests(unittest.TestCase):
    @classmethod
    def setUpClass(cls):
        cls.ship = gravitar.assemble(*SHIP)
        cls.files = {"i": cls.ship, "t": TAPE}

    def done(self, line, files=None, **words):
        return gravitar.command(line.split(" "), self.files if files is None else files, **words)

    def test_a_run_is_the_calls_run(self):
        done = self.done("run i t --save b")
        whole = gravitar.advance(self.ship, gravitar.power_on(), TAPE, 1_500_000)
        self.assertEqual(
            (done.status, done.note, [name for name, _ in done.stores]), (0, b"", ["b"])
        )
        self.assertEqual(
            (done.out, done.files["b"]), (whole.output + b"E %d\n" % whole.clock, whole.board)
        )
        self.assertEqual(done.files, dict(done.stores))

    def test_stores_are_in_their_order(self):
        done = self.done(
            "run i t --cuts 10,20,30 --save b --earom e", {**self.files, "e": bytes(64)}
        )
        self.assertEqual([name for name, _ in done.stores], ["b"] * 4 + ["e"])
        self.assertEqual(
            [int.from_bytes(board[4:12], "little") for _, board in done.stores[:3]], [10, 20, 30]
        )
        self.assertEqual((done.files["b"], done.files["e"]), (done.stores[3][1], bytes(64)))

    def test_the_image_and_the_listing(self):
        done = self.done("asm c v i", dict(zip("cv", SHIP)))
        self.assertEqual(done.stores, (("i", self.ship),))
        self.assertTrue(done.out.startswith(b"9000 30: A9 03\n"))

    def test_statuses_and_notes(self):
        for line, files, status, note in (
            ("run i", {}, 2, b"gravitar: usage: run IMAGE"),
            ("run i t", {"i": JAM, "t": TAPE}, 3, b""),
            ("run i t", {"i": JAM[1:], "t": TAPE}, 4, b"gravitar: i: length 43007\n"),
            ("run i t", {"i": JAM}, 5, b"gravitar: t: absent\n"),
            ("run i t", {"i": JAM, "t": b"0 IN9 00\n0 END\n"}, 4, b"gravitar: t: line 1: port\n"),
        ):
            done = self.done(line, files)
            self.assertEqual(
                (done.status, done.note[: len(note)], bool(done.note)), (status, note, bool(note))
            )
            with self.assertRaises(gravitar.CommandError) as caught:
                self.done(line, files, check=True)
            self.assertEqual(
                (caught.exception.done, caught.exception.words), (done, line.split(" "))
            )
            for other in (
                pickle.loads(pickle.dumps(caught.exception)), copy.copy(caught.exception)
            ):
                self.assertEqual((str(other), other.done), (str(caught.exception), done))
        self.assertEqual(self.done("run i t", {"i": JAM, "t": TAPE}).out, b"X 8 9000 02\n")
        self.assertEqual(self.done("run i t", check=True).status, 0)
        self.assertEqual(pickle.loads(pickle.dumps(done)), done)

    def test_names_and_words_are_text(self):
        odd = "a name\n\u00e4\u2192\0"
        done = gravitar.command(
            ["run", odd, "t", "--save", odd + "s"], {odd: self.ship, "t": b"5 END"}
        )
        self.assertEqual((done.status, list(done.files)), (0, [odd + "s"]))
        self.assertEqual(gravitar.command([]).status, 2)
        self.assertEqual(gravitar.command(("run", "", "t")).status, 2)
        for words in ("run i t", b"run", [b"run"], [1], None):
            with self.assertRaises(TypeError):
                gravitar.command(words)
        for files in ({b"i": b""}, {"i": "text"}, {"i": None}):
            with self.assertRaises(TypeError):
                gravitar.command(["run", "i", "t"], files)
        with self.assertRaises(UnicodeEncodeError):
            gravitar.command(["run", "\udc80", "t"])

    def test_an_answer_longer_than_the_first_buffer(self):
        cuts = ",".join(map(str, range(1, 1_001)))
        done = self.done(f"run i t --until 2000 --cuts {cuts} --save b")
        self.assertEqual([len(board) for _, board in done.stores], [gravitar.BOARD_LEN] * 1_001)
        self.assertGreater(len(gravitar._calls._kept.__dict__[1 << 20]), 1_001 * gravitar.BOARD_LEN)
        self.assertEqual(self.done(f"run i t --until 2000 --cuts {cuts} --save b"), done)

    def test_a_machine_is_shown(self):
        machine = gravitar.Machine(self.ship, tape=TAPE)
        machine.run(123_457)
        board = machine.save()
        self.assertEqual(machine.show().encode(), self.done("show b", {"b": board}).out)
        self.assertTrue(machine.show().startswith("clock 123457\n"))
        self.assertEqual(machine.save(), board)

    def test_a_session_goes_on_where_a_machine_is(self):
        script = "regs\nuntil 700000\nregs\nmem 0010 8\nbreak %s\ngo\nregs\ngo\n"
        for timers in (False, True):
            machine = gravitar.Machine(self.ship, tape=TAPE, timers=timers)
            machine.run(600_001)
            files = {**self.files, "b": machine.save(), "s": (script % "905B").encode()}
            whole = self.done("debug i t s --state b" + " --timers" * timers, files, check=True).out
            said = machine.debug(script % "thrust", 1_500_000 - 600_001, gravitar.labels(*SHIP))
            self.assertEqual(said.encode(), whole)
            self.assertIn("stop break 905B at", said)
            self.assertEqual((machine.clock, machine.debug("")), (600_001, ""))
        self.assertIn("stop end at 600011", machine.debug("clear\ngo\n", 8))
        with self.assertRaises(gravitar.CommandError) as caught:
            machine.debug("regs\nbreak nowhere\n")
        self.assertEqual(caught.exception.done.note, b"gravitar: script: line 2: command\n")

    def test_inputs_that_were_set_are_in_a_session(self):
        machine = gravitar.Machine(self.ship)
        machine.set("IN3", 0xFB)
        self.assertIn("in3 FB", machine.debug("step 1\ndev\n"))
        self.assertIn("in3 FF", machine.show())
        machine.run(1)
        self.assertIn("in3 FB", machine.show())

    def test_a_profile_of_the_next_clocks(self):
        names = gravitar.labels(*SHIP)
        for timers in (False, True):
            machine = gravitar.Machine(self.ship, tape=TAPE, timers=timers)
            machine.run(400_000)
            files = {**self.files, "b": machine.save()}
            out = self.done(
                "profile i t --state b --until 1000001" + " --timers" * timers, files, check=True
            ).out
            rows = machine.profile(600_001, names)
            lines = b"".join(b"R %04X %d %d %d\n" % (row[0], *row[2:]) for row in rows)
            self.assertEqual(lines, out[: len(lines)])
            self.assertEqual(
                out[len(lines) :].split()[:2], [b"T", b"%d" % sum(row.clocks for row in rows)]
            )
            self.assertEqual({row.name: row.address for row in rows}["thrust"], names["thrust"])
            self.assertEqual([row.name for row in machine.profile(600_001)], [""] * len(rows))

    def test_pictures_of_the_next_clocks(self):
        machine = gravitar.Machine(self.ship, tape=TAPE)
        machine.run(100_000)
        out = self.done(
            "frames i t --state b --until 400000", {**self.files, "b": machine.save()}, check=True
        ).out
        pictures = machine.pictures(300_000)
        lines = [" ".join(map(str, ["F", *it[:3], *(it.box or ())])) for it in pictures]
        self.assertEqual(lines, out.decode().splitlines()[:-1])
        strokes = [it for frame in machine.frames(12) for it in frame]
        self.assertEqual(sum(it.strokes for it in pictures), len(strokes))
        self.assertGreater(len(strokes), 100)

    def test_a_far_tape_goes_into_no_request(self):
        tape = b"".join(
            b"%d IN3 FF\n" % clock for clock in range(0, 10_000_000, 100)
        ) + b"10000000 END\n"
        machine = gravitar.Machine(self.ship, tape=tape)
        machine.run(5_000_000)
        self.assertLess(len(machine._inputs(5_000_100)), 100)
        self.assertIn("stop end at", machine.debug("go\n", 1_000))

    def test_labels(self):
        source = b"""here = $10 ; a byte
ten = 10
bits=%101
sum = ten + 1
        .org $9000
start: first:
  lda #1 ; again: no label
second :
last:   rts
end:
        .org $9100
alone:
        .org $FFFC
vector: .word start
behind:
"""
        source = source.replace(b"start: first:\n", b"start:\nfirst:\n")
        generator = b".org $2800\nlist: cntr\nsub: halt\nstart: rtsl\n"
        self.assertEqual(gravitar.labels(source, generator), {
            "start": 0x9000, "first": 0x9000, "second": 0x9002, "last": 0x9002, "end": 0x9003,
            "vector": 0xFFFC,
            "behind": 0xFFFE, "list": 0x2800, "sub": 0x2802, "here": 0x10, "ten": 10, "bits": 5,
        })
        with self.assertRaises(gravitar.CommandError):
            gravitar.labels(b"???", b"")


if __name__ == "__main__":
    unittest.main()

"""Tests of the calls and of Machine, over the examples' sources. Run it where the package is found.
"""
import copy
import multiprocessing
import pathlib
import pickle
import re
import signal
import threading
import time
import unittest

import gravitar

EXAMPLES = pathlib.Path(__file__).resolve().parents[3] / "examples"
HEADER = EXAMPLES.parent / "include" / "gravitar.h"
TAPE = b"160000 END\n"


def image_of(name, folder=None, generator=None):
    folder = EXAMPLES / (folder or name)
    return gravitar.assemble(
        (folder / f"{name}.s").read_bytes(), (folder / f"{generator or name}.v").read_bytes()
    )


def line(record):
    """The line that the log has of a record."""
    count = {gravitar.STROKE: 6, gravitar.POKEY_1: 4, gravitar.POKEY_2: 4}.get(record.kind, 0)
    latch = ["%02X" % record.values[0]] if record.kind == gravitar.LATCH else []
    return " ".join(
        ["SABLW"[record.kind], str(record.clock), *map(str, record.values[:count]), *latch]
    ) + "\n"


def long_log(image, clocks, timers=False):
    """What the program has for a run, by its command line: the log without its last line, the board
    and the samples."""
    files, words = {"i": image, "t": b"%d END\n" % clocks}, ["--timers"] if timers else []
    done = gravitar.command(["run", "i", "t", "--save", "b", *words], files, check=True)
    heard = gravitar.command(["pcm", "i", "t", "34", *words], files, check=True)
    return done.out[: done.out.rindex(b"\nE ") + 1], done.files["b"], heard.out


def refuse(_):
    gravitar.advance(b"", gravitar.power_on(), TAPE, 1)


class Tests(unittest.TestCase):
    @classmethod
    def setUpClass(cls):
        cls.square, cls.ship = image_of("square"), image_of("ship")

    def test_stretches_are_the_run(self):
        whole = gravitar.advance(self.square, gravitar.power_on(), TAPE, 160_000, boundary=False)
        machine = gravitar.Machine(self.square)
        log = b"".join(machine.run(clocks) for clocks in (1, 24_999, 100_000, 35_000))
        self.assertEqual((machine.save(), log, machine.clock, machine.jammed), whole)

    def test_a_log_longer_than_the_first_buffer(self):
        log = gravitar.Machine(self.ship).run(5_000_000)
        self.assertGreater(len(log), 65_536)
        machine = gravitar.Machine(self.ship)
        self.assertEqual(b"".join(machine.run(50_000) for _ in range(100)), log)

    def test_a_frame_has_strokes(self):
        frames = list(gravitar.Machine(self.square).frames(4))
        log = gravitar.Machine(self.square).run(100_000)
        self.assertEqual(sum(frames, []), gravitar.strokes(log))
        self.assertEqual(len(sum(frames, [])), log.count(b"S"))

    def test_records_are_the_lines_of_the_log(self):
        for image in (self.ship, image_of("kinds", "embed")):
            other, machine = gravitar.Machine(image), gravitar.Machine(image)
            for clocks in (1, 24_999, 100_000, 3_000_000):
                records, log = machine.records(clocks), other.run(clocks)
                self.assertEqual("".join(map(line, records)).encode(), log)
                self.assertEqual(
                    (machine.save(), machine.clock, machine.log), (other.save(), other.clock, b"")
                )
        self.assertEqual(
            {it.kind for it in gravitar.Machine(image).records(100_000)}, set(range(5))
        )

    def test_records_run_with_the_inputs(self):
        machine, other = gravitar.Machine(self.ship), gravitar.Machine(self.ship)
        for value in (0xFB, 0xFD):
            machine.set("IN3", value)
            other.set("IN3", value)
            self.assertEqual(
                "".join(map(line, machine.records(500_000))).encode(), other.run(500_000)
            )
        with self.assertRaises(gravitar.Error):
            machine.records(gravitar.CLOCK_LIMIT)

    def test_a_saved_board_goes_on(self):
        machine = gravitar.Machine(self.ship)
        machine.run(100_001)
        saved, log = machine.save(), machine.run(100_000)
        other = gravitar.Machine(self.ship, board=saved)
        self.assertEqual((other.clock, other.run(100_000)), (100_001, log))
        machine.load(saved)
        self.assertEqual(machine.run(100_000), log)

    def test_inputs_are_those_of_a_tape(self):
        machine, log = gravitar.Machine(self.ship), b""
        for value in (0xFB, 0xFD, 0xFF):
            machine.set("IN3", value)
            log += machine.run(500_000)
        tape = b"0 IN3 FB\n500000 IN3 FD\n1000000 IN3 FF\n1500000 END\n"
        played = gravitar.Machine(self.ship, tape=tape)
        self.assertEqual(played.run(1_500_000), log)
        with self.assertRaises(ValueError):
            played.set("IN3", 0)

    def test_samples_leave_nothing_out(self):
        tape = b"0 IN3 FB\n2000000 END\n"
        whole = gravitar.pcm(self.ship, gravitar.power_on(), tape, 1_700_000, 34).output
        machine, some = gravitar.Machine(self.ship, tape=tape), []
        for count in (1, 735, 40_000, 264):
            some += machine.samples(count)
        self.assertEqual(machine.clock, 41_000 * 34)
        self.assertEqual(
            some, [int.from_bytes(whole[i : i + 4], "little") for i in range(0, 4 * 41_000, 4)]
        )
        self.assertTrue(any(some))

    def test_a_jam_is_told(self):
        machine = gravitar.Machine(
            gravitar.assemble(b".org $9000\ns: .byte 2\n.org $FFFC\n.word s\n", b"")
        )
        machine.run(1_000)
        self.assertTrue(machine.jammed)
        self.assertLess(machine.clock, 1_000)

    def refused(self, status, call, *words):
        with self.assertRaises(gravitar.Error) as caught:
            call(*words)
        self.assertEqual(caught.exception.status, status)
        return caught.exception

    def test_refusals(self):
        board = gravitar.power_on()
        self.assertEqual(self.refused(2, gravitar.advance, b"short", board, TAPE, 1).place, 5)
        self.refused(10, gravitar.advance, self.square, board[1:], TAPE, 1)
        self.refused(10, gravitar.advance, self.square, b"", TAPE, 1)
        self.assertEqual(
            self.refused(4, gravitar.advance, self.square, board, b"1 IN9 00\n1 END\n", 1).place, 1
        )
        self.refused(4, gravitar.advance, self.square, board, b"", 1)
        self.refused(5, gravitar.advance, self.square, board, TAPE, gravitar.CLOCK_LIMIT + 1)
        self.refused(5, gravitar.advance, self.square, board, TAPE, 1 << 64)
        self.refused(5, gravitar.advance, self.square, board, TAPE, -1)
        self.refused(5, gravitar.pcm, self.square, board, TAPE, 1, 0)
        self.assertEqual(self.refused(8, gravitar.assemble, b"nop\n???\n", b"").place, 1)
        self.refused(9, gravitar.assemble, b"", b"???\n")
        self.refused(2, gravitar.Machine, b"")
        machine = gravitar.Machine(self.square)
        self.refused(10, machine.load, b"")
        self.refused(4, machine.set, "IN9", 0)
        self.assertEqual(machine.save(), gravitar.power_on())
        self.assertEqual(machine.run(160_000).count(b"\n"), 56)

    def test_only_what_has_bytes_is_taken(self):
        for none in (None, "text", 5):
            with self.assertRaises(TypeError):
                gravitar.advance(none, gravitar.power_on(), TAPE, 1)
        image = memoryview(bytearray(self.square))
        self.assertEqual(gravitar.advance(image, bytearray(gravitar.power_on()), TAPE, 1).clock, 7)

    def test_timers_interrupt_where_they_are_wired(self):
        image = image_of("timers", "embed", "kinds")
        log, board, heard = long_log(image, 300_000, timers=True)
        machine = gravitar.Machine(image, timers=True)
        parts = b"".join(machine.run(clocks) for clocks in (1, 99_999, 200_000))
        self.assertEqual(parts, log[: len(parts)])
        self.assertGreater(parts.count(b" FE\n"), 100)
        whole = gravitar.advance(image, gravitar.power_on(), b"300000 END\n", 300_000, timers=True)
        self.assertEqual((whole.output, whole.board), (log, board))
        # Each interrupt writes the latch and counts in the last byte of the vector RAM, the last of
        # a board.
        self.assertEqual(whole.board[-1], log.count(b"L ") % 256)
        self.assertGreater(log.count(b" FE\n"), 100)
        records = gravitar.records(
            image, gravitar.power_on(), b"300000 END\n", 300_000, timers=True
        )
        self.assertEqual("".join(map(line, gravitar.record_list(records.output))).encode(), log)
        self.assertEqual(records.board, board)
        samples = gravitar.pcm(
            image, gravitar.power_on(), b"300000 END\n", 300_000, 34, timers=True
        )
        self.assertEqual((samples.output, samples.board), (heard, board))
        self.assertNotEqual(long_log(image, 300_000), (log, board, heard))
        # Without them there is only the divider's request, once in 6,144 clocks.
        without = gravitar.advance(image, gravitar.power_on(), b"300000 END\n", 300_000)
        self.assertEqual((without.output.count(b"L "), without.board[-1]), (48, 48))

    def test_a_long_run_is_done_in_stretches(self):
        # More than twice gravitar._calls.STRETCH.
        log, board, heard = long_log(self.ship, 21_234_567)
        tape, begin = b"1 END\n", gravitar.power_on()
        whole = gravitar.advance(self.ship, begin, tape, 21_234_567)
        self.assertEqual((whole.output, whole.board), (log, board))
        records = gravitar.records(self.ship, begin, tape, 21_234_567)
        self.assertEqual(
            ("".join(map(line, gravitar.record_list(records.output))).encode(), records.board),
            (log, board),
        )
        for per in (34, 65_535):
            samples = gravitar.pcm(self.ship, begin, tape, 21_234_567, per)
            if per == 34:
                self.assertEqual(samples.output, heard)
            self.assertEqual((samples.board, samples.output), gravitar._calls._one(
                gravitar._calls.calls.gravitar_pcm, self.ship, begin, tape, 21_234_567, per,
                False)[:2])
        machine = gravitar.Machine(self.ship)
        self.assertEqual(machine.samples(624_545).tobytes(), heard[: 4 * 624_545])
        self.assertEqual((machine.clock, machine.log), (624_545 * 34, log[: len(machine.log)]))

    def test_a_long_run_ends_at_a_jam(self):
        image = gravitar.assemble(b".org $9000\ns: .byte 2\n.org $FFFC\n.word s\n", b"")
        for call in (gravitar.advance, gravitar.records):
            self.assertEqual(
                call(image, gravitar.power_on(), TAPE, gravitar.CLOCK_LIMIT)[2:], (8, True)
            )
        self.assertEqual(
            gravitar.pcm(image, gravitar.power_on(), TAPE, gravitar.CLOCK_LIMIT, 3)[1:],
            (bytes(8), 8, True),
        )
        self.assertEqual(gravitar.Machine(image).samples(1 << 40, 3).tolist(), [0, 0])

    @unittest.skipIf(not hasattr(signal, "setitimer"), "there is no timer")
    def test_an_interrupt_ends_a_long_run(self):
        class Stop(Exception):
            pass

        def stop(*_):
            raise Stop

        before = signal.signal(signal.SIGALRM, stop)
        machine = gravitar.Machine(self.square)
        try:
            for run in (
                machine.run, machine.records, machine.samples,
                lambda many: list(machine.frames(many)),
            ):
                signal.setitimer(signal.ITIMER_REAL, 0.2)
                begin = time.monotonic()
                with self.assertRaises(Stop):
                    run(1 << 40)
                self.assertLess(time.monotonic() - begin, 60)
                self.assertEqual(machine.clock % gravitar.FRAME, 0)
        finally:
            signal.signal(signal.SIGALRM, before)

    def test_a_tape_is_cut_to_the_stretch(self):
        tape = b"".join(
            b"%d IN3 %02X\n" % (clock, 0xFB if clock % 2_000 else 0xFF)
            for clock in range(0, 3_000_000, 1_000)
        )
        whole = gravitar.advance(
            self.ship, gravitar.power_on(), tape + b"3000000 END", 3_000_000, boundary=False
        )
        for end in (b"3000000 END", b"3000000 END\n"):
            machine, log = gravitar.Machine(self.ship, tape=tape + end), b""
            for _ in range(3_000_000 // 25_000):
                log += machine.run(25_000)
            self.assertEqual((log, machine.save()), (whole.output, whole.board))
        self.assertLess(len(machine._inputs(machine.clock)), 20)
        machine.load(gravitar.power_on())
        self.assertEqual(machine.run(3_000_000), whole.output)

    def test_errors_are_copied_and_pickled(self):
        error = self.refused(
            4, gravitar.advance, self.square, gravitar.power_on(), b"0 IN9 00\n1 END\n", 1
        )
        for other in (pickle.loads(pickle.dumps(error)), copy.copy(error), copy.deepcopy(error)):
            self.assertEqual((str(other), other.args), (str(error), error.args))
            self.assertEqual((other.status, other.place, other.words), (4, 1, error.words))
        with multiprocessing.get_context("spawn").Pool(1) as pool:
            with self.assertRaises(gravitar.Error) as caught:
                pool.map_async(refuse, [1]).get(timeout=120)
        self.assertEqual(caught.exception.status, 2)

    def test_numbers_and_ports_are_refused_by_name(self):
        machine = gravitar.Machine(self.square)
        for call, words, name in (
            (machine.run, [-500], "clocks: -500"), (machine.records, [-1], "clocks: -1"),
            (machine.samples, [-1], "count: -1"), (machine.samples, [1, 0], "per: 0"),
            (machine.samples, [1, 65_536], "per: 65536"), (machine.profile, [-1], "clocks: -1"),
            (machine.debug, ["", -1], "clocks: -1"), (machine.set, ["IN3", 256], "value: 256"),
            (lambda count: list(machine.frames(count)), [-1], "count: -1"),
        ):
            self.assertIn(name, str(self.refused(5, call, *words)))
        for call, words in (
            (machine.run, [1.0]), (machine.samples, ["1"]), (machine.set, ["IN3", 1.5]),
            (machine.frames(1.0).__next__, []),
            (gravitar.advance, [self.square, gravitar.power_on(), TAPE, 1.0]),
        ):
            with self.assertRaisesRegex(TypeError, "is no whole number"):
                call(*words)
        for port in ("IN3 FF\n0 IN4", "in3", "IN3 ", "", "P8", b"IN3", 3):
            self.assertIn(repr(port), str(self.refused(4, machine.set, port, 0)))
        self.assertEqual(machine._changes, b"")
        for port in gravitar.PORTS:
            machine.set(port, 0xFF)
        machine.run(1)

    def test_the_place_of_a_bad_line(self):
        for lines in (1, 2, 3, 1_000):
            tape = b"0 IN3 FF\n" * (lines - 1) + b"0 IN9 FF\n1 END\n"
            for call in (gravitar.advance, gravitar.records, lambda *all: gravitar.pcm(*all, 34)):
                error = self.refused(4, call, self.square, gravitar.power_on(), tape, 1)
                self.assertEqual((error.place, error.words), (lines, f"line {lines}: port"))

    def test_a_buffer_is_kept_for_its_thread(self):
        room = gravitar._calls._kept.__dict__
        room.clear()
        log = gravitar.Machine(self.ship).run(5_000_000)
        kept = room[1 << 16]
        self.assertGreaterEqual(len(kept), len(log))
        gravitar.Machine(self.ship).run(25_000)
        self.assertIs(room[1 << 16], kept)
        seen = []
        other = threading.Thread(
            target=lambda: seen.append(
                (gravitar.Machine(self.ship).run(5_000_000), gravitar._calls._kept.__dict__)
            ))
        other.start()
        other.join()
        self.assertEqual(seen[0][0], log)
        self.assertIsNot(seen[0][1], room)

    def test_the_version_is_the_headers(self):
        version = re.search(r"#define GRAVITAR_VERSION (\d+)", HEADER.read_text())[1]
        self.assertEqual(
            (gravitar.__version__, gravitar._calls.calls.gravitar_version()),
            (version, int(version)),
        )


if __name__ == "__main__":
    unittest.main()

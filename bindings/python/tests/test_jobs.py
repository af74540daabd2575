"""Tests of `map`, over threads, processes and, where it is installed, Dask. Run it where the
package is found."""
import concurrent.futures
import functools
import itertools
import multiprocessing
import os
import pathlib
import signal
import tempfile
import unittest

import gravitar

try:
    import distributed
except ImportError:
    distributed = None

EXAMPLES = pathlib.Path(__file__).resolve().parents[3] / "examples"
SPAWN = multiprocessing.get_context("spawn")


def processes(count=2):
    return concurrent.futures.ProcessPoolExecutor(count, mp_context=SPAWN)


class Mortal(concurrent.futures.ProcessPoolExecutor):
    """Processes, of which the first that get jobs are killed: the file has how many are still to
    be."""

    def __init__(self, left, count=2):
        super().__init__(count, mp_context=SPAWN, initializer=die, initargs=(left,))


def die(left):
    """Kills this process where the folder has a file left, which it takes away."""
    for name in os.listdir(left):
        try:
            os.unlink(os.path.join(left, name))
        except FileNotFoundError:
            continue
        os.kill(os.getpid(), signal.SIGKILL)


class Tests(unittest.TestCase):
    @classmethod
    def setUpClass(cls):
        image = gravitar.assemble(
            *((EXAMPLES / "ship" / f"ship.{kind}").read_bytes() for kind in "sv")
        )
        cls.jobs = [
            (
                ["run", "i", "t", "--save", "b"],
                {"i": image, "t": b"%d IN3 FB\n%d END\n" % (k, 1_000 * k)},
            )
            for k in range(40)
        ] + [(["run", "i"], {})]
        cls.answers = [gravitar.command(*job) for job in cls.jobs]

    def test_threads(self):
        self.assertEqual(list(gravitar.map(self.jobs)), self.answers)
        with concurrent.futures.ThreadPoolExecutor(3) as pool:
            self.assertEqual(list(gravitar.map(iter(self.jobs), pool, batch=7)), self.answers)
            self.assertEqual(list(gravitar.map([], pool)), [])
            self.assertEqual(pool.submit(int, "5").result(), 5)

    def test_processes(self):
        with processes() as pool:
            self.assertEqual(list(gravitar.map(self.jobs, pool, batch=5)), self.answers)
        self.assertEqual(list(gravitar.map(self.jobs, processes)), self.answers)

    def test_jobs_without_an_end(self):
        first = list(itertools.islice(gravitar.map(itertools.cycle(self.jobs), batch=3), 1_000))
        self.assertEqual(first, list(itertools.islice(itertools.cycle(self.answers), 1_000)))

    def test_what_fails_is_raised(self):
        with self.assertRaises(gravitar.CommandError):
            list(gravitar.map(self.jobs, check=True))
        with self.assertRaises(TypeError):
            list(gravitar.map([(["run", "i", "t"], {"i": "text"})]))
        with self.assertRaisesRegex(gravitar.Error, "batch: 0"):
            gravitar.map(self.jobs, batch=0)

    @unittest.skipIf(not hasattr(signal, "SIGKILL"), "no process can be killed")
    def test_a_worker_that_dies_gives_its_jobs_again(self):
        # Small jobs: before 3.11.6 Python waits for ever at its end where a worker dies with a full
        # pipe before it.
        jobs = [(["show", "b"], {"b": answer.files["b"]}) for answer in self.answers[:40]]
        answers = [gravitar.command(*job) for job in jobs]
        with tempfile.TemporaryDirectory() as left:
            for name in "ab":
                (pathlib.Path(left) / name).touch()
            self.assertEqual(list(gravitar.map(jobs, functools.partial(Mortal, left))), answers)
            self.assertEqual(os.listdir(left), [])
            # One that isn't made here can't be made again, and where none lives that is said.
            (pathlib.Path(left) / "a").touch()
            with self.assertRaises(concurrent.futures.BrokenExecutor):
                list(gravitar.map(jobs, Mortal(left)))
            for name in range(100):
                (pathlib.Path(left) / str(name)).touch()
            with self.assertRaises(concurrent.futures.BrokenExecutor):
                list(gravitar.map(jobs, functools.partial(Mortal, left)))

    @unittest.skipIf(distributed is None, "there is no Dask")
    def test_dask(self):
        with distributed.LocalCluster(
            n_workers=2, threads_per_worker=1, dashboard_address=None, silence_logs=50
        ) as cluster, distributed.Client(cluster) as client:
            self.assertEqual(list(gravitar.map(self.jobs, client, batch=3)), self.answers)
            self.assertEqual(len(client.scheduler_info()["workers"]), 2)
            # A worker is killed while it has jobs. What it had is done by the other one, or by the
            # one that comes in its place.
            answers = gravitar.map(
                itertools.islice(itertools.cycle(self.jobs), 2_000), client, batch=3
            )
            first = [next(answers) for _ in range(20)]
            os.kill(min(client.run(os.getpid).values()), signal.SIGKILL)
            self.assertEqual(
                first + list(answers), list(itertools.islice(itertools.cycle(self.answers), 2_000))
            )


if __name__ == "__main__":
    unittest.main()

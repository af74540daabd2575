"""Many command lines at a time: by threads, by processes, or on other machines."""
from __future__ import annotations

import collections
import concurrent.futures
import itertools
import os
from typing import Any, Iterable, Iterator, Mapping, Sequence, Tuple

from ._calls import Bytes, whole
from ._command import Done, command

Job = Tuple[Sequence[str], Mapping[str, Bytes]]

# So many futures wait at most, so that `jobs` may be a generator without an end.
_AHEAD = 256
# So often in turn a team may break without an answer on the way.
_BREAKS = 3
_BROKEN = (concurrent.futures.BrokenExecutor, concurrent.futures.CancelledError)


class _Team:
    """An executor, and where it was made here, the next one when it breaks."""

    def __init__(self, executor: Any) -> None:
        self._breaks, self._make = 0, None
        if executor is None:
            self._make = lambda: concurrent.futures.ThreadPoolExecutor(os.cpu_count())
        elif isinstance(executor, type) or not hasattr(executor, "submit"):
            self._make = executor
        self._executor = self._made() if self._make else _executor_of(executor)

    def _made(self) -> Any:
        return _executor_of(self._make())

    def submit(self, jobs: Sequence[Job], check: bool) -> concurrent.futures.Future:
        try:
            return self._executor.submit(_do, jobs, check)
        except (*_BROKEN, OSError) as broken:
            # OSError: the pipes of a team that is breaking just now are closed.
            future: concurrent.futures.Future = concurrent.futures.Future()
            future.set_exception(concurrent.futures.BrokenExecutor(str(broken)))
            return future

    def renew(self, broken: BaseException) -> None:
        """Takes a new executor for one that is broken."""
        self._breaks += 1
        if not self._make or self._breaks > _BREAKS:
            raise broken
        _let_go(self._executor)
        self._executor = self._made()

    def worked(self) -> None:
        self._breaks = 0

    def close(self, is_done: bool) -> None:
        if self._make and is_done:
            self._executor.shutdown()
        elif self._make:
            _let_go(self._executor)


def _executor_of(team: Any) -> Any:
    """A Dask client has an executor of its own."""
    return team.get_executor() if hasattr(team, "get_executor") else team


def _let_go(executor: Any) -> None:
    """Leaves an executor to itself, also one that is breaking just now, whose pipes are closed."""
    try:
        executor.shutdown(wait=False)
    except OSError:
        pass


def _do(jobs: Sequence[Job], check: bool) -> list[Done]:
    return [command(words, files, check=check) for words, files in jobs]


def _batches(jobs: Iterable[Job], size: int) -> Iterator[list[Job]]:
    jobs = iter(jobs)
    return iter(lambda: list(itertools.islice(jobs, size)), [])


def map(
    jobs: Iterable[Job], executor: Any = None, *, batch: int = 1, check: bool = False
) -> Iterator[Done]:
    """Does jobs, each the words and the files of `command`, many at a time, and yields what they
    did in their order.

    executor: None for a thread for each processor (a call lets go of the interpreter's lock); an
    executor of concurrent.futures; a Dask client; or a class or function that makes one of them.
    One that was made here is made again where it breaks, since a worker died, and does again what
    was under way: a job gives the same wherever and however often it is done. Dask gives the jobs
    of a dead worker to another one by itself.

    batch: so many jobs go to a worker at a time. Where a job takes less than a millisecond and
    workers are processes, give it 50 or so: then a file that several of them have is sent once.
    """
    size = whole("batch", batch, 1 << 32, 1)
    return _map(_batches(jobs, size), executor, check)


def _map(batches: Iterator[list[Job]], executor: Any, check: bool) -> Iterator[Done]:
    team, is_done = _Team(executor), False
    waiting: collections.deque = collections.deque()
    try:
        while True:
            for jobs in itertools.islice(batches, _AHEAD - len(waiting)):
                waiting.append((jobs, team.submit(jobs, check)))
            if not waiting:
                is_done = True
                return
            try:
                answers = waiting[0][1].result()
            except _BROKEN as broken:
                team.renew(broken)
                waiting = collections.deque(
                    (
                        jobs, future if _has_answer(future) else team.submit(jobs, check)
                    ) for jobs, future in waiting)
                continue
            team.worked()
            waiting.popleft()
            yield from answers
    finally:
        for _, future in waiting:
            future.cancel()
        team.close(is_done)


def _has_answer(future: concurrent.futures.Future) -> bool:
    return future.done() and not future.cancelled() and not isinstance(future.exception(), _BROKEN)

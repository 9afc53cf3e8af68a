"""Workers of this machine: the processes of a pool, which are copies of this one, and so need no start of their own."""

from __future__ import annotations

import gc
import multiprocessing
import signal
from collections.abc import Iterator
from concurrent.futures import FIRST_COMPLETED, Future, ProcessPoolExecutor, wait
from concurrent.futures.process import BrokenProcessPool
from contextlib import contextmanager
from threading import Thread
from time import monotonic

from tp_sdk.faults import Fault
from tp_sdk.sweeping.plan import Runs
from tp_sdk.sweeping.running import Chunk, Runner

_PATIENCE = 3.0  # seconds in which a worker ends that is told to
# A signal that comes right before a wait is not seen while that goes on: so nothing is awaited for longer at once.
_STEP, _STEP_TO_END = 0.5, 0.05  # seconds


@contextmanager
def processes(runner: Runner, count: int, runs: Runs) -> Iterator[Processes]:
    """So many of them, which end with the block: at once, where it is left before its end."""
    before = set(multiprocessing.active_children())
    pool = ProcessPoolExecutor(
        count, multiprocessing.get_context("fork"), initializer=_begin, initargs=(runner, runs)
    )
    try:
        yield Processes(pool, count)
    except BaseException:
        # (its end is awaited, too: else the pool's own thread may still be at it when Python ends, which then says so)
        closing = Thread(target=pool.shutdown, kwargs={"cancel_futures": True})
        closing.start()
        _end_all(set(multiprocessing.active_children()) - before)
        closing.join()
        raise
    finally:
        pool.shutdown(cancel_futures=True)


def _end_all(workers: set[multiprocessing.process.BaseProcess]) -> None:
    """Ends them, and the programs that they run: one that is not through with a run in time, whatever it is at."""
    until = monotonic() + _PATIENCE
    while monotonic() < until and any(it.is_alive() for it in workers):
        for it in workers:
            it.terminate()
        for it in workers:
            it.join(_STEP_TO_END)
    for it in workers:
        it.kill()


class Processes:
    """The pool, as the process sees it that gives it runs."""

    def __init__(self, pool: ProcessPoolExecutor, count: int) -> None:
        self._pool, self._count = pool, count
        self._pending: set[Future[Chunk]] = set()

    def count(self) -> int:
        """How many work."""
        return self._count

    def submit(self, part: range) -> None:
        """Has the next one that is free do the runs of these numbers."""
        with _told_as_faults():
            self._pending.add(self._pool.submit(_chunk, part))

    def wait(self) -> list[Chunk]:
        """What was done meanwhile: some at least."""
        done: set[Future[Chunk]] = set()
        while not done:
            done, self._pending = wait(self._pending, _STEP, FIRST_COMPLETED)
        with _told_as_faults():
            return [it.result() for it in done]


@contextmanager
def _told_as_faults() -> Iterator[None]:
    try:
        yield
    except BrokenProcessPool:
        raise Fault(
            "a worker has ended before its runs did: the same command goes on from what is done"
        ) from None


# ---- in a worker


class _Stopped(BaseException):
    """The worker was told to end in the middle of its runs."""


_given: tuple[Runner, Runs] | None = None
_is_running = _is_ended = False


def _begin(runner: Runner, runs: Runs) -> None:
    """What a worker begins with: Ctrl-C is told to the process alone that asks, which ends its workers."""
    global _given
    gc.freeze()  # (what it shares with that process is not looked through, which would copy it)
    signal.signal(signal.SIGINT, signal.SIG_IGN)
    signal.signal(signal.SIGTERM, _stop)
    _given = runner, runs


def _stop(*_: object) -> None:
    """Ends the runs, and the program that is run. (A worker that ended while it tells what it did, or with a lock of
    the pool's, would keep others waiting: so it ends when the pool has it end, and does no more runs until then.)"""
    global _is_ended
    was_ended, _is_ended = _is_ended, True
    if _is_running and not was_ended:
        raise _Stopped


def _chunk(part: range) -> Chunk:
    global _is_running
    assert _given is not None
    runner, runs = _given
    try:
        _is_running = True
        return Chunk([], 0.0) if _is_ended else runner.chunk(runs.part(part))
    except _Stopped:
        return Chunk([], 0.0)
    finally:
        _is_running = False

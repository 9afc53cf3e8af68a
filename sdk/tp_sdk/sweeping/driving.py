"""How a sweep's runs are given to workers, and come back from them."""

from __future__ import annotations

import os
from collections.abc import Iterator
from contextlib import contextmanager
from math import inf
from typing import Protocol

from tp_sdk.program import Program
from tp_sdk.sweeping.plan import Plan, Runs
from tp_sdk.sweeping.running import Chunk, Ran, Runner

# A worker is given as many runs at once as take so long, in seconds: not so few that it waits for words, and
# not so many that much is lost when it ends. The fewer are left, the fewer at once: so all end together.
_LEAST_SECONDS, _MOST_SECONDS = 0.01, 0.25
_MOST_AT_ONCE = 64
_PARTS = 3  # a worker is given its share of what is left in so many parts at least
_AHEAD = 2  # so many chunks a worker are asked for before they are done

# The runs as they are done.
Done = Iterator[Ran]


class Workers(Protocol):
    """What does runs, several at once."""

    def count(self) -> int:
        """How many work."""

    def submit(self, part: range) -> None:
        """Has one of them do the runs of these numbers."""

    def wait(self) -> list[Chunk]:
        """What was done meanwhile: some at least."""


def drive(workers: Workers, left: int) -> Done:
    """Has workers do all runs, of which there are so many, and yields each as it is done."""
    given = pending = 0
    each = inf  # seconds of a run
    while pending or given < left:
        there = workers.count()
        while given < left and pending < _AHEAD * there:
            after = min(left, given + _at_once(each, (left - given) / there))
            workers.submit(range(given, after))
            given, pending = after, pending + 1
        for chunk in workers.wait():
            pending -= 1
            each = chunk.seconds / len(chunk.ran)
            yield from chunk.ran


def _at_once(each: float, share: float) -> int:
    """How many runs a worker is given at once, where each takes so many seconds and its share of those that are
    left is so great."""
    most, least = min(_MOST_AT_ONCE, int(_MOST_SECONDS / each)), int(_LEAST_SECONDS / each)
    return max(1, min(most, max(least, int(share / _PARTS))))


@contextmanager
def on_this_machine(plan: Plan, program: Program, jobs: int, runs: Runs) -> Iterator[Done]:
    """Does the runs on so many processors."""
    runner = Runner(plan, program)
    jobs = min(jobs, len(runs))
    if jobs <= 1 or not hasattr(os, "fork"):
        yield (runner.ran(run) for it in range(len(runs)) for run in runs.part(range(it, it + 1)))
        return
    from tp_sdk.sweeping.processes import processes

    with processes(runner, jobs, runs) as workers:
        yield drive(workers, len(runs))


def processors() -> int:
    """How many there are for this process."""
    return len(os.sched_getaffinity(0)) if hasattr(os, "sched_getaffinity") else os.cpu_count() or 1

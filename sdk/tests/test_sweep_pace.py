"""What a sweep takes beside its runs, and that its workers end together.

What is wanted is that a thousand runs on so many processors take little more than the program itself takes for them,
shared out evenly. Seconds tell little of it on a machine that is not one's own: another processor has another ratio of
the tools' time to the program's, and others work beside it. So what is held closely are numbers that are the same on
each machine: how many calls of functions, Python's and C's, a run takes of the tools; and, by a clock that is made up,
how evenly the runs are given out. Of seconds there is a wide bound alone, against a mistake that makes a sweep several
times as slow: what it takes of the processors, from its start to its end, is at most twice what the program takes of
them in these very runs where each is a process, and 1.6 times that by the library, in the best of some rounds. What it
comes to by the clock on the wall, and closely, `bench/sweep_pace` measures, on a machine that does nothing else."""

from __future__ import annotations

import os
import subprocess
import sys
from collections.abc import Callable
from dataclasses import dataclass
from pathlib import Path
from types import FrameType

import pytest

from tp_sdk import library, sweep
from tp_sdk.build import build_text
from tp_sdk.description import read_description
from tp_sdk.guards import GUARDS
from tp_sdk.library import BUILT
from tp_sdk.program import REPOSITORY, Program
from tp_sdk.sweeping.driving import drive
from tp_sdk.sweeping.plan import Run
from tp_sdk.sweeping.running import Chunk, Ran

resource = pytest.importorskip("resource", reason="what processes take is not told here")

MOST_CALLS = 160  # a run: 124 were counted, by Python 3.11
MOST_BY_PROCESSES, MOST_BY_LIBRARY = 2.0, 1.6  # times the program's own seconds
SLOW = 0.1  # seconds
SLOTS, MACHINES, KEYS, ROUNDS = 24, 20, 8, 5
GUARDS_OFF = (None, *GUARDS)
RUNS = MACHINES * KEYS * len(GUARDS_OFF)
NOTED = Path(__file__).parent / "noted_sweep.py"


class Workers:
    """Workers that take what is given to them one after the other, on a clock that is made up."""

    def __init__(self, count: int, seconds: Callable[[int], float], handed: float) -> None:
        self.free = [0.0] * count
        self._seconds, self._handed, self._now = seconds, handed, 0.0
        self._pending: list[tuple[float, Chunk]] = []

    def count(self) -> int:
        """How many there are."""
        return len(self.free)

    def submit(self, part: range) -> None:
        """Gives runs to the worker that is free first."""
        worker = min(range(len(self.free)), key=lambda it: self.free[it])
        took = sum(self._seconds(it) for it in part)
        self.free[worker] = max(self.free[worker], self._now) + self._handed + took
        self._pending.append((self.free[worker], Chunk([Ran(Run(it, 0)) for it in part], took)))

    def wait(self) -> list[Chunk]:
        """Lets the time pass until one of them is done."""
        first = min(self._pending, key=lambda it: it[0])
        self._pending.remove(first)
        self._now = first[0]
        return [first[1]]


@pytest.mark.parametrize("count", (2, 4, 16))
@pytest.mark.parametrize(
    "seconds",
    (lambda it: 0.003, lambda it: 0.001 * (1 + it % 7), lambda it: 0.0005 if it < 900 else 0.02),
    ids=("all alike", "one to seven", "long ones last"),
)
def test_workers_end_together(count: int, seconds: Callable[[int], float]) -> None:
    """No later than where all is shared out evenly, but for a twentieth and five of the longest runs; to hand
    runs over takes a third of a millisecond."""
    workers = Workers(count, seconds, 0.0003)
    done = list(drive(workers, 1120))
    assert sorted(it.run.point for it in done) == list(range(1120))
    each = [seconds(it) for it in range(1120)]
    assert max(workers.free) <= 1.05 * sum(each) / count + 5 * max(each)


class Calls:
    """Counts the calls of functions in a block."""

    def __init__(self) -> None:
        self.count = 0

    def _called(self, frame: FrameType, event: str, of: object) -> None:
        self.count += event in ("call", "c_call")

    def __enter__(self) -> Calls:
        sys.setprofile(self._called)
        return self

    def __exit__(self, *_: object) -> None:
        sys.setprofile(None)


def answering_at_once(description: Path, program: Program, room: Path) -> Path:
    """In the program's place one that has two answers: the bounds, and the report of one run."""
    text = build_text(read_description(description), program)
    for name, words in (("bound", ["bound"]), ("report", ["run", "--slots", str(SLOTS)])):
        (room / name).write_text(program.run(words, text).text)
    script = room / "tp"
    script.write_text('#!/bin/sh\ncd "${0%/*}" && if [ "$1" = bound ]; then cat bound; else cat report; fi\n')
    script.chmod(0o755)
    return script


def test_a_run_takes_few_calls(
    built: Path, program: Program, tmp_path: Path, monkeypatch: pytest.MonkeyPatch
) -> None:
    """What more runs take more, of one process that does them all."""
    monkeypatch.setenv("TP", str(answering_at_once(built / "victim.toml", program, tmp_path)))

    def calls(machines: int) -> int:
        vary = {"machine.costs.mem": range(40, 40 + machines), "victim.key": range(KEYS)}
        with Calls() as counted:
            rows = sweep(built / "victim.toml", vary, off=GUARDS_OFF, slots=SLOTS, jobs=1)
        assert len(rows) == machines * len(GUARDS_OFF)
        return counted.count

    calls(1)  # (which imports modules)
    each = (calls(3) - calls(1)) / (2 * KEYS * len(GUARDS_OFF))
    assert each <= MOST_CALLS, each


@dataclass(frozen=True)
class Swept:
    """The seconds of the processors that a sweep took from its start to its end, and those of them that the program
    took itself for its runs; how many these were."""

    taken: float
    own: float
    runs: int

    def __str__(self) -> str:
        ratio = f"{self.taken / self.own:.3f}"
        return (
            f"{self.taken:.2f} s of a sweep, {self.own:.2f} s of the program in its {self.runs} runs: {ratio}"
        )


def seconds_of_processes() -> float:
    """What this process and those that it has waited for took of the processors."""
    taken = [resource.getrusage(it) for it in (resource.RUSAGE_SELF, resource.RUSAGE_CHILDREN)]
    return sum(it.ru_utime + it.ru_stime for it in taken)


def sweep_once(named: Path, description: Path, room: Path, machines: int = MACHINES) -> Swept:
    """A sweep of so many machines by the whole command, with this program or library."""
    notes = room / "notes"
    notes.mkdir(parents=True)
    vary = ("--vary", f"machine.costs.mem=40..{39 + machines}", "--vary", f"key=victim.key:0..{KEYS - 1}")
    off = ",".join(it or "none" for it in GUARDS_OFF)
    words = (NOTED, notes, description, *vary, "--off", off, "--slots", str(SLOTS), "-o", room / "out.csv")
    # (the tools' own modules are compiled by the first sweep, as where they can be written beside their sources)
    compiled = {"PYTHONDONTWRITEBYTECODE": "", "PYTHONPYCACHEPREFIX": str(room.parent / "compiled")}
    before = seconds_of_processes()
    subprocess.run([sys.executable, *words], env=os.environ | compiled | {"TP": str(named)}, check=True)
    taken = seconds_of_processes() - before
    told = [it.read_text().split() for it in notes.iterdir()]
    own, runs = sum(float(it) for _, it in told), sum(int(it) for it, _ in told)
    return Swept(taken, own, runs)


@pytest.mark.parametrize("by", ["processes", "the library"])
def test_a_sweep_takes_little_beside_its_runs(by: str, built: Path, program: Program, tmp_path: Path) -> None:
    """A thousand runs of the victim's image, in one of some rounds: what disturbs them makes none cheaper."""
    named, most = (
        (program.path, MOST_BY_PROCESSES) if by == "processes" else (REPOSITORY / BUILT, MOST_BY_LIBRARY)
    )
    if not named.is_file() or (by == "processes" and named.suffix == ".so"):
        pytest.skip(f"there is none to sweep by {by}")
    description = built / "victim.toml"
    text = build_text(read_description(description), program)
    before = seconds_of_processes()
    assert Program(named, library.named_by(named)).run(["run", "--slots", str(SLOTS)], text).code == 0
    if seconds_of_processes() - before > SLOW:
        pytest.skip("a run takes long: the program is one that tests itself")
    sweep_once(named, description, tmp_path / "first", 1)
    rounds = []
    for number in range(ROUNDS):
        swept = sweep_once(named, description, tmp_path / str(number))
        print(swept)
        assert swept.runs == RUNS
        if swept.taken <= most * swept.own:
            return
        rounds.append(f"{swept}")
    raise AssertionError(f"{most} is the most: {'; '.join(rounds)}")

"""Runs tp-sweep, and notes how often each worker ran the image, and how long the program took of a processor for that:
noted_sweep.py FOLDER WORD.. A worker's note is a file of FOLDER by its number: runs, and seconds. (What it is asked
for besides, as bounds, is none of its runs.)"""

import os
import resource
import sys
import time
from collections.abc import Sequence
from pathlib import Path

sys.path.insert(0, str(Path(__file__).resolve().parents[1]))

from tp_sdk import library  # noqa: E402
from tp_sdk.program import Ended, Program  # noqa: E402
from tp_sdk.start import sweep  # noqa: E402
from tp_sdk.sweeping.plan import Run  # noqa: E402
from tp_sdk.sweeping.running import Chunk, Runner  # noqa: E402

NOTES = Path(sys.argv.pop(1))

run, answer, chunk = Program.run, library.answer, Runner.chunk
runs, by_calls, besides = 0, 0.0, 0.0


def so_far() -> float:
    """What the program has taken: of processes that have ended, and of calls of the library."""
    of_processes = resource.getrusage(resource.RUSAGE_CHILDREN)
    return by_calls + of_processes.ru_utime + of_processes.ru_stime


def noted_answer(path: Path, words: list[str], image: str) -> tuple[int, str] | None:
    """Sums up how long the library takes for its answers."""
    global by_calls
    before = time.process_time()
    answered = answer(path, words, image)
    by_calls += time.process_time() - before
    return answered


def noted_run(self: Program, words: list[str], image: str) -> Ended:
    """Counts runs, and sums up how long the program takes for what is none."""
    global runs, besides
    if "--slots" in words:
        runs += 1
        return run(self, words, image)
    before = so_far()
    ended = run(self, words, image)
    besides += so_far() - before
    return ended


def noted_chunk(self: Runner, asked: Sequence[Run]) -> Chunk:
    """Writes the note, as it stands after these runs."""
    done = chunk(self, asked)
    (NOTES / str(os.getpid())).write_text(f"{runs} {so_far() - besides}")
    return done


library.answer = noted_answer
Program.run = noted_run  # type: ignore[method-assign]
Runner.chunk = noted_chunk  # type: ignore[method-assign]
sys.argv[0] = "tp-sweep"
sweep()

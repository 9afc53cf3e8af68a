"""A program of the sources as they stand, of which nothing is proved: built once, and kept by their sum.

`rt try` builds one, runs it and removes it. So it is given a run that goes on for long, and the
program that it runs then is copied.
"""

from __future__ import annotations

import fcntl
import os
import shutil
import signal
import subprocess
import tempfile
import time
from collections.abc import Iterator
from contextlib import contextmanager, suppress
from pathlib import Path

from tp_front import refusals, table
from tp_front.places import TOP, cache, tell
from tp_front.sources import Sources

NO_PROGRAM = 125
_USAGE = 2
_MOST_KEPT = 3
_SECONDS = 600
_SECONDS_TO_END = 20
_LONG_RUN = ["run", "--slots", "65536"]
_TRIAL = ["gen", "--seed", "0"]


class NotBuilt(Exception):
    """The program could not be built; the message says why."""


def answer(words: list[str]) -> int:
    """Writes the path of the program, which it builds first where none is kept."""
    sources = Sources.read()
    if sources is None:
        tell("there is no program here, and no source to build one of")
        return NO_PROGRAM
    kept = cache() / f"unproved-{sources.whole[:32]}"
    if not kept.is_file():
        fault = refusals.fault(table.load(), words)
        if fault is not None:
            tell(fault)
            return _USAGE
    tell("this program is not proved yet: ./tp --prove proves and builds it")
    try:
        if not kept.is_file():
            _build_once(kept)
    except (NotBuilt, OSError) as error:
        tell(str(error))
        return NO_PROGRAM
    os.utime(kept)
    print(kept)
    return 0


def _build_once(kept: Path) -> None:
    """Builds it, unless another call does so meanwhile."""
    if shutil.which("rt") is None:
        raise NotBuilt("it must be built, and the Rattle kit's rt is not on the path")
    kept.parent.mkdir(parents=True, exist_ok=True)
    with (kept.parent / "lock").open("w") as lock:
        fcntl.flock(lock, fcntl.LOCK_EX)
        if not kept.is_file():
            tell("building it, once for these sources: a minute or two")
            with tempfile.TemporaryDirectory(dir=kept.parent) as room:
                _build(kept, Path(room))
    others = sorted(kept.parent.glob("unproved-*"), key=lambda it: it.stat().st_mtime)
    for old in others[:-_MOST_KEPT]:
        old.unlink(missing_ok=True)


def _build(kept: Path, room: Path) -> None:
    copy, said = room / "copy", room / "said"
    with _trying(room, said) as run:
        until = time.monotonic() + _SECONDS
        while time.monotonic() < until:
            ended = run.poll() is not None
            for program in _executables(room):
                if _is_whole(program, copy):
                    copy.replace(kept)
                    return
            if ended:
                break
            time.sleep(0.1)
    raise NotBuilt(f"{said.read_text(errors='replace').strip()}\ntp: the program could not be built")


@contextmanager
def _trying(room: Path, said: Path) -> Iterator[subprocess.Popen[bytes]]:
    """A run of `rt try` in a group of its own, which ends with the block."""
    image = subprocess.run([TOP / "bench" / "image", "hot"], capture_output=True, check=True).stdout
    (room / "image").write_bytes(image)
    work = room / "work"
    work.mkdir()
    with (room / "image").open("rb") as given, said.open("wb") as out:
        run = subprocess.Popen(
            ["rt", "try", "--seconds", str(_SECONDS), "--", *_LONG_RUN],
            cwd=TOP / "crates" / "tp",
            env={**os.environ, "TMPDIR": str(work)},
            stdin=given,
            stdout=out,
            stderr=out,
            start_new_session=True,
        )
        try:
            yield run
        finally:
            _end(run)


def _end(run: subprocess.Popen[bytes]) -> None:
    """Ends `rt try`, which then ends what it started in sessions of their own."""
    for number in (signal.SIGTERM, signal.SIGKILL):
        with suppress(ProcessLookupError, subprocess.TimeoutExpired):
            os.killpg(run.pid, number)
            run.wait(_SECONDS_TO_END)


def _executables(room: Path) -> list[Path]:
    """The programs that `rt try` has built by now in its temporary folder."""
    found = [Path(at) / name for at, _, names in os.walk(room / "work") for name in names]
    return [it for it in found if os.access(it, os.X_OK) and not it.is_symlink()]


def _is_whole(program: Path, copy: Path) -> bool:
    """Copies the program; whether the copy was whole and does what it is for."""
    try:
        shutil.copyfile(program, copy)
        copy.chmod(0o755)
        ran = subprocess.run([copy, *_TRIAL], capture_output=True, check=False, stdin=subprocess.DEVNULL)
    except OSError:
        return False
    return ran.returncode == 0 and bool(ran.stdout)

"""A run that is told of while it goes on: about how long it takes, and how long it is by now."""

from __future__ import annotations

import os
import signal
import subprocess
import sys
import tempfile
import time
from pathlib import Path
from types import FrameType

from tp_front import refusals
from tp_front.image import Image, read_all
from tp_front.rates import Measure, Run
from tp_front.table import Words, load

_SILENT = 3.0
_STEP = 1.0
_USAGE = 2
_INTERRUPTED = 130


def run(program: Path, words: list[str]) -> int:
    """Runs the program on standard input; on standard error is a line that is renewed while it goes on."""
    table = load()
    command = table.command(Words.of(words).command)
    is_run = command is not None and command.reads and command.option("--slots") is not None
    try:
        text = read_all() if is_run and not os.isatty(0) else None
    except OSError:
        text = None
    if text is None:
        os.execv(program, [str(program), *words])
    # On a terminal the program's text must not meet that line.
    shown = subprocess.PIPE if os.isatty(1) else None
    with tempfile.TemporaryFile() as given:
        given.write(text)
        given.seek(0)
        child = subprocess.Popen([program, *words], stdin=given, stdout=shown)
    code = _watched(child, Run(program, words, text))
    if code == _USAGE:
        refusals.tell_why(table, words, Image.read(text))
    return code


def _watched(child: subprocess.Popen[bytes], watched: Run) -> int:
    def stop(number: int, _: FrameType | None) -> None:
        child.send_signal(number)

    for number in (signal.SIGTERM, signal.SIGHUP):
        signal.signal(number, stop)
    try:
        written = _wait(child, watched)
    except KeyboardInterrupt:
        child.kill()
        child.wait()
        return _INTERRUPTED
    if written:
        sys.stdout.buffer.write(written)
        sys.stdout.flush()
    return child.returncode if child.returncode >= 0 else 128 - child.returncode


def _wait(child: subprocess.Popen[bytes], watched: Run) -> bytes | None:
    """Waits for its end, and gives what it wrote, where that is not standard output's already."""
    began = time.monotonic()
    try:
        return child.communicate(timeout=_SILENT)[0]
    except subprocess.TimeoutExpired:
        measure = Measure(watched)
    if watched.seconds() is None:
        measure.start()
    try:
        while True:
            _tell(watched.seconds(), time.monotonic() - began)
            try:
                written = child.communicate(timeout=_STEP)[0]
            except subprocess.TimeoutExpired:
                continue
            if child.returncode == 0:
                watched.took(time.monotonic() - began, watched.slots)
            return written
    finally:
        measure.stop()
        _renew("")


def _tell(whole: float | None, now: float) -> None:
    about = f"about {_span(whole)}; " if whole is not None else ""
    _renew(f"tp: {about}{_span(now)} by now")


def _renew(line: str) -> None:
    """Writes the line in the place of the one before it."""
    print(f"\r\x1b[K{line}", end="", file=sys.stderr, flush=True)


def _span(seconds: float) -> str:
    """A time, as somebody would say it."""
    if seconds < 100:
        return f"{seconds:.0f} seconds"
    if seconds < 5400:
        return f"{seconds / 60:.0f} minutes"
    return f"{seconds / 3600:.1f} hours"

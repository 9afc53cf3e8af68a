"""How many cycles of its machine a run does in a second: measured once, and kept."""

from __future__ import annotations

import hashlib
import os
import subprocess
import tempfile
import threading
from pathlib import Path

from tp_front.image import Image
from tp_front.numbers import Numbers
from tp_front.sources import sum_of_file
from tp_front.table import Words

_RATES = Numbers("rates.json", 256)
_LEAST_MEASURED = 0.5


class Run:
    """A run of a program with these words on an image, of which may be known how long it takes."""

    def __init__(self, program: Path, words: list[str], text: bytes) -> None:
        asked = Words.of(words)
        slots = asked.value("--slots") or ""
        self.slots = int(slots) if slots.isascii() and slots.isdigit() else 0
        image = Image.read(text)
        self.cycles = image.cycles(self.slots) if image is not None else 0
        self._program, self._text = program, text
        self._fewer = [asked.command, *(f"{flag}={it}" for flag, it in asked.options if flag != "--slots")]
        named = hashlib.sha256(" ".join([sum_of_file(program), *self._fewer]).encode() + text)
        self._name = named.hexdigest()[:32]

    def seconds(self) -> float | None:
        """How long it takes, by the rate that is kept."""
        rate = _RATES.all().get(self._name)
        return self.cycles / rate if rate else None

    def took(self, seconds: float, slots: int) -> None:
        """Keeps the rate of so many of its slots."""
        if self.cycles and self.slots:
            _RATES.keep({self._name: round(self.cycles * slots / self.slots / seconds)})

    def first(self, slots: int) -> subprocess.Popen[bytes]:
        """Runs so many of its slots alone."""
        with tempfile.TemporaryFile() as given:
            given.write(self._text)
            given.seek(0)
            words = [str(self._program), *self._fewer, f"--slots={slots}"]
            return subprocess.Popen(words, stdin=given, stdout=subprocess.DEVNULL)


class Measure(threading.Thread):
    """Measures the rate of a run's first slots beside it: of as many as take some time."""

    def __init__(self, run: Run) -> None:
        super().__init__(daemon=True)
        self._run = run
        self._child: subprocess.Popen[bytes] | None = None
        self._is_over = False

    def run(self) -> None:
        """Runs one slot, and more each time."""
        slots = 1
        while slots < self._run.slots and not self._is_over:
            took = self._time_of(slots)
            if took is None:
                return
            if took >= _LEAST_MEASURED:
                self._run.took(took, slots)
                return
            slots *= 4

    def _time_of(self, slots: int) -> float | None:
        """The processor's time that so many slots take, whatever else runs; none where they did not end well."""
        self._child = self._run.first(slots)
        try:
            _, status, used = os.wait4(self._child.pid, 0)
        except ChildProcessError:
            return None
        self._child.returncode = os.waitstatus_to_exitcode(status)
        return used.ru_utime + used.ru_stime if status == 0 else None

    def stop(self) -> None:
        """Gives up."""
        self._is_over = True
        if self._child is not None:
            self._child.kill()

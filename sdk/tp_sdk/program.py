"""The program `tp`, as the tools run it."""

from __future__ import annotations

import os
from dataclasses import dataclass, field
from pathlib import Path

from tp_sdk import library, spawning
from tp_sdk.faults import Missing
from tp_sdk.folders import IS_INSTALLED
from tp_sdk.folders import REPOSITORY as REPOSITORY
from tp_sdk.progress import SHOWN_FROM, Progress

VARIABLE = "TP"


@dataclass(frozen=True)
class Ended:
    """What a run of the program came to."""

    code: int
    text: str


@dataclass(frozen=True)
class Program:
    """The program, by its path; the library that answers in its place, where one does; who is told of its runs; and the
    environment that they have."""

    path: Path
    shared: Path | None = None
    progress: Progress = field(default_factory=Progress, compare=False)
    environment: dict[str, str] = field(default_factory=lambda: dict(os.environ), compare=False, repr=False)

    @classmethod
    def find(cls, progress: Progress | None = None) -> Program:
        """The program that the variable `TP` names, or the library, else the library that `make -C lib` builds,
        unless it is older than the program, else the program that `./tp --prove` builds."""
        named = os.environ.get(VARIABLE)
        path = Path(named) if named else REPOSITORY / "crates" / "tp" / "out" / "tp"
        shared = library.named_by(path) if named else library.newest(REPOSITORY, path)
        if shared:
            return cls(path.absolute(), shared, progress or Progress())
        if not path.is_file() or not os.access(path, os.X_OK):
            if IS_INSTALLED and not named:
                raise Missing(f"there is no program: the variable {VARIABLE} names one, and it is not set")
            where = f"{VARIABLE}={path}" if named else str(path.relative_to(REPOSITORY))
            raise Missing(f"there is no program at {where}: './tp --prove' proves and builds it")
        return cls(path.absolute(), progress=progress or Progress())

    @classmethod
    def if_any(cls, progress: Progress | None = None) -> Program | None:
        """The program, or none where it is not there."""
        try:
            return cls.find(progress)
        except Missing:
            return None

    def run(self, words: list[str], image: str) -> Ended:
        """Runs the program with these words on an image."""
        answered = library.answer(self.shared, words, image) if self.shared else None
        if answered:
            return Ended(*answered)
        try:
            if self.progress.is_shown:
                code, text = self._told_of(words, image.encode())
            else:
                code, text = spawning.run([str(self.path), *words], image.encode(), self.environment)
            return Ended(code, text.decode())
        except (OSError, UnicodeDecodeError):
            raise self.other() from None

    def _told_of(self, words: list[str], image: bytes) -> tuple[int, bytes]:
        """The exit code of a run and what it writes; meanwhile it is told that time passes."""
        import subprocess

        pipe, none = subprocess.PIPE, subprocess.DEVNULL
        given: bytes | None = image
        with subprocess.Popen([self.path, *words], stdin=pipe, stdout=pipe, stderr=none) as process:
            try:
                while True:
                    try:
                        text, _ = process.communicate(given, timeout=SHOWN_FROM)
                        self.progress.end()
                        return process.returncode, text
                    except subprocess.TimeoutExpired:
                        given = None
                        self.progress.wait()
            # (Ctrl-C, too)
            except BaseException:
                process.kill()
                process.wait()
                raise

    def other(self) -> Missing:
        """What is told of a file that is another program."""
        return Missing(f"{self.path} is not the program tp: is {VARIABLE} right?")

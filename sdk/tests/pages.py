"""The blocks of a page of the documents: files that it shows, and commands with what they write."""

from __future__ import annotations

import os
import re
import shutil
import subprocess
import sys
from dataclasses import dataclass, field
from pathlib import Path

from conftest import SDK

from tp_sdk.program import REPOSITORY, VARIABLE, Program

# What stands for the top of the repository in a page.
_PATH = re.compile(r"\bPATH/")
_FILE = re.compile(r"`((?:\w+/)?[\w-]+\.(?:c|h|py|rs|toml))`")
_LANGUAGES_OF_FILES = ("c", "python", "rust", "toml")
# What a page tells and no test does: to install what is wanted, to prove the program.
_NOT_RUN = ("sudo ", "rustup ", "./tp --prove")
# What the program says of itself where it isn't proved yet.
_UNPROVED = "tp: this program is not proved yet"


@dataclass
class Command:
    """A command, and the lines that it is shown to write."""

    text: str
    due: list[str] = field(default_factory=list)

    @property
    def is_run(self) -> bool:
        """It is one that a test runs."""
        return not self.text.startswith(_NOT_RUN)


@dataclass
class File:
    """A file that a page shows."""

    name: str
    text: str


def read_page(page: Path) -> list[Command | File]:
    """What a page shows, in its order. A block of a file is named by the paragraph before it: the last
    name in it is the file's. One without a name is a part of a file."""
    found: list[Command | File] = []
    before, language, block = "", None, list[str]()
    for line in page.read_text().splitlines():
        if not line.startswith("```"):
            if language is not None:
                block.append(line)
            elif line:
                before = line
        elif language is None:
            language, block = line.removeprefix("```"), []
        else:
            found += _block(language, before, block)
            language = None
    return found


def _block(language: str, before: str, lines: list[str]) -> list[Command | File]:
    if language in _LANGUAGES_OF_FILES:
        names = _FILE.findall(before)
        assert names, f"a block of a file has no name before it: {lines[0]}"
        return [File(names[-1], "\n".join([*lines, ""]))]
    assert language == "sh", f"a block is neither of a file nor of commands: {language}"
    commands: list[Command] = []
    for line in lines:
        if line.startswith("$ "):
            commands.append(Command(line.removeprefix("$ ")))
        elif not line.startswith(_UNPROVED):
            commands[-1].due.append(line)
    return list[Command | File](commands)


@dataclass
class Reader:
    """Who follows a page: in a copy of the repository's tools, with a folder of their own besides."""

    top: Path
    own: Path
    variables: dict[str, str]

    @classmethod
    def begin(cls, folder: Path, program: Program, built: Path) -> Reader:
        """A copy with the programs of sdk/c built."""
        paths = f"{folder / 'bin'}:{os.environ['PATH']}"
        reader = cls(folder / "top", folder / "own", {"PATH": paths, VARIABLE: str(program.path)})
        reader.own.mkdir()
        shutil.copytree(SDK, reader.top / "sdk", ignore=shutil.ignore_patterns("c", "tests", "out"))
        (reader.top / "sdk" / "c").symlink_to(built)
        (reader.top / "examples").symlink_to(REPOSITORY / "examples")
        (reader.top / "tp").symlink_to(program.path)
        # (the tools then look for no other Python than that of the tests, which has all libraries)
        python = folder / "bin" / "python3"
        python.parent.mkdir()
        python.write_text(f'#!/bin/sh\nexec {sys.executable} "$@"\n')
        python.chmod(0o755)
        return reader

    def follow(self, page: Path, folder: Path) -> None:
        """Lays down each file, runs each command, and compares what it writes. Commands are for this
        folder, but those with PATH for a folder of one's own, where the files are."""
        variables = os.environ | self.variables
        for it in read_page(page):
            if isinstance(it, File):
                file = self.own / it.name
                file.parent.mkdir(exist_ok=True)
                file.write_text(self._with_path(it.text))
            elif it.is_run:
                place = self.own if _PATH.search(it.text) else folder
                command = ["bash", "-c", self._with_path(it.text)]
                ended = subprocess.run(
                    command, cwd=place, env=variables, capture_output=True, text=True, check=False
                )
                written = (ended.stderr + ended.stdout).splitlines()
                assert (it.text, written) == (it.text, it.due), (it.text, written, it.due)

    def _with_path(self, text: str) -> str:
        return _PATH.sub(f"{self.top}/", text)

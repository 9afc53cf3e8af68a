"""The gallery: the images of examples/, what each is and how it is run, and the channels with their secrets."""

from __future__ import annotations

import re
from os.path import commonprefix
from pathlib import Path
from typing import Any

_COMMAND = re.compile(r"^# *\./tp (.+) < examples/", re.MULTILINE)
_SECRET = re.compile(r"secret-(\d+)\.toml")


def every_image(examples: Path) -> dict[str, Any]:
    """What the page knows of its images; files are told from examples/ on."""
    return {
        "images": [_image(file) for file in sorted(examples.glob("*.toml"), key=_by_number)],
        "channels": [
            _channel(folder, examples)
            for folder in sorted((examples / "channels").iterdir())
            if folder.is_dir()
        ],
    }


def _by_number(file: Path) -> tuple[str | int, ...]:
    """So that rule 10 comes after rule 9."""
    return tuple(int(it) if it.isdigit() else it for it in re.split(r"(\d+)", file.name))


def _image(file: Path) -> dict[str, Any]:
    text = file.read_text()
    comment = " ".join(it.removeprefix("#").strip() for it in text.partition("\n#\n")[0].splitlines())
    found = _COMMAND.search(text)
    if found is None:
        raise ValueError(f"{file}: no comment tells how it is run")
    command, *words = found[1].split()
    flags = {name.removeprefix("--"): int(value) for name, value in zip(words[::2], words[1::2])}
    return {
        "file": file.name,
        "title": re.split(r"[.;] " if comment.startswith("Refused") else r"[.:;] ", f"{comment} ")[0].strip(),
        "command": {"command": command} | flags,
    }


def _channel(folder: Path, examples: Path) -> dict[str, Any]:
    """A channel: an image for each secret, how many slots its reports are of, and the guards that close it."""
    files = sorted(folder.glob("secret-*.toml"), key=_by_number)
    guards = sorted(it.name for it in folder.iterdir() if it.is_dir() and it.name != "run")
    report = (folder / "run" / files[0].with_suffix(".report").name).read_text()
    harts = 1 + max(
        (int(it) for it in re.findall(r"^hart = (\d)", files[0].read_text(), re.MULTILINE)), default=0
    )
    return {
        "name": folder.name,
        "files": [str(it.relative_to(examples)) for it in files],
        "guards": guards,
        "slots": sum(int(it) for it in re.findall(r"^switch .* count (\d+)$", report, re.MULTILINE)) // harts,
        "secret": _secret([it.read_text() for it in files]),
    }


def _secret(texts: list[str]) -> dict[str, Any]:
    """The lines in which the images differ, each image's own, between the lines that stand before and after."""
    lines = [text.splitlines(keepends=True) for text in texts]
    before = len(_common(lines))
    after = len(_common([it[: before - 1 : -1] for it in lines]))
    return {
        "before": lines[0][before - 1],
        "after": lines[0][-after],
        "lines": ["".join(it[before:-after]) for it in lines],
    }


def _common(lines: list[list[str]]) -> list[str]:
    return list(commonprefix(lines))

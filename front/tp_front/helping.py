"""The texts of --help."""

from __future__ import annotations

import textwrap
from collections.abc import Iterable

from tp_front.places import TOP, tell, version
from tp_front.table import Command, Option, Table

_WIDTH = 100
_NAME = "./tp" if (TOP / "crates.txt").is_file() else "tp"


def whole(table: Table) -> str:
    """The help of the program."""
    reading = [(command.usage, command.what) for command in table.commands if command.reads]
    making = [(command.usage, command.what) for command in table.commands if not command.reads]
    parts = [
        _wrapped(f"tp {version()} {table.about}."),
        "usage: tp COMMAND [OPTIONS] [IMAGE]",
        "commands that read an image, from the file IMAGE, or else from standard input:\n" + _rows(reading),
        "commands that make one:\n" + _rows(making),
        "options, each wanted by the commands that have it:\n" + _rows(_options(table.options)),
        "words of the front:\n" + _rows((row.name, row.what) for row in table.own),
        f"for example:\n  {_NAME} {table.commands[2].example}",
        "exit codes:\n" + _rows((row.name, row.what) for row in table.exits),
        "the environment:\n" + _rows((row.name, row.what) for row in table.variables),
        table.proved,
        table.run_time,
    ]
    return "\n\n".join(parts) + "\n"


def one(command: Command, table: Table) -> str:
    """The help of a command."""
    parts = [f"tp {command.usage}: {command.what}.", command.text]
    image = [("IMAGE", "the image's file; without one, standard input is read")] if command.reads else []
    parts += [_rows([*_options(command.options), *image]), f"for example:\n  {_NAME} {command.example}"]
    parts.append("exit codes:\n" + _rows((row.name, row.what) for row in table.exits_of(command)))
    return "\n\n".join(parts) + "\n"


def answer(table: Table, words: list[str]) -> int:
    """Writes the help that the words of a call ask for."""
    names = [word for word in words if not word.startswith("-") and word != "help"]
    if not names:
        print(whole(table), end="")
        return 0
    command = table.command(names[0])
    if command is None:
        tell(f"there is no command {names[0]}: tp --help tells all")
        return 2
    print(one(command, table), end="")
    return 0


def _options(options: Iterable[Option]) -> list[tuple[str, str]]:
    rows = []
    for option in options:
        rows.append((option.usage, f"{option.what}: {option.range}"))
        rows += [(f"  {word}", what) for word, what in option.words.items()]
    return rows


def _rows(rows: Iterable[tuple[str, str]]) -> str:
    """Names, and beside each what is said of it."""
    found = list(rows)
    wide = max((len(name) for name, _ in found), default=0) + 4
    lines = []
    for name, what in found:
        lines += textwrap.wrap(
            what, _WIDTH, initial_indent=f"  {name}".ljust(wide), subsequent_indent=" " * wide
        )
    return "\n".join(lines)


def _wrapped(text: str) -> str:
    return textwrap.fill(text, _WIDTH)

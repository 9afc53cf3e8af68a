"""The table of words, words.toml."""

from __future__ import annotations

import tomllib
from dataclasses import dataclass, field
from typing import Any

from tp_front.places import TABLE


_OF_IMAGES = ("1", "3", "6")


@dataclass(frozen=True)
class Option:
    """An option: a whole number from 0 to the greatest, or one of these words."""

    name: str
    value: str
    what: str
    greatest: int | None = None
    words: dict[str, str] = field(default_factory=dict)

    @property
    def flag(self) -> str:
        """The option as it is written."""
        return f"--{self.name}"

    @property
    def usage(self) -> str:
        """The option with what stands for its value."""
        return f"{self.flag} {self.value}"

    @property
    def range(self) -> str:
        """Which values it takes."""
        if self.greatest is None:
            return f"one of {', '.join(self.words)}"
        return f"a whole number from 0 to {self.greatest:,}"

    def takes(self, text: str) -> bool:
        """Whether the program takes the text for a value: digits, maybe after a sign."""
        if self.greatest is None:
            return text in self.words
        digits = text[1:] if text[:1] in ("+", "-") else text
        return digits.isascii() and digits.isdigit() and 0 <= int(text) <= self.greatest


@dataclass(frozen=True)
class Command:
    """A command of the program."""

    name: str
    options: tuple[Option, ...]
    reads: bool
    what: str
    text: str
    example: str

    @property
    def usage(self) -> str:
        """The command with its options and, where it reads one, its image."""
        image = ["[IMAGE]"] if self.reads else []
        return " ".join([self.name, *(option.usage for option in self.options), *image])

    def option(self, flag: str) -> Option | None:
        """Its option of that name."""
        return next((option for option in self.options if option.flag == flag), None)


@dataclass(frozen=True)
class Row:
    """A word, a number or a name of the table, and what is said of it."""

    name: str
    what: str


@dataclass(frozen=True)
class Table:
    """All of it."""

    about: str
    proved: str
    run_time: str
    options: tuple[Option, ...]
    commands: tuple[Command, ...]
    own: tuple[Row, ...]
    exits: tuple[Row, ...]
    variables: tuple[Row, ...]

    def command(self, name: str) -> Command | None:
        """The command of that name."""
        return next((command for command in self.commands if command.name == name), None)

    def exits_of(self, command: Command) -> list[Row]:
        """How a command may end: one that reads no image can't find it at fault."""
        return [row for row in self.exits if command.reads or row.name not in _OF_IMAGES]


def load() -> Table:
    """Reads the table."""
    raw = tomllib.loads(TABLE.read_text())
    options = {name: Option(name, **row) for name, row in raw["option"].items()}
    return Table(
        raw["about"],
        raw["proved"].strip(),
        raw["run_time"].strip(),
        tuple(options.values()),
        tuple(_command(row, options) for row in raw["command"]),
        tuple(Row(row["words"], row["what"]) for row in raw["own"]),
        tuple(Row(str(row["code"]), row["what"]) for row in raw["exit"]),
        tuple(Row(row["name"], row["what"]) for row in raw["variable"]),
    )


def _command(row: dict[str, Any], options: dict[str, Option]) -> Command:
    own = tuple(options[name] for name in row["options"])
    return Command(row["name"], own, row["reads"], row["what"], row["text"].strip(), row["example"])


@dataclass
class Words:
    """The words that the program was given, taken apart: its command, options with their values, others."""

    command: str = ""
    options: list[tuple[str, str | None]] = field(default_factory=list)
    others: list[str] = field(default_factory=list)

    @classmethod
    def of(cls, words: list[str]) -> Words:
        """Takes them apart; the word after an option is its value, unless it looks like an option."""
        found = cls()
        left = list(reversed(words))
        while left:
            word = left.pop()
            if word.startswith("--") and "=" in word:
                flag, _, value = word.partition("=")
                found.options.append((flag, value))
            elif word.startswith("--"):
                has_value = bool(left) and (left[-1] == "-" or not left[-1].startswith("-"))
                found.options.append((word, left.pop() if has_value else None))
            elif not found.command:
                found.command = word
            else:
                found.others.append(word)
        return found

    def value(self, flag: str) -> str | None:
        """The value of an option."""
        return next((value for name, value in self.options if name == flag), None)

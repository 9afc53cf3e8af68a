"""Why the program refused its words: a line for standard error."""

from __future__ import annotations

from difflib import get_close_matches

from tp_front.image import Image
from tp_front.places import tell
from tp_front.table import Command, Option, Table, Words


def tell_why(table: Table, words: list[str], image: Image | None) -> None:
    """Says on standard error why the program has refused these words."""
    command = table.command(Words.of(words).command)
    tell(fault(table, words, image) or (command and _image(command, words, image)) or "see tp --help")


def fault(table: Table, words: list[str], image: Image | None = None) -> str | None:
    """Which word is at fault or missing, whatever the image is, of which more is told where it's known."""
    found = Words.of(words)
    names = [command.name for command in table.commands]
    if not found.command:
        return f"no command is named: it is one of {', '.join(names)} (tp --help)"
    command = table.command(found.command)
    if command is None:
        return f"there is no command {found.command}{_meant(found.command, names)} (tp --help)"
    text = _options(command, found, image) or _too_many(command, found.others)
    return text and f"{text} (tp --help {command.name})"


def _too_many(command: Command, others: list[str]) -> str | None:
    if not others:
        return None
    return f"{others[0]} is a word too many: {command.name} reads {'one' if command.reads else 'no'} image"


def _options(command: Command, words: Words, image: Image | None) -> str | None:
    flags = [option.flag for option in command.options]
    given = [flag for flag, _ in words.options]
    for flag, value in words.options:
        option = command.option(flag)
        if option is None:
            has = f"has {', '.join(flags)} alone" if flags else "has no options"
            return f"{command.name} has no {flag}{_meant(flag, flags)}: it {has}"
        if given.count(flag) > 1:
            return f"{flag} stands more than once"
        if value is None:
            return f"{flag} wants {option.value}, {option.range}"
        if not option.takes(value):
            return _out_of_range(option, value, image)
    missing = [option for option in command.options if option.flag not in given]
    if missing:
        wanted = "; ".join(f"{option.usage}, {option.range}" for option in missing)
        return f"{command.name} wants {wanted}"
    return None


def _out_of_range(option: Option, value: str, image: Image | None) -> str:
    text = f"{option.flag} {value or 'of no letters'}: it takes {option.range}"
    if option.name == "domain" and image is not None:
        text += f"; {_domains(image)}"
    return text


def _image(command: Command, words: list[str], image: Image | None) -> str | None:
    """Why words that are a command were refused: the image lacks what they name."""
    if command.option("--domain"):
        has = f": {_domains(image)}" if image is not None else ""
        return f"the image has no domain {Words.of(words).value('--domain')}{has}"
    if command.option("--off"):
        harts = f", and this one has {image.harts()}" if image is not None else ""
        return f"{command.name} is for images of one hart{harts}"
    return None


def _domains(image: Image) -> str:
    named = ", ".join(f"{number} is {name}" for number, name in enumerate(image.names()))
    return f"of the image's domains {named}" if named else "the image has no domains"


def _meant(word: str, names: list[str]) -> str:
    near = get_close_matches(word, names, 1)
    return f", maybe {near[0]}" if near else ""

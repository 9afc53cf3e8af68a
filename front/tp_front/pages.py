"""The man pages, of the table that --help is made of."""

from __future__ import annotations

from collections.abc import Iterable
from pathlib import Path

from tp_front import completions
from tp_front.places import version
from tp_front.table import Command, Option, Table

_SEE_ALSO = "docs/IMAGE.md and docs/REPORT.md, beside the examples in share/doc/kizhombai"


def write_all(table: Table, folder: Path) -> int:
    """Writes the pages and the completions into a folder, as `make install` places them."""
    pages = folder / "man1"
    pages.mkdir(parents=True, exist_ok=True)
    (pages / "tp.1").write_text(_whole(table))
    for command in table.commands:
        (pages / f"tp-{command.name}.1").write_text(_one(command, table))
    (folder / "tp").write_text(completions.bash(table))
    (folder / "_tp").write_text(completions.zsh(table))
    return 0


def _whole(table: Table) -> str:
    own = [(row.name, row.what) for row in table.own]
    commands = [(command.usage, command.what) for command in table.commands]
    return "".join(
        [
            _head("tp", table.about),
            _section("SYNOPSIS", ".B tp\n\\fICOMMAND\\fR [\\fIOPTIONS\\fR] [\\fIIMAGE\\fR]\n"),
            _section(
                "COMMANDS", _text("IMAGE is a file; without one, standard input is read.") + _rows(commands)
            ),
            _section("OPTIONS", _options(table.options)),
            _section("WORDS OF THE FRONT", _rows(own)),
            _section("EXIT STATUS", _rows((row.name, row.what) for row in table.exits)),
            _section("ENVIRONMENT", _rows((row.name, row.what) for row in table.variables)),
            _section("PROVED AND UNPROVED", _text(table.proved)),
            _section("LONG RUNS", _text(table.run_time)),
            _section("EXAMPLES", _example(table.commands[2])),
            _section(
                "SEE ALSO", _text(", ".join([*(f"tp-{it.name}(1)" for it in table.commands), _SEE_ALSO]))
            ),
        ]
    )


def _one(command: Command, table: Table) -> str:
    usage = "\n".join([".B tp", _escaped(command.usage)])
    other = "The tool tp-run of the same name compiles programs first: see tp-run --help. "
    return "".join(
        [
            _head(f"tp-{command.name}", command.what),
            _section("SYNOPSIS", usage + "\n"),
            _section("DESCRIPTION", _text(command.text)),
            _section("OPTIONS", _options(command.options)) if command.options else "",
            _section("EXIT STATUS", _rows((row.name, row.what) for row in table.exits_of(command))),
            _section("EXAMPLES", _example(command)),
            _section("SEE ALSO", _text((other if command.name == "run" else "") + f"tp(1), {_SEE_ALSO}")),
        ]
    )


def _head(name: str, what: str) -> str:
    title = f'.TH {name.upper()} 1 "" "tp {version()}" "Kizhombai"\n'
    return title + _section("NAME", f"{_escaped(name)} \\- {_escaped(what)}\n")


def _section(name: str, text: str) -> str:
    return f".SH {name}\n{text}"


def _text(text: str) -> str:
    return _escaped(text).replace("\n\n", "\n.PP\n") + "\n"


def _example(command: Command) -> str:
    return f".nf\ntp {_escaped(command.example)}\n.fi\n"


def _options(options: Iterable[Option]) -> str:
    text = ""
    for option in options:
        text += _rows([(option.usage, f"{option.what}: {option.range}")])
        if option.words:
            text += f".RS\n{_rows(option.words.items())}.RE\n"
    return text


def _rows(rows: Iterable[tuple[str, str]]) -> str:
    return "".join(f".TP\n.B {_escaped(name)}\n{_escaped(what)}\n" for name, what in rows)


def _escaped(text: str) -> str:
    """A text of no requests and no escapes."""
    lines = text.replace("\\", "\\e").replace("-", "\\-").splitlines()
    return "\n".join("\\&" + line if line[:1] in (".", "'") else line for line in lines)

"""What was proved, of which sources, by which kit: written as JSON, and held against what is here."""

from __future__ import annotations

import json
import re
import shutil
import subprocess
from pathlib import Path
from typing import Any

from tp_front.numbers import Numbers
from tp_front.places import PROGRAM, TOP, TOP_CALL, tell, version
from tp_front.sources import Sources, sum_of_file

_DIFFERS = 1
_USAGE = 2
_NO_PROGRAM = 125
_INSTALLED = TOP / "certificate.json"
_CLAUSE = re.compile(r"^    (?:requires|ensures)\*? (?:ghost )?(\w+) \{", re.MULTILINE)
_COUNT = re.compile(r"^== (.+)$|^logic=proved functions=(\d+) ", re.MULTILINE)
_COUNTS = Numbers("functions.json", 2000)


def answer(is_proved: bool, words: list[str]) -> int:
    """Writes the certificate, or checks the one that the words name."""
    if not words:
        return _write(is_proved)
    if len(words) == 2 and words[0] == "--check":
        return _check(Path(words[1]))
    tell("it is --certificate, or --certificate --check FILE")
    return _USAGE


def _write(is_proved: bool) -> int:
    sources = Sources.read()
    if sources is None and _INSTALLED.is_file():
        print(_INSTALLED.read_text(), end="")
        return 0
    if not is_proved or sources is None:
        tell("no proved program of these sources is here: ./tp --prove proves and builds it")
        return _NO_PROGRAM
    print(json.dumps(_made(sources), indent=2))
    return 0


def _made(sources: Sources) -> dict[str, Any]:
    commit, is_of_it = _commit()
    counts = {one: int(count) for one, count in _COUNTS.all().items()}
    crates = [
        {"name": name, "sources": one, "functions": counts.get(one)} for name, one in sources.crates.items()
    ]
    again = "./tp --prove && ./tp --certificate --check FILE"
    return {
        "program": "tp",
        "version": version(),
        "commit": commit,
        "is_of_that_commit": is_of_it,
        "kit": _kit(),
        "sums": "sha256",
        "sources_sum": sources.whole,
        "program_sum": sum_of_file(PROGRAM),
        "crates": crates,
        "top_call": {"file": str(TOP_CALL.relative_to(TOP)), "function": "tp_main", "clauses": _clauses()},
        "check_again": f"git checkout {commit} && {again}" if commit else again,
    }


def _check(file: Path) -> int:
    """Says in what the certificate differs from what is here."""
    sources = Sources.read()
    try:
        found = json.loads(file.read_text())
        differs = _of_program(found)
        if sources is not None:
            differs += _of_sources(found, sources) + _of_clauses(found)
    except OSError as error:
        tell(f"{file}: {error.strerror}")
        return _USAGE
    except (ValueError, KeyError, TypeError, AttributeError):
        tell(f"{file} is no certificate")
        return _USAGE
    for line in differs:
        print(f"differs: {line}")
    if differs:
        return _DIFFERS
    where = "the program, the sources and the clauses of tp_main are"
    print(f"{where if sources is not None else 'the program is'} those of the certificate")
    if sources is None:
        print("the sources are not here, and were not looked at")
    return 0


def _of_program(found: dict[str, Any]) -> list[str]:
    if not PROGRAM.is_file():
        return ["there is no program here: ./tp --prove proves and builds it"]
    if sum_of_file(PROGRAM) == found["program_sum"]:
        return []
    kit = _said("rt", "version")
    by = f", by another kit: {kit}, and not {found['kit']}" if kit not in (None, found["kit"]) else ""
    return [f"the program is another{by}"]


def _of_sources(found: dict[str, Any], sources: Sources) -> list[str]:
    said = {crate["name"]: crate["sources"] for crate in found["crates"]}
    differs = [f"there is no crate {name}" for name in said if name not in sources.crates]
    differs += [f"the crate {name} is new" for name in sources.crates if name not in said]
    differs += [
        f"the sources of the crate {name}"
        for name, one in sources.crates.items()
        if said.get(name, one) != one
    ]
    if not differs and sources.whole != found["sources_sum"]:
        differs.append("the sum of all sources")
    return differs


def _of_clauses(found: dict[str, Any]) -> list[str]:
    said = list(found["top_call"]["clauses"])
    here = _clauses()
    differs = [f"tp_main has no clause {name}" for name in said if name not in here]
    return differs + [f"tp_main has a clause {name} more" for name in here if name not in said]


def _clauses() -> list[str]:
    """The clauses of the top call, what it asks for first."""
    text = TOP_CALL.read_text()
    contract = text[text.index("pub fn tp_main") :].partition("\n{\n")[0]
    return _CLAUSE.findall(contract)


def count(log: Path, top: Path) -> int:
    """Keeps how many functions of each crate were proved, as a log of `rt ci` on the sources in a folder
    tells. (Of a crate that an earlier run proved it tells none: so they are kept, by the sum of the crate.)
    """
    sources = Sources.read(top)
    counts: dict[str, float] = {}
    crate = ""
    for name, functions in _COUNT.findall(log.read_text(errors="replace")):
        if name:
            crate = name
        elif sources is not None and crate in sources.crates:
            counts[sources.crates[crate]] = int(functions)
    _COUNTS.keep(counts)
    return 0


def _commit() -> tuple[str | None, bool]:
    """The commit that is checked out here, and whether the sources are its own."""
    git = ("git", "-C", str(TOP))
    if _said(*git, "rev-parse", "--show-toplevel") != str(TOP):
        return None, False
    changed = _said(*git, "status", "--porcelain", "--", "crates", "crates.txt", "HANDLES")
    return _said(*git, "rev-parse", "HEAD"), changed == ""


def _kit() -> str | None:
    """The kit's line: that which the proof left beside the program, else that of the kit that is here."""
    left = PROGRAM.with_name("kit")
    if left.is_file() and left.stat().st_mtime >= PROGRAM.stat().st_mtime:
        return left.read_text().strip()
    return _said("rt", "version")


def _said(*command: str) -> str | None:
    """What a command wrote, where it is there and did its work."""
    if shutil.which(command[0]) is None:
        return None
    ran = subprocess.run(command, capture_output=True, text=True, check=False)
    return ran.stdout.strip() if ran.returncode == 0 else None

"""A sweep's rows in Parquet: by the library where it is there, and by a stand-in that keeps what it is given."""

from __future__ import annotations

import csv
import json
import os
import subprocess
import sys
from itertools import product
from pathlib import Path
from typing import Any

import pytest
from conftest import SDK
from test_sweep import VICTIM, answering, runs_in
from test_waiting import script

from tp_sdk.sweeping.rows import COLUMNS

# What a sweep uses of pyarrow. As there, a column has values of one type or none, and a table is no value.
STAND_IN = """
class ArrowInvalid(ValueError):
    pass


class Table:
    def __init__(self, columns):
        self.columns = columns

    def to_pylist(self):
        return [dict(zip(self.columns, row)) for row in zip(*self.columns.values())]


def table(columns):
    for name, column in columns.items():
        kinds = {type(it) for it in column} - {type(None)}
        if len(kinds) > 1 or kinds - {bool, int, float, str}:
            raise ArrowInvalid(f"{name}: {kinds}")
    return Table(columns)
"""
FILES = """
import json
from pyarrow import ArrowInvalid, Table


def write_table(table, out):
    out.write(b"PAR1" + json.dumps(table.columns).encode())


def read_table(file):
    data = file.read()
    if data[:4] != b"PAR1":
        raise ArrowInvalid("no magic bytes")
    return Table(json.loads(data[4:]))
"""
REFUSES = """#!/bin/sh
cat > /dev/null
echo refused K17 at 0 found 1 wanted 2
exit 1
"""
# A module that can't be imported, wherever it is installed.
NONE = "raise ImportError\n"
COLOURS = "domain.spy.colours"
GRID = ("--vary", "mem=machine.costs.mem:40,41", "--vary", f"{COLOURS}=[2],[3]", "--off", "none,flush")
TYPES = {
    "mem": int,
    COLOURS: str,
    "off": str,
    "observer": str,
    "secret": str,
    "secrets": int,
    "sections": int,
    "entropy": float,
    "capacity": float,
    "bits_per_slot": float,
    "bits_per_million_cycles": float,
    "slots": int,
    "slot_cycles": int,
    "cycles": int,
    "pad": int,
    "pad_used": int,
    "retired": int,
    "status": str,
    "note": str,
    "sweep": str,
}


@pytest.fixture
def ran(tmp_path: Path, monkeypatch: pytest.MonkeyPatch) -> Path:
    """The runs of a program that answers at once, and a stand-in for the library."""
    ran = tmp_path / "ran"
    ran.write_text("")
    monkeypatch.setenv("TP", str(script(tmp_path / "tp", answering(ran))))
    package = tmp_path / "modules" / "pyarrow"
    package.mkdir(parents=True)
    (package / "__init__.py").write_text(STAND_IN)
    (package / "parquet.py").write_text(FILES)
    monkeypatch.setenv("PYTHONPATH", str(tmp_path / "modules"))
    return ran


def sweep(out: Path, *words: str) -> subprocess.CompletedProcess[str]:
    command = [sys.executable, SDK / "tp-sweep", VICTIM, "--slots", "1", "-o", out, *words]
    return subprocess.run(command, capture_output=True, text=True, check=False)


def columns_of(file: Path) -> dict[str, list[Any]]:
    """The columns that the stand-in was given."""
    data = file.read_bytes()
    assert data[:4] == b"PAR1"
    columns: dict[str, list[Any]] = json.loads(data[4:])
    return columns


def test_the_rows_and_columns_are_those_of_csv(ran: Path, tmp_path: Path) -> None:
    for name in ("a.csv", "a.parquet"):
        ended = sweep(tmp_path / name, *GRID)
        assert (ended.returncode, ended.stderr) == (0, "")
    with (tmp_path / "a.csv").open() as lines:
        head, *rows = csv.reader(lines)
    columns = columns_of(tmp_path / "a.parquet")
    assert list(columns) == head == list(TYPES)
    assert len(rows) == 2 * 2 * 2 * 2
    for place, (name, column) in enumerate(columns.items()):
        assert {type(it) for it in column} == {TYPES[name]}, name
        assert [str(it) for it in column] == [row[place] for row in rows], name


def test_what_is_refused_has_no_numbers(ran: Path, tmp_path: Path) -> None:
    script(tmp_path / "tp", REFUSES)
    assert sweep(tmp_path / "a.parquet", "--vary", "machine.costs.mem=40", "--jobs", "1").returncode == 0
    columns = columns_of(tmp_path / "a.parquet")
    numbers = [name for name in COLUMNS if TYPES[name] is not str and name not in ("slots", "secrets")]
    assert [columns[name] for name in numbers] == [[None, None]] * len(numbers)
    assert columns["status"] == ["refused"] * 2 and columns["note"][0].startswith("K17")


def test_a_sweep_goes_on_from_its_file(ran: Path, tmp_path: Path) -> None:
    out = tmp_path / "a.parquet"
    assert sweep(out, *GRID).returncode == 0
    first = out.read_bytes()
    assert runs_in(ran) == 8
    assert sweep(out, *GRID).returncode == 0
    assert out.read_bytes() == first and runs_in(ran) == 8
    # a greater grid has what is new run, and its own order
    greater = [*GRID[:3], GRID[3] + ",[2, 3]", "--off", "flush,none,pad"]
    assert sweep(out, *greater).returncode == 0
    assert runs_in(ran) == 2 * 3 * 3
    columns = columns_of(out)
    points = list(zip(columns["mem"], columns[COLOURS], columns["off"]))[::2]
    assert points == list(product((40, 41), ("[2]", "[3]", "[2, 3]"), ("flush", "none", "pad")))


def test_a_file_of_something_else_is_told_of(ran: Path, tmp_path: Path) -> None:
    out = tmp_path / "a.parquet"
    out.write_text("a,b\n1,2\n")
    ended = sweep(out, *GRID)
    assert (ended.returncode, ended.stderr) == (1, f"tp-sweep: {out}: no Parquet\n")
    assert out.read_text() == "a,b\n1,2\n" and runs_in(ran) == 0


def test_what_is_done_is_kept_where_a_worker_ends(ran: Path, tmp_path: Path) -> None:
    out = tmp_path / "a.parquet"
    # (the fourth run ends the process that asks for it)
    script(tmp_path / "tp", answering(ran, f'[ $(grep -c run "{ran}") -lt 4 ] || kill -9 $PPID'))
    ended = sweep(out, "--vary", "machine.costs.mem=40..47", "--jobs", "2")
    assert ended.returncode == 1 and ended.stderr.count("\n") == 1
    # (the two observers of each point that was done by then, if one was)
    kept = len(columns_of(out)["observer"]) if out.stat().st_size else 0
    assert kept % 2 == 0 and kept < 16
    script(tmp_path / "tp", answering(ran))
    assert sweep(out, "--vary", "machine.costs.mem=40..47").returncode == 0
    assert columns_of(out)["machine.costs.mem"] == [it for it in range(40, 48) for _ in range(2)]


def test_without_the_library_it_is_asked_for_and_the_file_stays(ran: Path, tmp_path: Path) -> None:
    out = tmp_path / "a.parquet"
    assert sweep(out, *GRID).returncode == 0
    before, runs = out.read_bytes(), runs_in(ran)
    (tmp_path / "modules" / "pyarrow" / "__init__.py").write_text(NONE)
    for words in (GRID, (*GRID, "--noise", "1")):
        ended = sweep(out, *words)
        assert ended.returncode == 3 and ended.stderr.count("\n") == 1
        assert ended.stderr.startswith("tp-sweep: ") and " has no pyarrow" in ended.stderr
        assert "pip install pyarrow" in ended.stderr
    assert out.read_bytes() == before and runs_in(ran) == runs


def test_the_library_itself_takes_it(ran: Path, tmp_path: Path, monkeypatch: pytest.MonkeyPatch) -> None:
    parquet = pytest.importorskip("pyarrow.parquet")
    monkeypatch.delenv("PYTHONPATH")
    assert sweep(tmp_path / "a.parquet", *GRID).returncode == 0
    table = parquet.read_table(tmp_path / "a.parquet")
    kinds = {"int64": int, "double": float, "string": str}
    assert {field.name: kinds[str(field.type)] for field in table.schema} == TYPES
    assert table.num_rows == 16 and os.path.getsize(tmp_path / "a.parquet") > 0

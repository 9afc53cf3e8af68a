"""The files of a sweep's rows: CSV, JSON lines, Parquet. A sweep goes on from the rows that are in its file."""

from __future__ import annotations

import csv
import io
import json
import sys
from collections.abc import Iterable, Sequence
from pathlib import Path
from typing import Any, Protocol

from tp_sdk.faults import STANDARD, Fault, MissingLibrary, read_bytes, read_text, write_bytes
from tp_sdk.sweeping.plan import Plan
from tp_sdk.sweeping.rows import COLUMNS, SweepRow, columns_of
from tp_sdk.sweeping.values import written

# A row by its columns, each cell as the file has it.
Cells = dict[str, Any]
# A point by its values, as columns have them.
PointKey = tuple[str, ...]

_WHOLE = ("secrets", "sections", "slots", "slot_cycles", "cycles", "pad", "pad_used", "retired")
_BITS = ("entropy", "capacity", "bits_per_slot", "bits_per_million_cycles")


class Format(Protocol):
    """How rows are written and read; those of one that grows can be put behind others."""

    grows: bool

    def rows(self, file: Path) -> list[Cells]:
        """The rows of a file."""

    def encoded(self, columns: Sequence[str], rows: Sequence[Cells], is_first: bool) -> bytes:
        """Rows as bytes; before the first ones stands what a file begins with."""


class Csv:
    """Comma-separated values, below a line of the columns' names."""

    grows = True

    def rows(self, file: Path) -> list[Cells]:
        """The rows of a file."""
        try:
            lines = list(csv.reader(io.StringIO(read_text(file))))
        except csv.Error as error:
            raise Fault(f"{file}: no CSV: {error}") from None
        return [dict(zip(lines[0], line)) for line in lines[1:]]

    def encoded(self, columns: Sequence[str], rows: Sequence[Cells], is_first: bool) -> bytes:
        """Rows as bytes."""
        out = io.StringIO()
        writer = csv.writer(out, lineterminator="\n")
        if is_first:
            writer.writerow(columns)
        writer.writerows([_in_csv(name, row[name]) for name in columns] for row in rows)
        return out.getvalue().encode()


class JsonLines:
    """An object a line."""

    grows = True

    def rows(self, file: Path) -> list[Cells]:
        """The rows of a file."""
        try:
            return [dict(json.loads(line)) for line in read_text(file).splitlines()]
        except (ValueError, TypeError):
            raise Fault(f"{file}: its lines are no objects of JSON") from None

    def encoded(self, columns: Sequence[str], rows: Sequence[Cells], is_first: bool) -> bytes:
        """Rows as bytes."""
        return "".join(f"{json.dumps({it: row[it] for it in columns})}\n" for row in rows).encode()


class Parquet:
    """A table in columns, by the library pyarrow."""

    grows = False

    def __init__(self) -> None:
        try:
            import pyarrow
            import pyarrow.parquet
        except ImportError:
            raise MissingLibrary("pyarrow", "pyarrow") from None
        self._arrow = pyarrow

    def rows(self, file: Path) -> list[Cells]:
        """The rows of a file."""
        try:
            table = self._arrow.parquet.read_table(io.BytesIO(read_bytes(file)))
        except self._arrow.ArrowInvalid:
            raise Fault(f"{file}: no Parquet") from None
        return [dict(it) for it in table.to_pylist()]

    def encoded(self, columns: Sequence[str], rows: Sequence[Cells], is_first: bool) -> bytes:
        """Rows as bytes."""
        cells = {name: _in_parquet(name, [row[name] for row in rows]) for name in columns}
        out = io.BytesIO()
        self._arrow.parquet.write_table(self._arrow.table(cells), out)
        return out.getvalue()


_FORMATS: dict[str, type[Csv] | type[JsonLines] | type[Parquet]] = {
    ".csv": Csv,
    ".jsonl": JsonLines,
    ".parquet": Parquet,
}


def format_of(file: Path) -> Format:
    """The format that a file's ending names; standard output has CSV."""
    if file == STANDARD:
        return Csv()
    if file.suffix not in _FORMATS:
        raise Fault(f"{file}: a table is {', '.join(f'NAME{it}' for it in _FORMATS)}")
    return _FORMATS[file.suffix]()


class Table:
    """The file of a plan's rows; with no file, rows alone."""

    def __init__(self, file: Path | None, plan: Plan) -> None:
        self._file, self._plan = file, plan
        self._columns = columns_of(plan.names)
        self._format: Format = Csv() if file is None else format_of(file)
        self._cells = self._read()
        self.there = self._points_there()
        self._drop_halves()
        self._added: list[Cells] = []
        self._is_empty = not self._cells
        if file is not None and self._is_empty:
            self._begin(file)

    def add(self, rows: Iterable[SweepRow]) -> None:
        """Takes a point's rows, and has them in the file, where that can grow."""
        cells = [row.row() for row in rows]
        if self._file is None:
            return
        if not self._format.grows:
            self._added += cells
        else:
            _append(self._file, self._format.encoded(self._columns, cells, False))

    def close(self) -> None:
        """Has what was added in a file that can't grow."""
        if self._added and self._file is not None:
            self._cells += self._added
            self._added = []
            self._write_whole(self._cells)

    def put_in_order(self) -> None:
        """Has the rows in the grid's order, those of no point of it after them."""
        if self._file in (None, STANDARD) or self._is_empty:
            return  # (points are added in that order)
        cells = self._read()
        places = {self._plan.key(it): it for it in range(len(self._plan.points))}
        last = len(places)
        ordered = sorted(cells, key=lambda row: places.get(self._key(row), last))
        if ordered != cells:
            self._write_whole(ordered)

    def rows_there(self, point: int) -> list[SweepRow]:
        """The rows that the file has of a point."""
        varied = dict(zip(self._plan.names, self._plan.points.values(point)))
        rows = self.there[self._plan.key(point)]
        return [SweepRow(varied, **{name: _out_of(name, row[name]) for name in COLUMNS}) for row in rows]

    def _begin(self, file: Path) -> None:
        if self._format.grows:
            head = self._format.encoded(self._columns, [], True)
            _write(file, head)
        else:
            _append(file, b"")  # (that it can't be written is told now)

    def _read(self) -> list[Cells]:
        file = self._file
        if file is None or file == STANDARD or not file.exists() or file.stat().st_size == 0:
            return []
        if self._format.grows:
            _cut_last_line(file)
        rows = self._format.rows(file)
        for row in rows:
            if list(row) != self._columns:
                raise Fault(f"{file}: it is of another sweep: its columns are others; give -o another name")
            if row["sweep"] != self._plan.sweep:
                raise Fault(
                    f"{file}: it is of another sweep: of another image, secret, observer or number of slots; "
                    "give -o another name"
                )
        return rows

    def _points_there(self) -> dict[PointKey, list[Cells]]:
        """The points of which each observer has a row."""
        points: dict[PointKey, list[Cells]] = {}
        for row in self._cells:
            points.setdefault(self._key(row), []).append(row)
        return {key: rows for key, rows in points.items() if len(rows) == len(self._plan.observers)}

    def _drop_halves(self) -> None:
        """Leaves out the rows of points that not every observer has one of."""
        whole = [row for row in self._cells if self._key(row) in self.there]
        if len(whole) < len(self._cells):
            self._cells = whole
            self._write_whole(whole)

    def _key(self, row: Cells) -> PointKey:
        return tuple(written(row[name]) for name in self._plan.names)

    def _write_whole(self, cells: list[Cells]) -> None:
        assert self._file is not None
        beside = self._file.with_name(f"{self._file.name}.new")
        _write(beside, self._format.encoded(self._columns, cells, True))
        beside.replace(self._file)


def _append(file: Path, data: bytes) -> None:
    if file == STANDARD:
        sys.stdout.buffer.write(data)
        sys.stdout.buffer.flush()
        return
    try:
        with file.open("ab") as out:
            out.write(data)
    except OSError as error:
        raise Fault(f"{file}: {error.strerror}") from None


def _write(file: Path, data: bytes) -> None:
    write_bytes(file, data)


def _cut_last_line(file: Path) -> None:
    """A line that was not written to its end is no row."""
    data = read_bytes(file)
    whole = data[: data.rfind(b"\n") + 1]
    if whole != data:
        write_bytes(file, whole)


def _in_csv(name: str, cell: Any) -> str:
    if cell is None and name in COLUMNS:
        return ""
    return written(cell)


def _out_of(name: str, cell: Any) -> Any:
    """A cell of a file as the row has it."""
    return number_of(name, cell) if name in (*_WHOLE, *_BITS) else cell


def number_of(name: str, cell: Any) -> float | None:
    """A number in a column that counts something: none where there is none."""
    if cell in ("", None):
        return None
    return int(cell) if name in _WHOLE else float(cell)


def _in_parquet(name: str, column: list[Any]) -> list[Any]:
    """A column, whose values are of one kind: where what is varied has several, or tables, it has texts."""
    kinds = {type(it) for it in column}
    is_one = name in COLUMNS or len(kinds) == 1 and not kinds & {list, dict}
    return column if is_one else [written(it) for it in column]

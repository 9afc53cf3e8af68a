"""The sweep as a call of Python."""

from __future__ import annotations

from collections.abc import Iterable, Iterator, Mapping
from contextlib import AbstractContextManager
from pathlib import Path

from tp_sdk.faults import Fault
from tp_sdk.program import Program
from tp_sdk.progress import Progress
from tp_sdk.sweeping.driving import Done, on_this_machine, processors
from tp_sdk.sweeping.plan import Plan, Runs
from tp_sdk.sweeping.planning import Asked, plan_of, values_of
from tp_sdk.sweeping.rows import Rows, SweepRow
from tp_sdk.sweeping.tables import Table
from tp_sdk.sweeping.values import Value, Values
from tp_sdk.words import SLOTS


def sweep(
    description: str | Path,
    vary: Mapping[str, str | Iterable[Value]] | None = None,
    *,
    slots: int,
    off: str | Iterable[str | None] | None = None,
    noise: str | Iterable[int | None] | None = None,
    harts: str | Iterable[int | None] | None = None,
    settings: Iterable[str] = (),
    secret: str | Iterable[str] | None = None,
    observer: str | Iterable[str] | None = None,
    random: int | None = None,
    secrets: int | None = None,
    seed: int = 0,
    out: str | Path | None = None,
    jobs: int | None = None,
    scheduler: str | None = None,
    yes: bool = False,
) -> list[SweepRow]:
    """Runs an image with each combination of other values in it, and tells at each point, a combination of the
    values that are no secret, how much each observer could tell of the secret.

    `description` is the file of a description or an image. `vary` has the values by their places, as `--vary` of
    `tp-sweep` names them: `machine.KEY`, `domain.NAME.KEY`, `schedule.KEY`, `schedule.NAME.KEY`, `NAME.SYMBOL`,
    each with `COLUMN=` before it where its column is to have another name; the values are a text as on the
    command line (`"8,16,32"`, `"0..15"`), or integers, truths, strings, lists, tables, or None for none. `slots`
    is how many slots each hart runs, 0 to 65,536. `off` has guards, `noise` seeds of a random program beside,
    `harts` seeds of the order of several harts' events; None in them is 'all on', 'no such program', 'the order
    of `tp run`'. `settings` are as those of `--set`, the same for all points.

    `secret` names the columns that are the secret, else it is what is varied at symbols, or as moments, of the
    first domain that has such and does not observe; `"none"`: nothing is. `observer` names domains, else each
    observes that does not have the secret, or all where there is no other. `random` draws so many points, and
    `secrets` so many values of the secret, by `seed`.

    `out` is a file `NAME.csv`, `NAME.jsonl` or `NAME.parquet`: it has each row as soon as its point is done
    (Parquet: at the end), and points that are in it are not run again. `jobs` is how many processors of this
    machine work, else all; `scheduler` is the address of a Dask scheduler whose workers do. More than a million
    runs want `yes`.

    Returns the rows of all points, in the order of the grid (the last value in `vary` varies first), at each
    point those of the observers in the image's order. Raises `tp_sdk.faults.Fault` with one sentence where
    something given is at fault, and its kind `Missing` where the program, a compiler or a library is not
    there; what was done by then is in `out`."""
    asked = Asked(
        Path(description),
        slots,
        dict(_named(where, values) for where, values in (vary or {}).items()),
        {
            name: values_of(values, f"--{name}")
            for name, values in (("off", off), ("noise", noise), ("harts", harts))
            if values is not None
        },
        tuple(settings),
        _names(secret),
        _names(observer),
        random,
        secrets,
        seed,
        yes,
    )
    if not SLOTS.low <= slots <= SLOTS.high:
        raise Fault(f"{slots} slots: {SLOTS.low:,} to {SLOTS.high:,} are wanted")
    program = Program.find()
    plan = plan_of(asked, program)
    table = Table(None if out is None else Path(out), plan)
    return [row for rows in swept(plan, program, table, jobs, scheduler) for row in rows]


def swept(
    plan: Plan,
    program: Program,
    table: Table,
    jobs: int | None = None,
    scheduler: str | None = None,
    shown: Progress = Progress(),
) -> Iterator[list[SweepRow]]:
    """Does what is left of a plan, and yields each point's rows in the grid's order. Whatever ends it, points
    that are done are in the table."""
    is_there = [plan.key(point) in table.there for point in range(len(plan.points))]
    wanted = [point for point, has in enumerate(is_there) if not has]
    runs = Runs(wanted, len(plan.secrets))
    rows = Rows(plan)
    early: dict[int, list[SweepRow]] = {}
    try:
        with _workers(plan, program, jobs, scheduler, runs) as done:
            for point, has in enumerate(is_there):
                while not has and point not in early:
                    ran = next(done)
                    shown.end()
                    made = rows.add(ran)
                    if made is not None:
                        early[ran.run.point] = made
                if not has:
                    table.add(early[point])
                yield table.rows_there(point) if has else early.pop(point)
    finally:
        for made in early.values():
            table.add(made)
        table.close()
    table.put_in_order()


def _workers(
    plan: Plan, program: Program, jobs: int | None, scheduler: str | None, runs: Runs
) -> AbstractContextManager[Done]:
    if scheduler is not None and runs:
        from tp_sdk.sweeping.cluster import on_a_cluster

        return on_a_cluster(plan, program, scheduler, runs)
    return on_this_machine(plan, program, jobs or processors(), runs)


def _named(where: str, values: str | Iterable[Value]) -> tuple[str, tuple[str, Values]]:
    """A place with its column's name before it, or none: then the place is the name."""
    name, _, place = where.rpartition("=")
    return name or place, (place, values_of(values, f"--vary {where}"))


def _names(given: str | Iterable[str] | None) -> tuple[str, ...] | None:
    if given is None:
        return None
    return (given,) if isinstance(given, str) else tuple(given)

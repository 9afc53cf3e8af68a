"""What a sweep keeps of each run, and how a run is done: where there are workers, in one of them."""

from __future__ import annotations

import hashlib
from collections.abc import Sequence
from dataclasses import dataclass
from functools import lru_cache
from operator import is_
from time import perf_counter

from tp_sdk.build import explanation_of, is_refusal
from tp_sdk.description import DomainDescription
from tp_sdk.faults import Fault, Missing
from tp_sdk.outline import BROKEN, no_part, parts_of, switch_of
from tp_sdk.program import Ended, Program
from tp_sdk.running import words_for
from tp_sdk.schedule import Entry, Time, hart_for, time_of
from tp_sdk.sweeping.images import Built, Images, Refused
from tp_sdk.sweeping.places import Variant
from tp_sdk.sweeping.plan import Plan, Run

_KEPT = 256  # parts of reports: where guards are on, those of many runs are the same
_USAGE, _TOO_LONG = 2, 6  # exit codes of the program: no such words for the image; the image is too long


@dataclass(frozen=True)
class Seen:
    """What one observer came to: its section in short, so that equal ones are equal; the cycles of its hart's
    slots, from 0 to the last one's end and in slots alone."""

    section: bytes
    status: str
    retired: int
    cycles: int
    slot_cycles: int


@dataclass(frozen=True)
class Ran:
    """What is kept of a run: of each observer, and of the switches; or why there is none."""

    run: Run
    seen: tuple[Seen, ...] = ()
    pad: int = 0
    pad_used: int = 0
    refused: str = ""


@dataclass(frozen=True)
class Chunk:
    """What a worker does at once, and how long it took."""

    ran: list[Ran]
    seconds: float


class Runner:
    """Does the runs of a plan, one after the other."""

    def __init__(self, plan: Plan, program: Program) -> None:
        self._plan, self._program = plan, program
        self._images = Images(plan.description, plan.programs, program)
        self._last_point: tuple[int, Variant] | None = None
        self._last_times: tuple[list[Entry], list[Time]] = ([], [])
        self._secrets = _Secrets(plan)
        names = [it.name for it in plan.description.domains]
        self._observers = [names.index(it) for it in plan.observers]

    def chunk(self, runs: Sequence[Run]) -> Chunk:
        """Does some runs."""
        start = perf_counter()
        return Chunk([self.ran(run) for run in runs], perf_counter() - start)

    def ran(self, run: Run) -> Ran:
        """Does a run; an image that is refused is no fault of the sweep."""
        variant = self._variant(run)
        try:
            built = self._images.build(variant)
            words = [*words_for(variant.off, seed=variant.harts), "--slots", str(self._plan.slots)]
            ended = self._program.run(words, built.text)
            if ended.code != 0:
                raise Refused(built.text, ended)
        except Refused as refused:
            return Ran(run, refused=self._why(refused, variant))
        except Missing:
            raise
        except Fault as fault:
            return Ran(run, refused=str(fault))
        return self._summary(run, built, ended)

    def _variant(self, run: Run) -> Variant:
        """What a run is of: its point is most often that of the run before."""
        if self._last_point is None or self._last_point[0] != run.point:
            self._last_point = run.point, self._plan.at(run.point)
        return self._secrets.put(self._last_point[1], run.secret)

    def _times(self, entries: list[Entry]) -> list[Time]:
        """How long the slots of each observer's hart take: the schedule is most often that of the run before."""
        if self._last_times[0] is not entries:
            harts = [hart_for(entries, it) for it in self._observers]
            self._last_times = entries, [time_of(entries, self._plan.slots, hart) for hart in harts]
        return self._last_times[1]

    def _summary(self, run: Run, built: Built, ended: Ended) -> Ran:
        file = str(self._plan.description.file)
        parts = parts_of(ended.text, file)
        try:
            sections = [parts.sections[it] for it in self._plan.observers]
            seen = tuple(map(_seen, sections, self._times(built.entries)))
            return Ran(run, seen, *_pads(parts.switches))
        except (Fault, *BROKEN):
            from tp_sdk.report import parse_report

            parse_report(ended.text, file)  # (it tells of the line)
            raise no_part(file, 1) from None

    def _why(self, refused: Refused, variant: Variant) -> str:
        ended = refused.ended
        if is_refusal(ended):
            return explanation_of(refused.text, str(self._plan.description.file), ended).reason()
        if ended.code == _USAGE and variant.off is not None:
            return f"with several harts no guard can be off, and {variant.off} is"
        if ended.code == _TOO_LONG:
            return ended.text.strip()
        raise Fault(
            f"{self._plan.description.file}: the program tp ended with {ended.code}: {ended.text.strip()}"
        )


class _Secrets:
    """Puts secrets into points. Most often they are in what domains have, and points leave that as it is: then the
    domains with a secret are made once, and not for each point anew."""

    def __init__(self, plan: Plan) -> None:
        self._plan = plan
        self._before: list[DomainDescription] = []
        self._after: dict[int, list[DomainDescription]] = {}

    def put(self, point: Variant, secret: int) -> Variant:
        """What a point says with this value of the secret."""
        if not self._plan.is_secret_of_domains:
            return self._plan.with_secret(point, secret)
        if len(self._before) != len(point.domains) or not all(map(is_, self._before, point.domains)):
            self._before, self._after = point.domains, {}
        domains = self._after.get(secret)
        if domains is None:
            domains = self._plan.with_secret(point, secret).domains
            if len(self._after) < _KEPT:
                self._after[secret] = domains
        return Variant(point.machine, domains, point.schedule, point.off, point.harts, point.noise)


@lru_cache(_KEPT)
def _seen(section: str, time: Time) -> Seen:
    """What an observer came to, by its section. (A sweep reads no more of it.)"""
    status, retired = (line.split() for line in section.split("\n", 2)[:2])
    if (status[0], retired[0]) != ("status", "retired"):
        raise ValueError("no section")
    return Seen(_in_short(section), status[1], int(retired[1]), time.cycles, time.in_slots)


@lru_cache(_KEPT)
def _pads(switches: str) -> tuple[int, int]:
    """The greatest pad of the lines of switches, and the most that one used."""
    read = [switch_of(line, 0, "") for line in switches.splitlines()]
    return max(it.pad for it in read), max(it.used for it in read)


def _in_short(section: str) -> bytes:
    return hashlib.blake2b(section.encode(), digest_size=16).digest()

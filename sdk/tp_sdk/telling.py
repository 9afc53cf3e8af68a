"""A report in words: each domain, what it came to and where, its calls, its readings; and as an object."""

from __future__ import annotations

from collections import Counter
from collections.abc import Sequence
from dataclasses import asdict
from typing import Any

from tp_sdk.calls import BAD_CALL, CALLS, EVERY_CALL, PUT, callers_of, error_of, in_words
from tp_sdk.differences import Differences
from tp_sdk.elf import Loaded
from tp_sdk.known import Known, KnownBox
from tp_sdk.outline import Switch
from tp_sdk.report import Report, Section, Stop, Thread
from tp_sdk.stops import NAMES, Overflow, overflow_of, value_in_words
from tp_sdk.symbols import Place, Symbols

_STEPS_SHOWN = 16
_PLACES_SHOWN = 8
_BYTES_SHOWN = 24
_RETURN_ADDRESS = 1
_PLURALS = {"reply": "replies", "switch": "switches"}


class Telling:
    """A report, what is known besides it, and how it differs from another where one is compared with it."""

    def __init__(
        self,
        report: Report,
        file: str,
        known: Known,
        slots: int | None = None,
        how: str = "",
        differences: Differences | None = None,
    ) -> None:
        """Of one domain alone a report doesn't tell how many slots there were; `how` it was run is told."""
        self.report = report
        self.file = file
        self.known = known
        self.slots = report.slots if slots is None else slots
        self.how = how
        self.differences = differences

    def sentences(self) -> list[str]:
        """The report in words, what belongs to a domain indented below it."""
        lines = [self.head()]
        for section in self.report.sections:
            lines.extend(self.domain(section).sentences())
        lines.extend(self.switches())
        return lines if self.differences is None else lines + self.differences.sentences()

    def head(self) -> str:
        """What is said of the whole run."""
        image = self.known.file
        of = f" of {image}" if image is not None and str(image) != self.file else ""
        off = "" if self.report.off is None else f", unprotected: the guard {self.report.off} was off"
        return f"{self.file}: {_count(self.slots, 'slot')}{self._on_harts()}{self.how}{of}{off}"

    def switches(self) -> list[str]:
        """A sentence for each entry's switches."""
        return [self._switch(switch) for switch in self.report.switches]

    def fields(self) -> dict[str, Any]:
        """What `--json` writes."""
        return {
            "report": self.file,
            "image": None if self.known.file is None else str(self.known.file),
            "unprotected": self.report.off,
            "slots": self.slots,
            "domains": [self.domain(section).fields() for section in self.report.sections],
            "switches": [self._switch_fields(switch) for switch in self.report.switches],
            "differences": None if self.differences is None else self.differences.fields(),
        }

    def domain(self, section: Section) -> DomainTold:
        """A domain's section."""
        number = section.number
        known = self.known
        boxes = known.boxes_of(section.name)
        return DomainTold(section, known.program(number), known.calls_of(number), known.there, boxes)

    def _on_harts(self) -> str:
        """How many slots each hart had, where there are several."""
        harts = self.known.harts
        if harts == 1 or not self.report.switches:
            return ""
        return f" ({self.slots // harts:,} on each of {harts} harts)"

    def _switch(self, switch: Switch) -> str:
        of = self._name_of_entry(switch)
        if not switch.count:
            return f"entry {switch.entry}{of}: no switch after a slot of it"
        return (
            f"entry {switch.entry}{of}: {_count(switch.count, 'switch')} used {switch.used:,} of the "
            f"{switch.pad:,} cycles of {'its pad' if switch.count == 1 else 'the pad'} at most"
        )

    def _switch_fields(self, switch: Switch) -> dict[str, Any]:
        numbers = {key: value for key, value in asdict(switch).items() if key != "line"}
        return numbers | {"domain": self._name(switch)}

    def _name_of_entry(self, switch: Switch) -> str:
        name = self._name(switch)
        if name is None:
            return ""
        on = "" if self.known.harts == 1 else f", hart {self.known.entries[switch.entry].hart}"
        return f" ({name}{on})"

    def _name(self, switch: Switch) -> str | None:
        if switch.entry >= len(self.known.entries):
            return None
        return self.known.names[self.known.entries[switch.entry].domain]


class DomainTold:
    """A section, the domain's program where it is known, the calls that it may make of those that there are, and
    its boxes."""

    def __init__(
        self,
        section: Section,
        loaded: Loaded | None,
        calls: frozenset[int] = EVERY_CALL,
        there: frozenset[int] = EVERY_CALL,
        boxes: Sequence[KnownBox] = (),
    ) -> None:
        self.section = section
        self.loaded = loaded
        self.calls = calls
        self.there = there
        self.boxes = boxes
        self.symbols = loaded.symbols if loaded is not None else Symbols()

    # ---- what it came to

    def sentences(self) -> list[str]:
        """The section in words."""
        it = self.section
        lines = [
            f"{it.name} (domain {it.number}): {self._status()}",
            *self._about_stop(),
            *(self._thread(thread) for thread in it.threads if self._is_told(thread)),
            f"{_count(it.retired, 'instruction')} retired",
            *self._printed(),
            *self._replies(),
            *self._boxes(),
            *self._readings(),
        ]
        return lines[:1] + [f"  {line}" for line in lines[1:]]

    def _status(self) -> str:
        it = self.section
        if it.exit_code is not None:
            return f"exited with code {it.exit_code}"
        if it.stop is not None:
            thread = self.stopped_thread(it.stop)
            by = f", in thread {thread.number}" if thread is not None and len(it.threads) > 1 else ""
            name = NAMES.get(it.stop.code, "an exception of another code")
            return f"stopped by {name} (code {it.stop.code}) at {self.symbols.place(it.stop.pc)}{by}"
        if it.threads and all(thread.state != "ready" for thread in it.threads):
            return "idle: no thread of it is ready"
        return "still running" if it.threads else "not begun"

    def _about_stop(self) -> list[str]:
        stop = self.section.stop
        if stop is None:
            return []
        thread = self.stopped_thread(stop)
        lines = [value_in_words(stop, thread, self.loaded)]
        overflow = self.overflow()
        if overflow is not None:
            lines.append(str(overflow))
        caller = self._caller(thread) if thread is not None else None
        if caller is not None:
            lines.append(f"x1, where a function returns to, is {caller}")
        return lines

    def stopped_thread(self, stop: Stop) -> Thread | None:
        """The thread that was stopped, where it can be told: none but it is ready at that address."""
        there = [it for it in self.section.threads if it.state == "ready" and it.pc == stop.pc]
        return there[0] if len(there) == 1 else None

    def overflow(self) -> Overflow | None:
        """The stack that has overflowed."""
        stop = self.section.stop
        if stop is None or self.loaded is None:
            return None
        return overflow_of(stop, self.stopped_thread(stop), self.loaded.segments)

    # ---- threads

    def _is_told(self, thread: Thread) -> bool:
        is_of_stop = self.section.stop is not None and thread.pc == self.section.stop.pc
        return thread.state != "ended" and not is_of_stop

    def _thread(self, thread: Thread) -> str:
        state = f"waits for line {thread.line}" if thread.line is not None else "is ready"
        caller = self._caller(thread)
        by = f", x1 {caller}" if caller is not None else ""
        return f"thread {thread.number} {state} at {self.symbols.place(thread.pc)}{by}"

    def _caller(self, thread: Thread) -> Place | None:
        """The place that the thread's return address names, where it is one of the program's text."""
        address = thread.registers.get(_RETURN_ADDRESS, 0)
        place = self.symbols.place(address)
        return place if place.symbol is not None else None

    # ---- output, calls, readings

    def _printed(self) -> list[str]:
        """What was printed, as lines where it is text."""
        out = self.section.out
        if not out:
            return []
        told = f"printed {_count(len(out), 'byte')}"
        text = out.decode(errors="replace")
        if all(letter.isprintable() or letter == "\n" for letter in text) and "\ufffd" not in text:
            return [f"{told}:", *(f"| {line}".rstrip() for line in text.removesuffix("\n").split("\n"))]
        more = " .." if len(out) > _BYTES_SHOWN else ""
        return [f"{told}: {out[:_BYTES_SHOWN].hex(' ')}{more}"]

    def _replies(self) -> list[str]:
        it = self.section
        if not it.replies_count:
            return []
        kept = f" of the first {len(it.replies)}" if len(it.replies) < it.replies_count else ""
        refused = Counter(reply.code for reply in it.replies if reply.code)
        puts = f", {len(it.out)} of them {PUT.name}" if it.out else ""
        told = f"{_count(it.replies_count, 'reply')} to calls{puts}; "
        told += f"refused{kept}: {refused.total() or 'none'}"
        return [told, *(f"  {self._refused(code, count)}" for code, count in sorted(refused.items()))]

    def _refused(self, code: int, count: int) -> str:
        error = error_of(code)
        places = self._places_of(code)
        shown = ", ".join(map(str, places[:_PLACES_SHOWN])) + (", .." if count > _PLACES_SHOWN else "")
        which = "reply" if count == 1 else "replies"
        return f"{count} by {error.name} ({code}: {error.so_where}){self._callers(code)}: {which} {shown}"

    def _callers(self, code: int) -> str:
        """The calls that can be refused with a code, in words."""
        callers = callers_of(code, self.calls, self.there)
        if code == BAD_CALL.code and callers:
            others = [call.name for call in CALLS if call.number in self.calls]
            return f", as all but {in_words(others, 'and')} are" if others else ", as all are"
        return f", as {in_words(callers, 'or')} can be" if callers else ""

    def _places_of(self, code: int) -> list[int]:
        """The places of a code among the replies, from 0."""
        return [number for number, reply in enumerate(self.section.replies) if reply.code == code]

    def _codes(self) -> set[int]:
        return {reply.code for reply in self.section.replies}

    def _boxes(self) -> list[str]:
        """Whom it may tell words, and who may tell it some."""
        name = self.section.name
        told = [
            f"box {it.number} to {it.receiver}" if it.sender == name else f"box {it.number} from {it.sender}"
            for it in self.boxes
        ]
        return [", ".join(told)] if told else []

    def _readings(self) -> list[str]:
        it = self.section
        if not it.readings:
            return []
        kept = f" (the first {len(it.readings)} are kept)" if len(it.readings) < it.readings_count else ""
        steps = steps_of(it.readings)
        told = " ".join(f"{step:+}" for step in steps[:_STEPS_SHOWN])
        more = " .." if len(steps) > _STEPS_SHOWN else ""
        from_one = f", each less the one before it: {told}{more}" if steps else ""
        return [f"{_count(it.readings_count, 'reading')}{kept}, the first {it.readings[0]}{from_one}"]

    # ---- as an object

    def fields(self) -> dict[str, Any]:
        """The section as an object."""
        it = self.section
        return {
            "number": it.number,
            "name": it.name,
            "status": self._status_fields(),
            "retired": it.retired,
            "threads": [self._thread_fields(thread) for thread in it.threads],
            "readings": {
                "count": it.readings_count,
                "last": it.last_reading,
                "kept": list(it.readings),
                "steps": steps_of(it.readings),
            },
            "replies": {
                "count": it.replies_count,
                "kept": [asdict(reply) for reply in it.replies],
                "refused": [self._refused_fields(code) for code in sorted(self._codes() - {0})],
            },
            "boxes": [{"number": it.number, "from": it.sender, "to": it.receiver} for it in self.boxes],
            "printed": {"count": len(it.out), "text": it.out.decode(errors="replace"), "hex": it.out.hex()},
            "mem": it.mem,
            "sentences": [line.strip() for line in self.sentences()],
        }

    def _status_fields(self) -> dict[str, Any]:
        stop = self.section.stop
        if stop is None:
            kind = "running" if self.section.exit_code is None else "exited"
            return {"kind": kind} | ({} if kind == "running" else {"code": self.section.exit_code})
        thread = self.stopped_thread(stop)
        return {
            "kind": "stopped",
            "code": stop.code,
            "exception": NAMES.get(stop.code),
            "pc": place_fields(self.symbols.place(stop.pc)),
            "value": place_fields(self.symbols.place(stop.value)),
            "about": value_in_words(stop, thread, self.loaded),
            "thread": None if thread is None else thread.number,
            "is_stack_overflow": self.overflow() is not None,
        }

    def _thread_fields(self, thread: Thread) -> dict[str, Any]:
        return {
            "number": thread.number,
            "state": thread.state,
            "line": thread.line,
            "pc": place_fields(self.symbols.place(thread.pc)),
            "registers": {f"x{number}": value for number, value in thread.registers.items()},
        }

    def _refused_fields(self, code: int) -> dict[str, Any]:
        calls = callers_of(code, self.calls, self.there)
        return asdict(error_of(code)) | {"calls": calls, "at": self._places_of(code)}


def place_fields(place: Place) -> dict[str, Any]:
    """A place as an object."""
    return asdict(place) | {"text": str(place)}


def steps_of(readings: tuple[int, ...]) -> list[int]:
    """Each reading less the one before it."""
    return [after - before for before, after in zip(readings, readings[1:])]


def _count(count: int, what: str) -> str:
    return f"{count:,} {what if count == 1 else _PLURALS.get(what, what + 's')}"

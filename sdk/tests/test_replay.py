"""What running an image again tells of its report: slots, switches, ends."""

from __future__ import annotations

import tomllib
from dataclasses import dataclass
from pathlib import Path

import pytest
from conftest import REPOSITORY, run_tool

from tp_sdk.program import Program
from tp_sdk.refusals import Image
from tp_sdk.replay import Did, Replay, has_ended, number, replay
from tp_sdk.report import Report, parse_report
from tp_sdk.schedule import Slot, entries_of, harts_in, places_on, slots_of

EXAMPLES = REPOSITORY / "examples"
NAMES = ("calls", "clock", "fewer-calls", "interrupts", "spy-loud", "stops", "two-domains", "two-harts")


def run(program: Program, name: str, slots: int) -> tuple[Image, Report]:
    """An example, and its report."""
    text = (EXAMPLES / f"{name}.toml").read_text()
    return tomllib.loads(text), parse_report(program.run(["run", "--slots", str(slots)], text).text, name)


@dataclass(frozen=True)
class Told:
    """A hart's slots, what running them again tells, and which entry's switch its boot is."""

    slots: list[Slot]
    replay: Replay
    of_boot: int

    def done(self) -> list[tuple[Slot, Did]]:
        """Each slot, and what was done in it."""
        return list(zip(self.slots, self.replay.slots))


def replayed(program: Program, name: str, slots: int) -> tuple[Report, list[Told]]:
    """An example's report, and what running it again tells of each hart."""
    image, report = run(program, name, slots)
    told = replay(program, image, name, report, slots)
    entries = entries_of(image, name)
    assert told is not None and [len(it.slots) for it in told] == [slots] * harts_in(entries)
    return report, [
        Told(list(slots_of(entries, slots, hart)), it, places_on(entries, hart)[-1])
        for hart, it in enumerate(told)
    ]


@pytest.mark.parametrize("name", NAMES)
def test_what_slots_did_is_what_the_report_says(program: Program, name: str) -> None:
    report, harts = replayed(program, name, 6)
    for section in report.sections:
        own = [did for told in harts for slot, did in told.done() if slot.domain == section.number]
        assert sum(did.retired for did in own) == number(section, "retired")
        assert sum(did.calls for did in own) == number(section, "replies")
        assert all(did.status == section.status for did in own[-1:])
        assert all(did.retired == did.calls == 0 for did in own if did.had_ended)


@pytest.mark.parametrize("name", NAMES)
def test_the_most_that_switches_used_is_what_the_report_says(program: Program, name: str) -> None:
    report, harts = replayed(program, name, 6)
    used: list[list[int]] = [[] for _ in report.switches]
    for told in harts:
        used[told.of_boot].append(told.replay.boot)
        for slot, cycles in zip(told.slots, told.replay.used):
            used[slot.entry].append(cycles)
    assert [(max(it, default=0), len(it)) for it in used] == [(it.used, it.count) for it in report.switches]


@pytest.mark.parametrize("name", NAMES)
def test_a_domain_ended_after_all_that_it_read(program: Program, name: str) -> None:
    report, harts = replayed(program, name, 6)
    for slot, did in (it for told in harts for it in told.done()):
        if did.ended_at is not None:
            section = report.sections[slot.domain]
            read = [it - slot.start for it in section.readings if slot.start <= it < slot.end]
            assert has_ended(section) and 1000 < did.ended_at <= slot.end - slot.start
            assert all(clock < did.ended_at for clock in read)


def test_a_report_of_another_image(program: Program) -> None:
    image, _ = run(program, "spy-loud", 4)
    _, other = run(program, "spy-quiet", 4)
    assert replay(program, image, "loud", other, 4) is None


def test_a_report_of_another_order(program: Program) -> None:
    image, report = run(program, "two-harts", 6)
    used = [it.used for it in report.switches]
    text = (EXAMPLES / "two-harts.toml").read_text()
    are_told = set()
    for seed in range(16):
        words = ["harts", "--slots", "6", "--seed", str(seed)]
        report = parse_report(program.run(words, text).text, "two")
        told = replay(program, image, "two", report, 6)
        assert (told is not None) == ([it.used for it in report.switches] == used)
        are_told.add(told is not None)
    assert are_told == {False, True}


def test_an_image_that_is_refused(program: Program, tmp_path: Path) -> None:
    pytest.importorskip("matplotlib")
    image = tmp_path / "loud.toml"
    image.write_text((EXAMPLES / "spy-loud.toml").read_text().replace("colours = [2]", "colours = [1]"))
    ended = run_tool("tp-plot", "timeline", image, EXAMPLES / "spy-loud.report", "-o", tmp_path / "a.svg")
    assert ended.returncode == 1 and ended.stderr.count("\n") == 1
    assert "loud.toml: the program ended with 1: refused K9 at 1 found 1 wanted 0" in ended.stderr


def test_more_slots_than_a_schedule_can_be_written_out_for(program: Program) -> None:
    image, report = run(program, "two-domains", 100)
    told = replay(program, image, "two", report, 100)
    assert told is not None and [(len(it.slots), len(it.used)) for it in told] == [(64, 63)]
    image, report = run(program, "fewer-calls", 70)
    told = replay(program, image, "fewer", report, 70)
    assert told is not None and [len(it.slots) for it in told] == [70]
    # (64 entries on two harts)
    image, report = run(program, "two-harts", 40)
    told = replay(program, image, "two", report, 40)
    assert told is not None and [(len(it.slots), len(it.used)) for it in told] == [(32, 31)] * 2
    image, report = run(program, "two-domains", 0)
    assert replay(program, image, "two", report, 4) is None


def test_a_timeline_tells_what_each_slot_did(program: Program, tmp_path: Path) -> None:
    pytest.importorskip("matplotlib")
    report = tmp_path / "two.report"
    text = (EXAMPLES / "two-domains.toml").read_text()
    report.write_text(program.run(["run", "--slots", "4"], text).text)
    words = ("timeline", EXAMPLES / "two-domains.toml", report, "-o", tmp_path / "two.svg")
    ended = run_tool("tp-plot", *words)
    assert (ended.returncode, ended.stdout, ended.stderr) == (0, "", "")
    picture = (tmp_path / "two.svg").read_text()
    assert picture.count("exited 0 within 1,000") == 2
    for used in ("755", "820", "580", "292"):
        assert f"> {used}<" in picture

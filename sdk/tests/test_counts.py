"""Counts of what costs cycles."""

from __future__ import annotations

import json
import tomllib
from pathlib import Path
from typing import Any

import pytest
from conftest import REPOSITORY, run_tool

from tp_sdk.counts import COUNTED, Counted, count_events
from tp_sdk.faults import Fault
from tp_sdk.program import Program
from tp_sdk.refusals import Image
from tp_sdk.replay import number
from tp_sdk.report import parse_report

EXAMPLES = REPOSITORY / "examples"
# The lines of its clone that a call touches: text, stack, data, shared.
LINES_OF_A_CALL = 4 + 2 + 2 + 1
# Adds up to 200, a word loaded and another stored each time, and exits.
LOOP = """
    .globl _start
_start:
    li x5, 0
    li x6, 200
    lui x7, 0x11
1:  lw x8, 0(x7)
    sw x8, 64(x7)
    addi x5, x5, 1
    bne x5, x6, 1b
    li x17, 0
    ecall
    .data
    .zero 128
"""
LOOP_DESCRIPTION = """
machine = "machine.toml"
domain = [{ name = "loop", program = "loop.s", colours = [1] }]
schedule = [{ domain = "loop", length = 3000 }]
"""


def example(name: str) -> Image:
    """An image of the examples."""
    return tomllib.loads((EXAMPLES / f"{name}.toml").read_text())


# Ten products, and divisions of 0 to 9: of 0 + 1 + 2 + 2 + 3 + 3 + 3 + 3 + 4 + 4 digits.
PRODUCTS = """
    .globl _start
_start:
    li x6, 10
1:  mul x7, x5, x5
    divu x8, x5, x6
    jal 2f
2:  addi x5, x5, 1
    bne x5, x6, 1b
    li x17, 0
    ecall
"""


def image_of(folder: Path, name: str, source: str, description: str) -> Image:
    """The image of a program in assembler."""
    (folder / f"{name}.s").write_text(source)
    (folder / f"{name}.toml").write_text(description)
    made = run_tool("tp-image", folder / f"{name}.toml")
    assert (made.returncode, made.stderr) == (0, "")
    return tomllib.loads(made.stdout)


@pytest.fixture(scope="module")
def loop(program: Program, built: Path) -> Image:
    """The image of the loop."""
    return image_of(built, "loop", LOOP, LOOP_DESCRIPTION)


def events(*counts: int) -> dict[str, int]:
    """Events in the order of their costs."""
    return dict(zip(COUNTED, counts))


def test_a_loop_counted_by_hand(program: Program, loop: Image) -> None:
    # The first slot: three instructions and 170 rounds of four, then a load and a store, and an ADDI
    # that is the slot's last. So 342 loads and stores. Lines: one of text, two of data. Pages: two, walked
    # by two reads each; both entries of the second table are in one line. The branch is guessed
    # wrongly once.
    first = events(685, 685 + 342, 3 + 4, 3 + 2, 0, 685 + 342, 1, 0)
    # The second: what is left but the EXIT, with a fresh predictor, which is wrong at the first branch
    # and at the last.
    told = count_events(program, loop, "loop", 0, 4)
    assert told[0] == Counted(0, first, 2998)
    assert told[1].events is not None and told[1].events["base"] + 685 + 1 == 3 + 4 * 200 + 1
    assert told[1].events["mispredict"] == 2
    assert [it.events for it in told[2:]] == [events(*[0] * len(COUNTED))] * 2


def test_products_and_jumps_counted_by_hand(program: Program, built: Path) -> None:
    machine = built / "jumps.toml"
    machine.write_text((built / "machine-muldiv.toml").read_text() + "targets = 16\n")
    description = LOOP_DESCRIPTION.replace('"machine.toml"', '"jumps.toml"').replace("loop", "products")
    image = image_of(built, "products", PRODUCTS, description)
    (first,) = count_events(program, image, "products", 0, 1)
    assert first.events is not None
    # (wrong are the first JAL, the first branch that is taken, its target too, and the last one, which isn't)
    counts = {"base": 1 + 10 * 5 + 1, "mispredict": 3, "trap": 0, "mul": 10, "div": 10 + 25}
    assert {cost: first.events[cost] for cost in counts} == counts


def test_counts_do_not_depend_on_the_costs(program: Program, loop: Image) -> None:
    plain = count_events(program, loop, "loop", 0, 1)[0].events
    # (a slot of 3,000 cycles would have fewer rounds of a dearer machine)
    for costs, length in (
        ({"mem": 1000}, 2998 + 1 + 5 * 960),
        ({"l2": 9, "mispredict": 7}, 2998 + 1 + 7 + 4),
    ):
        dearer = loop | {"costs": loop["costs"] | costs}
        dearer["schedule"] = [{"domain": 0, "length": length, "pad": 1_000_000}]
        assert count_events(program, dearer, "loop", 0, 1)[0].events == plain


@pytest.mark.parametrize(
    ("name", "domain"), (("calls", 1), ("two-domains", 0), ("spy-loud", 0), ("fewer-calls", 1))
)
def test_counts_are_those_of_the_report(program: Program, name: str, domain: int) -> None:
    image = example(name)
    for slots in (2, 6):
        counted = count_events(program, image, name, domain, slots)
        alone = program.run(["run", "--slots", str(slots)], (EXAMPLES / f"{name}.toml").read_text())
        section = parse_report(alone.text, name).sections[domain]
        done = number(section, "retired") + number(section, "replies") + section.status.startswith("exited")
        ran = [it.events for it in counted if it.events and it.events["base"]]
        # (of each slot but its last instruction or call)
        assert sum(it["base"] for it in ran) == done - len(ran)
        for it in ran:
            accesses = it["tlb"] - it["base"]
            assert it["l1"] >= it["base"] + accesses + LINES_OF_A_CALL * it["trap"]


def test_what_depends_on_the_time_is_refused(program: Program) -> None:
    for name, fault in (
        ("clock", "clock: what domain 0 does in slot 0 depends on the time"),
        ("interrupts", "interrupts: interrupts come to domain 0 by the clock"),
    ):
        with pytest.raises(Fault, match=fault):
            count_events(program, example(name), name, 0, 4)


@pytest.mark.parametrize("name", ("refused-k2", "refused-k9", "refused-k17"))
def test_an_image_that_is_refused(program: Program, name: str) -> None:
    number = name.removeprefix("refused-k")
    ended = run_tool("tp-counts", EXAMPLES / f"{name}.toml", "--domain", "red")
    assert ended.returncode == 1 and ended.stderr.count("\n") == 1
    assert f"{name}.toml: the program ended with 1: refused K{number} at" in ended.stderr


def test_a_domain_of_another_hart_is_counted_by_that_harts_slots(program: Program) -> None:
    image = example("two-domains")
    first, second = image["schedule"]
    alone = count_events(program, image | {"schedule": [second]}, "a", 1, 2)
    on_harts = image | {"schedule": [first, second | {"hart": 1}, first]}
    assert count_events(program, on_harts, "a", 1, 2) == alone and [it.slot for it in alone] == [0, 1]


def test_more_slots_than_a_schedule_can_be_written_out_for(program: Program) -> None:
    with pytest.raises(Fault, match="two: of the first 64 slots alone can events be counted"):
        count_events(program, example("two-domains"), "two", 0, 65)


def test_the_command(program: Program) -> None:
    image = EXAMPLES / "two-domains.toml"
    told = run_tool("tp-counts", image, "--domain", "red", "--slots", "3")
    assert (told.returncode, told.stderr) == (0, "")
    head, first, later = told.stdout.splitlines()
    assert head.split()[:3] == ["slot", "cycles", "instructions"] and head.endswith("calls")
    assert first.split()[0] == "0" and first.split()[-1] == "1" and set(later.split()[1:]) == {"0"}
    asked = run_tool("tp-counts", image, "--domain", "red", "--slots", "3", "--json")
    slots: list[dict[str, Any]] = json.loads(asked.stdout)
    assert [slot["slot"] for slot in slots] == [0, 2] and slots[0]["events"]["base"] == 4


def test_words_and_images_that_are_none(tmp_path: Path, monkeypatch: pytest.MonkeyPatch) -> None:
    monkeypatch.setenv("TP", str(tmp_path / "none"))
    for words, code, fault in (
        ((EXAMPLES / "two-domains.toml", "--domain", "x"), 1, "there is no domain 'x': red, blue"),
        ((EXAMPLES / "refused-k1.toml", "--domain", "x"), 1, "refused-k1.toml: no TOML"),
        ((EXAMPLES / "refused-k2.toml", "--domain", "red"), 3, "there is no program at TP="),
        ((EXAMPLES / "two-domains.toml", "--domain", "red"), 3, "there is no program at TP="),
        ((EXAMPLES / "two-domains.toml",), 2, "--domain"),
        ((EXAMPLES / "two-domains.toml", "--domain", "red", "--slots", "0"), 2, "--slots"),
    ):
        ended = run_tool("tp-counts", *words)
        assert ended.returncode == code and fault in ended.stderr

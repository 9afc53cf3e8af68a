"""The bound on a switch: by its parts, by the calls of an entry's domain, and in sentences."""

from __future__ import annotations

import json
import re
import tomllib
from pathlib import Path

import pytest
from conftest import REPOSITORY, run_tool
from test_tables import section_of, table_with

from tp_sdk.bounds import PARTS, bound_on_a_switch, bounds_of, lines_written, parse_bound, parts_of
from tp_sdk.calls import CALLS, EVERY_CALL, NUMBERS, Call
from tp_sdk.explain_bound import WORDS
from tp_sdk.program import Program
from tp_sdk.refusals import Image

BOUND = (REPOSITORY / "examples" / "bound.toml").read_text()
SECOND = BOUND.replace("frames = 64", "version = 2\nframes = 64")
COLOURS = "colours = [1]"
# What the program writes of bound.toml, and of it as an image of version 2 where red may EXIT and PUT.
FIRST_TEXT = "instruction 306\noperation 4277\nleave 383\nprefetch 472\nflush 340\nenter 373\nbound 6150\n"
SECOND_TEXT = """instruction 306
leave 383
prefetch 472
flush 340
enter 373
entry 0 operation 501 bound 2374
entry 1 operation 4277 bound 6150
"""
RED_LISTS = SECOND.replace(COLOURS, f"{COLOURS}\ncalls = [0, 1]")
POLICY = 'ways = 4, policy = "lru"'
BACK = f"{POLICY}, back = true"


def image(text: str = BOUND) -> Image:
    return tomllib.loads(text)


# ---- the tables of docs/IMAGE.md


def test_the_parts_are_those_of_the_document() -> None:
    rows = table_with("part", "cycles", "on that machine")
    told = [re.fullmatch(r"`(\w+)`[,:]? (.*)", row[0]) for row in rows]
    assert {it[1]: it[2] for it in told if it is not None} == WORDS
    assert {it[1]: row[2] for it, row in zip(told, rows) if it is not None} == {
        part: str(cycles) for part, cycles in (parts_of(image()) | {"bound": 6150}).items()
    }


def test_the_calls_that_write_are_those_of_the_document() -> None:
    rows = table_with("call", "lines", "as the most: operation", "bound", text=section_of(17))
    writing: set[int] = set()
    for names, lines, operation, bound in rows:
        calls = {NUMBERS[name.lower()] for name in re.findall("[A-Z]{3,}", names)}
        writing |= calls
        for call in calls or EVERY_CALL - writing:
            only = frozenset({call})
            assert lines_written(only, 64) == (64 if lines == "`L`" else int(lines))
            assert parts_of(image(), only)["operation"] == int(operation)
            assert bound_on_a_switch(image(), only) == int(bound)
    assert writing == {call.number for call in CALLS if call.lines_written(64)}


def test_the_text_of_the_document_is_read() -> None:
    (text,) = re.findall(r"```\n(instruction .*?)```", section_of(17), re.DOTALL)
    assert text == SECOND_TEXT


# ---- the program's text


def test_a_text_is_read() -> None:
    first, second = parse_bound(FIRST_TEXT), parse_bound(SECOND_TEXT)
    assert first is not None and second is not None
    assert (list(first.parts), first.total, first.of_entry(5)) == (list(PARTS), 6150, 6150)
    assert second.entries == ((501, 2374), (4277, 6150)) and "operation" not in second.parts
    assert [second.of_entry(entry) for entry in range(3)] == [2374, 6150, None]


@pytest.mark.parametrize(
    ("old", "new"),
    [
        (SECOND_TEXT, ""),
        (SECOND_TEXT, "refused K1 at 0 found 0 wanted 0\n"),
        ("leave 383\n", ""),
        ("entry 0", "entry 1"),
        ("entry 1 operation 4277 bound 6150\n", "bound 6150\n"),
        ("enter 373\n", "enter 373\nx\n"),
        (SECOND_TEXT, SECOND_TEXT.partition("entry")[0]),
        (SECOND_TEXT, FIRST_TEXT.partition("bound")[0]),
        (SECOND_TEXT, FIRST_TEXT + "entry 0 operation 501 bound 2374\n"),
    ],
)
def test_a_text_that_is_no_bound(old: str, new: str) -> None:
    assert old in SECOND_TEXT and parse_bound(SECOND_TEXT.replace(old, new)) is None


def test_the_bounds_are_the_programs(program: Program) -> None:
    more = ("predictor = 16", "predictor = 16\nmuldiv = { mul = 4, div = 2 }")
    costs = (("wb = 10", "wb = 999"), ("trap = 10", "trap = 77"))
    for old, new in (*costs, ("line = 64", "line = 128"), more, (POLICY, BACK)):
        assert old in BOUND
        for text in (BOUND, SECOND, RED_LISTS):
            other = text.replace(old, new, 1)
            bound = parse_bound(program.run(["bound"], other).text)
            assert bound is not None
            told = [it.bound for it in bounds_of(image(other))]
            assert [bound.of_entry(entry) for entry in range(2)] == told


@pytest.mark.parametrize("call", CALLS, ids=lambda call: call.name)
def test_the_bound_of_each_call_is_the_programs(program: Program, call: Call) -> None:
    text = SECOND.replace(COLOURS, f"{COLOURS}\ncalls = [{call.number}]")
    bound = parse_bound(program.run(["bound"], text).text)
    assert bound is not None
    assert list(bound.entries) == [(it.operation, it.bound) for it in bounds_of(image(text))]


def test_the_program_writes_what_is_read(program: Program) -> None:
    assert program.run(["bound"], BOUND).text == FIRST_TEXT
    assert program.run(["bound"], RED_LISTS).text == SECOND_TEXT


# ---- write-back into the second level


def test_a_miss_of_the_second_level_may_write_back() -> None:
    (told,) = re.findall(r"the parts are then (.*?), and the bound is ([0-9,]+)", section_of(17))
    back = image(written_back(BOUND))
    assert [int(it) for it in re.findall(r"\d+", told[0])] == list(parts_of(back).values())
    assert int(told[1]) == bound_on_a_switch(back)
    more = {part: cycles - parts_of(image())[part] for part, cycles in parts_of(back).items()}
    assert more == {"instruction": 60, "operation": 730, "leave": 70, "prefetch": 0, "flush": 0, "enter": 70}
    past = BOUND.replace(POLICY, f"{POLICY}, back = false")
    assert past != BOUND and parts_of(image(past)) == parts_of(image())


def written_back(text: str) -> str:
    assert POLICY in text
    return text.replace(POLICY, BACK)


# ---- in sentences


def told(folder: Path, text: str, given: str, *words: str) -> str:
    file = folder / "mine.toml"
    file.write_text(text)
    ended = run_tool("tp-explain", file, *words, given=given)
    assert (ended.returncode, ended.stderr) == (0, "")
    return ended.stdout.replace(f"{file}", "mine.toml")


def test_the_second_version_in_sentences(tmp_path: Path) -> None:
    assert told(tmp_path, RED_LISTS, SECOND_TEXT).splitlines() == [
        "mine.toml: the most cycles from the end of a slot to the end of its switch's work",
        "  instruction 306: begun in the slot's last cycle",
        "  operation, by the entry: the kernel call that it makes",
        "  leave 383: the outgoing clone's",
        "  prefetch 472: of the shared lines",
        "  flush 340: of the core, every data line dirty",
        "  enter 373: the incoming clone's",
        "  bound, by the entry: their sum, less the cycle of the slot in which the instruction began",
        "  entry 0 (red): operation 501, bound 2,374: it may make EXIT and PUT: no frame is zeroed, no entry "
        "written; with every call 6,150, so 3,776 are saved; its pad is 0: 2,374 too short",
        "  entry 1 (blue): operation 4,277, bound 6,150: it may make every call, of which ALLOC writes most: "
        "64 lines; its pad is 0: 6,150 too short",
    ]


def test_other_lists_in_sentences(tmp_path: Path) -> None:
    for calls, line, words in (
        ([], 64, "it may make no call: no frame is zeroed, no entry written; with every call 6,150, "),
        (
            [4],
            64,
            "it may make MAP, of which MAP writes most: 1 line; with every call 6,150, so 3,717 are saved",
        ),
        ([0, 7, 8], 64, "it may make EXIT, DELETE and REVOKE, of which REVOKE writes most: 63 lines; with "),
        ([2, 8], 128, "it may make ALLOC and REVOKE, of which REVOKE writes most: 63 lines; its pad is 0: "),
    ):
        text = SECOND.replace(COLOURS, f"{COLOURS}\ncalls = {calls}").replace("line = 64", f"line = {line}")
        bounds = bounds_of(image(text))
        parts = [
            f"{part} {cycles}\n" for part, cycles in parts_of(image(text)).items() if part != "operation"
        ]
        entries = [f"entry {it.entry} operation {it.operation} bound {it.bound}\n" for it in bounds]
        assert words in told(tmp_path, text, "".join(parts + entries))


def test_the_first_version_in_sentences(tmp_path: Path) -> None:
    lines = told(tmp_path, BOUND, FIRST_TEXT).splitlines()
    assert lines[2] == "  operation 4,277: the kernel call that it makes"
    assert lines[7] == "  bound 6,150: their sum, less the cycle of the slot in which the instruction began"
    assert len(lines) == 10 and lines[8].endswith("64 lines; its pad is 0: 6,150 too short")
    enough = told(tmp_path, BOUND.replace("pad = 0", "pad = 6150"), FIRST_TEXT)
    assert enough.count("its pad is 6,150: enough") == 2


def test_write_back_in_sentences(tmp_path: Path) -> None:
    parts = parts_of(image(written_back(BOUND)))
    text = "".join(f"{part} {cycles}\n" for part, cycles in parts.items()) + "bound 7080\n"
    lines = told(tmp_path, written_back(BOUND), text).splitlines()
    assert lines[7] == "  bound 7,080: their sum, less the cycle of the slot in which the instruction began"
    assert lines[8] == (
        "  with `back`, a line that the second level misses may make it write one back, too, but for the "
        "shared lines of the prefetch (10 cycles, the cost `wb`)"
    )
    assert len(lines) == 11 and lines[9].endswith("64 lines; its pad is 0: 7,080 too short")


def test_an_object(tmp_path: Path) -> None:
    fields = json.loads(told(tmp_path, RED_LISTS, SECOND_TEXT, "--json"))
    assert fields["bound"] is None and fields["parts"]["flush"] == 340
    red, blue = fields["entries"]
    assert (red["calls"], red["bound"], red["with_every_call"]) == (["EXIT", "PUT"], 2374, 6150)
    assert (blue["domain"], len(blue["calls"]), blue["operation"]) == ("blue", 15, 4277)
    assert len(fields["sentences"]) == 10


@pytest.mark.parametrize(
    ("text", "given"),
    [
        (BOUND, SECOND_TEXT),
        (SECOND, FIRST_TEXT.replace("6150", "6151")),
        (SECOND, SECOND_TEXT),
        (RED_LISTS.replace("trap = 10", "trap = 11"), SECOND_TEXT),
        (written_back(BOUND), FIRST_TEXT),
        (BOUND.replace("l2 = {", "l2 = 5\nlost = {"), FIRST_TEXT),
        (RED_LISTS.replace("shared = 512\n", ""), SECOND_TEXT),
        (RED_LISTS + "\n[[schedule]]\ndomain = 0\nlength = 1000\npad = 0\n", SECOND_TEXT),
    ],
)
def test_the_bound_of_another_image(tmp_path: Path, text: str, given: str) -> None:
    file = tmp_path / "mine.toml"
    file.write_text(text)
    ended = run_tool("tp-explain", file, given=given)
    assert (ended.returncode, ended.stderr) == (
        1,
        f"tp-explain: {file}: this is the bound of another image\n",
    )

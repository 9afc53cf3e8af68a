"""The tables of keys and refusals are those of docs/IMAGE.md, word for word."""

from __future__ import annotations

import re

import pytest
from conftest import REPOSITORY

from tp_sdk import keys
from tp_sdk.refusals import CASES, Refusal, case_of

IMAGE_MD = (REPOSITORY / "docs" / "IMAGE.md").read_text()
REFUSED = re.compile(r"`(refused K\d+ at -?\d+ found -?\d+ wanted -?\d+)`")
# The three numbers alone, behind an example of a rule.
NUMBERS = re.compile(r": (-?\d+) (-?\d+) (-?\d+)(?=[;.]| \||$)", re.MULTILINE)
RULES = tuple(dict.fromkeys(case.rule for case in CASES))


def tables(text: str) -> list[list[list[str]]]:
    """The tables of a text: rows of cells, the heads without the rule below them."""
    found: list[list[list[str]]] = []
    inside = False
    for line in text.splitlines():
        if line.startswith("|"):
            if not inside:
                found.append([])
            if not line.startswith("|--"):
                found[-1].append([cell.strip() for cell in line.strip("|").split("|")])
        inside = line.startswith("|")
    return found


def table_with(*head: str, text: str = IMAGE_MD) -> list[list[str]]:
    return next(table[1:] for table in tables(text) if table[0] == list(head))


def section_of(rule: int) -> str:
    found = re.search(rf"^(\*\*|## )K{rule}: .*?(?=^\*\*K|^## )", IMAGE_MD, re.MULTILINE | re.DOTALL)
    assert found is not None
    return found.group()


def examples() -> list[tuple[int, str]]:
    """The examples, each with the rule in whose section it stands, as the line that the program writes."""
    return [
        (rule, f"refused K{rule} at {at} found {found} wanted {wanted}")
        for rule in RULES
        for at, found, wanted in NUMBERS.findall(section_of(rule))
    ]


@pytest.mark.parametrize("rule", RULES)
def test_what_the_numbers_say(rule: int) -> None:
    section = section_of(rule)
    for told in dict.fromkeys(case.numbers for case in CASES if case.rule == rule):
        words = f"{told.at}; {told.found}; {told.wanted}"
        assert f"Told: {words}." in section or f" | {words} | " in section


def test_the_table_of_keys() -> None:
    rows = table_with("row", "key", "value")
    told = [(int(number), re.findall("`(.*?)`", key)[-1:], value) for number, key, value in rows]
    known = [(row.number, [row.key], row.value) for row in keys.KEY_ROWS]
    assert [row for row in told if row[0] != keys.OTHER_KEYS] == known
    numbers = [row[0] for row in told]
    assert numbers == sorted(numbers) and keys.OTHER_KEYS in numbers


@pytest.mark.parametrize("row", keys.KEY_ROWS, ids=lambda row: row.key)
def test_the_words_of_a_key_are_its_kind(row: keys.KeyRow) -> None:
    words = {
        keys.Integer: "integer",
        keys.Within: "integer",
        keys.Truth: "boolean",
        keys.Text: "string",
        keys.Table: "table of",
        keys.Array: "array of",
    }
    assert row.value.startswith(words[type(row.kind)])
    assert row.needed != ("may be missing" in row.value)
    match row.kind:
        case keys.Within(low, high):
            assert row.value.startswith(f"integer {low:,} to {high:,}:")
        case keys.Array(_, int(low), int(high)):
            assert row.value == f"array of {low} to {high} tables"


def test_the_fields_of_the_tables() -> None:
    sentence = re.search(r"The table of a cache .*", IMAGE_MD)
    assert sentence is not None
    cache, costs = sentence.group().split("The table `costs`")
    assert re.findall("`(.*?)`", cache) == [key for key, _ in keys.CACHE.fields]
    assert re.findall("`(.*?)`", costs) == list(keys.COSTS)
    sentence = re.search(r"The table `l2` may have (`.*?`)", IMAGE_MD)
    assert sentence is not None and keys.keys_at(("l2",), {}) == [key for key, _ in keys.CACHE.fields] + [
        sentence[1].strip("`")
    ]
    sentence = re.search(r"The table `muldiv` (.*)", IMAGE_MD)
    assert sentence is not None and re.findall("`(.*?)`", sentence[1]) == list(keys.PRODUCTS)


def test_the_parts_of_the_machine() -> None:
    assert [it.number for it in keys.PARTS] == [*range(1, 7)]
    sizes = (f"`{'.'.join(map(str, it.size))}` {it.low:,} to {it.high:,}" for it in keys.PARTS)
    assert f"Parts 1 to 6 are powers of two: {', '.join(sizes)}." in section_of(3)


@pytest.mark.parametrize("rule", (3, 11, 12, 13, 15, 19, 20, 22))
def test_the_cases_of_a_rule(rule: int) -> None:
    told = [
        (int(row[0]), row[1])
        for row in table_with("case", "broken where", "an example", text=section_of(rule))
    ]
    assert told == [(case.number, case.broken) for case in CASES if case.rule == rule]


def test_the_cases_of_the_schedule() -> None:
    told = [int(number) for number in re.findall(r"- case (\d),", section_of(16))]
    assert told == [case.number for case in CASES if case.rule == 16]


@pytest.mark.parametrize(
    ("rule", "said"),
    [
        (3, "`history` is not {0.HISTORY.low} to {0.HISTORY.high}"),
        (
            4,
            "`frames` is {1.frames.low} to {1.frames.high:,}, in version 2 {2.frames.low} to {2.frames.high:,}.",
        ),
        (5, "there are {0.COLOURS.low} to {0.COLOURS.high} page colours"),
        (6, "each cost is {0.COST.low} to {0.COST.high:,}."),
        (
            7,
            "{1.domains.low} to {1.domains.high} domains, in version 2 {2.domains.low} to {2.domains.high}, ",
        ),
        (7, "of 1 to {0.NAME_MOST} small letters"),
        (11, "or above {0.SHARED_MOST:,}"),
        (13, "there are more than {0.CAPS_MOST}"),
        (14, "a line is {0.LINE.low} to {0.LINE.high}"),
        (15, "there are more than {0.MOMENTS_MOST:,}"),
        (15, "{0.MOMENT.low} to {0.MOMENT.high:,}"),
        (
            16,
            "{1.entries.low} to {1.entries.high} entries, in version 2 {2.entries.low} to {2.entries.high}, ",
        ),
        (
            18,
            "each item of `calls` is {0.CALL.low} to {0.CALL.high}, "
            "or {0.MAIL_CALL.low} or {0.MAIL_CALL.high}, and above the one before.",
        ),
        (19, "each entry is on one of harts {0.HART.low} to {0.HART.high}, "),
        (19, "an entry's `hart` is not {0.HART.low} to {0.HART.high} "),
        (20, "there are {0.BOXES_MOST} boxes or fewer"),
        (20, "there are more than {0.BOXES_MOST} "),
        (22, "cost {0.COST.low} to {0.COST.high:,} cycles"),
        (22, "`targets` is no power of two from {0.TARGETS.low} to {0.TARGETS.high}"),
        (16, "of {0.LENGTH.low:,} to {0.LENGTH.high:,} cycles, with a pad of {0.PAD.low} to {0.PAD.high:,}."),
    ],
)
def test_the_numbers_of_the_rules(rule: int, said: str) -> None:
    assert said.format(keys, *keys.LIMITS.values()) in section_of(rule)


def test_the_versions() -> None:
    first, second = keys.LIMITS.values()
    rows = {row[0]: row[1:] for row in table_with("limit", "least", "most", "most in version 2")}
    for name, row in (("frames", "`frames`"), ("domains", "domains"), ("entries", "entries of the schedule")):
        one, two = (getattr(limits, name) for limits in (first, second))
        assert one.low == two.low and rows[row] == [f"{it:,}" for it in (one.low, one.high, two.high)]


def test_each_rule_has_an_example() -> None:
    assert {rule for rule, _ in examples()} == {*RULES} - {1}


@pytest.mark.parametrize("line", sorted({*REFUSED.findall(IMAGE_MD), *(line for _, line in examples())}))
def test_each_refusal_of_the_document_has_a_case(line: str) -> None:
    refusal = Refusal.parse(line)
    assert str(refusal) == line
    for version in keys.LIMITS:
        holding = [it for it in CASES if it.rule == refusal.rule and it.holds(refusal, version)]
        assert holding == [case_of(refusal, version)]


@pytest.mark.parametrize("rule", (3, 11, 12, 13, 15, 19, 20, 22))
def test_an_example_is_of_the_case_of_its_row(rule: int) -> None:
    for number, broken, example in table_with("case", "broken where", "an example", text=section_of(rule)):
        (numbers,) = NUMBERS.findall(f"{example} |")
        refusal = Refusal.parse("refused K{} at {} found {} wanted {}".format(rule, *numbers))
        assert (case_of(refusal).number, case_of(refusal).broken) == (int(number), broken)

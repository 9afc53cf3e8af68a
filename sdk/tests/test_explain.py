"""Every row of the explanations: the program's line of an image, and the place that is told."""

from __future__ import annotations

import json
import re
import tomllib
from dataclasses import dataclass
from pathlib import Path

import pytest
from conftest import REPOSITORY, examples, is_refused, run_tool

from tp_sdk.explain import Explanation, explain, explain_all
from tp_sdk.faults import Fault
from tp_sdk.program import Program
from tp_sdk.refusals import CASES, Refusal
from tp_sdk.rules import Rules

IMAGE = re.sub(" *#.*", "", (REPOSITORY / "examples" / "two-domains.toml").read_text())
SECOND = IMAGE.replace("frames = 64", "version = 2\nframes = 64")


@dataclass(frozen=True)
class Row:
    """The case (its number within the rule), a text of the image and what comes wherever it stands,
    the program's line, the place in words, and what is told to stand there."""

    case: int
    old: str
    new: str
    refusal: str
    what: str
    stands: str

    def text(self) -> str:
        assert self.old in IMAGE
        return IMAGE.replace(self.old, self.new)


def many(count: int, text: str) -> str:
    return ", ".join([text] * count)


def written_rows() -> list[Row]:
    rows = []
    for line in (Path(__file__).parent / "refusals.txt").read_text().splitlines():
        if not line.startswith("#"):
            line = line.replace("@red", "of domain 0 (red)").replace("@blue", "of domain 1 (blue)")
            case, *texts = line.replace("~", "\n").split("|")
            rows.append(Row(int(case), *texts))
    return rows


DOMAINS = [
    f'[[domain]]\nname = "x{number}"\ncolours = []\nentry = 0\n'
    'segment = [{ page = 0, pages = 1, rights = "x", hex = "" }]\n'
    for number in range(31)
]
# (with the two domains fifteen are too many for version 1, as sixty-three entries are)
FIFTEEN, THIRTY_ONE = "".join(DOMAINS[:15]), "".join(DOMAINS)
ENTRY = "[[schedule]]\ndomain = 0\nlength = 1000\npad = 6150\n"
BOX = "[[mail]]\nfrom = 0\nto = 1\n"
# Of 64 colours, with one frame each: the shared region's second frame would be frame 64.
NARROW = (
    IMAGE.replace("sets = 256", "sets = 4096")
    .replace("shared = 512", "shared = 8192")
    .replace("[1]", "[1, 2, 3, 4, 5, 6, 7]")
    .replace("[2]", "[8, 9, 10, 11, 12, 13, 14]")
)
NONES = f"""[1]\ncaps = [{many(65, '"none"')}]"""
MOMENTS = f"[1]\nlines = [3]\nmoments = [{many(1025, '[1, 3]')}]"
MADE_ROWS = [
    Row(1, IMAGE, IMAGE + FIFTEEN, "K7 at 16 found 17 wanted 16", "`domain`", ""),
    Row(3, IMAGE, NARROW, "K11 at 3 found 64 wanted 64", "`shared`", "`8192`"),
    Row(
        4,
        '"13051004',
        '"' + "00" * 4097,
        "K12 at 0 found 0 wanted 4",
        "`hex` of segment 0 of domain 0 (red)",
        f'`"{"00" * 17}0 ...`',
    ),
    Row(
        1,
        "[1]",
        NONES,
        "K13 at 0 found 65 wanted 1",
        "`caps` of domain 0 (red)",
        '`["none", "none", "none", "none", "no ...`',
    ),
    Row(
        1,
        "[1]",
        MOMENTS,
        "K15 at 0 found 1025 wanted 1",
        "`moments` of domain 0 (red)",
        "`[[1, 3], [1, 3], [1, 3], [1, 3], [1, ...`",
    ),
    Row(1, IMAGE, IMAGE + ENTRY * 63, "K16 at 0 found 65 wanted 1", "`schedule`", ""),
    Row(1, IMAGE, IMAGE + BOX * 65, "K20 at 0 found 65 wanted 1", "`mail`", ""),
]


def second(case: int, edits: dict[str, str], refusal: str, what: str, stands: str) -> Row:
    """A row of an image of version 2."""
    text = SECOND
    for old, new in edits.items():
        assert old in text
        text = text.replace(old, new)
    return Row(case, IMAGE, text, refusal, what, stands)


RED, BLUE = "colours = [1]\n", "colours = [2]\n"
OF_RED, OF_BLUE = "`calls{}` of domain 0 (red)", "`calls{}` of domain 1 (blue)"
BOTH = {RED: f"{RED}calls = [0, 1]\n", BLUE: f"{BLUE}calls = [0, 1]\n"}
# The 17th domain's name: in version 1 the same line tells that there are 17 domains.
NAME = "x" * 17
LONG = FIFTEEN.replace('"x14"', f'"{NAME}"')
OF_LONG = f"`name` of domain 16 ({NAME})"
SECOND_ROWS = [
    Row(26, BLUE, f"{BLUE}calls = [0]\n", "K2 at 26 found 0 wanted 0", OF_BLUE.format(""), ""),
    second(28, {"= 2\nframes": "= 3\nframes"}, "K2 at 28 found 0 wanted 0", "`version`", "`3`"),
    second(28, {"= 2\nframes": '= "2"\nframes'}, "K2 at 28 found 0 wanted 0", "`version`", '`"2"`'),
    second(29, {BLUE: f"{BLUE}calls = 5\n"}, "K2 at 29 found 1 wanted 0", OF_BLUE.format(""), "`5`"),
    second(29, {RED: f"{RED}calls = [true]\n"}, "K2 at 29 found 0 wanted 0", OF_RED.format("[0]"), "`true`"),
    second(1, {"frames = 64": "frames = 63"}, "K4 at 0 found 63 wanted 64", "`frames`", "`63`"),
    second(2, {"frames = 64": "frames = 16385"}, "K4 at 0 found 16385 wanted 16384", "`frames`", "`16385`"),
    second(1, {SECOND: SECOND + THIRTY_ONE}, "K7 at 32 found 33 wanted 32", "`domain`", ""),
    second(2, {SECOND: SECOND + LONG}, "K7 at 16 found 17 wanted 16", OF_LONG, f'`"{NAME}"`'),
    second(1, {SECOND: SECOND + ENTRY * 255}, "K16 at 0 found 257 wanted 1", "`schedule`", ""),
    second(1, {"6150": "6149"}, "K17 at 0 found 6149 wanted 6150", "`pad` of entry 0 (red)", "`6149`"),
    second(1, BOTH | {"6150": "2373"}, "K17 at 0 found 2373 wanted 2374", "`pad` of entry 0 (red)", "`2373`"),
    second(
        1,
        {RED: f"{RED}calls = []\n", "6150": "2374"},
        "K17 at 1 found 2374 wanted 6150",
        "`pad` of entry 1 (blue)",
        "`2374`",
    ),
    second(
        1,
        BOTH | {"6150": "2374", f"{BLUE}calls = [0, 1]": f"{BLUE}calls = [1, 0]"},
        "K18 at 1 found 1 wanted 14",
        OF_BLUE.format("[1]"),
        "`0`",
    ),
    second(1, {RED: f"{RED}calls = [0, 15]\n"}, "K18 at 0 found 1 wanted 14", OF_RED.format("[1]"), "`15`"),
    second(1, {RED: f"{RED}calls = [-1, 0]\n"}, "K18 at 0 found 0 wanted 14", OF_RED.format("[0]"), "`-1`"),
    second(1, {RED: f"{RED}calls = [4, 4]\n"}, "K18 at 0 found 1 wanted 14", OF_RED.format("[1]"), "`4`"),
]

ROWS = written_rows() + MADE_ROWS + SECOND_ROWS
OF_TEXTS = [row for row in ROWS if row.refusal.startswith("K1 ")]


def told(row: Row) -> Explanation:
    return explain(row.text().encode(), "mine.toml", Refusal.parse(f"refused {row.refusal}"))


@pytest.mark.parametrize("row", ROWS, ids=lambda row: row.refusal)
def test_a_row_tells_the_place(row: Row) -> None:
    explanation = told(row)
    assert (explanation.what, explanation.stands) == (row.what, row.stands)
    if explanation.stands not in ("", "missing"):
        line = row.text().split("\n")[explanation.line - 1]
        assert line[explanation.column - 1 :].startswith(row.stands.strip("`").removesuffix(" ..."))


@pytest.mark.parametrize("row", ROWS, ids=lambda row: row.refusal)
def test_the_program_refuses_the_row(row: Row, program: Program) -> None:
    ended = program.run(["check"], row.text())
    assert (ended.code, ended.text) == (1, f"refused {row.refusal}\n")


def test_every_case_has_a_row() -> None:
    shown = {(Refusal.parse(f"refused {row.refusal}").rule, row.case) for row in ROWS}
    assert shown == {(case.rule, case.number) for case in CASES}


def test_no_toml_is_told_with_its_place() -> None:
    places = [(told(row).line, told(row).column, told(row).broken) for row in OF_TEXTS]
    line = IMAGE[: IMAGE.index("frames = 64")].count("\n") + 1
    assert places == [
        (line, 10, "Invalid value"),
        (line, 10, "the integer 9223372036854775808 does not fit in 64 bits"),
    ]
    refusal = Refusal(1, 0, 0, 0)
    broken = explain(b"frames = 64 # \xc3\xa4 \xff\n", "mine.toml", refusal)
    assert (broken.line, broken.column, broken.broken) == (1, 17, "byte 17 is not UTF-8")
    assert explain(b"a = '''", "mine.toml", refusal).line == 1
    for text, fault in (("9" * 5000, "an integer of too many"), ("[" * 5000, "arrays or tables in one")):
        assert explain(f"a = {text}".encode(), "mine.toml", refusal).broken.startswith(fault)
    with pytest.raises(Fault, match="no fault"):
        explain(IMAGE.encode(), "mine.toml", refusal)


@pytest.mark.parametrize("image", [it for it in examples() if is_refused(it)], ids=lambda it: it.stem)
def test_the_refused_examples_are_explained(image: Path) -> None:
    refusal = image.with_suffix(".report").read_text()
    ended = run_tool("tp-explain", image, "--json", given=refusal)
    fields = json.loads(ended.stdout)
    assert ended.returncode == 0 and fields["refusal"] == refusal.strip()
    assert fields["message"].startswith(f"{image}:{fields['line']}:{fields['column']}: K")


def test_a_line_of_another_image_is_a_fault() -> None:
    for line in (
        "K9 at 1 found 3 wanted 0",
        "K13 at 0 found 7 wanted 3",
        "K6 at 12 found 0 wanted 1",
        "K19 at 0 found 0 wanted 1",
        "K19 at 1 found 0 wanted 2",
        "K19 at 1 found 1 wanted 3",
    ):
        with pytest.raises(Fault, match="another image"):
            explain(IMAGE.encode(), "mine.toml", Refusal.parse(f"refused {line}"))
    for line in (
        "accepted!",
        "refused K2 at 35 found 0 wanted 0",
        "refused K99 at 0 found 0 wanted 0",
        f"refused K9 at {'9' * 5000} found 0 wanted 0",
    ):
        with pytest.raises(Fault, match="no case|no refusal"):
            explain(IMAGE.encode(), "mine.toml", Refusal.parse(line))


# ---- whatever else is broken


OF_VALUES = [it for it in ROWS if not it.refusal.startswith("K1 ")]


@pytest.mark.parametrize("row", OF_VALUES, ids=lambda row: row.refusal)
def test_the_first_broken_rule_is_the_programs(row: Row) -> None:
    first, _ = next(Rules(tomllib.loads(row.text())).broken())
    assert str(first) == f"refused {row.refusal}"


@pytest.mark.parametrize("image", examples(), ids=lambda it: it.stem)
def test_what_is_broken_in_the_examples(image: Path) -> None:
    if image.stem in ("refused-k1", "bound"):  # (no TOML; of one whose bound alone is asked for)
        return
    first = next(Rules(tomllib.loads(image.read_text())).broken(), None)
    line = image.with_suffix(".report").read_text().strip()
    assert line == str(first[0]) if first is not None else not is_refused(image)


ON_ONE = "domain = 0\nhart = 1\nlength = 1000\npad = 6150\n[[schedule]]"
CLASHES = [
    ("K7 at 1 found 0 wanted 0", 'name = "blue"', 'name = "red"', "`name` of domain 0 (red)", '`"red"`'),
    ("K8 at 1 found 2 wanted 4", "[2]", "[2, 3, 2]", "`colours[0]` of domain 1 (blue)", "`2`"),
    ("K9 at 1 found 1 wanted 0", "[2]", "[3, 1]", "`colours[0]` of domain 0 (red)", "`1`"),
    (
        "K12 at 0 found 1 wanted 5",
        "= [{ ",
        '= [{ page = 15, pages = 2, rights = "r", hex = "" }, { ',
        "`page` of segment 0 of domain 0 (red)",
        "`15`",
    ),
    (
        "K13 at 0 found 2 wanted 5",
        "[1]",
        '[1]\ncaps = ["none", "page 16", "page 16"]',
        "`caps[1]` of domain 0 (red)",
        '`"page 16"`',
    ),
    ("K14 at 1 found 4 wanted 1", "[2]", "[2]\nlines = [4, 3, 4]", "`lines[0]` of domain 1 (blue)", "`4`"),
    (
        "K15 at 0 found 1 wanted 4",
        "[1]",
        "[1]\nlines = [3]\nmoments = [[9, 3], [9, 3]]",
        "`moments[0]` of domain 0 (red)",
        "`[9, 3]`",
    ),
    ("K18 at 1 found 2 wanted 14", "[2]", "[2]\ncalls = [0, 4, 1]", "`calls[1]` of domain 1 (blue)", "`4`"),
    ("K19 at 1 found 0 wanted 3", "domain = 1", f"{ON_ONE}\ndomain = 1", "`domain` of entry 0 (red)", "`0`"),
    (
        "K20 at 0 found 1 wanted 3",
        "frames = 64",
        "mail = [{ from = 1, to = 1 }]\nframes = 64",
        "`from` of box 0 (blue to blue)",
        "`1`",
    ),
    (
        "K20 at 1 found 0 wanted 4",
        "frames = 64",
        "mail = [{ from = 0, to = 1 }, { to = 1, from = 0 }]\nframes = 64",
        "`to` of box 0 (red to blue)",
        "`1`",
    ),
    (
        "K19 at 2 found 1 wanted 3",
        "domain = 1",
        "domain = 1\nhart = 1\nlength = 1000\npad = 6150\n[[schedule]]\ndomain = 1",
        "`hart` of entry 1 (blue)",
        "`1`",
    ),
]


@pytest.mark.parametrize(("refusal", "old", "new", "what", "stands"), CLASHES, ids=lambda it: it[:24])
def test_the_other_place_of_a_clash(refusal: str, old: str, new: str, what: str, stands: str) -> None:
    text = (SECOND if "calls" in new else IMAGE).replace(old, new)
    explanation = explain(text.encode(), "mine.toml", Refusal.parse(f"refused {refusal}"))
    other = explanation.other
    assert other is not None and (other.what, other.stands) == (what, stands)
    place = f"mine.toml:{other.line}:{other.column}"
    assert explanation.sentence().endswith(f"; the other is {what}: {stands}, {place}")
    assert text.split("\n")[other.line - 1][other.column - 1 :].startswith(stands.strip("`"))


@pytest.mark.parametrize(
    ("old", "new", "hint"),
    [
        ("colours = [2]", "colors = [2]", ": did you mean it by `colors`?"),
        ("frames = 64", "frame = 64", ": did you mean it by `frame`?"),
        ("flush = 20", "flsh = 20", ": did you mean it by `flsh`?"),
        ("pages = 1", "page_count = 1", ""),
        ('ways = 4, policy = "lru"', 'ways = 4, policy = "LRU"', ": did you mean `lru`?"),
    ],
)
def test_did_you_mean(old: str, new: str, hint: str) -> None:
    text = IMAGE.replace(old, new)
    refusal, _ = next(Rules(tomllib.loads(text)).broken())
    assert old in IMAGE and explain(text.encode(), "mine.toml", refusal).hint == hint


def test_what_the_second_version_has() -> None:
    for old, new, line, wanted, hint in (
        ("frames = 64", "frames = 5000", "K4 at 0 found 5000 wanted 4096", "64 to 4,096, or to 16,384", ""),
        (IMAGE, IMAGE + FIFTEEN, "K7 at 16 found 17 wanted 16", "1 to 16, or to 32", ""),
        (IMAGE, IMAGE + ENTRY * 63, "K16 at 0 found 65 wanted 1", "1 to 64, or to 256", ""),
        (
            BLUE,
            f"{BLUE}calls = [0]\n",
            "K2 at 26 found 0 wanted 0",
            "no such key here",
            ": with `version = 2`",
        ),
    ):
        it = explain(IMAGE.replace(old, new).encode(), "mine.toml", Refusal.parse(f"refused {line}"))
        assert it.wanted.startswith(wanted) and it.hint.startswith(hint) and "`version = 2`" in it.reason()
    misspelt = SECOND.replace(BLUE, f"{BLUE}call = [0]\n")
    assert explain(misspelt.encode(), "mine.toml", Refusal(2, 26, 0, 0)).hint == ": did you mean `calls`?"


def test_fewer_calls_make_a_pad_enough() -> None:
    pads = SECOND.replace("pad = 6150", "pad = 2373")
    wanted = {}
    for calls in ("", "calls = [0, 4]\n", "calls = [0, 1]\n"):
        text = pads.replace(RED, RED + calls)
        refusal, _ = next(Rules(tomllib.loads(text)).broken())
        wanted[calls] = explain(text.encode(), "mine.toml", refusal).wanted
    assert list(wanted.values()) == [
        "`pad = 6150` or more, or fewer `calls` of domain 0 (red)",
        "`pad = 2433` or more, or fewer `calls` of domain 0 (red)",
        "`pad = 2374` or more",
    ]


def test_harts_in_words() -> None:
    for new, line, reason in (
        (
            "domain = 1\nhart = 4",
            "1 found 4 wanted 1",
            "case 1: `hart` of entry 1 (blue) is `4`: an entry's `hart` is not 0 to 3; wanted: 0 to 3",
        ),
        (
            "domain = 1\nhart = 2",
            "1 found 0 wanted 2",
            "case 2: `hart` of entry 1 (blue) is `2`: a hart below the greatest has no entry; "
            "wanted: an entry on hart 1, too, or lesser harts",
        ),
        (
            f"{ON_ONE}\ndomain = 1",
            "1 found 0 wanted 3",
            "case 3: `hart` of entry 1 (red) is `1`: an earlier entry gives the domain to another hart; "
            "wanted: one hart for all entries of domain 0 (red)",
        ),
    ):
        text = IMAGE.replace("domain = 1", new)
        told = explain_all(text.encode(), "mine.toml", Refusal.parse(f"refused K19 at {line}"))
        assert [it.reason() for it in told] == [f"K19, {reason}"]


def test_every_entry_whose_hart_is_broken() -> None:
    entries = "".join(
        f"[[schedule]]\ndomain = {domain}\nlength = 1000\npad = 6150\nhart = {hart}\n"
        for domain, hart in ((0, 0), (0, 2), (1, 2), (0, 0), (1, 2))
    )
    text = IMAGE[: IMAGE.index("[[schedule]]")] + entries
    lines = ["19 at 1 found 0 wanted 2", "19 at 1 found 0 wanted 3", "19 at 3 found 0 wanted 3"]
    assert [str(it) for it, _ in Rules(tomllib.loads(text)).broken()] == [f"refused K{it}" for it in lines]
    # (where an entry's hart is none, the others may have all that are wanted)
    text = text.replace("hart = 2", "hart = -1", 1)
    lines = ["19 at 1 found -1 wanted 1"]
    assert [str(it) for it, _ in Rules(tomllib.loads(text)).broken()] == [f"refused K{it}" for it in lines]


def test_a_key_that_is_none() -> None:
    text = IMAGE.replace("colours = [2]", "colours = [2]\nmoment = []\nzz = 1")
    told = explain_all(text.encode(), "mine.toml", Refusal(2, 26, 0, 0))
    assert [it.hint for it in told] == [": did you mean `moments`?", ""]
    assert told[1].what == "`zz` of domain 1 (blue)"


def test_what_else_is_broken_comes_after(tmp_path: Path) -> None:
    image = tmp_path / "mine.toml"
    text = IMAGE.replace("[2]", "[1]").replace("pad = 6150", "pad = 6149")
    image.write_text(text.replace("frames = 64", "frames = 63"))
    line = "refused K4 at 0 found 63 wanted 64"
    ended = run_tool("tp-explain", image, line)
    rules = [re.sub(rf"{image}:\d+:\d+: ", "", told).split(": ")[0] for told in ended.stdout.splitlines()]
    assert rules == ["K4", "also K9", "also K17", "also K17"]
    fields = json.loads(run_tool("tp-explain", image, line, "--json").stdout)
    assert [it["case"] for it in fields["also"]] == ["K9", "K17", "K17"]
    pad = fields["also"][1]
    assert (pad["what"], pad["wanted"]) == ("`pad` of entry 0 (red)", "`pad = 6150` or more")
    image.write_text(IMAGE + "[[domain]]\n" * 30)
    assert run_tool("tp-explain", image, "refused K2 at 11 found 2 wanted 0").stdout.endswith("more\n")


def test_an_entry_of_no_domain_is_nobodys() -> None:
    for line, of in (("K16 at 1 found -1 wanted 2", "-1"), ("K2 at 23 found 1 wanted 0", "true")):
        text = IMAGE.replace("domain = 1\n", f"domain = {of}\n")
        explanation = explain(text.encode(), "mine.toml", Refusal.parse(f"refused {line}"))
        assert (explanation.what, explanation.stands) == ("`domain` of entry 1", f"`{of}`")

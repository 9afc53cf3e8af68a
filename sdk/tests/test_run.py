"""tp-run's words: several programs, how they are run, what is written where; and its messages."""

from __future__ import annotations

import json
import subprocess
from pathlib import Path

import pytest
from conftest import REPOSITORY, SDK, run_tool

from tp_sdk.program import Program
from tp_sdk.report import parse_report

pytest.importorskip("elftools")

EXAMPLES = REPOSITORY / "examples"
RETURNS = "int main(void) {{ return {code}; }}\n"
STOPS = "int *volatile nothing = (int *)64;\nint main(void) { return *nothing; }\n"
SETS = "int key = 1;\nint main(void) { return *(volatile int *)&key; }\n"
CONSTANTS = """
static const char *const text = "constant";
const int table[4] = {1, 2, 3, 4};
int main(void)
{
    volatile int *volatile place = (volatile int *)PLACE;
    *place = 7;
    return text[0];
}
"""


@pytest.fixture
def sources(program: Program, compiler: str, tmp_path: Path) -> Path:
    """A folder with programs in C."""
    for name, text in (
        ("a", RETURNS.format(code=1)),
        ("b", RETURNS.format(code=2)),
        ("stops", STOPS),
        ("my-aes", SETS),
    ):
        (tmp_path / f"{name}.c").write_text(text)
    return tmp_path


def run(*words: str | Path) -> subprocess.CompletedProcess[str]:
    return run_tool("tp-run", *words)


def test_each_program_is_a_domain(sources: Path) -> None:
    ended = run(sources / "a.c", sources / "b.c", "--beside", sources / "stops.c", "--slots", "3")
    assert (ended.returncode, ended.stderr) == (0, "")
    assert ended.stdout.startswith(f"{sources}/a.c, {sources}/b.c: 3 slots\n")
    for line in (
        "a (domain 0): exited with code 1",
        "b (domain 1): exited with code 2",
        "stops (domain 2): stopped by a load page fault (code 13) at ",
    ):
        assert line in ended.stdout
    for words in (
        (EXAMPLES / "skeleton.toml", sources / "a.c"),
        (sources / "a.c", EXAMPLES / "skeleton.toml"),
    ):
        two = run(*words, "--slots", "1")
        assert two.returncode == 2 and "a description says itself what is beside" in two.stderr


def test_a_domain_that_is_stopped_is_a_failure_if_that_is_asked_for(sources: Path) -> None:
    for words, code in (
        (("stops.c",), 0),
        (("stops.c", "--strict"), 1),
        (("a.c", "--strict"), 0),
        (("a.c", "stops.c", "--strict", "--alone", "a"), 0),
    ):
        programs = [sources / it if it.endswith(".c") else it for it in words]
        ended = run(*programs, "--slots", "2")
        assert (ended.returncode, ended.stderr) == (code, "") and "(domain 0): " in ended.stdout


# ---- how it is run: the report is the program's, to the byte


@pytest.mark.parametrize(
    ("name", "words", "asked", "head"),
    (
        ("spy-loud", ("run",), (), ": 4 slots"),
        (
            "spy-loud",
            ("ablate", "--off", "flush"),
            ("--off", "flush"),
            ": 4 slots",
        ),
        ("spy-loud", ("alone", "--domain", "1"), ("--alone", "spy"), ": 4 slots, spy alone"),
        (
            "two-harts",
            ("harts", "--seed", "7"),
            ("--harts", "7"),
            ": 8 slots (4 on each of 2 harts), in the order of seed 7",
        ),
        ("two-harts", ("alone", "--domain", "1"), ("--alone", "blue"), ": 4 slots, blue alone"),
    ),
)
def test_ways_to_run(
    program: Program, tmp_path: Path, name: str, words: tuple[str, ...], asked: tuple[str, ...], head: str
) -> None:
    image, report = EXAMPLES / f"{name}.toml", tmp_path / "mine.report"
    ended = run(image, "--slots", "4", "--report", report, *asked)
    assert (ended.returncode, ended.stderr) == (0, "")
    due = program.run([*words, "--slots", "4"], image.read_text()).text
    assert report.read_text() == due
    off = ", unprotected: the guard flush was off" if "--off" in asked else ""
    assert ended.stdout.splitlines()[0] == f"{report}{head} of {image}{off}"
    # as an object, of the same
    told = json.loads(run(image, "--slots", "4", "--json", *asked).stdout)
    jsonschema = pytest.importorskip("jsonschema")
    schema = json.loads((SDK / "report.schema.json").read_text())
    jsonschema.Draft7Validator(schema).validate(told)
    sections = parse_report(due if due.endswith("\nend\n") else f"{due}end\n", name).sections
    assert [it["name"] for it in told["domains"]] == [it.name for it in sections]
    assert f": {told['slots']} slots" in head
    # and to standard output, in the sentences' place
    assert run(image, "--slots", "4", "--report", "-", *asked).stdout == due


def test_the_image_on_standard_output_is_the_one_that_is_kept(sources: Path) -> None:
    kept = sources / "kept.toml"
    run(sources / "a.c", "--slots", "1", "--image", kept)
    assert run(sources / "a.c", "--slots", "1", "--image", "-").stdout == kept.read_text()


@pytest.mark.parametrize(
    ("words", "code", "told"),
    (
        (("--slots", "65537"), 2, "argument --slots: '65537': a number of slots is wanted, 0 to 65,536"),
        (("--slots", "-1"), 2, "--slots"),
        (("--slots", "many"), 2, "argument --slots: 'many': a number of slots is wanted, 0 to 65,536"),
        (("--slots", "1", "--harts", "4294967296"), 2, "a seed is wanted, 0 to 4,294,967,295"),
        (("--slots", "1", "--off", "fly"), 2, "invalid choice: 'fly'"),
        (("--slots", "1", "--off", "pad", "--alone", "red"), 2, "not allowed with argument"),
        (("--slots", "1", "--json", "--report", "-"), 2, "one text alone can be on standard output"),
        (
            ("--slots", "1", "--alone", "rad"),
            1,
            "--alone rad: IMAGE has no domain 'rad': did you mean 'red'?",
        ),
        (("--slots", "1", "--set", "r-d.key=1"), 1, "--set r-d.key: IMAGE has no domain 'r-d'"),
    ),
)
def test_words_that_are_at_fault(program: Program, words: tuple[str, ...], code: int, told: str) -> None:
    image = EXAMPLES / "two-domains.toml"
    ended = run(image, *words)
    assert ended.returncode == code and told.replace("IMAGE", str(image)) in ended.stderr


def test_guards_stay_where_there_are_several_harts(program: Program) -> None:
    image = EXAMPLES / "two-harts.toml"
    ended = run(image, "--slots", "1", "--off", "flush")
    told = f"tp-run: --off flush: {image} has several harts, and all their guards stay\n"
    assert (ended.returncode, ended.stderr) == (1, told)


# ---- messages


def test_a_name_that_is_made_of_a_files_is_said(sources: Path) -> None:
    file = sources / "my-aes.c"
    for setting in ("my-aes.key=5", "myaes.key=5"):
        ended = run(file, "--slots", "1", "--set", setting)
        assert ended.stderr == f"tp-run: {file}: its domain's name is 'myaes'\n"
        assert "myaes (domain 0): exited with code 5" in ended.stdout


@pytest.mark.parametrize(
    ("words", "told"),
    (
        (("--length", "9"), "tp-run: --length 9: the image is refused: K16, case 3: `length` of entry 0"),
        (("--stack", "65"), "tp-run: --stack 65: 'stack' must be a number of pages, 1 to 64\n"),
        (("--machine", "none.toml"), "tp-run: none.toml: No such file or directory\n"),
    ),
)
def test_a_place_that_nobody_wrote_is_told_as_the_option(
    sources: Path, words: tuple[str, ...], told: str
) -> None:
    ended = run(sources / "a.c", "--slots", "1", *words)
    assert ended.returncode == 1 and ended.stderr.startswith(told)


@pytest.mark.parametrize(
    ("place", "told"),
    (
        ("&table[2]", r" `table+0x8` (.rodata), in `rodata`, whose rights are r: it can't be written"),
        ("text", r" (.rodata), in `rodata`, whose rights are r: it can't be written"),
        ("main", r" `main` (.text), in `text`, whose rights are rx: it can't be written"),
    ),
)
def test_a_store_to_a_constant(
    program: Program, compiler: str, tmp_path: Path, place: str, told: str
) -> None:
    source = tmp_path / "mine.c"
    source.write_text(CONSTANTS.replace("PLACE", place))
    ended = run(source, "--slots", "1")
    (line,) = (it for it in ended.stdout.splitlines() if "its address is" in it)
    assert line.strip().removeprefix("its address is 0x1")[4:] == told

"""Reports in sentences, and as objects."""

from __future__ import annotations

import json
import re
from pathlib import Path

import pytest
from conftest import REPOSITORY, SDK, run_tool
from test_tables import table_with

pytest.importorskip("elftools")

from tp_sdk.calls import CALLS, ERRORS, EVERY_CALL, callers_of  # noqa: E402
from tp_sdk.description import read_description  # noqa: E402
from tp_sdk.elf import Loaded, Segment  # noqa: E402
from tp_sdk.instructions import RV32IM, about, beyond, lacking  # noqa: E402
from tp_sdk.report import Reply, Section, Stop, Thread  # noqa: E402
from tp_sdk.stops import NAMES, overflow_of, value_in_words  # noqa: E402
from tp_sdk.symbols import Symbols  # noqa: E402
from tp_sdk.telling import DomainTold  # noqa: E402

EXAMPLES = REPOSITORY / "examples"
LOUD = (EXAMPLES / "spy-loud.report").read_text()
RUNS = [it for it in sorted(EXAMPLES.glob("*.report")) if it.read_text().endswith("\nend\n")]
DEEP = """#include <stdio.h>
static int sum(int n)
{
    volatile char room[128];
    room[0] = (char)n;
    return n == 0 ? 0 : n + sum(n - 1) + room[0];
}
int main(void)
{
    printf("%s %d\\n%c", "hello", 7, 'x');
    return sum(100);
}
"""
CALLER = """#include "tp.h"
int main(void)
{
    tp_cycle();
    tp_cycle();
    tp_delete(9);
    int *volatile nothing = (int *)64;
    return *nothing; /* line 8 */
}
"""


# ---- the tables are those of docs/IMAGE.md


def test_the_calls() -> None:
    rows = table_with("number", "call", "what it does, and its value (0 where none is named)", "refused with")
    told = [(int(number), call.split()[0], codes_of(refused)) for number, call, _, refused in rows[:-1]]
    assert told == [(it.number, it.name, it.refused_with) for it in CALLS]


def codes_of(refused: str) -> tuple[int, ...]:
    """The codes of a cell, without what it says of them in brackets and words."""
    parts = re.sub(r" \(.*?\)", "", refused).split(", ")
    return tuple(int(part.split()[0]) for part in parts if part)


def test_the_errors() -> None:
    rows = table_with("code", "name", "so where")
    told = [(int(code), name, so) for code, name, so in rows]
    assert told == [(it.code, it.name, it.so_where) for it in ERRORS]


def test_the_exceptions() -> None:
    rows = table_with("code", "when", "value")
    assert {int(code) for row in rows for code in row[0].split(", ")} == set(NAMES)


# ---- every report of the examples


@pytest.mark.parametrize("report", RUNS, ids=lambda it: it.stem)
def test_a_report_of_the_examples(report: Path) -> None:
    image = report.with_suffix(".toml")
    ended = run_tool("tp-report", report, "--image", image, "--json")
    assert (ended.returncode, ended.stderr) == (0, "")
    told = json.loads(ended.stdout)
    jsonschema = pytest.importorskip("jsonschema")
    schema = json.loads((SDK / "report.schema.json").read_text())
    jsonschema.Draft7Validator(schema).validate(told)
    assert len(told["domains"]) == report.read_text().count("\ndomain ") + 1
    alone = run_tool("tp-report", report)
    assert alone.returncode == 0 and alone.stdout.startswith(f"{report}: {told['slots']} slot")


def sentences(name: str) -> list[str]:
    ended = run_tool("tp-report", EXAMPLES / f"{name}.report", "--image", EXAMPLES / f"{name}.toml")
    assert ended.returncode == 0
    return [line.strip() for line in ended.stdout.splitlines()]


def test_each_way_to_be_stopped() -> None:
    told = sentences("stops")
    for line in (
        "stop0 (domain 0): stopped by a jump to a misaligned address (code 0) at 0x10004",
        "it jumps to 0x10002, which is no multiple of 4",
        "the word c0029073 is an access of the CSR 0xc00: "
        "counters alone are there, to be read and not written",
        "a breakpoint, which ends a domain",
        "its address is 0x10002, which is no multiple of the access's size, in `segment0`",
        "its address is 0x11000, right past the page (0x10000 to 0x11000) of `segment0`",
        "its address is 0x20000, 61,440 bytes past the page (0x10000 to 0x11000) of `segment0`",
        "its address is 0x10000, in `segment0`, whose rights are rx: it can't be written",
    ):
        assert line in told


def test_harts() -> None:
    told = {}
    for name in ("two-domains", "two-harts"):
        report = EXAMPLES / f"{name}.report"
        ended = run_tool("tp-report", report, "--image", EXAMPLES / f"{name}.toml")
        assert ended.returncode == 0
        first, *_, last = ended.stdout.splitlines()
        told[name] = (first.split(": ")[1].split(" of ")[0], last.split(": ")[0])
    assert told == {
        "two-domains": ("4 slots", "entry 1 (blue)"),
        "two-harts": ("4 slots (2 on each", "entry 1 (blue, hart 1)"),
    }


def test_calls_and_readings() -> None:
    told = sentences("memory")
    assert "6 replies to calls; refused: 2" in told
    assert "1 by NoTable (9: no table is installed for the address), as MAP can be: reply 2" in told
    told = sentences("spy-loud")
    steps = "+1009 +34679 +369 +34676 +369 +34676 +369"
    assert f"8 readings, the first 22456, each less the one before it: {steps}" in told
    assert "entry 0 (loud): 8 switches used 1,142 of the 6,150 cycles of the pad at most" in told


def test_calls_that_are_left_out() -> None:
    replies = Section(0, "red", "running", 0, (), b"", "", replies_count=3, replies=(Reply(1, 0),) * 3)
    for calls, told in (
        (EVERY_CALL, ": replies 0, 1, 2"),
        (frozenset({0, 1}), ", as all but EXIT and PUT are: replies 0, 1, 2"),
        (frozenset[int](), ", as all are: replies 0, 1, 2"),
    ):
        it = DomainTold(replies, None, calls)
        bad = next(line.strip() for line in it.sentences() if "BadCall" in line)
        words = "3 by BadCall (1: no call has the number, or the domain's `calls` leave it out)"
        assert bad == words + told
        (refused,) = it.fields()["replies"]["refused"]
        assert refused["calls"] == [call.name for call in CALLS if call.number not in calls]
    # (none of a list's calls can come to another call's code)
    assert callers_of(12) == ["DELETE"] and callers_of(12, frozenset({0, 1})) == []


# ---- what a value says

STACK = Segment("stack", 127, 1, "rw", bytearray())
PROGRAM = Loaded(Path("red"), 0x10000, [Segment("text", 16, 1, "rx", bytearray()), STACK], Symbols())


def thread(pointer: int) -> Thread:
    return Thread(0, "ready", None, 0x10000, {2: pointer} if pointer else {})


def test_a_stack_that_has_overflowed() -> None:
    for code, value, pointer, is_one in (
        (15, 0x7EFF9, 0x7EFF0, True),
        (13, 0x7EFF9, 0x7EFF0, True),
        (15, 0x7EFF9, 0x7F010, False),  # below the stack, which has room
        (12, 0x7EFF9, 0x7EFF0, False),  # a jump there
        (15, 0x20000, 0x7EFF0, False),  # far from it
        (15, 0xFFFFFFF0, 0, False),
    ):
        overflow = overflow_of(Stop(code, 0x10000, value), thread(pointer), PROGRAM.segments)
        assert (overflow is not None) == is_one
    overflow = overflow_of(Stop(15, 0x10000, 0x7EFF9), thread(0x7EFF0), PROGRAM.segments)
    assert str(overflow).startswith(
        "the stack has overflowed: x2 is 0x7eff0, 16 bytes below the stack's page (0x7f000 to 0x80000): "
        "a greater one is `stack = 2`"
    )


@pytest.mark.parametrize(
    ("code", "value", "told"),
    [
        (15, 0x7EFF9, "its address is 0x7eff9, 7 bytes below the page (0x7f000 to 0x80000) of `stack`"),
        (13, 0x80000, "its address is 0x80000, right past the page (0x7f000 to 0x80000) of `stack`"),
        (13, 0x80001, "its address is 0x80001, 1 byte past the page (0x7f000 to 0x80000) of `stack`"),
        (13, 8, "its address is 0x8, in no segment: a null pointer?"),
        (15, 0xFFFFFFFC, "its address is 0xfffffffc, in no segment: x2 is 0, so the program has set up no"),
        (13, 0x7F000, "its address is 0x7f000, in `stack`, but its page is not mapped any more, or with"),
        (2, 0x02208033, "the word 02208033 is mul, of the extension M, which the machine lacks: compile it"),
        (2, 0, "the word 00000000 is zeros: nothing was loaded there"),
        (2, 0x4501, "the word 00004501 is its low bits"),
        (2, 0x0000100F, "the word 0000100f is fence.i"),
        (2, 0xFFFFFFFF, "the word ffffffff is no instruction"),
    ],
)
def test_a_value(code: int, value: int, told: str) -> None:
    assert value_in_words(Stop(code, 0x10000, value), thread(0), PROGRAM).startswith(told)


def test_instructions_that_the_machine_lacks() -> None:
    words = (0x02208033, 0x1000A0AF, 0x00007053)
    names = [str(lacking(word)).split(",")[0] for word in words]
    assert names == ["mul", "lr.w", "a floating-point operation"]
    assert all(lacking(word) is None for word in (0, 0x13, 0x73, 0xC00022F3, 0x00208033, 0x40208033))
    assert about(0x13) is None
    for arch, others in (
        ("rv32i2p1", []),
        ("rv32i2p1_zicsr2p0", []),
        ("rv32i2p1_m2p0_zicsr2p0", ["m"]),
        ("rv32imac", ["m", "a", "c"]),
        ("rv32i2p1_m2p0_a2p1_f2p2_d2p2_c2p0_zicsr2p0_zmmul1p0", ["m", "a", "f", "d", "c", "zmmul"]),
    ):
        assert beyond(arch) == others
        assert beyond(arch, RV32IM) == [name for name in others if name not in ("m", "zmmul")]
    assert lacking(0x02208033, RV32IM) is None
    assert str(lacking(0x1000A0AF, RV32IM)).startswith("lr.w")


# ---- what is at fault


OTHERS = [
    ("domain 0 loud", "domain 0 quiet", "1: {}: domain 0 is 'quiet' here, and 'loud' in IMAGE"),
    ("domain 1 spy", "domain 7 spy", "9: {}: domain 7 is 'spy' here, and none in IMAGE"),
    ("6150 count 8\nend", "6151 count 8\nend", "18: {}: the pad of entry 1 is 6151 here, and 6150 in IMAGE"),
    (
        "end\n",
        "switch 2 used 0 pad 0 count 0\nend\n",
        " {}: its schedule has 3 entries, and that of IMAGE has 2",
    ),
    ("end\n", "", " no report, which ends with the line 'end'"),
    (
        LOUD,
        "refused K4 at 0 found 63 wanted 64\n",
        " no report, which ends with the line 'end': "
        "the program's answer is 'refused K4 at 0 found 63 wanted 64'",
    ),
    (LOUD[LOUD.index("domain 1") : LOUD.index("switch 0")], "", " {}: it has 1 domains, and IMAGE has 2"),
]


@pytest.mark.parametrize(("old", "new", "fault"), OTHERS, ids=lambda it: it[:30])
def test_a_report_of_another_image(tmp_path: Path, old: str, new: str, fault: str) -> None:
    image, file = EXAMPLES / "spy-loud.toml", tmp_path / "mine.report"
    assert old in LOUD
    file.write_text(LOUD.replace(old, new))
    ended = run_tool("tp-report", file, "--image", image)
    told = fault.format("a report of another image").replace("IMAGE", str(image))
    assert (ended.returncode, ended.stderr) == (1, f"tp-report: {file}:{told}\n")


def test_words_of_elf_files(tmp_path: Path) -> None:
    report, image = EXAMPLES / "spy-loud.report", EXAMPLES / "spy-loud.toml"
    assert run_tool("tp-report", report, "--elf", "x").returncode == 2
    ended = run_tool("tp-report", report, "--image", image, "--elf", "sky=x.elf")
    assert ended.stderr.endswith("has no domain 'sky': did you mean 'spy'? (DOMAIN=FILE says of which)\n")
    missing = run_tool("tp-report", report, "--image", "none.toml")
    assert missing.stderr == "tp-report: none.toml: No such file or directory\n"


# ---- programs in C


def run_c(*words: str | Path) -> str:
    ended = run_tool("tp-run", *words)
    assert (ended.returncode, ended.stderr) == (0, "")
    return ended.stdout


def test_programs_in_c_are_run_and_explained(program: object, compiler: str, tmp_path: Path) -> None:
    (tmp_path / "deep.c").write_text(DEEP)
    (tmp_path / "caller.c").write_text(CALLER)
    image, report = tmp_path / "image.toml", tmp_path / "deep.report"
    text = run_c(
        tmp_path / "deep.c", "--beside", tmp_path / "caller.c", "--slots", "20",
        "--image", image, "--report", report,
    )  # fmt: skip
    for line in (
        "  | hello 7\n  | x\n",
        "deep (domain 0): stopped by a store page fault (code 15) at ",
        "the stack has overflowed: x2 is ",
        "caller (domain 1): stopped by a load page fault (code 13) at ",
        "its address is 0x40, in no segment: a null pointer?",
        "1 by Empty (3: the slot is empty), as ",
        "2 readings, the first ",
    ):
        assert line in text
    assert re.search(r"`sum\+0x[0-9a-f]+` \(deep.c:[2-6]\)", text)
    assert re.search(r"`main\+0x[0-9a-f]+` \(caller.c:[7-9]\)", text)
    # the same from the files that were kept
    again = run_tool("tp-report", report, "--image", image, "--json")
    deep = json.loads(again.stdout)["domains"][0]
    assert deep["status"]["is_stack_overflow"] and deep["printed"]["text"] == "hello 7\nx"
    assert deep["status"]["pc"]["symbol"] is None
    greater = run_c(tmp_path / "deep.c", "--slots", "20", "--stack", "8")
    assert "exited with code " in greater


def test_an_elf_file_beside_an_image(program: object, compiler: str, built: Path, tmp_path: Path) -> None:
    image, report = tmp_path / "i.toml", tmp_path / "r.report"
    run_c(built / "driver.toml", "--slots", "2", "--image", image, "--report", report)
    elf = built / "out" / "driver.elf"
    told = run_tool("tp-report", report, "--image", image, "--elf", elf).stdout
    assert "thread 0 waits for line 3 at " in told and "driver.c:27" in told
    assert told == run_tool("tp-report", report, "--image", image, "--elf", f"driver={elf}").stdout
    other = run_tool("tp-report", report, "--image", image, "--elf", f"driver={built / 'out' / 'hello.elf'}")
    assert other.returncode == 1 and "it isn't the program of domain 0 (driver)" in other.stderr
    assert read_description(image).domains[0].name == "driver"


def test_programs_that_cannot_be_run(program: object, compiler: str, tmp_path: Path) -> None:
    source = tmp_path / "mine.c"
    missing = run_tool("tp-run", source, "--slots", "1")
    assert missing.stderr == f"tp-run: {source}: No such file or directory\n"
    source.write_text("int main(void) { return x; }\n")
    ended = run_tool("tp-run", source, "--slots", "1")
    assert ended.returncode == 1 and f"{source}: it can't be compiled and linked\n" in ended.stderr
    source.write_text("int main(void) { return 0; }\n")
    words = [it for number in range(8) for it in ("--beside", tmp_path / f"x{number}.c")]
    for number in range(8):
        (tmp_path / f"x{number}.c").write_text("int main(void) { return 0; }\n")
    many = run_tool("tp-run", source, "--slots", "1", *words)
    assert "it has 7 colours for domains, too few for 9 programs" in many.stderr
    twice = run_tool("tp-run", source, "--slots", "1", "--beside", source)
    assert twice.stderr == f"tp-run: {source}: there are two domains 'mine': give the file another name\n"
    assert run_tool("tp-run", tmp_path / "d.toml", "--beside", source, "--slots", "1").returncode == 2
    short = run_tool("tp-run", source, "--slots", "1", "--length", "9")
    assert "K16, case 3: `length` of entry 0" in short.stderr and short.stderr.startswith(
        "tp-run: --length 9: "
    )


def test_an_image_of_the_same_names_and_pads_that_is_another(program: object, tmp_path: Path) -> None:
    image = EXAMPLES / "spy-loud.toml"
    text = image.read_text()
    other = tmp_path / "other.toml"
    other.write_text(text.replace('hex = "', 'hex = "13000000', 1))
    ended = run_tool("tp-report", EXAMPLES / "spy-loud.report", "--image", other)
    assert ended.returncode == 1
    assert ended.stderr.startswith(
        f"tp-report: {EXAMPLES / 'spy-loud.report'}:3: a report of another image: "
    )
    assert f"of domain 0 (loud), and {other} comes to 'retired " in ended.stderr
    # with a guard off it is that of the image without the guard
    off, made = EXAMPLES / "channels" / "lines" / "flush", EXAMPLES / "channels" / "lines"
    for secret, code in ((3, 0), (4, 1)):
        words = (off / "secret-3.report", "--image", made / f"secret-{secret}.toml")
        ended = run_tool("tp-report", *words)
        assert ended.returncode == code and ("a report of another image: " in ended.stderr) == (code == 1)


def test_a_report_in_another_order_is_of_the_image(program: object, tmp_path: Path) -> None:
    image, report = EXAMPLES / "two-harts.toml", tmp_path / "mine.report"
    for seed in ("1", "2", "3"):
        ended = run_tool("tp-run", image, "--slots", "6", "--harts", seed, "--report", report)
        assert ended.returncode == 0
        assert run_tool("tp-report", report, "--image", image).returncode == 0


def test_a_report_on_standard_input() -> None:
    report = EXAMPLES / "spy-loud.report"
    given = run_tool("tp-report", "-", given=report.read_text())
    named = run_tool("tp-report", report)
    assert given.returncode == 0 and given.stdout.replace("-: ", f"{report}: ", 1) == named.stdout


def test_switches_that_used_another_time(program: object, tmp_path: Path) -> None:
    image, report = EXAMPLES / "spy-loud.toml", tmp_path / "mine.report"
    assert "switch 0 used 1142 " in LOUD
    report.write_text(LOUD.replace("switch 0 used 1142 ", "switch 0 used 1141 "))
    ended = run_tool("tp-report", report, "--image", image)
    told = "17: a report of another image: 8 switches of entry 0 used 1141 at most, and 8 of "
    assert (ended.returncode, ended.stderr) == (1, f"tp-report: {report}:{told}{image} 1142\n")

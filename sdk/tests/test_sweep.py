"""tp-sweep and tp_sdk.sweep: what is varied, the rows, the files, and what is at fault."""

from __future__ import annotations

import csv
import json
import os
import signal
import subprocess
import sys
from pathlib import Path

import pytest
from conftest import REPOSITORY, SDK, run_tool
from test_waiting import MOST_SECONDS, script, wait_for

import tp_sdk
from tp_sdk.build import build_text, set_words
from tp_sdk.description import read_description
from tp_sdk.faults import Fault
from tp_sdk.information import capacity, entropy
from tp_sdk.program import Program
from tp_sdk.sweeping.images import Images
from tp_sdk.sweeping.places import Variant, find
from tp_sdk.sweeping.plan import Grid, Varied
from tp_sdk.sweeping.rows import COLUMNS
from tp_sdk.sweeping.values import Values, parse_values, written

EXAMPLES = REPOSITORY / "examples"
VICTIM = EXAMPLES / "victim.toml"
SKELETON = EXAMPLES / "skeleton.toml"
# A program that answers each image with the same report, and notes that it ran.
ANSWERS = """#!/bin/sh
given=$(cat)
echo "$1" >> "{ran}"
case $1 in
    bound) printf 'instruction 1\\noperation 1\\nleave 1\\nprefetch 1\\nflush 1\\nenter 1\\nbound 6150\\n' ;;
    gen) cat "{drawn}" ;;
    *) {before}
       cat "{report}" ;;
esac
"""


def rows_of(file: Path) -> list[dict[str, str]]:
    with file.open() as lines:
        return list(csv.DictReader(lines))


@pytest.fixture
def answers(tmp_path: Path, monkeypatch: pytest.MonkeyPatch) -> Path:
    """What the program has run, a line a run: it answers at once, each time the same."""
    ran = tmp_path / "ran"
    monkeypatch.setenv("TP", str(script(tmp_path / "tp", answering(ran))))
    ran.write_text("")
    return ran


def answering(ran: Path, before: str = ":") -> str:
    """The text of a program that answers, after it has done something."""
    return ANSWERS.format(ran=ran, report=EXAMPLES / "victim.report", drawn=SKELETON, before=before)


def runs_in(ran: Path) -> int:
    return len([line for line in ran.read_text().splitlines() if line not in ("bound", "gen")])


# ---- values and points


@pytest.mark.parametrize(
    ("text", "values"),
    (
        ("8,16, 32", [8, 16, 32]),
        ("0..3,0x10", [0, 1, 2, 3, 16]),
        ("0..64..16", [0, 16, 32, 48, 64]),
        ("8..64*2", [8, 16, 32, 64]),
        ("lru,fifo", ["lru", "fifo"]),
        ("none,true", [None, True]),
        ('"a, b",[1, 2],[]', ["a, b", [1, 2], []]),
        ("{ mul = 3, div = 1 },@noise.bin", [{"mul": 3, "div": 1}, "@noise.bin"]),
    ),
)
def test_values_as_words(text: str, values: list[object]) -> None:
    assert list(parse_values(text, "--vary x")) == values


@pytest.mark.parametrize(
    ("text", "told"),
    (
        ("15..0", "--vary x: the range 15..0 runs backwards: 0..15 is meant?"),
        ("0..4..0", "--vary x: the range 0..4..0 has no end: its step is 0"),
        ("0..8*2", "has no end"),
        ("1..8*1", "has no end"),
        ("", "'' is no value"),
        ("1,,2", "'' is no value"),
        ("[1", "'[1' is no value"),
        ("-1", "'-1' is no value"),
    ),
)
def test_values_that_are_none(text: str, told: str) -> None:
    with pytest.raises(Fault) as fault:
        parse_values(text, "--vary x")
    assert told in str(fault.value)


def test_a_long_range_is_not_written_out() -> None:
    values = parse_values("0..0xffffffff,5", "x")
    assert len(values) == 2**32 + 1 and values[2**32 - 1] == 2**32 - 1 and values[-1] == 5
    assert list(values.samples()) == [0, 2**32 - 1, 5]


def test_a_grid_is_every_combination_and_the_last_thing_varies_first() -> None:
    where = find("machine.line", read_description(SKELETON), "x")
    grid = Grid.of([Varied("a", where, Values([[1, 2]])), Varied("b", where, Values([["x", "y", "z"]]))])
    combinations = [grid.values(place) for place in range(len(grid))]
    assert combinations == [[1, "x"], [1, "y"], [1, "z"], [2, "x"], [2, "y"], [2, "z"]]
    drawn = Grid.of(grid.varied, 3, 7)
    again = Grid.of(grid.varied, 3, 7)
    assert drawn == again and len(drawn) == 3 and len(set(drawn.numbers)) == 3
    assert len(Grid.of(grid.varied, 10)) == 6 and len(Grid.of([])) == 1


def test_capacity_and_entropy_of_sections() -> None:
    # (one value that is often, and three that are rare)
    sections = ["a"] * 5 + ["b", "c", "d"]
    assert capacity(sections) == 2.0 and entropy(sections) == pytest.approx(1.5488, abs=1e-4)
    assert capacity(["a"]) == 0.0


# ---- images


def test_an_image_in_memory_is_the_one_that_is_written(program: Program) -> None:
    description = read_description(VICTIM)
    domains = [it.program for it in description.domains]
    images = Images(description, {}, program)
    variant = Variant.of(description)
    for where, value in (
        ("machine.l1d.ways", 4),
        ("machine.l2.policy", "fifo"),
        ("schedule.spy.length", 9000),
    ):
        find(where, description, "x").put(variant, value)
    images.load(variant)
    written_out = VICTIM.read_text().replace("l1d = { sets = 16, ways = 2", "l1d = { sets = 16, ways = 4")
    written_out = written_out.replace(
        'l2 = { sets = 512, ways = 4, policy = "lru"', 'l2 = { sets = 512, ways = 4, policy = "fifo"'
    )
    at = written_out.rindex("length = 10000")
    written_out = written_out[:at] + written_out[at:].replace("10000", "9000")
    theirs = build_text(read_description(VICTIM, written_out), None)
    ours = images.build(variant).text
    # (the description itself is as it was)
    assert [it.program for it in description.domains] == domains
    without = [line for line in ours.splitlines() if not line.startswith("pad")]
    assert without == [line for line in theirs.splitlines() if not line.startswith("pad")]


def test_a_value_at_a_symbol_is_the_one_of_set(built: Path, program: Program) -> None:
    description = read_description(built / "victim.toml")
    images = Images(description, {}, program)
    images.load(Variant.of(description))
    texts = []
    for key in (0x01234567, 5):
        variant = Variant.of(description)
        find("victim.key", description, "x").put(variant, key)
        texts.append(images.build(variant).text)
    set_words(description, ["victim.key=0x01234567"])
    assert texts[0] == build_text(description, program) and texts[1] != texts[0]


# ---- rows


def test_the_rows_are_those_of_runs_one_by_one(built: Path, program: Program, tmp_path: Path) -> None:
    """Capacity, entropy and cycles of what tp-image and the program come to, run for run."""
    rows = tp_sdk.sweep(
        built / "victim.toml",
        {"key=victim.key": "0,1"},
        slots=2,
        off="none,pad",
        jobs=1,
        out=tmp_path / "a.csv",
    )
    assert [(row.varied, row.observer) for row in rows] == [({"off": None}, "spy"), ({"off": "pad"}, "spy")]
    for row, words in zip(rows, (["run"], ["ablate", "--off", "pad"])):
        description = read_description(built / "victim.toml")
        sections = []
        for key in range(2):
            set_words(description, [f"victim.key={key}"])
            report = program.run([*words, "--slots", "2"], build_text(description, program)).text
            sections.append(report[report.index("domain 1 spy") : report.index("switch 0")])
        assert (row.sections, row.secrets) == (len(set(sections)), 2)
        assert row.capacity == round(capacity(sections), 6) and row.entropy == round(entropy(sections), 6)
        assert (row.cycles, row.slot_cycles, row.pad) == (2 * 16150, 20000, 6150)
        assert row.bits_per_slot == round(row.capacity / 2, 6)
    assert rows[0].capacity == 0
    assert rows[0].status == "running" and rows[0].note == ""
    # the file has the same, and the call gives it from there
    table = rows_of(tmp_path / "a.csv")
    assert list(table[0]) == ["off", *COLUMNS]
    assert [row["off"] for row in table] == ["none", "pad"]
    again = tp_sdk.sweep(
        built / "victim.toml",
        {"key=victim.key": range(2)},
        slots=2,
        off=[None, "pad"],
        out=tmp_path / "a.csv",
    )
    assert again == rows


def test_an_image_that_is_refused_is_a_row(program: Program) -> None:
    rows = tp_sdk.sweep(SKELETON, {"schedule.pad": [100, 6150], "machine.l1d.ways": [2, 99]}, slots=1, jobs=1)
    notes = [(row.varied["schedule.pad"], row.varied["machine.l1d.ways"], row.status) for row in rows]
    assert notes == [
        (100, 2, "refused"),
        (100, 99, "refused"),
        (6150, 2, rows[2].status),
        (6150, 99, "refused"),
    ]
    assert rows[2].status != "refused" and rows[2].sections == 1
    assert rows[0].sections is None and rows[0].note.startswith("K17: `pad` of entry 0")
    assert "wanted: " in rows[1].note


def test_the_secret_and_who_observes(answers: Path) -> None:
    def of(**asked: object) -> list[tuple[str, str]]:
        rows = tp_sdk.sweep(VICTIM, {"machine.costs.mem": [40, 41]}, slots=1, jobs=1, **asked)  # type: ignore[arg-type]
        return sorted({(row.secret, row.observer) for row in rows})

    assert of() == [("", "spy"), ("", "victim")]
    assert of(secret="machine.costs.mem", observer="spy") == [("machine.costs.mem", "spy")]
    assert of(noise="1,2", secret=["noise"], observer=["spy", "victim"]) == [
        ("noise", "spy"),
        ("noise", "victim"),
    ]
    assert of(off="none,flush", secret="off") == [("off", "spy"), ("off", "victim")]


def test_the_default_secret_is_of_the_first_domain_with_symbols(built: Path, answers: Path) -> None:
    def of(vary: dict[str, str], **asked: object) -> list[tuple[str, str, int]]:
        rows = tp_sdk.sweep(built / "victim.toml", vary, slots=1, jobs=1, **asked)  # type: ignore[arg-type]
        return sorted({(row.secret, row.observer, len(row.varied)) for row in rows})

    assert of({"victim.key": "0,1"}) == [("victim.key", "spy", 0)]
    assert of({"victim.key": "0,1"}, secret="none") == [("", "spy", 1), ("", "victim", 1)]
    assert of({"victim.key": "0,1"}, observer="victim") == [("victim.key", "victim", 0)]
    assert of({"victim.key": "0..99"}, secrets=5) == [("victim.key", "spy", 0)]


def test_noise_is_a_domain_beside_with_a_colour_that_is_free(program: Program) -> None:
    description = read_description(VICTIM)
    variant = Variant.of(description)
    variant.noise = 3
    images = Images(description, {}, program)
    images.load(variant)
    text = images.build(variant).text
    assert program.run(["check"], text).text == "accepted\n"
    assert 'name = "noise"\ncolours = [3]' in text and text.count("[[schedule]]") == 3


# ---- files


def test_points_that_are_in_the_file_are_not_run_again(answers: Path, tmp_path: Path) -> None:
    out = tmp_path / "a.csv"
    words = (VICTIM, "--slots", "1", "-o", out, "--jobs", "1")
    assert run_tool("tp-sweep", *words, "--vary", "machine.costs.mem=40,42").returncode == 0
    first = out.read_text()
    assert runs_in(answers) == 2
    assert run_tool("tp-sweep", *words, "--vary", "machine.costs.mem=40,42").returncode == 0
    assert runs_in(answers) == 2 and out.read_text() == first
    # a greater grid has what is new run, and its own order
    assert run_tool("tp-sweep", *words, "--vary", "machine.costs.mem=40..42").returncode == 0
    assert runs_in(answers) == 3
    assert [row["machine.costs.mem"] for row in rows_of(out)] == ["40", "40", "41", "41", "42", "42"]
    # a line that was cut off is no row
    out.write_text(first[:-20])
    assert run_tool("tp-sweep", *words, "--vary", "machine.costs.mem=40,42").returncode == 0
    assert out.read_text() == first and runs_in(answers) == 4


def test_a_file_of_another_sweep_is_refused(answers: Path, tmp_path: Path) -> None:
    out = tmp_path / "a.csv"
    words = (VICTIM, "-o", out, "--vary", "machine.costs.mem=40")
    assert run_tool("tp-sweep", *words, "--slots", "1").returncode == 0
    before = out.read_text()
    for other in (("--slots", "2"), ("--slots", "1", "--observer", "spy"), ("--slots", "1", "--off", "none")):
        ended = run_tool("tp-sweep", *words, *other)
        assert ended.returncode == 1 and ended.stderr.startswith(f"tp-sweep: {out}: it is of another sweep: ")
        assert ended.stderr.count("\n") == 1
    assert out.read_text() == before
    out.write_text("a,b\n1,2\n")
    assert "its columns are others" in run_tool("tp-sweep", *words, "--slots", "1").stderr


def test_json_lines_are_resumed_too(answers: Path, tmp_path: Path) -> None:
    out = tmp_path / "a.jsonl"
    words = (VICTIM, "--slots", "1", "-o", out, "--jobs", "1", "--vary", "machine.costs.mem=40,41")
    assert run_tool("tp-sweep", *words, "--off", "none,flush").returncode == 0
    rows = [json.loads(line) for line in out.read_text().splitlines()]
    assert [(row["machine.costs.mem"], row["off"]) for row in rows[::2]] == [
        (40, None),
        (40, "flush"),
        (41, None),
        (41, "flush"),
    ]
    assert rows[0]["capacity"] == 0.0 and list(rows[0]) == ["machine.costs.mem", "off", *COLUMNS]
    before = out.read_text()
    assert run_tool("tp-sweep", *words, "--off", "none,flush").returncode == 0
    assert out.read_text() == before and runs_in(answers) == 4


# ---- one compiler, few processes


def test_a_thousand_points_start_one_compiler_and_a_process_each(
    compiler: str, answers: Path, tmp_path: Path, monkeypatch: pytest.MonkeyPatch
) -> None:
    """What takes long is the program alone: no compiler and no Python for a point."""
    compilers = tmp_path / "compilers"
    real = subprocess.run(["which", "riscv64-unknown-elf-gcc"], capture_output=True, text=True, check=False)
    if real.returncode != 0:
        pytest.skip("the compiler has another name")
    folder = tmp_path / "bin"
    folder.mkdir()
    script(folder / "x-gcc", f'#!/bin/sh\necho >> "{compilers}"\nexec {real.stdout.strip()} "$@"\n')
    monkeypatch.setenv("CROSS", f"{folder}/x-")
    for name in ("victim.c", "spy_sets.c", "machine.toml", "victim.toml"):
        text = (SDK / "c" / name).read_text()
        (tmp_path / name).write_text(text.replace("out/", "").replace(".elf", ".c"))
    rows = tp_sdk.sweep(
        tmp_path / "victim.toml",
        {"victim.key": range(50), "machine.costs.mem": [40, 41], "domain.spy.stack": [1, 2]},
        slots=1,
        jobs=1,
    )
    assert len(rows) == 4 and all(row.secrets == 50 for row in rows)
    assert runs_in(answers) == 200
    # (a bound for each machine; each program is compiled once for each stack, and make calls the compiler)
    assert answers.read_text().count("bound") == 2
    once = len(compilers.read_text().splitlines())
    compilers.write_text("")
    tp_sdk.sweep(tmp_path / "victim.toml", {"victim.key": [0]}, slots=1, jobs=1)
    of_two_programs = len(compilers.read_text().splitlines())
    assert once <= 2 * of_two_programs


# ---- what is at fault


@pytest.mark.parametrize(
    ("words", "told"),
    (
        (("--vary", "machine.l1d.set=1"), "no machine has a key 'l1d.set': did you mean 'machine.l1d.sets'?"),
        (("--vary", "l1d.sets=1"), "did you mean 'machine.l1d.sets'?"),
        (("--vary", "machine.l1d.sets=lru"), "--vary machine.l1d.sets: 'lru': an integer is wanted"),
        (("--vary", "machine.l1d.sets=none"), "'none': it may not be missing"),
        (("--vary", "machine.muldiv.mul=1"), "the machine of"),
        (("--vary", "domain.spi.colours=[3]"), "has no domain 'spi': did you mean 'spy'?"),
        (("--vary", "domain.spy.colour=[3]"), "has no key 'colour' to vary: did you mean 'colours'?"),
        (("--vary", "schedule.9.pad=1"), "has no entry '9'"),
        (("--vary", "schedule.pads=1"), "did you mean 'pad'?"),
        (("--vary", "victim.kez=1"), "there is no symbol 'kez'"),
        (("--vary", "cycles=machine.costs.mem:1"), "a column has this name"),
        (("--vary", "machine.costs.mem=1", "--vary", "machine.costs.mem=2"), "two things have the name"),
        (("--vary", "machine.costs.mem=1,1"), "the value 1 stands twice"),
        (("--vary", "machine.costs.mem"), "WHERE=VALUES or NAME=WHERE:VALUES is wanted"),
        (("--vary", "machine.costs.mem=9..1"), "runs backwards"),
        (("--off", "flash"), "there is no such guard: did you mean 'flush'?"),
        (("--noise", "x"), "a seed is wanted"),
        (
            ("--secret", "kay", "--vary", "key=machine.costs.mem:1,2"),
            "nothing of this name is varied: did you mean 'key'?",
        ),
        (("--observer", "spyy"), "has no domain 'spyy': did you mean 'spy'?"),
        (
            ("--vary", "machine.costs.mem=0..999", "--vary", "machine.costs.wb=0..1000"),
            "more than 1,000,000 want --yes",
        ),
        (("-o", "/nowhere/a.csv"), "/nowhere/a.csv: No such file or directory"),
        (("-o", "a.txt"), "a.txt: a table is NAME.csv, NAME.jsonl, NAME.parquet"),
        (("--scheduler", "here"), "here: the address of a scheduler is wanted"),
    ),
    ids=lambda it: it[-1] if isinstance(it, tuple) else "",
)
def test_each_fault_is_one_sentence(words: tuple[str, ...], told: str, answers: Path) -> None:
    ended = run_tool("tp-sweep", VICTIM, "--slots", "1", *words)
    if "scheduler" in words[0] and "has no distributed" in ended.stderr:
        pytest.skip("there is no distributed")
    assert ended.returncode == 1 and told in ended.stderr and ended.stderr.count("\n") == 1
    assert ended.stderr.startswith("tp-sweep: ") and runs_in(answers) == 0


def test_more_than_a_million_runs_that_are_meant_begin(answers: Path) -> None:
    grid = ("--vary", "machine.costs.mem=0..999", "--vary", "machine.costs.wb=0..1000")
    ended = run_tool("tp-sweep", VICTIM, "--slots", "1", *grid, "--random", "2", "--jobs", "1")
    assert ended.returncode == 0 and runs_in(answers) == 2


def test_an_interrupt_keeps_what_is_done_and_ends_the_program(tmp_path: Path) -> None:
    ran, told, out = tmp_path / "ran", tmp_path / "told", tmp_path / "a.csv"
    ran.write_text("")
    # (all points but the first two take their time, in whichever order two workers come to them)
    slow = f'echo $$ >> "{told}"; exec sleep {MOST_SECONDS}'
    before = f'case $given in *" mem = 40,"* | *" mem = 41,"*) ;; *) {slow} ;; esac'
    answer = answering(ran, before)
    tp = script(tmp_path / "tp", answer)
    for jobs in ("1", "2"):
        ran.write_text("")
        told.unlink(missing_ok=True)
        out.unlink(missing_ok=True)
        words = ("--vary", "machine.costs.mem=40..47", "--slots", "1", "-o", out, "--jobs", jobs)
        command = [sys.executable, SDK / "tp-sweep", VICTIM, *words]
        with subprocess.Popen(
            command, env=os.environ | {"TP": str(tp)}, stderr=subprocess.PIPE, text=True
        ) as it:
            wait_for(lambda: told.exists() and told.read_text().endswith("\n"), it)
            wait_for(lambda: len(rows_of(out)) >= 4, it)
            it.send_signal(signal.SIGINT)
            _, said = it.communicate(timeout=MOST_SECONDS)
        assert (it.returncode, said) == (130, "tp-sweep: interrupted\n")
        assert len(rows_of(out)) >= 4
        for process in told.read_text().split():
            wait_until_gone(int(process))


def wait_until_gone(process: int) -> None:
    import time

    end = time.monotonic() + MOST_SECONDS
    while time.monotonic() < end:
        try:
            os.kill(process, 0)
        except ProcessLookupError:
            return
        time.sleep(0.02)
    pytest.fail("the program goes on")


def test_a_worker_that_ends_is_told_of_and_what_is_done_is_kept(tmp_path: Path) -> None:
    ran, out = tmp_path / "ran", tmp_path / "a.csv"
    ran.write_text("")
    # (the fourth run ends the process that asks for it)
    before = f'[ $(grep -c run "{ran}") -lt 4 ] || kill -9 $PPID'
    answer = answering(ran, before)
    tp = script(tmp_path / "tp", answer)
    words = ("--vary", "machine.costs.mem=40..47", "--slots", "1", "-o", out, "--jobs", "2")
    command = [sys.executable, SDK / "tp-sweep", VICTIM, *words]
    ended = subprocess.run(
        command, env=os.environ | {"TP": str(tp)}, capture_output=True, text=True, check=False
    )
    assert ended.returncode == 1 and ended.stderr.count("\n") == 1
    assert "a worker has ended before its runs did: the same command goes on" in ended.stderr
    assert len(rows_of(out)) % 2 == 0


def test_a_program_that_is_another_one_is_told_of_by_whichever_worker_comes_first(tmp_path: Path) -> None:
    tp = script(tmp_path / "tp", "echo hello")
    words = (
        "--vary",
        "machine.costs.mem=40..59",
        "--vary",
        "schedule.pad=bound",
        "--slots",
        "1",
        "--jobs",
        "4",
    )
    command = [sys.executable, SDK / "tp-sweep", VICTIM, *words]
    for _ in range(5):
        ended = subprocess.run(
            command,
            env=os.environ | {"TP": str(tp)},
            capture_output=True,
            text=True,
            check=False,
            timeout=MOST_SECONDS,
        )
        assert (ended.returncode, ended.stderr) == (
            3,
            f"tp-sweep: {tp} is not the program tp: is TP right?\n",
        )


def test_written_values() -> None:
    assert [written(it) for it in (None, True, 5, "lru", [1, 2])] == ["none", "true", "5", "lru", "[1, 2]"]

"""The gallery of channels: what its reports tell of the secret, and how that is drawn."""

from __future__ import annotations

import shutil
import subprocess
from pathlib import Path

import pytest
from conftest import REPOSITORY, SDK, run_tool, stored_picture
from test_tables import table_with

from tp_sdk.faults import Fault
from tp_sdk.guards import GUARDS
from tp_sdk.information import entropy
from tp_sdk.program import Program
from tp_sdk.report import parse_report

CHANNELS = REPOSITORY / "examples" / "channels"
SECRETS = [f"secret-{number}" for number in range(8)]
# each guard's folder of reports
OFF = {it.name: it for it in sorted(CHANNELS.glob("*/*/")) if it.name != "run"}
NAMES = sorted({it.parent.name for it in OFF.values()})
LINES = CHANNELS / "lines"
HARTS = CHANNELS / "harts"
CHANNELS_MD = (REPOSITORY / "docs" / "CHANNELS.md").read_text()


def reports_in(folder: Path) -> list[tuple[str, Path]]:
    return [(file.stem, file) for file in sorted(folder.glob("*.report"))]


def bits_of(folder: Path) -> float:
    """What the spy's readings tell of the sender's secret."""
    return entropy(
        [parse_report(file.read_text(), name).section("spy").readings for name, file in reports_in(folder)]
    )


def matrix(*words: str | Path) -> subprocess.CompletedProcess[str]:
    pytest.importorskip("matplotlib")
    return run_tool("tp-plot", "matrix", *words)


def other_of(tmp_path: Path, old: str, new: str, among: str = "secret-3") -> Path:
    """A copy of the reports without the guard of flushes, with another text in one of them."""
    folder = tmp_path / "other"
    shutil.copytree(LINES / "flush", folder)
    report = folder / f"{among}.report"
    text = report.read_text()
    assert old in text
    report.write_text(text.replace(old, new))
    return folder


# ---- what it shows


def test_each_guard_has_a_channel() -> None:
    assert sorted(OFF) == sorted(GUARDS)


@pytest.mark.parametrize("guard", GUARDS)
def test_the_spy_learns_the_secret_where_the_guard_is_off_and_nothing_where_it_is_on(guard: str) -> None:
    for folder, off in ((OFF[guard], guard), (OFF[guard].parent / "run", None)):
        named = reports_in(folder)
        assert [name for name, _ in named] == SECRETS
        assert {parse_report(file.read_text(), name).off for name, file in named} == {off}
    assert bits_of(OFF[guard]) > 1
    assert f"{bits_of(OFF[guard].parent / 'run'):.2f}" == "0.00"


def test_the_images_are_what_the_tools_make(program: Program, compiler: str, tmp_path: Path) -> None:
    of = (Path(__file__).parent / "reports" / "compiler").read_text().strip()
    if compiler != of:
        pytest.skip(f"the images are of programs that {of} built")
    pytest.importorskip("elftools")
    made = tmp_path / "examples" / "channels"
    ignore = shutil.ignore_patterns("out", "secret-*", "__pycache__")
    shutil.copytree(SDK, tmp_path / "sdk", ignore=ignore)
    shutil.copytree(CHANNELS, made, ignore=ignore)
    channels = [*NAMES, "back", "harts", "mail"]
    images = [f"{channel}/secret-{number}.toml" for channel in channels for number in (0, 5)]
    subprocess.run(["make", "-C", made, f"TP={program.path}", *images], check=True, capture_output=True)
    for image in images:
        assert (made / image).read_text() == (CHANNELS / image).read_text()


def test_write_back_into_the_second_level_tells_nothing(program: Program) -> None:
    images = [(CHANNELS / "back" / f"{name}.toml").read_text() for name in SECRETS]
    # (without colours, what the spy brings in puts out lines that the sender left dirty in the second level)
    off = (["ablate", "--off", "pad"], "3.00", 8), (["ablate", "--off", "colour"], "0.54", 2)
    for words, bits, reports_differ in ((["run"], "0.00", 1), *off):
        reports = [program.run([*words, "--slots", "10"], image).text for image in images]
        sections = [parse_report(text, "back").section("spy") for text in reports]
        assert f"{entropy([it.readings for it in sections]):.2f}" == bits
        assert len({it.text for it in sections}) == reports_differ


def test_its_images_are_those_of_the_dirty_lines() -> None:
    for name in SECRETS:
        plain = (CHANNELS / "dirty" / f"{name}.toml").read_text()
        back = plain.replace('ways = 4, policy = "lru"', 'ways = 4, policy = "lru", back = true')
        assert (CHANNELS / "back" / f"{name}.toml").read_text() == back.replace("pad = 6150", "pad = 7080")


def test_a_sender_on_another_hart_tells_nothing_in_any_order(program: Program) -> None:
    images = [(HARTS / f"{name}.toml").read_text() for name in SECRETS]
    of_senders = []
    for words in (["run"], *(["harts", "--seed", str(seed)] for seed in range(16))):
        reports = [parse_report(program.run([*words, "--slots", "10"], it).text, "harts") for it in images]
        assert len({it.section("spy").text for it in reports}) == 1
        assert reports[0].section("spy").readings_count == 16
        of_senders.append([it.section("sender").text for it in reports])
    assert all(it == of_senders[0] for it in of_senders)


def test_the_sender_of_a_box_does_not_see_what_is_taken(program: Program) -> None:
    images = [(CHANNELS / "mail" / f"{name}.toml").read_text() for name in SECRETS]
    reports = [parse_report(program.run(["run", "--slots", "10"], it).text, "mail") for it in images]
    assert len({it.section("spy").text for it in reports}) == 1
    spy = reports[0].section("spy")
    # (in each of five slots sixteen words, and one that is too many)
    assert [reply.code for reply in spy.replies] == ([0] * 16 + [15]) * 5
    taken = [[reply.value for reply in it.section("sender").replies if not reply.code] for it in reports]
    # what is left when the next words come in is lost
    for secret, words in enumerate(taken):
        assert words == [17 * slot + place for slot in range(4) for place in range(secret)]
    assert f"{entropy([it.section('sender').text for it in reports]):.2f}" == "3.00"


def test_its_images_are_those_of_the_lines_on_two_harts() -> None:
    for name in SECRETS:
        plain = (LINES / f"{name}.toml").read_text()
        assert (HARTS / f"{name}.toml").read_text() == f"{plain}hart = 1\n"


# ---- the tables of docs/CHANNELS.md


def test_the_table_of_channels() -> None:
    *rows, on_harts, by_mail = table_with(
        "guard off", "channel", "a secret is", "bits, off", "bits, on", text=CHANNELS_MD
    )
    assert [guard for guard, *_ in rows] == [f"`{guard}`" for guard in GUARDS]
    for (_, channel, _, *bits), guard in zip(rows, GUARDS):
        assert channel == f"`{OFF[guard].parent.name}`"
        assert bits == [f"{bits_of(folder):.2f}" for folder in (OFF[guard], OFF[guard].parent / "run")]
    assert [name for name, _ in reports_in(HARTS / "run")] == SECRETS
    bits_on = f"{bits_of(HARTS / 'run'):.2f}"
    assert on_harts == ["none", "`harts`", "which line it loads at the same time", "", bits_on]
    assert [name for name, _ in reports_in(CHANNELS / "mail" / "run")] == SECRETS
    bits_on = f"{bits_of(CHANNELS / 'mail' / 'run'):.2f}"
    assert by_mail == ["none", "`mail`", "how many of the spy's words it takes", "", bits_on]


def test_the_table_of_all_channels_and_guards(program: Program) -> None:
    rows = table_with("channel", *(f"`{guard}`" for guard in GUARDS), text=CHANNELS_MD)
    assert sorted(channel for channel, *_ in rows) == [f"`{name}`" for name in NAMES]
    for channel, *bits in rows:
        images = [(CHANNELS / channel.strip("`") / f"{name}.toml").read_text() for name in SECRETS]
        for guard, told in zip(GUARDS, bits):
            reports = [
                program.run(["ablate", "--off", guard, "--slots", "10"], image).text for image in images
            ]
            readings = [parse_report(text, channel).section("spy").readings for text in reports]
            assert (channel, guard, f"{entropy(readings):.2f}") == (channel, guard, told)


# ---- the first line of a report


def test_the_first_line_tells_which_guard_was_off() -> None:
    text = (OFF["pad"] / "secret-1.report").read_text()
    assert text.startswith("unprotected pad\ndomain 0 sender\n")
    report = parse_report(text, "a")
    assert (report.off, report.sections[0].line, report.slots) == ("pad", 2, 10)
    assert parse_report((OFF["pad"].parent / "run" / "secret-1.report").read_text(), "a").off is None


@pytest.mark.parametrize("line", ("unprotected", "unprotected ", "unprotected fly", "unprotected pad "))
def test_a_first_line_that_names_no_guard(line: str) -> None:
    with pytest.raises(Fault, match=f"a:1: '{line}' names no guard: unprotected flush, prefetch, "):
        parse_report(f"{line}\nend\n", "a")


def test_a_report_in_sentences_tells_it() -> None:
    pytest.importorskip("elftools")
    ended = run_tool("tp-report", OFF["irq"] / "secret-2.report")
    assert ended.stdout.startswith(
        f"{OFF['irq'] / 'secret-2.report'}: 10 slots, unprotected: the guard irq was off\nsender (domain 0): "
    )
    assert '"unprotected": "irq"' in run_tool("tp-report", OFF["irq"] / "secret-2.report", "--json").stdout
    assert '"unprotected": null' in run_tool("tp-report", LINES / "run" / "secret-2.report", "--json").stdout


def test_a_timeline_is_of_a_run_with_all_guards_on(tmp_path: Path) -> None:
    pytest.importorskip("matplotlib")
    words = (LINES / "secret-0.toml", LINES / "colour" / "secret-0.report", "-o", tmp_path / "a.svg")
    ended = run_tool("tp-plot", "timeline", *words)
    assert ended.returncode == 1
    assert ended.stderr.endswith(
        "secret-0.report:1: colour was off: a timeline is of a run with all guards on\n"
    )


# ---- the picture


@pytest.mark.parametrize("guard", GUARDS)
def test_the_picture_of_a_channel(guard: str, tmp_path: Path) -> None:
    folders = (OFF[guard].parent / "run", OFF[guard])
    ended = matrix(*folders, "--domain", "spy", "-o", tmp_path / "a.svg")
    assert (ended.returncode, ended.stderr) == (0, "")
    most = "(3.00 would tell all 8 apart)"
    assert ended.stdout == (
        f"{folders[0]}: all guards on: entropy 0.00, capacity 0.00 bits {most}\n"
        f"{folders[1]}: {guard} off: entropy 3.00, capacity 3.00 bits {most}\n"
    )
    for picture in (tmp_path / "a.svg", REPOSITORY / "docs" / "pictures" / f"channel-{guard}.svg"):
        text = picture.read_text()
        assert text.count(">all guards on<") == text.count(f">{guard} off<") == 1
        assert text.count(">entropy 0.00, capacity 0.00 bits<") == 1
        assert text.count(">entropy 3.00, capacity 3.00 bits<") == 1
        assert all(text.count(f">{name}<") == 1 for name in SECRETS)
        assert len(text) < 60_000
    assert (tmp_path / "a.svg").read_text() == stored_picture(f"channel-{guard}")


def test_each_measurement_is_written_and_the_scale_is_one(tmp_path: Path) -> None:
    pictures = [tmp_path / "a.svg", tmp_path / "b.svg"]
    for picture in pictures:
        matrix(OFF["flush"].parent / "run", OFF["flush"], "--domain", "spy", "-o", picture)
    text = pictures[0].read_text()
    # (with all guards on each takes 22 cycles, and without flushes those of the secret alone; the scale
    # tells both numbers)
    assert (text.count(">22<"), text.count(">14<")) == (64 + 8 + 1, 64 - 8 + 1)
    assert text == pictures[1].read_text()


def test_a_side_alone_and_sides_of_another_measure(tmp_path: Path) -> None:
    picture = tmp_path / "a.png"
    ended = matrix(OFF["pad"], "--domain", "spy", "--measure", "values", "-o", picture)
    assert (
        ended.stdout.startswith(f"{OFF['pad']}: pad off: entropy 3.00, capacity 3.00 bits")
        and ended.stdout.count("\n") == 1
    )
    assert picture.read_bytes().startswith(b"\x89PNG")


def test_a_domain_without_readings(tmp_path: Path) -> None:
    ended = matrix(LINES / "run", OFF["flush"], "--domain", "sender", "-o", tmp_path / "a.svg")
    assert ended.returncode == 0 and ended.stdout.count(": entropy 0.00, capacity 0.00 bits ") == 2


def test_reports_that_are_of_no_secrets(tmp_path: Path) -> None:
    run, out = LINES / "run", ("--domain", "spy", "-o", str(tmp_path / "a.svg"))
    lacking = other_of(tmp_path / "lacking", "unprotected", "unprotected")
    (lacking / "secret-5.report").unlink()
    another = other_of(tmp_path / "another", "unprotected flush", "unprotected irq")
    protected = other_of(tmp_path / "protected", "unprotected flush\n", "")
    no_guard = other_of(tmp_path / "none", "unprotected flush", "unprotected fly")
    for words, fault in (
        ((run, tmp_path / "no", *out), f"{tmp_path / 'no'}: there is no such folder"),
        ((run, tmp_path, *out), f"{tmp_path}: two reports NAME.report or more are wanted, and 0 are there"),
        ((run, lacking, *out), f"{lacking}: there is no secret-5.report, as there is in {run}"),
        ((lacking, run, *out), f"{lacking}: there is no secret-5.report, as there is in {run}"),
        (
            (run, another, *out),
            f"{another / 'secret-3.report'}:1: irq was off, and flush was off in {another / 'secret-0.report'}",
        ),
        (
            (protected, *out),
            f"{protected / 'secret-3.report'}:1: all guards were on, and flush was off in "
            f"{protected / 'secret-0.report'}",
        ),
        (
            (no_guard, *out),
            f"{no_guard / 'secret-3.report'}:1: 'unprotected fly' names no guard: unprotected {', '.join(GUARDS)}",
        ),
        (
            (run, "--domain", "x", "-o", str(tmp_path / "a.svg")),
            f"{run / 'secret-0.report'}: the report has no domain 'x': it has sender, spy",
        ),
        ((run, "--domain", "spy", "-o", "a.pdf"), "a.pdf: a picture is NAME.svg or NAME.png"),
    ):
        ended = matrix(*words)
        assert (ended.returncode, ended.stdout, ended.stderr) == (1, "", f"tp-plot: {fault}\n")

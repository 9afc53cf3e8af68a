"""Reports as values, what they tell in bits, and pictures of them."""

from __future__ import annotations

from pathlib import Path

import pytest
from conftest import REPOSITORY, run_tool

from tp_sdk.faults import Fault
from tp_sdk.information import measure
from tp_sdk.refusals import Image
from tp_sdk.report import parse_report
from tp_sdk.schedule import Entry, entries_of, slots_of, slots_of_each

EXAMPLES = REPOSITORY / "examples"
LOUD = (EXAMPLES / "spy-loud.report").read_text()
SVG, PNG = b"<?xml", b"\x89PNG"


def reports(folder: Path, count: int, text: str = LOUD, old: str = "", new: str = "") -> Path:
    """A folder with so many reports; the last has another text in the place of one."""
    folder.mkdir()
    for number in range(count):
        is_last = number == count - 1
        (folder / f"beside{number}.report").write_text(text.replace(old, new) if old and is_last else text)
    return folder


def test_a_report_as_values() -> None:
    report = parse_report(LOUD, "loud")
    loud, spy = report.sections
    assert (loud.name, loud.status, loud.readings, loud.out) == ("loud", "running", (), b"a")
    assert (spy.number, spy.status, spy.readings_count) == (1, "exited 0", 8)
    assert spy.readings == (22456, 23465, 58144, 58513, 93189, 93558, 128234, 128603)
    assert spy.text.startswith("status exited 0\nretired 16603\n") and spy.text.endswith("\nmem 3cb3383e\n")
    assert [(it.entry, it.used, it.pad, it.count) for it in report.switches] == [
        (0, 1142, 6150, 8),
        (1, 755, 6150, 8),
    ]
    assert report.slots == 16


@pytest.mark.parametrize("report", sorted(EXAMPLES.glob("*.report")), ids=lambda it: it.stem)
def test_every_report_of_the_examples(report: Path) -> None:
    text = report.read_text()
    if text.endswith("\nend\n"):
        assert len(parse_report(text, report.name).sections) == text.count("\ndomain ") + 1
    else:
        with pytest.raises(Fault, match="no report"):
            parse_report(text, report.name)


def test_a_report_that_is_none() -> None:
    large = LOUD.replace(" 22456 ", f" {1 << 32} ")
    assert large != LOUD
    lines = ("domain x\nend\n", "domain 0 x\nout\nend\n")
    for text in ("", "refused K1 at 0 found 0 wanted 0\n", *lines, large):
        with pytest.raises(Fault):
            parse_report(text, "none")


@pytest.mark.parametrize(
    "image",
    (
        {},
        {"domain": [1], "schedule": [{"domain": 0, "length": 1000, "pad": 0}]},
        {"domain": [{"name": "x"}], "schedule": [{"domain": 1, "length": 1000, "pad": 0}]},
        {"domain": [{"name": "x"}], "schedule": [{"domain": "x", "length": 1000, "pad": 0}]},
        {"domain": [{"name": "x"}], "schedule": [{"domain": 0, "length": -1, "pad": 0}]},
        {"domain": [{"name": "x"}], "schedule": [{"domain": 0, "length": 1000, "pad": 0, "hart": 1}]},
        {"domain": [{"name": "x"}], "schedule": [{"domain": 0, "length": 1000, "pad": 0, "hart": "x"}]},
        {
            "domain": [{"name": "x"}],
            "schedule": [{"domain": 0, "length": 1000, "pad": 0, "hart": hart} for hart in (0, 1)],
        },
    ),
)
def test_a_schedule_that_is_none(image: Image) -> None:
    with pytest.raises(Fault, match="no schedule"):
        entries_of(image, "image")


def test_slots_are_those_of_the_clock() -> None:
    # docs and examples/clock.toml: slots start at 6150, 22300, 38450, 54600
    slots = list(slots_of([Entry(0, 10000, 6150), Entry(1, 10000, 6150)], 4))
    assert [slot.start for slot in slots] == [6150, 22300, 38450, 54600]
    assert [slot.domain for slot in slots] == [0, 1, 0, 1]
    assert all(slot.end == slot.start + 10000 and slot.pad_end == slot.end + 6150 for slot in slots)


# docs/IMAGE.md: red's first slot, on hart 1, starts at 6,500, green's at 23,500, blue's at 6,150 and 17,300.
ON_HARTS = [Entry(0, 10000, 7000, hart=1), Entry(1, 5000, 6150), Entry(2, 10000, 6500, hart=1)]


def test_slots_of_a_hart_are_those_of_its_own_entries() -> None:
    of_zero, of_one = (list(slots_of(ON_HARTS, 4, hart)) for hart in (0, 1))
    assert [slot.start for slot in of_zero] == [6150, 17300, 28450, 39600]
    assert [slot.start for slot in of_one] == [6500, 23500, 40000, 57000]
    assert [(slot.entry, slot.domain) for slot in of_zero] == [(1, 1)] * 4
    assert [(slot.entry, slot.domain) for slot in of_one] == [(0, 0), (2, 2)] * 2
    assert all(slot.pad_end - slot.end == ON_HARTS[slot.entry].pad for slot in (*of_zero, *of_one))


def test_each_hart_has_as_many_slots() -> None:
    report = parse_report(LOUD, "loud")
    entries = [Entry(0, 10000, 6150), Entry(1, 10000, 6150)]
    assert slots_of_each(entries, report) == 16
    assert slots_of_each([entries[0], Entry(1, 10000, 6150, hart=1)], report) == 8


def test_a_hart_has_a_lane() -> None:
    pytest.importorskip("matplotlib")
    from tp_sdk.plot_timeline import lanes_of

    # (of four domains one has no entry, and counts as hart 0's)
    zero, one = lanes_of(ON_HARTS, 4)
    assert (zero.hart, list(zero.rows), zero.last_entry) == (0, [1, 3], 1)
    assert (one.hart, list(one.rows), one.last_entry) == (1, [0, 2], 2)
    assert list(zero.rows.values()) == [0, 1] and min(one.rows.values()) > 2
    (alone,) = lanes_of([Entry(1, 10000, 6150), Entry(0, 10000, 6150)], 3)
    assert alone.rows == {0: 0, 1: 1, 2: 2} and alone.last_entry == 1


def test_information_in_bits() -> None:
    nothing = measure(["a"] * 8, [[1, 2]] * 8)
    assert (nothing.of_section, nothing.most, nothing.best_reading) == (0.0, 3.0, None)
    all_different = measure(list("abcd"), [[1, 5], [1, 5], [1, 6], [1, 6]])
    assert (all_different.of_section, all_different.of_one_reading, all_different.best_reading) == (
        2.0,
        1.0,
        1,
    )
    assert measure(list("aaab"), [[1], [1], [1], [2, 3]]).of_section == pytest.approx(0.811278)


@pytest.mark.parametrize("form", ("matrix", "histogram"))
def test_readings_without_a_difference(tmp_path: Path, form: str) -> None:
    pytest.importorskip("matplotlib")
    folder = reports(tmp_path / "reports", 4)
    picture = tmp_path / "spy.svg"
    ended = run_tool("tp-plot", "readings", folder, "--domain", "spy", "--as", form, "-o", picture)
    assert (ended.returncode, ended.stderr) == (0, "")
    assert ended.stdout == (
        "spy: no difference: its sections are equal to the byte in 4 reports "
        "(entropy 0.00, capacity 0.00 bits; 2.00 would tell all 4 apart)\n"
    )
    assert picture.read_bytes().startswith(SVG) and picture.stat().st_size > 10_000


def test_a_difference_in_no_reading(tmp_path: Path) -> None:
    pytest.importorskip("matplotlib")
    folder = reports(tmp_path / "reports", 2, old="mem 3cb3383e", new="mem 00000000")
    ended = run_tool("tp-plot", "readings", folder, "--domain", "spy", "-o", tmp_path / "spy.png")
    assert ended.stdout.endswith("apart); no measurement alone tells any\n")


def test_readings_with_a_difference(tmp_path: Path) -> None:
    pytest.importorskip("matplotlib")
    folder = reports(tmp_path / "reports", 2, old="58513", new="58514")
    picture = tmp_path / "spy.png"
    ended = run_tool("tp-plot", "readings", folder, "--domain", "spy", "-o", picture)
    assert ended.stdout == (
        "spy: 2 different sections in 2 reports: entropy 1.00, capacity 1.00 bits (1.00 would tell all 2 apart); "
        "measurement 1 alone tells most, 1.00\n"
    )
    assert picture.read_bytes().startswith(PNG)


def test_a_timeline_of_a_report_alone(tmp_path: Path, monkeypatch: pytest.MonkeyPatch) -> None:
    pytest.importorskip("matplotlib")
    monkeypatch.setenv("TP", str(tmp_path / "none"))
    words = (EXAMPLES / "spy-loud.toml", EXAMPLES / "spy-loud.report", EXAMPLES / "spy-loud.report")
    pictures = [tmp_path / "a.svg", tmp_path / "b.svg"]
    for picture in pictures:
        ended = run_tool("tp-plot", "timeline", *words, "-o", picture)
        assert (ended.returncode, ended.stdout) == (0, "")
        assert ended.stderr.startswith("tp-plot: totals alone: there is no program at TP=")
    text = pictures[0].read_text()
    assert text.startswith("<?xml") and text == pictures[1].read_text()
    # (two rows of slots for each report)
    assert text.count(": slots 1 to 6 of 16 (of each switch the most that its entry") == 2
    assert text.count(": slots 7 to 12 of 16 (of each switch the most that its entry") == 2
    assert "16,603 instructions" in text and "1 call and 0 readings in all 16 slots" in text


def test_a_timeline_of_the_second_version(tmp_path: Path, monkeypatch: pytest.MonkeyPatch) -> None:
    pytest.importorskip("matplotlib")
    monkeypatch.setenv("TP", str(tmp_path / "none"))
    words = (EXAMPLES / "fewer-calls.toml", EXAMPLES / "fewer-calls.report")
    pictures = {}
    for calls in ("calls = [0, 1]", ""):
        image, report, picture = (tmp_path / f"mine.{end}" for end in ("toml", "report", "svg"))
        text = words[0].read_text()
        assert "calls = [0, 1] " in text
        image.write_text(text.replace("calls = [0, 1] ", f"{calls} "))
        report.write_text(words[1].read_text())
        ended = run_tool("tp-plot", "timeline", image, report, "-o", picture)
        assert ended.returncode == 0
        pictures[calls] = picture.read_text()
    both, blues = pictures.values()
    for told in ("the least pad", "saved by calls left out", " 1,919 in place of 5,636"):
        assert told in both and told in blues
    assert " 1,860 in place of 5,636" in both and " 1,860 in" not in blues
    image.write_text(text.replace("line = 64\n", ""))
    ended = run_tool("tp-plot", "timeline", image, report, "-o", picture)
    assert ended.returncode == 1 and "mine.toml: no bound can be told of it" in ended.stderr


def test_a_timeline_of_several_harts(tmp_path: Path, monkeypatch: pytest.MonkeyPatch) -> None:
    pytest.importorskip("matplotlib")
    monkeypatch.setenv("TP", str(tmp_path / "none"))
    # (of the same names and pads as that of two-harts.toml)
    report = EXAMPLES / "two-domains.report"
    texts = {}
    for name in ("two-domains", "two-harts"):
        picture = tmp_path / f"{name}.svg"
        ended = run_tool("tp-plot", "timeline", EXAMPLES / f"{name}.toml", report, "-o", picture)
        assert ended.returncode == 0
        texts[name] = picture.read_text()
    for told in (">hart 0: red<", ">hart 1: blue<", "own clock"):
        assert told in texts["two-harts"] and told not in texts["two-domains"]
    # each switch used so much: with one hart a boot and three switches, with two a boot and a switch of each
    switches = parse_report(report.read_text(), "two").switches
    told = [texts[name].count(f"> {switch.used}<") for name in texts for switch in switches]
    assert told == [2, 2, 2, 2]


def test_a_timeline_of_no_slots(tmp_path: Path) -> None:
    pytest.importorskip("matplotlib")
    words = ("--slots", "0", "-o", tmp_path / "a.svg")
    ended = run_tool("tp-plot", "timeline", EXAMPLES / "clock.toml", EXAMPLES / "clock.report", *words)
    assert ended.returncode == 2 and "--slots" in ended.stderr


def test_what_can_be_no_picture(tmp_path: Path) -> None:
    pytest.importorskip("matplotlib")
    loud, folder = EXAMPLES / "spy-loud.report", reports(tmp_path / "reports", 2)
    out = ("-o", str(tmp_path / "out.svg"))
    for words, fault in (
        (("timeline", EXAMPLES / "clock.toml", loud, *out), "spy-loud.report: a report of another image"),
        (("timeline", EXAMPLES / "refused-k1.toml", loud, *out), "refused-k1.toml: no TOML"),
        (
            ("timeline", EXAMPLES / "spy-loud.toml", EXAMPLES / "bound.report", *out),
            "bound.report: no report",
        ),
        (
            ("readings", tmp_path, "--domain", "spy", *out),
            "two reports NAME.report or more are wanted, and 0",
        ),
        (
            ("readings", tmp_path / "none", "--domain", "spy", *out),
            "none: there is no such folder",
        ),
        (
            ("readings", folder, "--domain", "x", *out),
            "beside0.report: the report has no domain 'x': it has loud, spy",
        ),
        (
            ("readings", folder, "--domain", "spy", "-o", "spy.pdf"),
            "spy.pdf: a picture is NAME.svg or NAME.png",
        ),
        (
            ("readings", folder, "--domain", "spy", "-o", str(tmp_path / "x" / "y.svg")),
            "No such file or directory",
        ),
    ):
        ended = run_tool("tp-plot", *words)
        assert ended.returncode == 1 and fault in ended.stderr

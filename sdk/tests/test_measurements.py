"""Measurements of readings, what differs in them, and how it is drawn."""

from __future__ import annotations

from pathlib import Path

import pytest
from conftest import REPOSITORY, run_tool

from tp_sdk.information import measure
from tp_sdk.measurements import Measurements, Row, by_pads, by_schedule, measurements_of, rows_of
from tp_sdk.report import Section
from tp_sdk.schedule import Entry

LOUD = (REPOSITORY / "examples" / "spy-loud.report").read_text()
FIRST, LATER = "22456 23465", "58144 58513"


def folder_of(room: Path, *texts: str) -> Path:
    """A folder with these reports."""
    room.mkdir()
    for number, text in enumerate(texts):
        (room / f"beside{number}.report").write_text(text)
    return room


def without_readings(text: str) -> str:
    """A report in which the spy has none."""
    start = text.index("readings 8")
    return text[:start] + "readings 0" + text[text.index("\n", start) :]


def drawn(room: Path, *texts: str, form: str = "matrix", words: tuple[str, ...] = ()) -> tuple[str, str]:
    """What is told of the spy in such reports, and the picture's text."""
    pytest.importorskip("matplotlib")
    picture = room / "spy.svg"
    folder = folder_of(room / "reports", *texts)
    ended = run_tool("tp-plot", "readings", folder, "--domain", "spy", "--as", form, "-o", picture, *words)
    assert (ended.returncode, ended.stderr) == (0, "")
    return ended.stdout, picture.read_text()


def section(*readings: int, count: int | None = None) -> Section:
    """A domain that read these counters."""
    return Section(0, "spy", "running", len(readings) if count is None else count, readings, b"", "")


def test_the_measurements_that_readings_make() -> None:
    read = section(10, 30, 31, 90, 95)

    def never(before: int, after: int) -> bool:
        return False

    assert measurements_of(read, "pairs", never).cycles == (20, 59)
    assert measurements_of(read, "steps", never).cycles == (20, 1, 59, 5)
    assert measurements_of(read, "values", never).cycles == (10, 30, 31, 90, 95)
    assert measurements_of(section(), "steps", never) == Measurements((), (), 0)
    many = measurements_of(section(*range(256), count=300), "pairs", never)
    assert (len(many.cycles), many.made) == (128, 150)


def test_where_a_slot_ended() -> None:
    # slots end at 16150 and 32300, and the next begin at 22300 and 38450
    scheduled = by_schedule([Entry(0, 10000, 6150), Entry(1, 10000, 6150)], 4, 1)
    padded = by_pads([6150, 6150])
    for before, after, is_over in (
        (6150, 16149, False),
        (16149, 22300, True),
        (22300, 32299, False),
        (6150, 38450, True),
    ):
        assert scheduled(before, after) == is_over
        # (what takes a pad's time may have been within a slot: the pads alone don't tell)
        assert padded(before, after) == (after - before >= 6150)
    assert not by_pads([])(0, 1_000_000)


def test_where_a_slot_of_the_domains_own_hart_ended() -> None:
    # on hart 0 slots end at 7150 and 14300, on hart 1 at 16150 and 32300
    entries = [Entry(0, 1000, 6150), Entry(1, 10000, 6150, hart=1)]
    for domain, ends in ((0, (7150, 14300)), (1, (16150, 32300)), (2, (7150, 14300))):
        scheduled = by_schedule(entries, 2, domain)
        assert [end for end in range(40000) if scheduled(end - 1, end)] == list(ends)


def test_equal_reports_are_one_row() -> None:
    one, other = Measurements((1, 2), (False, False), 2), Measurements((1, 3), (False, False), 2)
    assert rows_of([("a", one), ("b", other), ("c", one)]) == [Row(("a", "c"), one), Row(("b",), other)]


def test_a_measurement_that_some_reports_lack_tells() -> None:
    measured = measure(list("ab"), [[7], [7, 8]])
    assert (measured.best_reading, measured.of_one_reading) == (1, 1.0)


@pytest.mark.parametrize("form", ("matrix", "histogram"))
def test_a_report_without_readings_is_a_row_that_says_so(tmp_path: Path, form: str) -> None:
    told, picture = drawn(tmp_path, LOUD, without_readings(LOUD), form=form)
    assert told.startswith("spy: 2 different sections in 2 reports")
    assert "no readings" in picture and "beside1" in picture


@pytest.mark.parametrize("form", ("matrix", "histogram"))
def test_no_report_has_readings(tmp_path: Path, form: str) -> None:
    told, picture = drawn(tmp_path, *[without_readings(LOUD)] * 2, form=form)
    assert told.startswith("spy: no difference") and "no readings" in picture


def test_equal_reports_are_drawn_as_one_row(tmp_path: Path) -> None:
    _, picture = drawn(tmp_path, *[LOUD] * 4)
    assert "beside0 and 3 more" in picture and "one row for all 4 reports: every difference is 0" in picture


def test_the_picture_tells_of_which_report_the_differences_are(tmp_path: Path) -> None:
    _, picture = drawn(tmp_path, LOUD, LOUD.replace("58513", "58514"))
    assert "spy: cycles more than in beside0" in picture
    assert picture.count(">+1<") == 1 and ">+10<" not in picture


def test_the_report_that_others_are_compared_with(tmp_path: Path) -> None:
    texts = (LOUD, LOUD.replace("58513", "58514"), without_readings(LOUD))
    _, picture = drawn(tmp_path, *texts, words=("--against", "beside1"))
    assert "spy: cycles more than in beside1" in picture and ">−1<" in picture
    words = ("--domain", "spy", "--against", "x", "-o", tmp_path / "a.svg")
    ended = run_tool("tp-plot", "readings", tmp_path / "reports", *words)
    assert ended.returncode == 1 and "reports: there is no x.report to compare with" in ended.stderr


def test_a_slots_end_is_left_out_of_the_scale(tmp_path: Path) -> None:
    # the spy's clocks are 22456 23465 | 58144 58513 | ..: of the pairs none has a slot's end in it
    spread = LOUD.replace(FIRST, "22456 58100")
    for name, words in (("pads", ()), ("image", ("--image", str(REPOSITORY / "examples" / "spy-loud.toml")))):
        room = tmp_path / name
        room.mkdir()
        _, picture = drawn(room, LOUD, spread, form="histogram", words=words)
        assert "beside0: 4<" in picture and "beside1: 3 (1 over a slot" in picture


def test_a_list_that_a_report_cuts_off(tmp_path: Path) -> None:
    _, picture = drawn(tmp_path, LOUD, LOUD.replace("readings 8 last", "readings 300 last"))
    assert "146 more were made" in picture


def test_one_cycle_is_seen_on_every_scale() -> None:
    pytest.importorskip("matplotlib")
    from tp_sdk.plot_readings import difference_colours, far, near

    for largest in (1, 10, 2**32):
        most = far(largest)
        colours = difference_colours(most)
        for difference in (-1, 0, 1):
            red, _, blue, _ = colours(0.5 + far(difference) / most / 2)
            assert (red - blue > 0.2, blue - red > 0.2) == (difference > 0, difference < 0)
    assert [near(far(it)) for it in (-100, -1, 0, 1, 1000)] == ["−100", "−1", "0", "+1", "+1,000"]


def test_a_report_of_another_image_than_the_one_named(tmp_path: Path) -> None:
    pytest.importorskip("matplotlib")
    folder = folder_of(tmp_path / "reports", LOUD, LOUD)
    words = ("--domain", "spy", "--image", REPOSITORY / "examples" / "clock.toml", "-o", tmp_path / "a.svg")
    ended = run_tool("tp-plot", "readings", folder, *words)
    assert ended.returncode == 1 and "beside0.report: a report of another image than" in ended.stderr

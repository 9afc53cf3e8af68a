"""Pictures as they are seen on a page of text: 830 pixels wide, with type of 9 pixels or more, on white paper
or on dark."""

from __future__ import annotations

import base64
import io
import re
import shutil
from pathlib import Path
from typing import Any

import pytest
from conftest import REPOSITORY, stored_picture

from tp_sdk.commands.plot import main
from tp_sdk.program import Program

pytest.importorskip("matplotlib")

from tp_sdk.plots import matplotlib  # noqa: E402

EXAMPLES = REPOSITORY / "examples"
PICTURES = REPOSITORY / "docs" / "pictures"
CHANNELS = EXAMPLES / "channels"
PAGE, LEAST_TYPE = 830, 9
# each guard's folder of reports
OFF = {it.name: it for it in sorted(CHANNELS.glob("*/*/")) if it.name != "run"}


def width_of(picture: str) -> float:
    """In pixels, of which three are four points."""
    found = re.search(r'<svg [^>]*width="([0-9.]+)pt"', picture)
    assert found is not None
    return float(found[1]) * 4 / 3


def smallest_type(picture: str) -> float:
    """In pixels, where the picture is as wide as a page."""
    sizes = [float(it) for it in re.findall(r"font: [^;\"]*?([0-9.]+)px", picture)]
    return min(sizes) * 4 / 3 * PAGE / max(width_of(picture), PAGE)


def is_readable(picture: str) -> bool:
    return width_of(picture) <= PAGE + 10 and smallest_type(picture) >= LEAST_TYPE


def drawn(folder: Path, *words: str | Path) -> str:
    """What a picture's file has. (In this process: the library takes longer to load than to draw.)"""
    picture = folder / "picture.svg"
    # (dark paper is for one)
    with matplotlib.rc_context():
        assert main([*map(str, words), "-o", str(picture)]) == 0
    return picture.read_text()


def test_every_picture_of_the_documents_is_readable() -> None:
    pictures = sorted(PICTURES.glob("*.svg"))
    assert len(pictures) == 11
    for picture in pictures:
        assert is_readable(picture.read_text()), picture.name


def test_the_pictures_of_slots_and_memory_are_made_again_to_the_byte(
    program: Program, built: Path, tmp_path: Path
) -> None:
    words = (EXAMPLES / "victim.toml", EXAMPLES / "victim.report")
    assert drawn(tmp_path, "timeline", *words) == stored_picture("timeline")
    assert drawn(tmp_path, "memory", built / "all.toml") == stored_picture("memory")


# ---- sizes, whatever is drawn


def wide_channel(folder: Path, measurements: int, telling: int) -> tuple[Path, Path]:
    """Reports with all guards on, and with one off, whose first so many measurements tell the secret."""
    folders = folder / "run", folder / "flush"
    for of in folders:
        of.mkdir()
        for secret in range(4):
            lines = (CHANNELS / "lines" / of.name / f"secret-{secret}.report").read_text().splitlines()
            readings = []
            for place in range(measurements):
                is_long = of.name == "flush" and place < telling and place % 4 == secret
                readings += [1000 * place, 1000 * place + (62 if is_long else 22)]
            spy = lines.index("domain 1 spy")
            at = next(place for place in range(spy, len(lines)) if lines[place].startswith("readings "))
            told = " ".join(map(str, readings))
            lines[at] = f"readings {len(readings)} last {readings[-1]} list {told}"
            (of / f"secret-{secret}.report").write_text("\n".join(lines) + "\n")
    return folders


@pytest.mark.parametrize(
    ("measurements", "telling", "told"),
    (
        (96, 96, "each of 4 secrets<"),
        (128, 40, "each of 4 secrets; of 128 measurements the 40 that differ on a side<"),
        (128, 128, "the 128 that differ on a side, the sum of 2"),
    ),
)
def test_a_matrix_of_many_measurements(tmp_path: Path, measurements: int, telling: int, told: str) -> None:
    text = drawn(tmp_path, "matrix", *wide_channel(tmp_path, measurements, telling), "--domain", "spy")
    assert is_readable(text) and width_of(text) <= 1600 and told in text


def test_pixels_are_as_many(tmp_path: Path) -> None:
    picture = tmp_path / "a.png"
    words = ("memory", EXAMPLES / "victim.toml", "-o", picture)
    assert main([*map(str, words)]) == 0
    # (bytes 16 to 19 are the width)
    assert PAGE - 20 < int.from_bytes(picture.read_bytes()[16:20], "big") <= PAGE + 10


def test_many_sides_and_long_names(tmp_path: Path) -> None:
    folders = [tmp_path / str(number) for number in range(5)]
    for folder in folders:
        shutil.copytree(CHANNELS / "lines" / "run", folder)
        for report in folder.glob("*.report"):
            report.rename(folder / f"a-secret-whose-name-is-longer-than-others-{report.name}")
    text = drawn(tmp_path, "matrix", *folders, "--domain", "spy")
    assert is_readable(text) and text.count(">entropy 0.00, capacity 0.00 bits<") == 5


@pytest.mark.parametrize(
    "words",
    (
        ("readings", CHANNELS / "lines" / "flush", "--domain", "spy", "--domain", "sender"),
        ("readings", CHANNELS / "lines" / "flush", "--domain", "spy", "--as", "histogram"),
        ("memory", EXAMPLES / "victim.toml"),
        ("memory", EXAMPLES / "powers.toml"),
        ("timeline", EXAMPLES / "stops.toml", EXAMPLES / "stops.report", "--slots", "40"),
        ("timeline", EXAMPLES / "fewer-calls.toml", EXAMPLES / "fewer-calls.report"),
        ("timeline", EXAMPLES / "two-harts.toml", EXAMPLES / "two-harts.report"),
    ),
    ids=lambda it: f"{it[0]} {it[1].stem}",
)
def test_every_kind_is_readable_on_both_papers(tmp_path: Path, words: tuple[str | Path, ...]) -> None:
    light, dark = drawn(tmp_path, *words), drawn(tmp_path, *words, "--dark")
    assert is_readable(light) and is_readable(dark)
    texts = [re.findall(r">([^<>\n]+)</text>", it) for it in (light, dark)]
    assert texts[0] == texts[1]
    assert "fill: #16191d" in dark and "#16191d" not in light
    # (no black line or text is left)
    assert "fill: #e8e8e8" in dark and "stroke: #000000" not in dark


# ---- what colours say


def cells_of(picture: str, rows: int, columns: int) -> list[list[list[tuple[float, ...]]]]:
    """The colours in the middle of each cell, of each side."""
    from matplotlib import image

    sides = []
    for encoded in re.findall(r'href="data:image/png;base64,([^"]+)"', picture)[:2]:
        pixels: Any = image.imread(io.BytesIO(base64.b64decode(encoded)))
        # (a picture in SVG may have its images upside down, and turns them)
        pixels = pixels[::-1] if "scale(1 -1)" in picture else pixels
        high, wide = (size / of for size, of in zip(pixels.shape, (rows, columns)))
        sides.append(
            [
                [
                    tuple(pixels[int((row + 0.5) * high), int((column + 0.5) * wide)])
                    for column in range(columns)
                ]
                for row in range(rows)
            ]
        )
    return sides


def test_the_same_number_has_the_same_colour_on_both_sides(tmp_path: Path) -> None:
    text = drawn(tmp_path, "matrix", OFF["flush"].parent / "run", OFF["flush"], "--domain", "spy")
    on, off = cells_of(text, 8, 8)
    of_22 = {colour for row in on for colour in row} | {off[it][it] for it in range(8)}
    of_14 = {off[row][column] for row in range(8) for column in range(8) if row != column}
    assert len(of_22) == len(of_14) == 1 and of_22 != of_14
    # one word for what the sender knows
    assert "8 secrets" in text and "message" not in text and "a step for each number" in text


def test_a_page_is_named_by_its_number_in_the_image(tmp_path: Path) -> None:
    text = drawn(tmp_path, "memory", EXAMPLES / "victim.toml")
    assert ">page<" in text and ">16<" in text and ">127<" in text and "pages by their numbers" in text


def test_a_timeline_tells_which_slots_it_draws_and_counts_those(program: Program, tmp_path: Path) -> None:
    text = drawn(tmp_path, "timeline", EXAMPLES / "clock.toml", EXAMPLES / "clock.report", "--slots", "2")
    (report,) = (EXAMPLES / "clock.report").read_text().split("\ndomain 1")[:1]
    retired = int(re.search(r"retired (\d+)", report)[1])  # type: ignore[index]
    assert "clock.report: slots 1 to 2 of 4<" in text
    (told,) = re.findall(r"red: ([^<]*)<", text)
    drawn_ones = re.search(
        r"^([0-9,]+) instructions, 0 calls and \d readings? in slots 1 to 2; in all 4: ", told
    )
    assert drawn_ones is not None and f"in all 4: {retired:,}, 0 and 6; at the end exited 0" in told
    assert 0 < int(drawn_ones[1].replace(",", "")) < retired
    # the first row's slots, and what they come to, are those that the picture has
    whole = drawn(tmp_path, "timeline", EXAMPLES / "clock.toml", EXAMPLES / "clock.report")
    assert f"red: {retired:,} instructions, 0 calls and 6 readings in all 4 slots" in whole

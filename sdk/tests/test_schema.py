"""The schema takes the images that are accepted, and refuses what one value alone breaks."""

from __future__ import annotations

import json
import tomllib
from pathlib import Path

import pytest
from conftest import REPOSITORY, SDK, examples, is_refused, run_tool

from tp_sdk.schema import Schema, image_schema

C = SDK / "c"
jsonschema = pytest.importorskip("jsonschema")

# A schema can say of the refused examples that these are broken; others are no TOML, or broken in
# what several values come to together.
OF_ONE_VALUE = [
    it for it in examples() if it.stem in {f"refused-k{rule}" for rule in (2, 3, 4, 6, 8, 16, 22)}
]


def faults_of(schema: Schema, text: str) -> list[str]:
    validator = jsonschema.Draft7Validator(schema)
    return [str(error.message) for error in validator.iter_errors(tomllib.loads(text))]


def complaints(image: Path) -> list[str]:
    return faults_of(image_schema(), image.read_text())


def test_it_is_a_schema() -> None:
    jsonschema.Draft7Validator.check_schema(image_schema())


def test_the_file_is_the_table_of_keys_as_it_stands() -> None:
    assert json.loads((SDK / "image.schema.json").read_text()) == image_schema()
    assert run_tool("tp-explain", "--schema").stdout == (SDK / "image.schema.json").read_text()


@pytest.mark.parametrize("image", [it for it in examples() if not is_refused(it)], ids=lambda it: it.stem)
def test_it_takes_an_example(image: Path) -> None:
    assert complaints(image) == []


@pytest.mark.parametrize("image", OF_ONE_VALUE, ids=lambda it: it.stem)
def test_it_refuses_an_example_that_one_value_breaks(image: Path) -> None:
    assert complaints(image) != []


TWO_DOMAINS = (REPOSITORY / "examples" / "two-domains.toml").read_text()
SECOND = TWO_DOMAINS.replace("frames = 64", "version = 2\nframes = 64")
ENTRY = "[[schedule]]\ndomain = 0\nlength = 1000\npad = 6150\n"


@pytest.mark.parametrize(
    ("old", "new", "versions"),
    [
        ("frames = 64", "frames = 16384", (2,)),
        ("frames = 64", "frames = 16385", ()),
        ("frames = 64", "frames = 4096", (1, 2)),
        ("colours = [1] ", "calls = [0, 1]\ncolours = [1] ", (2,)),
        ("colours = [1] ", "calls = []\ncolours = [1] ", (2,)),
        ("colours = [1] ", "calls = [15]\ncolours = [1] ", ()),
        ("colours = [1] ", "calls = [0, 0]\ncolours = [1] ", ()),
        ("[[schedule]]", ENTRY * 63 + "[[schedule]]", (2,)),
        ("[[schedule]]", ENTRY * 255 + "[[schedule]]", ()),
        ("domain = 1", "domain = 31", (2,)),
        ("domain = 1", "domain = 1\nhart = 0", (1, 2)),
        ("domain = 1", "domain = 1\nhart = 3", (1, 2)),
        ("domain = 1", "domain = 1\nhart = 4", ()),
        ("domain = 1", "domain = 1\nhart = -1", ()),
        ("domain = 1", 'domain = 1\nhart = "1"', ()),
        ("colours = [1] ", "hart = 1\ncolours = [1] ", ()),
        ("frames = 64", "mail = [{ from = 0, to = 1 }]\nframes = 64", (1, 2)),
        ("frames = 64", "mail = []\nframes = 64", (1, 2)),
        ("frames = 64", f"mail = [{'{ from = 0, to = 1 }, ' * 65}]\nframes = 64", ()),
        ("frames = 64", "mail = [{ from = 0 }]\nframes = 64", ()),
        ("frames = 64", "mail = [{ from = 0, to = true }]\nframes = 64", ()),
        ("frames = 64", "mail = [{ from = 0, to = 1, x = 1 }]\nframes = 64", ()),
        ("colours = [1] ", "calls = [19, 20]\ncolours = [1] ", (2,)),
        ("l2 = {", "l2 = { back = true,", (1, 2)),
        ("l2 = {", "l2 = { back = false,", (1, 2)),
        ("l2 = {", "l2 = { back = 1,", ()),
        ("l1d = {", "l1d = { back = true,", ()),
        ("frames = 64", "back = true\nframes = 64", ()),
    ],
    ids=lambda it: it[:24] if isinstance(it, str) else "",
)
def test_what_each_version_has(old: str, new: str, versions: tuple[int, ...]) -> None:
    taken = []
    for version, text in enumerate((TWO_DOMAINS, SECOND), 1):
        assert old in text
        changed = text.replace(old, new, 1)
        is_taken = not faults_of(image_schema(), changed)
        assert is_taken == (not faults_of_description(changed))
        if is_taken:
            taken.append(version)
    assert tuple(taken) == versions


def test_a_version_that_is_none() -> None:
    for version in ("0", "3", '"2"', "true"):
        assert faults_of(image_schema(), SECOND.replace("version = 2", f"version = {version}")) != []
    assert faults_of(image_schema(), SECOND.replace("version = 2", "version = 1")) == []


# ---- of descriptions and reports


def test_the_other_files_are_as_the_tools_write_them() -> None:
    for tool, name in (("tp-image", "description"), ("tp-report", "report")):
        written = run_tool(tool, "--schema")
        if written.returncode == 3:
            pytest.skip(written.stderr)
        assert written.stdout == (SDK / f"{name}.schema.json").read_text()
        jsonschema.Draft7Validator.check_schema(json.loads(written.stdout))


def faults_of_description(text: str) -> list[str]:
    return faults_of(json.loads((SDK / "description.schema.json").read_text()), text)


@pytest.mark.parametrize("description", sorted(C.glob("*.toml")), ids=lambda it: it.stem)
def test_it_takes_a_description(description: Path) -> None:
    if not description.stem.startswith("machine"):
        assert faults_of_description(description.read_text()) == []


@pytest.mark.parametrize("image", [it for it in examples() if not is_refused(it)], ids=lambda it: it.stem)
def test_an_image_is_a_description(image: Path) -> None:
    assert faults_of_description(image.read_text()) == []


@pytest.mark.parametrize(
    ("old", "new"),
    [
        ('machine = "machine.toml"', ""),
        ('program = "out/hello.elf"', ""),
        ("colours", "colors"),
        ('"hello"', "1"),
        ("length = 10000", "length = 10"),
        ("length = 10000", "length = 10000\nhart = 4"),
        ("colours = [1]", 'colours = [1]\nwords = { "a+" = 1 }'),
        ("colours = [1]", "colours = [1]\nwords = { a = -1 }"),
        ("colours = [1]", 'colours = [1]\ncalls = ["exit"]'),
        ('machine = "machine.toml"', 'version = 3\nmachine = "machine.toml"'),
    ],
)
def test_it_refuses_a_description_that_one_key_breaks(old: str, new: str) -> None:
    text = (C / "hello.toml").read_text()
    assert old in text and faults_of_description(text.replace(old, new)) != []
    good = 'colours = [1]\nwords = { a = 1, "b+4" = [1, 2], c = "text", d = "@file" }'
    assert faults_of_description(text.replace("colours = [1]", good)) == []
    assert faults_of_description(text.replace("length = 10000", "length = 10000\nhart = 3")) == []
    second = "version = 2\n" + text.replace("colours = [1]", 'colours = [1]\ncalls = ["put", "exit", 2]')
    assert faults_of_description(second) == []
    assert faults_of_description(second.replace('"put"', '"puts"')) != []

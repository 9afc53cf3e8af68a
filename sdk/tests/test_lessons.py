"""The lessons: a guard each, and their outputs are those that come out."""

from __future__ import annotations

import base64
import json
import re
import sys
from importlib.metadata import PackageNotFoundError, version
from importlib.util import find_spec
from types import SimpleNamespace
from typing import Any

import pytest
from conftest import REPOSITORY

from tp_sdk.guards import GUARDS
from tp_sdk.program import VARIABLE, Program

LESSONS = REPOSITORY / "docs" / "lessons"
NOTEBOOK = LESSONS / "six-guards.ipynb"
SOURCE = re.compile(r"^(crates/\S+?)(?:, fn \w+)?:$")
AGAIN = "make -C docs/lessons makes the outputs again"


@pytest.fixture(scope="module")
def stored() -> Any:
    """The notebook as it stands, as far as the tests look at it. (They need no library for that.)"""

    def joined(text: str | list[str]) -> str:
        return text if isinstance(text, str) else "".join(text)

    def output(it: dict[str, Any]) -> SimpleNamespace:
        data = {kind: joined(text) for kind, text in it.get("data", {}).items()}
        return SimpleNamespace(output_type=it["output_type"], text=joined(it.get("text", "")), data=data)

    cells = [
        SimpleNamespace(
            id=it["id"],
            cell_type=it["cell_type"],
            source=joined(it["source"]),
            outputs=[output(each) for each in it.get("outputs", [])],
        )
        for it in json.loads(NOTEBOOK.read_text())["cells"]
    ]
    return SimpleNamespace(cells=cells)


@pytest.fixture(scope="module")
def executed(program: Program) -> Any:
    """The notebook, run on the program."""
    nbformat = pytest.importorskip("nbformat")
    pytest.importorskip("matplotlib")
    lacking = [it for it in ("nbconvert", "ipykernel") if find_spec(it) is None]
    if lacking:
        pytest.skip(f"there is no {lacking[0]}")
    from nbconvert.preprocessors import ExecutePreprocessor

    again = nbformat.read(NOTEBOOK, as_version=4)
    with pytest.MonkeyPatch.context() as patch:
        patch.setenv(VARIABLE, str(program.path))
        patch.setenv("PYDEVD_DISABLE_FILE_VALIDATION", "1")
        patch.setenv("PYTHONDONTWRITEBYTECODE", "1")
        runner = ExecutePreprocessor(timeout=300, record_timing=False)
        runner.preprocess(again, {"metadata": {"path": str(LESSONS)}})
    return again


def code_of(notebook: Any) -> list[Any]:
    return [cell for cell in notebook.cells if cell.cell_type == "code"]


def texts_of(cell: Any) -> list[tuple[str, str]]:
    """What a cell wrote, and what it shows where there are no pictures, each by its kind. (What is written may come in
    several parts, as it happens.)"""
    parts = [
        (it.output_type, it.text if it.output_type == "stream" else it.data["text/plain"])
        for it in cell.outputs
    ]
    texts: list[tuple[str, str]] = []
    for kind, part in parts:
        if kind == "stream" and texts and texts[-1][0] == "stream":
            part = texts.pop()[1] + part
        texts.append((kind, part))
    return texts


def pictures_of(notebook: Any) -> list[bytes]:
    outputs = [it for cell in code_of(notebook) for it in cell.outputs if it.output_type != "stream"]
    return [base64.b64decode(it.data["image/png"]) for it in outputs]


def test_each_guard_has_a_lesson_with_a_picture_bits_and_a_clause(stored: Any) -> None:
    ids = [cell.id for cell in stored.cells]
    lessons = re.findall(r"^## \d\. `(\w+)`", "\n".join(cell.source for cell in stored.cells), re.MULTILINE)
    assert sorted(lessons) == sorted(GUARDS)
    texts = {cell.id: "".join(text for _, text in texts_of(cell)) for cell in code_of(stored)}
    for guard in GUARDS:
        on, off = texts[f"{guard}-bits"].splitlines()
        assert (on.split()[-2], off.split()[-2]) == ("0.00", "3.00") and off.startswith(f"{guard} off:")
        assert "ensures " in texts[f"{guard}-clause"]
        shown = [text for name, text in texts.items() if name.startswith(f"{guard}-") and "<Picture" in text]
        on, off = ("entropy 0.00, capacity 0.00 bits", "entropy 3.00, capacity 3.00 bits")
        assert shown == [f"<Picture of spy: all guards on: {on}, {guard} off: {off}>"]
        assert ids.index(f"{guard}-bits") < ids.index(f"{guard}-clause")


def test_cells_are_short_and_use_the_api_alone(stored: Any) -> None:
    assert all(len(cell.source.splitlines()) < 16 for cell in stored.cells)
    code = "\n".join(cell.source for cell in code_of(stored))
    imports = re.findall(r"^(?:from|import) (\w+)", code, re.MULTILINE)
    assert imports == ["sys", "pathlib", "clauses", "tp_sdk"]
    assert "from tp_sdk import Image, Refused, capacity, entropy, picture, run, sweep\n" in code


def test_the_clauses_stand_in_the_sources(stored: Any) -> None:
    ledger = (REPOSITORY / "docs" / "PROVED.md").read_text()
    quoted = 0
    for cell in code_of(stored):
        for _, text in texts_of(cell) if cell.id.endswith("-clause") else []:
            for part in text.strip().split("\n\n"):
                first, *lines = part.splitlines()
                if first.startswith("docs/PROVED.md: "):
                    assert first.removeprefix("docs/PROVED.md: ") in ledger
                    continue
                named = SOURCE.match(first)
                assert named is not None
                source = (REPOSITORY / named[1]).read_text()
                assert all(line.strip() in source for line in lines), f"{first} {AGAIN}"
                quoted += 1
    assert quoted >= 2 * len(GUARDS) - 2


def test_the_outputs_are_those_that_come_out(stored: Any, executed: Any) -> None:
    for one, again in zip(code_of(stored), code_of(executed), strict=True):
        assert (one.id, texts_of(again)) == (one.id, texts_of(one)), AGAIN


def test_the_pictures_are_those_that_come_out(stored: Any, executed: Any) -> None:
    pictures = pictures_of(stored)
    assert len(pictures) == len(GUARDS)
    try:
        drawn_by = f"Matplotlib version{version('matplotlib')},".encode()
    except PackageNotFoundError:
        pytest.skip("the version of Matplotlib can't be told")
    if drawn_by not in pictures[0]:
        pytest.skip("the pictures are of another version of Matplotlib")
    assert pictures_of(executed) == pictures, AGAIN


def test_a_clause_that_is_none_is_told_of() -> None:
    sys.path.insert(0, str(LESSONS))
    try:
        from clauses import clause, definition
    finally:
        sys.path.remove(str(LESSONS))
    for call in (
        lambda: clause("l2_colour", "touch", "fly"),
        lambda: clause("l2_colour", "fly", "colour"),
        lambda: clause("l2_colour", "touch", "line_size"),  # (of which the ledger says nothing)
        lambda: definition("world_view", "fly"),
    ):
        with pytest.raises(LookupError):
            call()
    assert "kept_at self.new.cache.table s" in clause("l2_colour", "touch", "colour")
    assert definition("world_view", "ResidencyLaw").startswith(
        "crates/world_view/specs/Laws.antt:\n-- from the"
    )

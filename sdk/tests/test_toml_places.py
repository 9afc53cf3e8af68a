"""The places of a text's keys and values are those of the values that `tomllib` reads."""

from __future__ import annotations

import tomllib
from pathlib import Path
from typing import Any

import pytest
from conftest import SDK, examples

from tp_sdk.toml_places import Position, read_with_places

HARD = """# a text with all that TOML has
a.b . "c d" = 'x#]'   # dotted
s = "a \\" ] # b"
long = \"\"\"one "" two\\"
  ] # three\"\"\"\"
plain = '''it's
 } 'so''''
dates = [1979-05-27 07:32:00, 07:32:00, -inf, +1_000, 0xFF, true]
nested = [
  [1, 2], # of two
  { x = [ { y = 1 }, ], z.w = 2 },
]
[t]
k = 1
[t.u."v w"]
k = { }
[[list]]
k = 1
[[list.inner]]
k = 2
[[list.inner]]
[list.inner.deep]
k = 3
[[list]]
[[list.inner]]
k = 4
"""
ALL = [HARD, HARD.replace("\n", "\r\n"), "", "a=1"]


def leaves(data: Any, path: tuple[str | int, ...] = ()) -> dict[tuple[str | int, ...], Any]:
    """Every value that is no table of a header."""
    items = data.items() if isinstance(data, dict) else enumerate(data) if isinstance(data, list) else ()
    found = {path: data} if path else {}
    for key, value in items:
        found |= leaves(value, path + (key,))
    return found


def check(text: str) -> None:
    data, places = read_with_places(text)
    values = leaves(data)
    for path, span in places.values.items():
        # (a text's lines end alike for tomllib)
        assert tomllib.loads(f"v = {text[span.start:span.end]}")["v"] == values[path], path
    for path in values:
        assert path in places.values or path in places.keys, path
    assert set(places.values) <= set(values) and set(places.keys) <= set(values)


@pytest.mark.parametrize("text", ALL, ids=("lf", "crlf", "empty", "no end of line"))
def test_hard_texts(text: str) -> None:
    check(text)


IMAGES = [it for it in examples() if it.stem != "refused-k1"]  # which is no TOML


@pytest.mark.parametrize("image", [*IMAGES, *sorted(SDK.glob("c/*.toml"))], ids=lambda it: it.stem)
def test_images_and_descriptions(image: Path) -> None:
    check(image.read_text())


def test_a_place_is_a_line_and_a_column() -> None:
    _, places = read_with_places("a = 1\n[[t]]\n  b = [1, 22]\n")
    assert places.position(places.nearest(("t", 0, "b", 1)).start) == Position(3, 11)
    assert places.position(places.nearest(("t", 0, "missing")).start) == Position(2, 1)
    assert places.position(places.nearest(("missing",)).start) == Position(1, 1)

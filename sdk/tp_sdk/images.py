"""The image that a file is, or that it describes, as values."""

from __future__ import annotations

import tomllib
from pathlib import Path

from tp_sdk.build import build_text
from tp_sdk.description import read_description
from tp_sdk.faults import Fault, read_text
from tp_sdk.keys import BOX_ENDS
from tp_sdk.program import Program
from tp_sdk.refusals import Image


def read_image(file: Path, program: Program | None) -> Image:
    """An image's values; of a description those of the image that it makes, whose pads the program tells
    where they are left out."""
    text = read_text(file)
    image = values_of(text, file)
    if not is_described(image):
        return image
    return tomllib.loads(build_text(read_description(file, text), program))


def values_of(text: str, file: Path) -> Image:
    """The values of an image's text, or of a description's."""
    try:
        return tomllib.loads(text)
    except tomllib.TOMLDecodeError as error:
        raise Fault(f"{file}: no TOML: {error}") from None


def is_described(image: Image) -> bool:
    """Something in it stands for what an image has there."""
    domains, entries, boxes = (_tables(image, key) for key in ("domain", "schedule", "mail"))
    return (
        "machine" in image
        or any("program" in domain for domain in domains)
        or any("pad" not in entry or isinstance(entry.get("domain"), str) for entry in entries)
        or any(isinstance(box.get(end), str) for box in boxes for end in BOX_ENDS)
    )


def _tables(image: Image, key: str) -> list[Image]:
    tables = image.get(key)
    return [it for it in tables if isinstance(it, dict)] if isinstance(tables, list) else []

"""Where the front finds and keeps things."""

from __future__ import annotations

import os
import sys
from pathlib import Path

TOP = Path(__file__).resolve().parents[2]
TABLE = TOP / "front" / "words.toml"
PROGRAM = TOP / "crates" / "tp" / "out" / "tp"
TOP_CALL = TOP / "crates" / "tp_run" / "src" / "call.rt"


def cache() -> Path:
    """The folder of the user's in which unproved programs and rates are kept."""
    named = os.environ.get("XDG_CACHE_HOME", "")
    base = Path(named) if named.startswith("/") else Path.home() / ".cache"
    return base / "kizhombai"


def version() -> str:
    """The version of the release."""
    return (TOP / "VERSION").read_text().strip()


def tell(text: str) -> None:
    """Says something on standard error, as all that the front says there."""
    print(f"tp: {text}", file=sys.stderr)

"""How often and how long the program has been run, on standard error while a tool works."""

from __future__ import annotations

import sys
from collections.abc import Iterator
from contextlib import contextmanager
from typing import Any

SHOWN_FROM = 1.0  # seconds: what takes less is not told of
_WORDS = "{desc}: {n_fmt} runs of tp ended, {elapsed}"


class Progress:
    """Counts the runs that have ended; with no bar it tells nothing."""

    def __init__(self, bar: Any = None) -> None:
        self._bar = bar

    @property
    def is_shown(self) -> bool:
        """Somebody sees it."""
        return self._bar is not None

    def wait(self) -> None:
        """One run has taken so long, and is not over."""
        if self._bar is not None:
            self._bar.refresh()

    def end(self) -> None:
        """One run is over."""
        if self._bar is not None:
            self._bar.update()


@contextmanager
def progress(tool: str) -> Iterator[Progress]:
    """The progress of a tool, told where standard error is a terminal and there is a library for it."""
    bar = _bar(tool) if sys.stderr.isatty() else None
    if bar is None:
        yield Progress()
        return
    with bar:
        yield Progress(bar)


def _bar(tool: str) -> Any:
    """The library's bar, or none."""
    try:
        from tqdm import tqdm
    except ImportError:
        return None
    return tqdm(desc=tool, bar_format=_WORDS, leave=False, delay=SHOWN_FROM)

"""The tools as they are started, in this folder by scripts of their names and, where the package is
installed, by its entry points."""

import os
import signal
import sys
from collections.abc import Callable
from functools import partial
from importlib import import_module
from typing import NoReturn

_INTERRUPTED = 130


def _end(*_: object) -> None:
    """Ends a process whose modules are not loaded yet: those that tell of an interrupt are among them."""
    os.write(2, f"{os.path.basename(sys.argv[0])}: interrupted\n".encode())
    os._exit(_INTERRUPTED)


_HEARS = signal.getsignal(signal.SIGINT) is signal.default_int_handler
if _HEARS:
    signal.signal(signal.SIGINT, _end)

from tp_sdk.faults import run_command  # noqa: E402


def start(command: str) -> NoReturn:
    """Runs a command on the process's words, and ends with its exit code. Its module is loaded here, so
    that a library that is missing is told of."""
    if _HEARS:
        signal.signal(signal.SIGINT, signal.default_int_handler)
    run_command(f"tp-{command}", lambda words: int(import_module(f"tp_sdk.commands.{command}").main(words)))


Start = Callable[[], NoReturn]

counts: Start = partial(start, "counts")
explain: Start = partial(start, "explain")
image: Start = partial(start, "image")
plot: Start = partial(start, "plot")
report: Start = partial(start, "report")
run: Start = partial(start, "run")
sweep: Start = partial(start, "sweep")
verify: Start = partial(start, "verify")

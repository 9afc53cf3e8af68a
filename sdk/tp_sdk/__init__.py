"""The tools around `tp`, and what a program in Python has of them.

`Image` is an image that `tp check` accepts, `run` runs one, and `Report` is what the run came to. `sweep`
runs an image with many values in it, and tells how much its domains could learn of a secret, in
bits. `entropy` and `capacity` are the bits of any readings, and `picture` draws them. What is wrong
with an input is a `Fault` of one sentence: `Refused` for an image that breaks a rule, `Missing` for
something that is not there.
"""

from __future__ import annotations

import sys

if sys.version_info < (3, 11):
    from tp_sdk.python import use_debians

    use_debians("tomllib")
    sys.stderr.write(f"{sys.executable} is older than Python 3.11, which these tools need\n")
    sys.exit(3)

from importlib import import_module
from typing import TYPE_CHECKING

if TYPE_CHECKING:
    from tp_sdk.api import Image, run
    from tp_sdk.faults import Fault, Missing, Refused
    from tp_sdk.information import capacity, entropy
    from tp_sdk.pictures import picture
    from tp_sdk.report import Report
    from tp_sdk.sweeping.api import sweep
    from tp_sdk.version import __version__

__all__ = [
    "Fault",
    "Image",
    "Missing",
    "Refused",
    "Report",
    "__version__",
    "capacity",
    "entropy",
    "picture",
    "run",
    "sweep",
]

# The module of each, which is loaded as the name is asked for: a tool's words need none of them.
_MODULES = {
    "Fault": "faults",
    "Image": "api",
    "Missing": "faults",
    "Refused": "faults",
    "Report": "report",
    "__version__": "version",
    "capacity": "information",
    "entropy": "information",
    "picture": "pictures",
    "run": "api",
    "sweep": "sweeping.api",
}


def __getattr__(name: str) -> object:
    if name not in _MODULES:
        raise AttributeError(f"module 'tp_sdk' has no attribute '{name}'")
    return getattr(import_module(f"tp_sdk.{_MODULES[name]}"), name)


def __dir__() -> list[str]:
    return sorted({*globals(), *__all__})

"""Runs a tool as if some libraries were not there: tools_without.py LIBRARY,LIBRARY TOOL WORD.."""

import os
import runpy
import sys
from typing import NoReturn


def refuse(*words: object) -> NoReturn:
    """No other Python is asked."""
    sys.exit(f"another Python was asked for: {words}")


for name in sys.argv[1].split(","):
    sys.modules[name] = None  # type: ignore[assignment]
os.execv = refuse
sys.argv = sys.argv[2:]
runpy.run_path(sys.argv[0], run_name="__main__")

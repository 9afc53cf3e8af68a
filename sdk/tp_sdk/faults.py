"""What a tool tells and ends with: a fault of its input, or something that it needs and is not there."""

from __future__ import annotations

import gc
import os
import signal
import sys
from collections.abc import Callable
from functools import cache
from pathlib import Path
from typing import NoReturn

from tp_sdk.python import DEBIANS, use_debians

INPUT_AT_FAULT = 1
SOMETHING_IS_MISSING = 3
INTERRUPTED = 130

STANDARD = Path("-")  # the file that means standard input, or standard output

EXIT_CODES = """exit codes:
  0  it did its work
  1  an input is at fault: the message says where
  2  the words are no command
  3  something that it needs is not there: the program, a compiler, a library
  130  it was interrupted"""


class Fault(Exception):
    """An input is at fault; the message says where and how."""

    code = INPUT_AT_FAULT


class Missing(Fault):
    """Something that is needed is not there."""

    code = SOMETHING_IS_MISSING


class Refused(Fault):
    """The program refuses an image; `refusal` is its line, of the first rule that is broken, as
    `refused K7 at 1 found 0 wanted 0`."""

    def __init__(self, told: str, refusal: str) -> None:
        super().__init__(told, refusal)
        self.refusal = refusal

    def __str__(self) -> str:
        return str(self.args[0])


class Interrupted(Fault):
    """The user wants no more of it."""

    code = INTERRUPTED


class MissingLibrary(Missing):
    """A library of Python is not there."""

    def __init__(self, name: str, module: str) -> None:
        nor = "" if sys.executable == DEBIANS else f", nor has {DEBIANS}"
        super().__init__(
            f"{sys.executable} has no {name}{nor}: apt-get install python3-{name}, or pip install {name}"
        )
        self.module = module


def run_command(name: str, command: Callable[[list[str]], int]) -> NoReturn:
    """Runs a command on the process's words, and ends with its exit code."""
    fault: Fault | None = None
    try:
        code = command(sys.argv[1:])
        sys.stdout.flush()
        gc.freeze()  # (what is there as it ends need not be looked through)
        sys.exit(code)
    except MissingLibrary as missing:
        use_debians(missing.module, _read_already())
        fault = missing
    except Fault as it:
        fault = it
    except KeyboardInterrupt:
        signal.signal(signal.SIGINT, signal.SIG_IGN)
        _write_no_more()
        fault = Interrupted("interrupted")
    except BrokenPipeError:
        _write_no_more()
    except OSError as error:
        _write_no_more()
        fault = Fault(f"{error.filename or 'standard output'}: {error.strerror}")
    if fault is not None:
        print(f"{name}: {fault}", file=sys.stderr)
    sys.exit(INPUT_AT_FAULT if fault is None else fault.code)


def _write_no_more() -> None:
    """What standard output did not take is given up: Python would try again at its end."""
    os.dup2(os.open(os.devnull, os.O_WRONLY), sys.stdout.fileno())


@cache
def _standard_input() -> bytes:
    return sys.stdin.buffer.read()


def _read_already() -> bytes | None:
    return _standard_input() if _standard_input.cache_info().currsize else None


def read_bytes(path: Path) -> bytes:
    """The bytes of a file; `-` is standard input."""
    if path == STANDARD:
        return _standard_input()
    try:
        return path.read_bytes()
    except OSError as error:
        raise Fault(f"{path}: {error.strerror}") from None
    except ValueError:
        raise Fault(f"{str(path)!r}: no file has such a name") from None


def refuse_unread(path: Path, place: str) -> None:
    """Faults a file that can't be read, which is named at the place."""
    try:
        path.open("rb").close()
    except OSError as error:
        raise Fault(f"{place}: {path}: {error.strerror}") from None
    except ValueError:
        raise Fault(f"{place}: {str(path)!r}: no file has such a name") from None


def read_text(path: Path) -> str:
    """The text of a file."""
    try:
        return read_bytes(path).decode()
    except UnicodeDecodeError as error:
        raise Fault(f"{path}: byte {error.start} is not UTF-8") from None


def write_bytes(path: Path, data: bytes) -> None:
    """Writes a file; `-` is standard output."""
    if path == STANDARD:
        sys.stdout.buffer.write(data)
        return
    try:
        path.write_bytes(data)
    except OSError as error:
        raise Fault(f"{path}: {error.strerror}") from None

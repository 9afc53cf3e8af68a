"""The library libtp: the program's answers from a call in place of a process."""

from __future__ import annotations

import ctypes
import threading
from collections.abc import Callable
from functools import cache, partial
from pathlib import Path

from tp_sdk.guards import GUARDS

BUILT = Path("lib") / "out" / "libtp.so"
BESIDE = Path("libtp.so")  # in the folder that has an installed repository, as PREFIX/lib
TOO_SMALL = 7
GREATEST = 2**32 - 1
FEW_SLOTS = 256

# Each command with its options, in the order of its call's values, and whether it reads an image.
CALLS: dict[str, tuple[list[str], bool]] = {
    "check": ([], True),
    "bound": ([], True),
    "run": (["--slots"], True),
    "harts": (["--slots", "--seed"], True),
    "alone": (["--domain", "--slots"], True),
    "ablate": (["--off", "--slots"], True),
    "redact": (["--domain"], True),
    "gen": (["--seed"], False),
    "demo": (["--seed"], False),
}


class _Buffer(threading.local):
    """A buffer for texts, one a thread: it grows as a text wants it."""

    def __init__(self) -> None:
        self.text = ctypes.create_string_buffer(1 << 16)


_buffer = _Buffer()


@cache
def _load(path: Path) -> ctypes.CDLL:
    """The shared object, each of whose calls has its types."""
    library = ctypes.CDLL(str(path))
    for command, (options, reads) in CALLS.items():
        call = getattr(library, f"tp_{command}")
        call.restype = ctypes.c_uint32
        image = [ctypes.c_char_p, ctypes.c_size_t] if reads else []
        text = [ctypes.c_char_p, ctypes.c_size_t, ctypes.POINTER(ctypes.c_size_t)]
        call.argtypes = [*image, *[ctypes.c_uint32] * len(options), *text]
    return library


def named_by(path: Path) -> Path | None:
    """The file, where it is there and named as a shared object is."""
    return path.absolute() if ".so" in path.suffixes and path.is_file() else None


def newest(repository: Path, program: Path) -> Path | None:
    """The library that is built in the repository, unless the program is newer; where the repository is installed, the
    one of its version that is installed beside it."""
    library = repository / BUILT
    if not library.is_file():
        return _beside(repository)
    is_old = program.is_file() and program.stat().st_mtime > library.stat().st_mtime
    return None if is_old else library


def _beside(repository: Path) -> Path | None:
    """What `make -C lib install` puts where `make install` puts the repository, which has no sources then."""
    library, version = repository.parent / BESIDE, repository / "VERSION"
    if (repository / "crates.txt").exists() or not (library.is_file() and version.is_file()):
        return None
    is_same = library.resolve().name == f"{BESIDE.name}.{version.read_text().strip()}"
    return library if is_same else None


def _value(option: str, word: str) -> int | None:
    """The number of an option's value, where it has one that a call can take."""
    if option == "--off":
        return GUARDS.index(word) if word in GUARDS else None
    if not (word.isascii() and word.isdigit()) or int(word) > GREATEST:
        return None
    return int(word)


def _values(words: list[str]) -> list[int] | None:
    """The values of the call that the words ask for, or `None` where there is no such call."""
    options = CALLS[words[0]][0] if words and words[0] in CALLS else None
    if options is None or sorted(words[1::2]) != sorted(options) or len(words) != 1 + 2 * len(options):
        return None
    given = dict(zip(words[1::2], words[2::2]))
    values = [_value(option, given[option]) for option in options]
    found = [value for value in values if value is not None]
    return found if len(found) == len(values) else None


def answer(path: Path, words: list[str], image: str) -> tuple[int, str] | None:
    """The exit code and the text that the program has for these words; `None` where there is no call for them."""
    values = _values(words)
    if values is None:
        return None
    options, reads = CALLS[words[0]]
    given = image.encode()
    source: list[bytes | int] = [given, len(given)] if reads else []
    call = getattr(_load(path), f"tp_{words[0]}")
    is_short = all(option != "--slots" or value <= FEW_SLOTS for option, value in zip(options, values))
    ask = partial(_text_of, call, source, values)
    return ask() if is_short else _apart(ask)


def _text_of(call: Callable[..., int], source: list[bytes | int], values: list[int]) -> tuple[int, str]:
    """What a call answers, in a buffer with room for it."""
    taken = ctypes.c_size_t()
    while True:
        text = _buffer.text
        status = call(*source, *values, text, len(text), ctypes.byref(taken))
        if status != TOO_SMALL:
            return status, memoryview(text)[: taken.value].tobytes().decode()
        _buffer.text = ctypes.create_string_buffer(taken.value)


def _apart(call: Callable[[], tuple[int, str]]) -> tuple[int, str]:
    """What a call answers that may take long: in a thread of its own, so that one can interrupt the wait for it."""
    found: list[tuple[int, str]] = []
    thread = threading.Thread(target=lambda: found.append(call()), daemon=True)
    thread.start()
    thread.join()
    return found[0]

"""Words of the command line that several tools have, and the same values where they are given to a call."""

from __future__ import annotations

import re
from argparse import ArgumentTypeError
from collections.abc import Callable

from tp_sdk.faults import Fault
from tp_sdk.keys import Within, fault_in

SLOTS = Within(0, 65_536)
SEED = Within(0, 4_294_967_295)

_NUMBER = re.compile("[0-9]{1,20}")


def number_within(kind: Within, what: str) -> Callable[[str], int]:
    """What takes a word for a number of that range, or says what is wanted."""

    def number(word: str) -> int:
        if _NUMBER.fullmatch(word) is None or not kind.low <= int(word) <= kind.high:
            raise ArgumentTypeError(f"'{word}': {_wanted(kind, what)}")
        return int(word)

    return number


def refuse_number(value: object, kind: Within, name: str, what: str) -> None:
    """Faults a value that a call is given under this name and that is no number of that range."""
    if fault_in(kind, value, ()) is not None:
        raise Fault(f"{name}={value!r}: {_wanted(kind, what)}")


def _wanted(kind: Within, what: str) -> str:
    return f"{what} is wanted, {kind.low:,} to {kind.high:,}"


def slots_from(least: int) -> Callable[[str], int]:
    """What takes a word for a number of slots, so many or more."""
    return number_within(Within(least, SLOTS.high), "a number of slots")

"""What words of the command line and descriptions put in an image: at a symbol of a program a word, an
array of words, a string, a file's bytes; and a domain's moments."""

from __future__ import annotations

import re
import tomllib
from pathlib import Path
from typing import Any

from tp_sdk.faults import Fault, read_bytes
from tp_sdk.keys import Array, Either, Integer, Text, Within, fault_in

WORD = Within(0, 0xFFFF_FFFF)
MOMENTS = Array(Array(Integer(), 2, 2))
VALUE = Either((WORD, Array(WORD), Text()))
WANTED = (
    f"a word, {WORD.low} to {WORD.high:#x}, an array of words, a string (a zero comes after it), "
    "or '@FILE': its bytes"
)
PLACE = r"([A-Za-z_.$][A-Za-z0-9_.$]*)(?:\+(0[xX][0-9A-Fa-f]{1,8}|[0-9]{1,9}))?"

_FILE = "@"
_SETTING = re.compile(rf"([^.=]+)\.({PLACE})=(.*)", re.DOTALL)
_INTEGER = re.compile(r"0[xX][0-9A-Fa-f]{1,99}|[0-9]{1,99}")


def integer_of(text: str) -> int:
    """A number in decimal or, after 0x, in hexadecimal."""
    return int(text, 16 if text[:2] in ("0x", "0X") else 10)


def bytes_of(value: Any, folder: Path, place: str) -> bytes:
    """The bytes that stand for a value; a file is looked for in the folder."""
    if fault_in(VALUE, value, ()) is not None:
        raise Fault(f"{place} must be {WANTED}")
    match value:
        case str():
            if not value.startswith(_FILE):
                return value.encode() + b"\0"
            try:
                return read_bytes(folder / value.removeprefix(_FILE))
            except Fault as fault:
                raise Fault(f"{place}: {fault}") from None
        case list():
            return b"".join(word.to_bytes(4, "little") for word in value)
    assert isinstance(value, int)
    return value.to_bytes(4, "little")


def parse_setting(setting: str) -> tuple[str, str, bytes]:
    """`DOMAIN.SYMBOL[+OFFSET]=VALUE` as the domain, the place in it, and the bytes to put there."""
    match = _SETTING.fullmatch(setting)
    value = None if match is None else _parse_value(match[match.re.groups])
    if match is None or value is None:
        raise Fault(
            f"--set {_shown(setting)}: DOMAIN.SYMBOL[+OFFSET]=VALUE is wanted, the value decimal, 0x.., "
            '[1, 2], "text" or @FILE'
        )
    return match[1], match[2], bytes_of(value, Path(), f"--set {setting}: the value")


def parse_moments(setting: str) -> tuple[str, list[list[int]]]:
    """`DOMAIN=[[CYCLE, LINE], ..]` as the domain and its moments."""
    domain, _, text = setting.partition("=")
    moments = _parse_value(text)
    if fault_in(MOMENTS, moments, ()) is not None:
        raise Fault(f"--moments {_shown(setting)}: DOMAIN=[[CYCLE, LINE], ..] is wanted")
    return domain, moments


def _shown(setting: str) -> str:
    return setting if len(setting) < 80 else setting[:76] + " ..."


def _parse_value(text: str) -> Any:
    if _INTEGER.fullmatch(text):
        return integer_of(text)
    if text.startswith(_FILE):
        return text
    try:
        return tomllib.loads(f"value = {text}")["value"] if "\n" not in text else None
    except (ValueError, RecursionError):
        return None

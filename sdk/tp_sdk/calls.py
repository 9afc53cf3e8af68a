"""The kernel's calls and the codes of their replies, as docs/IMAGE.md has them."""

from __future__ import annotations

from collections.abc import Iterable
from dataclasses import dataclass

from tp_sdk.keys import PAGE


@dataclass(frozen=True)
class Call:
    """A kernel call, the codes with which it may be refused, and what it writes at most: a frame that it
    zeroes, or so many entries of page tables."""

    number: int
    name: str
    refused_with: tuple[int, ...]
    zeroes: bool = False
    entries: int = 0

    def lines_written(self, line: int) -> int:
        """The most lines, of so many bytes, that it writes."""
        return PAGE // line if self.zeroes else self.entries


@dataclass(frozen=True)
class Error:
    """A code of a reply, and where a call is refused with it."""

    code: int
    name: str
    so_where: str


PUT = Call(1, "PUT", (11,))
SEND = Call(19, "SEND", (14, 15))
RECV = Call(20, "RECV", (14, 16))
CALLS = (
    Call(0, "EXIT", ()),
    PUT,
    Call(2, "ALLOC", (2, 4, 5, 10), zeroes=True),
    Call(3, "TABLE", (2, 3, 5, 7, 8), entries=1),
    Call(4, "MAP", (2, 3, 5, 6, 7, 8, 9), entries=1),
    Call(5, "UNMAP", (2, 3, 5, 7), entries=1),
    Call(6, "COPY", (2, 3, 4, 5, 6)),
    Call(7, "DELETE", (2, 3, 12), entries=1),
    Call(8, "REVOKE", (2, 3), entries=63),
    Call(9, "POLL", (2, 3, 5)),
    Call(10, "WAIT", (2, 3, 5)),
    Call(11, "SIGNAL", (2, 3, 5)),
    Call(12, "SPAWN", (7, 13)),
    Call(13, "YIELD", ()),
    Call(14, "ENDTHREAD", ()),
    SEND,
    RECV,
)
EVERY_CALL = frozenset(call.number for call in CALLS)
MAIL_CALLS = frozenset((SEND.number, RECV.number))
# As descriptions name them: "exit", "put".
NUMBERS = {call.name.lower(): call.number for call in CALLS}
BAD_CALL = Error(1, "BadCall", "no call has the number, or the domain's `calls` leave it out")
ERRORS = (
    BAD_CALL,
    Error(2, "BadSlot", "the slot is 64 or more"),
    Error(3, "Empty", "the slot is empty"),
    Error(4, "Used", "the slot is not empty"),
    Error(5, "WrongKind", "a capability of another kind is wanted"),
    Error(6, "BadRights", "the rights are not good, or beyond the capability's"),
    Error(7, "BadAddress", "the address is not aligned, or nothing is mapped"),
    Error(8, "Mapped", "something is mapped or installed already"),
    Error(9, "NoTable", "no table is installed for the address"),
    Error(10, "NoFrame", "no frame of the domain is free"),
    Error(11, "OutputFull", "4,096 bytes are printed"),
    Error(12, "InUse", "some page is mapped through the table, by a capability"),
    Error(13, "NoThread", "all eight threads are live"),
    Error(14, "NoBox", "no box of the number is from the caller (SEND), or to it (RECV)"),
    Error(15, "BoxFull", "16 words were put into the box since the caller's slot began"),
    Error(16, "NoMail", "no word is left in the box"),
)

_BY_CODE = {error.code: error for error in ERRORS}


def error_of(code: int) -> Error:
    """The error of a reply's code."""
    return _BY_CODE.get(code, Error(code, "unknown", "the program's table has no such code"))


def calls_where(has_mail: bool) -> frozenset[int]:
    """The calls that there are in an image that has mailboxes, or none."""
    return EVERY_CALL if has_mail else EVERY_CALL - MAIL_CALLS


def callers_of(
    code: int, calls: frozenset[int] = EVERY_CALL, there: frozenset[int] = EVERY_CALL
) -> list[str]:
    """The calls that can be refused with a code, where these may be made of those that there are."""
    if code == BAD_CALL.code:
        return [call.name for call in CALLS if call.number in there - calls]
    return [call.name for call in CALLS if call.number in calls and code in call.refused_with]


def in_words(names: Iterable[str], last: str) -> str:
    """`EXIT`, `EXIT and PUT`, `EXIT, PUT and MAP`."""
    *others, one = names
    return f"{', '.join(others)} {last} {one}" if others else one

"""The refusals: a row for each case of each rule, with where it points and what is wanted there."""

from __future__ import annotations

import re
from collections.abc import Callable
from dataclasses import dataclass
from typing import Any

from tp_sdk import keys
from tp_sdk.faults import Fault
from tp_sdk.toml_places import Path

Image = dict[str, Any]

_RULES_OF_CASES = (3, 11, 12, 13, 15, 16, 19, 20, 22)

_LINE = re.compile(r"refused K(\d{1,9}) at (-?\d{1,20}) found (-?\d{1,20}) wanted (-?\d{1,20})")


@dataclass(frozen=True)
class Refusal:
    """The line that the program writes of the first rule that an image breaks."""

    rule: int
    at: int
    found: int
    wanted: int

    @classmethod
    def parse(cls, line: str) -> Refusal:
        """Reads the line."""
        match = _LINE.fullmatch(line.strip())
        if match is None:
            raise Fault(f"no refusal: {line.strip()!r}, where 'refused K7 at 1 found 0 wanted 0' is one")
        return cls(*(int(number) for number in match.groups()))

    def __str__(self) -> str:
        return f"refused K{self.rule} at {self.at} found {self.found} wanted {self.wanted}"


@dataclass(frozen=True)
class Numbers:
    """What each number of a rule's refusals says, in the words of docs/IMAGE.md."""

    rule: int
    at: str
    found: str
    wanted: str


@dataclass(frozen=True)
class Case:
    """A case of a rule. `broken` has the words of docs/IMAGE.md where it has a table of the rule's cases;
    `holds` says of a refusal of an image of a version whether it is of this case."""

    numbers: Numbers
    number: int
    broken: str
    wants: str
    place: Callable[[Refusal, Image], Path | None]
    holds: Callable[[Refusal, int], bool] = lambda refusal, version: True
    is_of_key: bool = False  # and not of what stands there
    # where that stands with which it clashes
    other: Callable[[Refusal, Image], Path | None] = lambda refusal, image: None

    @property
    def rule(self) -> int:
        """The rule's number."""
        return self.numbers.rule

    @property
    def name(self) -> str:
        """The rule, and the case where docs/IMAGE.md numbers the rule's cases."""
        number = f", case {self.number}" if self.rule in _RULES_OF_CASES else ""
        return f"K{self.rule}{number}"


# ---- places


def _at(*path: str | int) -> Callable[[Refusal, Image], Path | None]:
    return lambda refusal, image: path


def _of_part(key: str | None) -> Callable[[Refusal, Image], Path | None]:
    def place(refusal: Refusal, image: Image) -> Path | None:
        part = next((part for part in keys.PARTS if part.number == refusal.at), None)
        if part is None:
            return None
        return (part.key, key) if key else part.size

    return place


def _of_cost(refusal: Refusal, image: Image) -> Path | None:
    is_cost = 1 <= refusal.at <= len(keys.COSTS)
    return ("costs", keys.COSTS[refusal.at - 1]) if is_cost else None


def _of_domain(*path: str | int) -> Callable[[Refusal, Image], Path | None]:
    return lambda refusal, image: ("domain", refusal.at, *path)


def _of_segment(key: str) -> Callable[[Refusal, Image], Path | None]:
    return lambda refusal, image: ("domain", refusal.at, "segment", refusal.found, key)


def _of_entry(key: str) -> Callable[[Refusal, Image], Path | None]:
    return lambda refusal, image: ("schedule", refusal.at, key)


def _of_greatest_hart(refusal: Refusal, image: Image) -> Path | None:
    """The hart of the first entry that is on the greatest one."""
    harts = [keys.hart_of(entry) for entry in image["schedule"]]
    return ("schedule", harts.index(max(harts)), "hart") if harts else None


def _of_later_hart(refusal: Refusal, image: Image) -> Path | None:
    """The hart of the entry told, where an earlier one gives the domain to another hart."""
    is_other = _of_earlier_hart(refusal, image) is not None
    return _hart_in(refusal.at, image) if is_other else None


def _of_earlier_hart(refusal: Refusal, image: Image) -> Path | None:
    """The hart of the first entry that gives the domain found to another one."""
    schedule = image["schedule"]
    own = keys.hart_of(schedule[refusal.at])
    for number, entry in enumerate(schedule[: refusal.at]):
        if entry["domain"] == refusal.found and keys.hart_of(entry) != own:
            return _hart_in(number, image)
    return None


def _hart_in(number: int, image: Image) -> Path:
    """Where an entry tells its hart: where it tells none, its domain stands for it."""
    return ("schedule", number, "hart" if "hart" in image["schedule"][number] else "domain")


def _of_no_domain(refusal: Refusal, image: Image) -> Path | None:
    """The end of the box told that names no domain: the sender's, where both are the number found."""
    box, domains = image["mail"][refusal.at], len(image["domain"])
    is_none = not 0 <= refusal.found < domains
    ends = (key for key in keys.BOX_ENDS if is_none and box[key] == refusal.found)
    return next((("mail", refusal.at, key) for key in ends), None)


def _of_receiver(refusal: Refusal, image: Image) -> Path | None:
    """The receiver of the box told, where an earlier one has the same ends, or its sender is the same."""
    box = image["mail"][refusal.at]
    sender, receiver = (box[key] for key in keys.BOX_ENDS)
    if refusal.wanted == 3:
        is_told = sender == receiver == refusal.found
    else:
        earlier = image["mail"][refusal.found]
        is_told = refusal.found < refusal.at and [earlier[key] for key in keys.BOX_ENDS] == [sender, receiver]
    return ("mail", refusal.at, "to") if is_told else None


def _in_list(key: str, again: bool) -> Callable[[Refusal, Image], Path | None]:
    """The item of a domain's list that is the number found; the second such one, where `again`."""

    def place(refusal: Refusal, image: Image) -> Path | None:
        items = image["domain"][refusal.at][key]
        places = [number for number, item in enumerate(items) if item == refusal.found]
        rank = 1 if again else 0
        return ("domain", refusal.at, key, places[rank]) if len(places) > rank else None

    return place


def _of_line_named_before(refusal: Refusal, image: Image) -> Path | None:
    return _in_list("lines", again=refusal.wanted == refusal.at)(refusal, image)


def _of_item(key: str, *path: int) -> Callable[[Refusal, Image], Path | None]:
    return lambda refusal, image: ("domain", refusal.at, key, refusal.found, *path)


def _earlier(key: str) -> Callable[[Refusal, Image], Path | None]:
    """The first item of a domain's list that is the one in the place found."""

    def place(refusal: Refusal, image: Image) -> Path | None:
        items = image["domain"][refusal.at][key]
        return ("domain", refusal.at, key, items.index(items[refusal.found]))

    return place


def _in_list_of_wanted(key: str) -> Callable[[Refusal, Image], Path | None]:
    """The item that is the number found, in the list of the domain of the number wanted."""
    return lambda refusal, image: (
        ("domain", refusal.wanted, key, image["domain"][refusal.wanted][key].index(refusal.found))
    )


def _earlier_segment(refusal: Refusal, image: Image) -> Path | None:
    """The first segment that has a page of the one found."""
    segments = image["domain"][refusal.at]["segment"]
    one = segments[refusal.found]
    for number, it in enumerate(segments[: refusal.found]):
        if it["page"] < one["page"] + one["pages"] and one["page"] < it["page"] + it["pages"]:
            return ("domain", refusal.at, "segment", number, "page")
    return None


def _call_before(refusal: Refusal, image: Image) -> Path | None:
    """The item before the one found, where that is a call."""
    call = image["domain"][refusal.at]["calls"][refusal.found]
    is_call = keys.CALL.low <= call <= keys.CALL.high
    return ("domain", refusal.at, "calls", refusal.found - 1) if is_call else None


def _other_key(refusal: Refusal, image: Image) -> Path | None:
    return next(keys.other_keys(image), None)


def _of_row(row: keys.KeyRow) -> Callable[[Refusal, Image], Path | None]:
    return lambda refusal, image: keys.broken_place(row, image, refusal.found)


# ---- which case


def _at_is(at: int) -> Callable[[Refusal, int], bool]:
    return lambda refusal, version: refusal.at == at


def _wanted_is(wanted: int) -> Callable[[Refusal, int], bool]:
    return lambda refusal, version: refusal.wanted == wanted


def _is_low(refusal: Refusal, version: int) -> bool:
    return refusal.found < refusal.wanted


def _is_high(refusal: Refusal, version: int) -> bool:
    return refusal.found > refusal.wanted


def _is_of_many_domains(refusal: Refusal, version: int) -> bool:
    """It tells how many domains there are, in the place of a domain's number the most that there may be."""
    return refusal.at == keys.LIMITS[version].domains.high


# ---- the rows

_NO_LINE = 32
_PREDICTOR = next(part.number for part in keys.PARTS if part.key == "predictor")

_K1 = Numbers(1, "0", "0", "0")
_K2 = Numbers(
    2,
    "the row of the table of keys",
    "the domain (rows 11 to 21, and 29), the entry (rows 23 to 25, and 31), the box (rows 33 and 34), else 0",
    "0",
)
_K3 = Numbers(3, "the part, 1 to 6", "the value (cases 3 and 4: the ways)", "the case, 1 to 4")
_K4 = Numbers(4, "0", "the number", "the end that it passes")
_K5 = Numbers(5, "0", "how many there are", "the end that they pass")
_K6 = Numbers(6, "its place, 1 to 9", "the cost", "the end that it passes")
_K7_MANY = Numbers(7, "16, in version 2 32", "how many there are", "16, in version 2 32")
_K7_NAME = Numbers(7, "the domain", "the name's bytes", "16")
_K7_TWICE = Numbers(7, "the later domain", "the earlier domain", "0")
_K8 = Numbers(8, "the domain", "the colour", "the number of colours")
_K9 = Numbers(9, "the domain", "the colour", "the earlier domain")
_K10 = Numbers(10, "the domain", "the frames that it has", "the frames that it needs")
_K11 = Numbers(11, "the case", "the bytes, the frames, or its last frame", "65536, l2's `ways`, or `frames`")
_K12 = Numbers(12, "the domain", "the segment (case 6: the entry)", "the case")
_K13 = Numbers(13, "the domain", "the slot (case 1: how many there are)", "the case")
_K14 = Numbers(14, "the domain", "the line", "32, or the domain that names it first")
_K15 = Numbers(15, "the domain", "the place (case 1: how many there are)", "the case")
_K16 = Numbers(16, "the entry (case 1: 0)", "the value (case 1: how many there are)", "the case")
_K17 = Numbers(17, "the entry", "the pad", "the bound")
_K18 = Numbers(18, "the domain", "the place in the list", "14")
_K19 = Numbers(19, "the entry (case 2: the hart)", "the hart, 0, or the domain", "the case")
_K20 = Numbers(
    20,
    "the box (case 1: 0)",
    "the domain (case 1: how many boxes there are; case 4: the earlier box)",
    "the case",
)
_K22 = Numbers(22, "the case", "the cost, or the places", "1000 (case 3: 256)")


def _from_to(kind: keys.Within) -> str:
    return f"{kind.low:,} to {kind.high:,}"


def limits_in_words(version: int) -> dict[str, str]:
    """What a version has at `{frames}`, `{domains}` and `{entries}`, and what a later one takes."""
    words = {}
    for name in ("frames", "domains", "entries"):
        own, last = (getattr(keys.LIMITS[it], name) for it in (version, keys.VERSION.high))
        later = "" if own == last else f", or to {last.high:,} with `version = {keys.VERSION.high}`"
        words[name] = _from_to(own) + later
    return words


def _any_of(words: tuple[str, ...]) -> str:
    return "one of " + ", ".join(f"`{word}`" for word in words)


_SIZES = ", ".join(f"`{'.'.join(map(str, part.size))}` {part.low:,} to {part.high:,}" for part in keys.PARTS)

_KEY_CASES = tuple(
    Case(
        _K2,
        row.number,
        f"row {row.number} of the table of keys is broken",
        row.value,
        _of_row(row),
        _at_is(row.number),
    )
    for row in keys.KEY_ROWS
)

CASES: tuple[Case, ...] = (
    Case(_K1, 1, "the text is no TOML", "a text of TOML in UTF-8, each integer of 64 bits at most", _at()),
    *_KEY_CASES,
    Case(
        _K2,
        keys.OTHER_KEYS,
        "no row of the table of keys has this key",
        "no such key here",
        _other_key,
        _at_is(keys.OTHER_KEYS),
        is_of_key=True,
    ),
    Case(
        _K3,
        1,
        "the size, or `sets`, is no power of two in the part's range",
        f"a power of two: {_SIZES}",
        _of_part(None),
        _wanted_is(1),
    ),
    Case(
        _K3,
        2,
        "`ways` is not 1 to 16",
        _from_to(keys.WAYS),
        _of_part("ways"),
        lambda refusal, version: refusal.wanted == 2 and refusal.at != _PREDICTOR,
    ),
    Case(
        _K3,
        2,
        "of part 6, `history` is not 0 to 8",
        _from_to(keys.HISTORY),
        _at("history"),
        lambda refusal, version: refusal.wanted == 2 and refusal.at == _PREDICTOR,
    ),
    Case(
        _K3,
        3,
        "`policy` is none of `lru`, `fifo`, `plru`, `nmru`",
        _any_of(keys.POLICIES),
        _of_part("policy"),
        _wanted_is(3),
    ),
    Case(
        _K3,
        4,
        "it is `plru`, and `ways` is no power of two",
        "`ways` that are a power of two, or another policy",
        _of_part("ways"),
        _wanted_is(4),
    ),
    Case(_K4, 1, "there are too few frames", "{frames}", _at("frames"), _is_low),
    Case(_K4, 2, "there are too many frames", "{frames}", _at("frames"), _is_high),
    Case(
        _K5,
        1,
        "`sets` times `line`, divided by 4,096, makes {found} page colours: too few",
        _from_to(keys.COLOURS) + " colours",
        _at("l2", "sets"),
        _is_low,
    ),
    Case(
        _K5,
        2,
        "`sets` times `line`, divided by 4,096, makes {found} page colours: too many",
        _from_to(keys.COLOURS) + " colours",
        _at("l2", "sets"),
        _is_high,
    ),
    Case(_K6, 1, "the cost is too small", _from_to(keys.COST), _of_cost, _is_low),
    Case(_K6, 2, "the cost is too great", _from_to(keys.COST), _of_cost, _is_high),
    Case(
        _K7_MANY,
        1,
        "the number of domains is {found}",
        "{domains}",
        _at("domain"),
        _is_of_many_domains,
    ),
    Case(
        _K7_NAME,
        2,
        "a name is none",
        "1 to 16 small letters (a to z) and digits",
        _of_domain("name"),
        lambda refusal, version: not _is_of_many_domains(refusal, version) and refusal.wanted != 0,
    ),
    Case(
        _K7_TWICE,
        3,
        "{other:found} has this name",
        "a name of its own",
        _of_domain("name"),
        lambda refusal, version: not _is_of_many_domains(refusal, version) and refusal.wanted == 0,
        other=lambda refusal, image: ("domain", refusal.found, "name"),
    ),
    Case(
        _K8,
        1,
        "no domain can have this colour (0 is the kernel's, and there are {wanted})",
        "a colour from 1 to {last}",
        _in_list("colours", again=False),
        lambda refusal, version: not 1 <= refusal.found < refusal.wanted,
    ),
    Case(
        _K8,
        2,
        "the colour stands twice in the list",
        "each colour once",
        _in_list("colours", again=True),
        lambda refusal, version: 1 <= refusal.found < refusal.wanted,
        other=_in_list("colours", again=False),
    ),
    Case(
        _K9,
        1,
        "the colour is one of {other:wanted}",
        "a colour that no earlier domain has",
        _in_list("colours", again=False),
        other=_in_list_of_wanted("colours"),
    ),
    Case(
        _K10,
        1,
        "these colours have {found} frames, and the domain needs {wanted}",
        "colours with {wanted} frames or more, or fewer pages",
        _of_domain("colours"),
    ),
    Case(
        _K11,
        1,
        "`shared` is no multiple of `line`, or below it, or above 65,536",
        "a multiple of `line` up to 65,536",
        _at("shared"),
        _at_is(1),
    ),
    Case(
        _K11,
        2,
        "its frames are more than l2's `ways`",
        "{wanted} frames of 4,096 bytes or fewer (here {found} are begun), or more ways",
        _at("shared"),
        _at_is(2),
    ),
    Case(
        _K11,
        3,
        "its last frame is not below `frames`",
        "a smaller `shared`, or more than {wanted} frames (its last would be frame {found})",
        _at("shared"),
        _at_is(3),
    ),
    Case(
        _K12,
        1,
        "its last page is past page 1,048,575",
        "`page` and `pages` that make 1,048,576 together at most",
        _of_segment("pages"),
        _wanted_is(1),
    ),
    Case(
        _K12,
        2,
        "`rights` is none of `r`, `rw`, `x`, `rx`, `rwx`",
        _any_of(keys.RIGHTS),
        _of_segment("rights"),
        _wanted_is(2),
    ),
    Case(
        _K12,
        3,
        "`hex` is no text of pairs of hexadecimal digits",
        "two digits, 0 to 9 and a to f, for each byte",
        _of_segment("hex"),
        _wanted_is(3),
    ),
    Case(
        _K12,
        4,
        "`hex` writes more bytes than the pages hold",
        "4,096 bytes for each page at most, or more `pages`",
        _of_segment("hex"),
        _wanted_is(4),
    ),
    Case(
        _K12,
        5,
        "a page is one of an earlier segment's",
        "pages of its own",
        _of_segment("page"),
        _wanted_is(5),
        other=_earlier_segment,
    ),
    Case(
        _K12,
        6,
        "the entry is no multiple of 4, or in no segment with `x`",
        "a multiple of 4 in a segment with `x`",
        _of_domain("entry"),
        _wanted_is(6),
    ),
    Case(
        _K13,
        1,
        "there are more than 64",
        f"{keys.CAPS_MOST} texts or fewer (here {{found}} stand)",
        _of_domain("caps"),
        _wanted_is(1),
    ),
    Case(
        _K13,
        2,
        "a text is none of the three",
        "`none`, `page N` or `irq N`, N in decimal without zeros before it",
        _of_item("caps"),
        _wanted_is(2),
    ),
    Case(
        _K13,
        3,
        "the page is in no segment of the domain",
        "a page of the domain's segments",
        _of_item("caps"),
        _wanted_is(3),
    ),
    Case(
        _K13,
        4,
        "the line is not in its `lines`",
        "one of the domain's `lines`",
        _of_item("caps"),
        _wanted_is(4),
    ),
    Case(
        _K13,
        5,
        "an earlier slot names the same",
        "each page and line once",
        _of_item("caps"),
        _wanted_is(5),
        other=_earlier("caps"),
    ),
    Case(
        _K14,
        1,
        "there is no such line",
        _from_to(keys.LINE),
        _in_list("lines", again=False),
        _wanted_is(_NO_LINE),
    ),
    Case(
        _K14,
        2,
        "the line is named before, by {other:wanted}",
        "a line that no domain names before",
        _of_line_named_before,
        lambda refusal, version: refusal.wanted != _NO_LINE,
        other=_in_list_of_wanted("lines"),
    ),
    Case(
        _K15,
        1,
        "there are more than 1,024",
        f"{keys.MOMENTS_MOST:,} pairs or fewer (here {{found}} stand)",
        _of_domain("moments"),
        _wanted_is(1),
    ),
    Case(
        _K15,
        2,
        "the cycle is out of its range",
        _from_to(keys.MOMENT),
        _of_item("moments", 0),
        _wanted_is(2),
    ),
    Case(
        _K15,
        3,
        "the line is not in its `lines`",
        "one of the domain's `lines`",
        _of_item("moments", 1),
        _wanted_is(3),
    ),
    Case(
        _K15,
        4,
        "it is not above the one before",
        "pairs that ascend, by the cycle and then by the line",
        _of_item("moments"),
        _wanted_is(4),
        other=lambda refusal, image: ("domain", refusal.at, "moments", refusal.found - 1),
    ),
    Case(
        _K16,
        1,
        "the number of entries is {found}",
        "{entries}",
        _at("schedule"),
        _wanted_is(1),
    ),
    Case(
        _K16,
        2,
        "there is no such domain",
        "the place of a domain, from 0",
        _of_entry("domain"),
        _wanted_is(2),
    ),
    Case(
        _K16,
        3,
        "the slot's length is out of its range",
        _from_to(keys.LENGTH) + " cycles",
        _of_entry("length"),
        _wanted_is(3),
    ),
    Case(
        _K16,
        4,
        "the pad is out of its range",
        _from_to(keys.PAD) + " cycles",
        _of_entry("pad"),
        _wanted_is(4),
    ),
    Case(
        _K17,
        1,
        "the pad is below the bound on its switch",
        "`pad = {wanted}` or more{fewer}",
        _of_entry("pad"),
    ),
    Case(
        _K18,
        1,
        "it is no call, or not above the one before",
        f"calls that ascend, {_from_to(keys.CALL)}, or {keys.MAIL_CALL.low} or {keys.MAIL_CALL.high}",
        _of_item("calls"),
        other=_call_before,
    ),
    Case(
        _K19,
        1,
        "an entry's `hart` is not 0 to 3",
        _from_to(keys.HART),
        _of_entry("hart"),
        _wanted_is(1),
    ),
    Case(
        _K19,
        2,
        "a hart below the greatest has no entry",
        "an entry on hart {at}, too, or lesser harts",
        _of_greatest_hart,
        _wanted_is(2),
    ),
    Case(
        _K19,
        3,
        "an earlier entry gives the domain to another hart",
        "one hart for all entries of {other:found}",
        _of_later_hart,
        _wanted_is(3),
        other=_of_earlier_hart,
    ),
    Case(
        _K20,
        1,
        "there are more than 64",
        f"{keys.BOXES_MOST} boxes or fewer (here {{found}} stand)",
        _at("mail"),
        _wanted_is(1),
    ),
    Case(
        _K20,
        2,
        "there is no such domain",
        "the place of a domain, from 0",
        _of_no_domain,
        _wanted_is(2),
    ),
    Case(
        _K20,
        3,
        "`from` and `to` are one domain",
        "a box from {other:found} to another domain",
        _of_receiver,
        _wanted_is(3),
        other=lambda refusal, image: ("mail", refusal.at, "from"),
    ),
    Case(
        _K20,
        4,
        "an earlier box is from and to the same",
        "one box at most from a domain to another",
        _of_receiver,
        _wanted_is(4),
        other=lambda refusal, image: ("mail", refusal.found, "to"),
    ),
    *(
        Case(
            _K22,
            number,
            f"`{cost}` is not 1 to 1,000",
            _from_to(keys.COST),
            _at("muldiv", cost),
            _at_is(number),
        )
        for number, cost in enumerate(keys.PRODUCTS, 1)
    ),
    Case(
        _K22,
        3,
        "`targets` is no power of two from 1 to 256",
        f"a power of two: {_from_to(keys.TARGETS)}",
        _at("targets"),
        _at_is(3),
    ),
)


def case_of(refusal: Refusal, version: int = keys.VERSION.low) -> Case:
    """The row of a refusal of an image of a version."""
    for case in CASES:
        if case.rule == refusal.rule and case.holds(refusal, version):
            return case
    raise Fault(f"no case of a rule is told by '{refusal}'")

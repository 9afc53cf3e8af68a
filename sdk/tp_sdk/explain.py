"""A refusal, and the image that it is of, as a place in the text and a sentence."""

from __future__ import annotations

import re
import tomllib
from dataclasses import asdict, dataclass
from typing import Any

from tp_sdk import keys
from tp_sdk.bounds import bound_on_a_switch
from tp_sdk.faults import Fault
from tp_sdk.refusals import Case, Image, Refusal, case_of, limits_in_words
from tp_sdk.rules import Rules
from tp_sdk.spelling import did_you_mean, meant
from tp_sdk.toml_places import Path, Places, Position, read_with_places

_TOML_PLACE = re.compile(r"(.*) \(at line (\d+), column (\d+)\)")
_TEXT_SHOWN = 40
_MOST_INTEGER = 2**63 - 1


@dataclass(frozen=True)
class Other:
    """That with which a place clashes."""

    line: int
    column: int
    path: Path
    what: str
    stands: str

    def told(self, place: str) -> str:
        """What is said of it after the reason."""
        return f"; the other is {self.what}: {self.stands}, {place}"


@dataclass(frozen=True)
class Explanation:
    """Where a refused image is broken, what stands there, and what is wanted; `hint` asks whether another
    word was meant."""

    file: str
    line: int
    column: int
    end_line: int
    end_column: int
    case: str
    path: Path
    what: str
    stands: str
    broken: str
    wanted: str
    refusal: str
    hint: str = ""
    other: Other | None = None

    def reason(self) -> str:
        """What is broken, without its place in the text."""
        stands = f" is {self.stands}" if self.stands else ""
        return f"{self.case}: {self.what}{stands}: {self.broken}; wanted: {self.wanted}{self.hint}"

    def sentence(self, also: bool = False) -> str:
        """One line, as compilers write it; `also` marks one that isn't the program's."""
        line = f"{self.file}:{self.line}:{self.column}: {'also ' if also else ''}{self.reason()}"
        it = self.other
        return line if it is None else line + it.told(f"{self.file}:{it.line}:{it.column}")

    def fields(self) -> dict[str, Any]:
        """What `--json` writes."""
        return asdict(self) | {"message": self.sentence()}


def explain(text: bytes, file: str, refusal: Refusal) -> Explanation:
    """Explains the refusal of the image that `text` is."""
    return explain_all(text, file, refusal)[0]


def explain_all(text: bytes, file: str, refusal: Refusal) -> list[Explanation]:
    """Explains a refusal and, after it, whatever else is broken in the image and can be told."""
    if refusal.rule == 1:
        return [_of_no_toml(text, file, refusal, case_of(refusal))]
    try:
        image, places = read_with_places(text.decode())
    except (UnicodeDecodeError, tomllib.TOMLDecodeError) as error:
        raise Fault(f"{file}: no TOML ({error}), so '{refusal}' is of another image") from None
    of_image = _OfImage(file, image, places)
    told = of_image.told(refusal, None)
    if told is None:
        raise Fault(f"{file}: '{refusal}' is of another image: nothing here breaks that rule there")
    others = [of_image.told(*it) for it in Rules(image).broken()]
    return [told, *(it for it in others if it is not None and it != told)]


class _OfImage:
    """Explains refusals of one image."""

    def __init__(self, file: str, image: Image, places: Places) -> None:
        self.file = file
        self.image = image
        self.version = keys.version_of(image)
        self.places = places

    def told(self, refusal: Refusal, at: Path | None) -> Explanation | None:
        """The explanation, at the place if it is given; none where nothing is there."""
        case = case_of(refusal, self.version)
        path = at
        if path is None:
            try:
                path = case.place(refusal, self.image)
            except (KeyError, IndexError, TypeError):
                return None
        places = self.places
        if path is None or not (refusal.rule == 2 or path in places.values or path in places.keys):
            return None
        return self._made(refusal, case, path)

    def _made(self, refusal: Refusal, case: Case, path: Path) -> Explanation:
        span = self.places.keys[path] if case.is_of_key else self.places.nearest(path)
        start, end = self.places.position(span.start), self.places.position(span.end)
        words = {
            "at": refusal.at,
            "found": refusal.found,
            "wanted": refusal.wanted,
            "last": refusal.wanted - 1,
            "other": _OtherDomain(refusal, self.image),
            "fewer": self._fewer_calls(refusal),
            **limits_in_words(self.version),
        }
        return Explanation(
            self.file,
            start.line,
            start.column,
            end.line,
            end.column,
            case.name,
            path,
            label(path, self.image),
            "" if case.is_of_key else stands_at(path, self.places),
            case.broken.format(**words),
            case.wants.format(**words),
            str(refusal),
            self._hint(path),
            self._other(refusal, case),
        )

    def _fewer_calls(self, refusal: Refusal) -> str:
        """Whether a shorter list of calls would make a bound smaller, too."""
        if refusal.rule != 17 or self.version == keys.VERSION.low:
            return ""
        try:
            domain = self.image["schedule"][refusal.at]["domain"]
            least = bound_on_a_switch(self.image, frozenset())
        except (KeyError, IndexError, TypeError, ValueError, ZeroDivisionError):
            return ""
        return f", or fewer `calls` of {_domain(domain, self.image)}" if refusal.wanted > least else ""

    def _other(self, refusal: Refusal, case: Case) -> Other | None:
        try:
            path = case.other(refusal, self.image)
        except (KeyError, IndexError, TypeError, ValueError):
            return None
        if path is None or path not in self.places.values:
            return None
        at = self.places.position(self.places.values[path].start)
        return Other(at.line, at.column, path, label(path, self.image), stands_at(path, self.places))

    def _hint(self, path: Path) -> str:
        """Whether another key, or another policy, was meant."""
        if not path or not isinstance(path[-1], str):
            return ""
        table = _value_at(self.image, path[:-1])
        known, key = keys.keys_at(path[:-1], self.image), path[-1]
        if key not in known:
            version = keys.version_with(path)
            if version is not None:
                return f": with `version = {version}` there is one"
            return did_you_mean(key, [it for it in known if it not in table], "`")
        if key not in table:
            written = meant(key, [it for it in table if it not in known])
            return "" if written is None else f": did you mean it by `{written}`?"
        if key == "policy" and isinstance(table[key], str):
            return did_you_mean(table[key], keys.POLICIES, "`")
        return ""


class _OtherDomain:
    """Writes `{other:found}` or `{other:wanted}` as the domain of that number."""

    def __init__(self, refusal: Refusal, image: Image) -> None:
        self.refusal = refusal
        self.image = image

    def __format__(self, number: str) -> str:
        return _domain(getattr(self.refusal, number), self.image)


def stands_at(path: Path, places: Places) -> str:
    """What a text has in a place, as far as it is short."""
    if path not in places.values:
        return "" if path in places.keys else "missing"
    span = places.values[path]
    text = " ".join(places.text[span.start : span.end].split())
    return f"`{text if len(text) <= _TEXT_SHOWN else text[: _TEXT_SHOWN - 4] + ' ...'}`"


def label(path: Path, image: Image) -> str:
    """A place in words: `colours[0]` of domain 1 (blue)."""
    match path:
        case ("domain", int(number), "segment", int(segment), *rest) if rest:
            return f"{_key(rest)} of segment {segment} of {_domain(number, image)}"
        case ("domain", int(number), *rest) if rest:
            return f"{_key(rest)} of {_domain(number, image)}"
        case ("domain", int(number)):
            return _domain(number, image)
        case ("schedule", int(number), *rest) if rest:
            return f"{_key(rest)} of {_entry(number, image)}"
        case ("schedule", int(number)):
            return _entry(number, image)
        case ("mail", int(number), *rest) if rest:
            return f"{_key(rest)} of {_box(number, image)}"
        case ("mail", int(number)):
            return _box(number, image)
        case ():
            return "the text"
    return _key(list(path))


def _key(path: list[str | int]) -> str:
    text = "".join(f"[{it}]" if isinstance(it, int) else f".{it}" for it in path)
    return f"`{text.removeprefix('.')}`"


def _domain(number: int, image: Image) -> str:
    try:
        name = image["domain"][number]["name"]
    except (KeyError, IndexError, TypeError):
        name = None
    return f"domain {number} ({name})" if isinstance(name, str) else f"domain {number}"


def _entry(number: int, image: Image) -> str:
    """An entry, and whose it is."""
    try:
        name = _name_of(image["schedule"][number]["domain"], image)
    except (KeyError, IndexError, TypeError):
        name = None
    return f"entry {number}" if name is None else f"entry {number} ({name})"


def _box(number: int, image: Image) -> str:
    """A box, and between whom it is, as far as there are such domains."""
    table = image["mail"][number]
    ends = table if isinstance(table, dict) else {}
    names = {key: _name_of(ends.get(key), image) for key in keys.BOX_ENDS}
    told = [f"{key} {name}" for key, name in names.items() if name is not None]
    between = " to ".join(map(str, names.values())) if len(told) == len(names) else " ".join(told)
    return f"box {number} ({between})" if told else f"box {number}"


def _name_of(domain: Any, image: Image) -> str | None:
    """The name of the domain of a number, where there is one and it has a name."""
    # (below 0, and of a Boolean, Python would take another's)
    if type(domain) is not int or domain < 0:
        return None
    try:
        name = image["domain"][domain]["name"]
    except (KeyError, IndexError, TypeError):
        return None
    return name if isinstance(name, str) else None


def _of_no_toml(text: bytes, file: str, refusal: Refusal, case: Case) -> Explanation:
    at, broken = _toml_fault(text)
    return Explanation(
        file,
        at.line,
        at.column,
        at.line,
        at.column + 1,
        case.name,
        (),
        "the text",
        "",
        broken,
        case.wants,
        str(refusal),
    )


def _toml_fault(text: bytes) -> tuple[Position, str]:
    """What TOML's reader says, and where."""
    try:
        decoded = text.decode()
    except UnicodeDecodeError as error:
        line_start = text.rfind(b"\n", 0, error.start) + 1
        column = len(text[line_start : error.start].decode(errors="replace")) + 1
        return Position(text.count(b"\n", 0, error.start) + 1, column), f"byte {error.start} is not UTF-8"
    try:
        image, places = read_with_places(decoded)
    except tomllib.TOMLDecodeError as error:
        match = _TOML_PLACE.fullmatch(str(error))
        if match is not None:
            return Position(int(match[2]), int(match[3])), match[1]
        return _end_of(decoded), str(error)
    for path, span in places.values.items():
        value = _value_at(image, path)
        if isinstance(value, int) and not -_MOST_INTEGER - 1 <= value <= _MOST_INTEGER:
            return places.position(span.start), f"the integer {value} does not fit in 64 bits"
    raise Fault("this reader of TOML finds no fault: is the line of another image?")


def _end_of(text: str) -> Position:
    return Places(text).position(len(text))


def _value_at(image: Any, path: Path) -> Any:
    for key in path:
        image = image[key]
    return image

"""What the page says of a report and of a refusal: the words of the tools in sdk/, as templates.

Each is what a tool writes of values that are holes (`holes.py`) or samples, so the tools are the one
source of the words. Which template fits is for the page to choose; `web/check` compares whole texts
with those of the tools.
"""

from __future__ import annotations

from dataclasses import asdict
from types import SimpleNamespace
from typing import Any

from holes import Hole
from tp_sdk import keys
from tp_sdk.calls import BAD_CALL, CALLS, ERRORS, EVERY_CALL, MAIL_CALLS, error_of, in_words
from tp_sdk.explain import Explanation, Other, label
from tp_sdk.known import Known, KnownBox, KnownEntry
from tp_sdk.refusals import CASES, limits_in_words
from tp_sdk.report import Reply, Stop, Switch, Thread
from tp_sdk.stops import NAMES, Overflow, value_in_words, whereabouts
from tp_sdk.symbols import Symbols
from tp_sdk.telling import DomainTold, Telling

_ONE, _MANY = 1, 2
_UNKNOWN = 99  # a code that no table has


def with_holes(text: str, **samples: str | int) -> str:
    """The text with a hole in the place of each sample, which stands there once."""
    for name, sample in samples.items():
        if text.count(str(sample)) != 1:
            raise ValueError(f"{sample!r} stands {text.count(str(sample))} times in {text!r}")
        text = text.replace(str(sample), f"{{{name}}}")
    return text


# ---- a report: its domains


def _domain(calls: frozenset[int] = EVERY_CALL, **section: Any) -> DomainTold:
    """What is told of a section, of which the fields that matter are given."""
    fields = {"exit_code": None, "stop": None, "threads": (), "out": b"", "replies": ()}
    it: Any = SimpleNamespace(**fields | section)
    return DomainTold(it, None, calls)


def _thread(state: str, at: int, line: int | None = None) -> Thread:
    return Thread(Hole("thread"), state, line, Hole("pc", at), {})


def of_state() -> dict[str, str]:
    """What a domain came to, and its threads."""
    head = _domain(name="{name}", number=Hole("number"), retired=0, readings=(), replies_count=0)
    stop, unknown = (Stop(Hole("code", code), Hole("pc", 1), 0) for code in (13, _UNKNOWN))
    two = (_thread("ready", 1), _thread("ended", 2))
    waiting = _thread("waiting", 3, Hole("line"))
    return {
        "domain": with_holes(head.sentences()[0], status=_domain()._status()),
        "exited": _domain(exit_code=Hole("exit"))._status(),
        "stopped": with_holes(_domain(stop=stop)._status(), exception=NAMES[13]),
        "stopped_in_thread": with_holes(_domain(stop=stop, threads=two)._status(), exception=NAMES[13]),
        "unknown_exception": _domain(stop=unknown)._status().removeprefix("stopped by ").partition(" (")[0],
        "idle": _domain(threads=(waiting,))._status(),
        "running": _domain(threads=two)._status(),
        "not_begun": _domain()._status(),
        "ready": _domain()._thread(two[0]),
        "waiting": _domain()._thread(waiting),
    }


def of_counts() -> dict[str, str]:
    """Instructions, output, replies and readings: one or many, and what is left out."""
    words = {}
    for word, number in (("one", _ONE), ("many", _MANY)):
        count = Hole("count", number)
        retired = _domain(name="", number=0, retired=count, readings=(), replies_count=0)
        words[f"retired_{word}"] = retired.sentences()[1].strip()
        words[f"printed_{word}"] = with_holes(_domain(out=b"a" * number)._printed()[0], count=number)
    first = Hole("first", 0)
    words["readings_one"] = _domain(readings_count=Hole("count", _ONE), readings=(first,))._readings()[0]
    for word, made in (("readings_many", _MANY), ("readings_kept", _UNKNOWN)):
        told = _domain(readings_count=Hole("count", made), readings=(first, 7))._readings()[0]
        words[word] = with_holes(told, steps="+7", **({"kept": 2} if made == _UNKNOWN else {}))
    return words | of_replies() | of_boxes()


def of_boxes() -> dict[str, str]:
    """A box to another domain, and one from it."""
    told = _domain(name="")
    words = {}
    for word, ends in (("box_to", ("", "{name}")), ("box_from", ("{name}", ""))):
        told.boxes = [KnownBox(Hole("box"), *ends)]
        words[word] = told._boxes()[0]
    return words


def of_replies() -> dict[str, str]:
    """Replies: one, many or the first of many; with some to PUT, and with some refused."""
    words = {}
    for word, number in (("one", _ONE), ("many", _MANY), ("kept", _UNKNOWN)):
        for puts in (0, 41):
            for refused in (0, 29):
                replies = (Reply(1, 0),) * refused + (Reply(0, 0),) * (53 - refused)
                it = _domain(replies_count=Hole("count", number), replies=replies, out=b"a" * puts)
                samples = {"puts": puts, "refused": refused, "kept": 53 if word == "kept" else 0}
                told = with_holes(it._replies()[0], **{name: it for name, it in samples.items() if it})
                words[f"replies_{word}{'_puts' if puts else ''}{'_refused' if refused else ''}"] = told
    return words


def of_calls() -> dict[str, Any]:
    """The kernel's calls and errors, and what is told of the replies with an error."""
    put = CALLS[1]
    unknown = error_of(_UNKNOWN)
    words: dict[str, Any] = {"calls": [asdict(it) for it in CALLS], "errors": [asdict(it) for it in ERRORS]}
    words |= {"bad_call": BAD_CALL.code, "mail_calls": sorted(MAIL_CALLS), "unknown": asdict(unknown)}
    for word, number in (("one", _ONE), ("many", _MANY)):
        told = _domain()._refused(Hole("code", _UNKNOWN), Hole("count", number))
        told = with_holes(told, error=unknown.name, where=unknown.so_where)
        words[f"refused_{word}"] = (
            with_holes(told, callers_end="):").replace("{callers_end}", "){callers}:") + "{places}"
        )
    words["callers"] = with_holes(_domain()._callers(put.refused_with[0]), names=put.name)
    words["callers_all_but"] = with_holes(_domain(frozenset({1}))._callers(BAD_CALL.code), names=put.name)
    words["callers_all"] = _domain(frozenset())._callers(BAD_CALL.code)
    words |= {last: in_words(("{others}", "{last}"), last) for last in ("and", "or")}
    return words


# ---- a report: what stopped a domain


def of_stops() -> dict[str, Any]:
    """The exceptions' names, and what each one's value says."""
    null = whereabouts(Stop(5, 0, 0), None, _program())
    values, places = {}, {}
    for code in (*NAMES, _UNKNOWN):
        stop = Stop(code, 0, Hole("value", 0))
        values[code] = value_in_words(stop, None, None)
        places[code] = value_in_words(stop, None, _program()).replace(null, "{where}")
    words = {"names": NAMES, "values": values, "places": places, "unknown": _UNKNOWN, "words": of_words()}
    return words | {"null": null, "where": of_whereabouts(), "overflow": of_overflow()}


def _program(pages: int = _ONE, rights: str = "") -> Any:
    """A program of one segment, from byte 5,000 to 9,000."""
    segment = SimpleNamespace(
        name="{segment}",
        rights=rights,
        pages=Hole("pages", pages),
        start=Hole("start", 5_000),
        end=Hole("end", 9_000),
    )
    return SimpleNamespace(segments=[segment], symbols=Symbols())


def of_whereabouts() -> dict[str, str]:
    """Where an address lies: in a segment, in none, or so far from the nearest one."""
    no_stack = Thread(0, "ready", None, 0, {})
    words = {"no_stack": whereabouts(Stop(5, 0, 0xFFFF_FFFF), no_stack, _program())}
    for code in NAMES:
        inside = Stop(code, 0, Hole("value", 6_000))
        words[f"lacks_{code}"] = whereabouts(inside, None, _program(rights="?")).replace("?", "{rights}")
        words[f"has_{code}"] = whereabouts(inside, None, _program(rights="rwx"))
    sides = {
        "below_one": 4_999,
        "below_many": 4_990,
        "past_right": 9_000,
        "past_one": 9_001,
        "past_many": 9_010,
    }
    for pages, number in (("page", _ONE), ("pages", _MANY)):
        for side, at in sides.items():
            words[f"{side}_{pages}"] = whereabouts(Stop(5, 0, Hole("value", at)), None, _program(number))
    return words


def of_overflow() -> dict[str, str]:
    """A stack that has overflowed."""
    return {
        pages: str(Overflow(_program(number).segments[0], Hole("pointer", 1)))
        for pages, number in (("page", _ONE), ("pages", _MANY))
    }


def of_words() -> list[dict[str, Any]]:
    """What is told of a word that is no instruction: that of the first row whose bits are the word's."""
    masks = [(0xFE00707F, 0x02000033 | step << 12) for step in range(8)]
    masks += [(0xF800707F, 0x0000202F | high << 27) for high in range(32)]
    masks += [(0x7F, opcode) for opcode in (0x07, 0x27, 0x43, 0x47, 0x4B, 0x4F, 0x53)]
    masks += [(0xFFFFFFFF, 0), (3, 0), (3, 1), (3, 2)]
    masks += [(0x707F, 0x73 | step << 12) for step in (1, 2, 3, 5, 6, 7)] + [(0x707F, 0x100F), (0, 0x7F)]
    told = [value_in_words(Stop(2, 0, Hole("value", bits)), None, None) for _, bits in masks]
    return [{"mask": mask, "bits": bits & mask, "text": text} for (mask, bits), text in zip(masks, told)]


# ---- a report: its head and its switches


def of_report() -> dict[str, str]:
    """The head, and the lines of switches."""
    words = {}
    for word, number in (("one", _ONE), ("many", _MANY)):
        words[f"head_{word}"] = _report(number).sentences()[0]
        words[f"switch_{word}"] = _report(1)._switch(_switch(number))
    off = _report(_ONE, off="{off}").sentences()[0].removeprefix(words["head_one"])
    harts = _report(Hole("slots", _ONE), harts=3).sentences()[0].removeprefix(words["head_one"])
    words |= {"off": off, "harts": with_holes(harts, harts=3), "switch_none": _report(1)._switch(_switch(0))}
    for word, harts_count in (("entry", 1), ("entry_on_hart", 3)):
        named = _report(1, names=["{domain}"], harts=harts_count)._name_of_entry(_switch(1, entry=0))
        words[word] = with_holes(named, hart=2) if harts_count > 1 else named
    return words


def _switch(count: int, entry: int | None = None) -> Switch:
    number = Hole("entry", _UNKNOWN) if entry is None else entry
    return Switch(number, Hole("used"), Hole("pad"), Hole("count", count))


def _report(slots: int, off: str | None = None, names: list[str] | None = None, harts: int = 1) -> Telling:
    it: Any = SimpleNamespace(slots=Hole("slots", slots), off=off, sections=[], switches=[_switch(1)])
    return Telling(it, "{file}", Known(None, names or [], [], [KnownEntry(0, 0, harts - 1)]))


# ---- a refusal


def of_refusals() -> dict[str, Any]:
    """The cases of each rule in the sdk's order, and how a refusal is told."""
    rows = [
        {
            "rule": it.rule,
            "number": it.number,
            "name": it.name,
            "broken": it.broken,
            "wants": it.wants,
            "is_of_key": it.is_of_key,
        }
        for it in CASES
    ]
    stands, missing = (_refusal(stands) for stands in ("{stands}", ""))
    return {
        "cases": rows,
        "reason": stands.reason(),
        "reason_of_key": missing.reason(),
        "other": stands.sentence().removeprefix("{file}:1:1: " + stands.reason()),
        "limits": {version: limits_in_words(version) for version in keys.LIMITS},
        "most_domains": {version: it.domains.high for version, it in keys.LIMITS.items()},
        "parts": [{"key": it.key, "size": it.size} for it in keys.PARTS],
        "costs": keys.COSTS,
        "products": keys.PRODUCTS,
        "other_keys": keys.OTHER_KEYS,
        "last_version": keys.VERSION.high,
        "labels": of_labels(),
    }


def _refusal(stands: str) -> Explanation:
    other = Other(Hole("line"), Hole("column"), (), "{other}", "{other_stands}")
    return Explanation(
        "{file}", 1, 1, 1, 1, "{case}", (), "{what}", stands, "{broken}", "{wanted}", "", "", other
    )


def of_labels() -> dict[str, str]:
    """How a place is told."""
    number, segment = Hole("number", 0), Hole("segment", 0)
    images: dict[str, dict[str, Any]] = {
        "": {},
        "_named": {"domain": [{"name": "{name}"}], "schedule": [{"domain": 0}]},
    }
    words = {"text": label((), {})}
    for word, image in images.items():
        words[f"domain{word}"] = label(("domain", number), image)
        words[f"entry{word}"] = label(("schedule", number), image)
    domains = [{"name": "{from}"}, {"name": "{to}"}]
    ends = {"": {}, "_from": {"from": 0}, "_to": {"to": 1}, "_named": {"from": 0, "to": 1}}
    for word, box in ends.items():
        words[f"box{word}"] = label(("mail", number), {"domain": domains, "mail": [box]})
    words["key"] = label(("KEY",), {}).replace("KEY", "{key}")
    words["key_of"] = with_holes(label(("domain", number, "KEY"), {}), key="KEY", of=words["domain"])
    in_segment = label(("domain", number, "segment", segment, "KEY"), {})
    words["key_of_segment"] = with_holes(in_segment, key="KEY", of=words["domain"])
    return words


def of_keys() -> list[dict[str, Any]]:
    """The table of keys, with what may stand at each."""
    return [
        {
            "number": it.number,
            "place": it.place.path,
            "key": it.key,
            "kind": _kind(it.kind),
            "needed": it.needed,
            "since": it.since,
        }
        for it in keys.KEY_ROWS
    ]


def _kind(kind: keys.Kind) -> dict[str, Any]:
    match kind:
        case keys.Table(fields):
            return {"is": "table", "fields": {key: _kind(it) for key, it in fields}}
        case keys.Array(item, least, most):
            return {"is": "array", "item": _kind(item), "least": least, "most": most}
        case keys.Either(kinds):
            return {"is": "either", "kinds": [_kind(it) for it in kinds]}
        case keys.Within(low, high):
            return {"is": "integer", "low": low, "high": high}
        case keys.Integer():
            return {"is": "integer", "low": None, "high": None}
    return {"is": {keys.Truth: "boolean", keys.Text: "string"}[type(kind)]}


def every_word() -> dict[str, Any]:
    """All that the page says in the words of the tools."""
    return {
        "report": of_report() | of_state() | of_counts(),
        "calls": of_calls(),
        "stops": of_stops(),
        "refusals": of_refusals(),
        "keys": of_keys(),
    }

"""A JSON schema of what `tp-report --json` writes."""

from __future__ import annotations

from typing import Any

from tp_sdk.guards import GUARDS

Schema = dict[str, Any]

_INTEGER: Schema = {"type": "integer"}
_TEXT: Schema = {"type": "string"}
_TEXT_OR_NONE: Schema = {"type": ["string", "null"]}
_INTEGER_OR_NONE: Schema = {"type": ["integer", "null"]}


def report_schema() -> Schema:
    """The schema."""
    return {
        "$schema": "http://json-schema.org/draft-07/schema#",
        "title": "A report of tp run or tp ablate, explained",
        "description": "Made by `tp-report --schema`.",
        **_object(
            report=_TEXT,
            image=_TEXT_OR_NONE,
            unprotected={"enum": [None, *GUARDS]},
            slots=_INTEGER,
            domains=_array(_DOMAIN),
            switches=_array(_SWITCH),
            differences={"anyOf": [_DIFFERENCES, {"type": "null"}]},
        ),
    }


def _object(**properties: Schema) -> Schema:
    return {
        "type": "object",
        "properties": properties,
        "required": list(properties),
        "additionalProperties": False,
    }


def _array(item: Schema) -> Schema:
    return {"type": "array", "items": item}


_LINE = _object(file=_TEXT, line=_INTEGER)
_PLACE = _object(
    address=_INTEGER,
    symbol=_TEXT_OR_NONE,
    offset=_INTEGER,
    line={"anyOf": [_LINE, {"type": "null"}]},
    calls=_array(_LINE),
    text=_TEXT,
)
_STATUS: Schema = {
    "oneOf": [
        _object(kind={"const": "running"}),
        _object(kind={"const": "exited"}, code=_INTEGER),
        _object(
            kind={"const": "stopped"},
            code=_INTEGER,
            exception=_TEXT_OR_NONE,
            pc=_PLACE,
            value=_PLACE,
            about=_TEXT,
            thread=_INTEGER_OR_NONE,
            is_stack_overflow={"type": "boolean"},
        ),
    ]
}
_THREAD = _object(
    number=_INTEGER,
    state={"enum": ["ready", "waiting", "ended"]},
    line=_INTEGER_OR_NONE,
    pc=_PLACE,
    registers={"type": "object", "additionalProperties": _INTEGER},
)
_REFUSED = _object(code=_INTEGER, name=_TEXT, so_where=_TEXT, calls=_array(_TEXT), at=_array(_INTEGER))
_DOMAIN = _object(
    number=_INTEGER,
    name=_TEXT,
    status=_STATUS,
    retired=_INTEGER,
    threads=_array(_THREAD),
    readings=_object(count=_INTEGER, last=_INTEGER_OR_NONE, kept=_array(_INTEGER), steps=_array(_INTEGER)),
    replies=_object(
        count=_INTEGER,
        kept=_array(_object(code=_INTEGER, value=_INTEGER)),
        refused=_array(_REFUSED),
    ),
    boxes=_array(_object(number=_INTEGER, **{"from": _TEXT, "to": _TEXT})),
    printed=_object(count=_INTEGER, text=_TEXT, hex=_TEXT),
    mem=_TEXT,
    sentences=_array(_TEXT),
)
_SWITCH = _object(entry=_INTEGER, used=_INTEGER, pad=_INTEGER, count=_INTEGER, domain=_TEXT_OR_NONE)
_DIFFERING = _object(what=_TEXT, here=_TEXT, there=_TEXT, sentence=_TEXT)
_DIFFERENCES = _object(
    other=_TEXT,
    sections=_array(_object(number=_INTEGER, name=_TEXT, sentence=_TEXT, differing=_array(_DIFFERING))),
    switches=_array(_DIFFERING),
    sentences=_array(_TEXT),
)

"""JSON schemas of images and descriptions, for editors that know schemas of TOML; made from the tables
of keys."""

from __future__ import annotations

from typing import Any

from tp_sdk import keys
from tp_sdk.keys import KEY_ROWS, Array, Either, Integer, Kind, Place, Table, Text, Truth, Within

Schema = dict[str, Any]


def image_schema() -> Schema:
    """The schema: the keys' rows, and of the values' rules those that look at one value."""
    return {
        "$schema": "http://json-schema.org/draft-07/schema#",
        "title": "An image of tp",
        "description": "Made by `tp-explain --schema`; what it cannot say, `tp check` says.",
        **of_place(Place.TOP),
        **of_versions(),
    }


def of_versions() -> Schema:
    """Each version's keys and limits; a table of a place has those of the last one."""
    return {"anyOf": [_of_version(version) for version in keys.LIMITS]}


def _of_version(version: int) -> Schema:
    number: Schema = {"version": {"const": version}}
    if version == keys.VERSION.high:
        return {"properties": number, "required": ["version"]}
    limits = keys.LIMITS[version]
    later = [row for row in KEY_ROWS if row.since > version]
    lacking = {place: {row.key: False for row in later if row.place is place} for place in Place}
    domain, entry = {"properties": lacking[Place.DOMAIN]}, {"properties": _entry_of(limits)}
    return {
        "properties": {
            **number,
            **lacking[Place.TOP],
            "frames": of_kind(limits.frames),
            "domain": {"maxItems": limits.domains.high, "items": domain},
            "schedule": {"maxItems": limits.entries.high, "items": entry},
        }
    }


def _entry_of(limits: keys.Limits) -> Schema:
    return {"domain": {"minimum": 0, "exclusiveMaximum": limits.domains.high}}


def of_place(place: Place) -> Schema:
    """A table of an image."""
    rows = [row for row in KEY_ROWS if row.place is place]
    return {
        "type": "object",
        "properties": {
            row.key: {"description": row.value} | _of_key(place, row.key, row.kind) for row in rows
        },
        "required": [row.key for row in rows if row.needed],
        "additionalProperties": False,
    }


def _of_key(place: Place, key: str, kind: Kind) -> Schema:
    schema = of_kind(kind) | _inner(place, key) | values_at(place, key)
    if (*place.path, key) == Place.LEVEL2.path:
        schema["properties"] |= of_place(Place.LEVEL2)["properties"]
    return schema


def of_kind(kind: Kind) -> Schema:
    """What may stand at a key of a kind."""
    match kind:
        case Integer():
            return {"type": "integer"}
        case Within(low, high):
            return {"type": "integer"} | _ends("minimum", low, "maximum", high)
        case Truth():
            return {"type": "boolean"}
        case Text():
            return {"type": "string"}
        case Table(fields):
            if not fields:
                return {"type": "object"}
            return {
                "type": "object",
                "properties": {key: of_kind(field) for key, field in fields},
                "required": [key for key, _ in fields],
                "additionalProperties": False,
            }
        case Array(item, least, most):
            return {"type": "array", "items": of_kind(item)} | _ends("minItems", least, "maxItems", most)
        case Either(kinds):
            return {"anyOf": [of_kind(one) for one in kinds]}


def _ends(low_key: str, low: int | None, high_key: str, high: int | None) -> Schema:
    return {key: end for key, end in ((low_key, low), (high_key, high)) if end is not None}


def _inner(place: Place, key: str) -> Schema:
    """An array of a place's tables."""
    inner = next((it for it in Place if not it.is_one and it.path == (*place.path, key)), None)
    return {} if inner is None else {"items": of_place(inner)}


def values_at(place: Place, key: str) -> Schema:
    """What the rules of values ask for at a key."""
    part = next((part for part in keys.PARTS if part.key == key), None)
    if place is Place.TOP and part is not None:
        return _of_cache(part) if part.is_cache else _powers_of_two(part.low, part.high)
    return _VALUES.get((place, key), {})


def _powers_of_two(low: int, high: int) -> Schema:
    powers = (1 << exponent for exponent in range(high.bit_length()))
    return {"enum": [power for power in powers if low <= power <= high]}


def _of_cache(part: keys.Part) -> Schema:
    return {
        "properties": {
            "sets": {"type": "integer"} | _powers_of_two(part.low, part.high),
            "ways": of_kind(keys.WAYS),
            "policy": {"enum": list(keys.POLICIES)},
        },
        "anyOf": [
            {"properties": {"policy": {"not": {"const": keys.TREE_POLICY}}}},
            {"properties": {"ways": _powers_of_two(1, keys.WAYS.high)}},
        ],
    }


_MOST = keys.LIMITS[keys.VERSION.high]
_VALUES: dict[tuple[Place, str], Schema] = {
    (Place.TOP, "frames"): of_kind(_MOST.frames),
    (Place.TOP, "shared"): {"maximum": keys.SHARED_MOST},
    (Place.TOP, "costs"): {"properties": {cost: of_kind(keys.COST) for cost in keys.COSTS}},
    (Place.TOP, "history"): of_kind(keys.HISTORY),
    (Place.TOP, "muldiv"): {"properties": {cost: of_kind(keys.COST) for cost in keys.PRODUCTS}},
    (Place.TOP, "targets"): _powers_of_two(keys.TARGETS.low, keys.TARGETS.high),
    (Place.TOP, "domain"): _ends("minItems", _MOST.domains.low, "maxItems", _MOST.domains.high),
    (Place.TOP, "schedule"): _ends("minItems", _MOST.entries.low, "maxItems", _MOST.entries.high),
    (Place.TOP, "mail"): _ends("minItems", None, "maxItems", keys.BOXES_MOST),
    (Place.DOMAIN, "name"): {"pattern": f"^{keys.NAME}$"},
    (Place.DOMAIN, "colours"): {
        "items": {"type": "integer", "minimum": 1, "exclusiveMaximum": keys.COLOURS.high},
        "uniqueItems": True,
    },
    (Place.DOMAIN, "caps"): {
        "items": {"type": "string", "pattern": f"^({keys.CAP})$"},
        "maxItems": keys.CAPS_MOST,
    },
    (Place.DOMAIN, "lines"): {"items": of_kind(keys.LINE), "uniqueItems": True},
    (Place.DOMAIN, "moments"): {
        "items": {
            "type": "array",
            "items": [of_kind(keys.MOMENT), of_kind(keys.LINE)],
            "minItems": 2,
            "maxItems": 2,
        },
        "maxItems": keys.MOMENTS_MOST,
    },
    (Place.DOMAIN, "calls"): {
        "items": of_kind(keys.Either((keys.CALL, keys.MAIL_CALL))),
        "uniqueItems": True,
    },
    (Place.SEGMENT, "rights"): {"enum": list(keys.RIGHTS)},
    (Place.SEGMENT, "hex"): {"pattern": f"^{keys.HEX}$"},
    **{(Place.BOX, key): _entry_of(_MOST)["domain"] for key in keys.BOX_ENDS},
    (Place.ENTRY, "domain"): _entry_of(_MOST)["domain"],
    (Place.ENTRY, "length"): of_kind(keys.LENGTH),
    (Place.ENTRY, "pad"): of_kind(keys.PAD),
    (Place.ENTRY, "hart"): of_kind(keys.HART),
}

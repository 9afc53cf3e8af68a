"""A JSON schema of descriptions, made from their tables of keys."""

from __future__ import annotations

from tp_sdk.calls import NUMBERS
from tp_sdk.description import BOX_KEYS, DOMAIN_KEYS, ENTRY_KEYS, FRAME_KEYS, WRITTEN_DOMAIN_KEYS, Key
from tp_sdk.keys import CALL, MAIL_CALL, Place
from tp_sdk.schema import Schema, of_kind, of_place, of_versions, values_at
from tp_sdk.values import PLACE, VALUE, WANTED


def description_schema() -> Schema:
    """The schema: an image's keys may stand in the place of the names of files."""
    top = of_place(Place.TOP)
    image = top["properties"]
    domain = image["domain"]["items"]["properties"]
    machine = [key for key in image if key not in ("domain", "schedule", "mail")]
    needed = [key for key in machine if key in top["required"]]
    return {
        "$schema": "http://json-schema.org/draft-07/schema#",
        "title": "A description of an image of tp",
        "description": "Made by `tp-image --schema`; what it cannot say, tp-image says.",
        **_table(
            {key: image[key] for key in machine}
            | {
                "machine": _of(FRAME_KEYS["machine"]),
                "domain": _tables(
                    FRAME_KEYS["domain"],
                    {key: domain[key] for key in WRITTEN_DOMAIN_KEYS}
                    | {key: _of(it) for key, it in DOMAIN_KEYS.items() if key not in WRITTEN_DOMAIN_KEYS}
                    | {"words": _WORDS, "caps": _of(DOMAIN_KEYS["caps"]), "calls": _CALLS},
                    [key for key in DOMAIN_KEYS if DOMAIN_KEYS[key].needed and key != "program"],
                    [["program"], ["entry", "segment"]],
                )
                | values_at(Place.TOP, "domain"),
                "schedule": _tables(
                    FRAME_KEYS["schedule"],
                    {key: _of(it) | values_at(Place.ENTRY, key) for key, it in ENTRY_KEYS.items()}
                    | {"domain": _of(ENTRY_KEYS["domain"])},
                    [key for key, it in ENTRY_KEYS.items() if it.needed],
                )
                | values_at(Place.TOP, "schedule"),
                "mail": _tables(
                    FRAME_KEYS["mail"], {key: _of(it) for key, it in BOX_KEYS.items()}, list(BOX_KEYS)
                )
                | values_at(Place.TOP, "mail"),
            },
            ["domain", "schedule"],
            [["machine"], needed],
        ),
        "allOf": [of_versions()],
    }


_CALLS: Schema = {
    "description": DOMAIN_KEYS["calls"].words,
    "type": "array",
    "items": {"anyOf": [{"enum": list(NUMBERS)}, of_kind(CALL), of_kind(MAIL_CALL)]},
    "uniqueItems": True,
}
_WORDS: Schema = {
    "description": DOMAIN_KEYS["words"].words,
    "type": "object",
    "patternProperties": {f"^{PLACE}$": of_kind(VALUE) | {"description": WANTED}},
    "additionalProperties": False,
}


def _of(key: Key) -> Schema:
    return {"description": key.words} | of_kind(key.kind)


def _table(properties: Schema, needed: list[str], one_of: list[list[str]] | None = None) -> Schema:
    """A table with these keys; one of these lists of keys is there, too."""
    return {
        "type": "object",
        "properties": properties,
        "required": needed,
        "additionalProperties": False,
    } | ({"anyOf": [{"required": keys} for keys in one_of]} if one_of else {})


def _tables(key: Key, properties: Schema, needed: list[str], one_of: list[list[str]] | None = None) -> Schema:
    return _of(key) | {"items": _table(properties, needed, one_of)}

"""A page of a run as one file: the parts of the folder `page`, joined with the facts. A content policy lets
the page's own style and scripts through by their sums, and nothing else."""

from __future__ import annotations

import base64
import hashlib
import html
import json
import re
from functools import cache
from importlib.resources import files
from string import Template

from tp_sdk.page_facts import Facts

_STYLES = ("look.css", "run.css")
_BEFORE_ALL = "theme.js"  # runs before anything is drawn
# In this order each module names none but those before it.
MODULES = (
    "dom.js", "toggle.js", "words.js", "scale.js", "lane.js", "mail.js", "slot_words.js", "slots.js", "steer.js",
    "switches.js", "memory.js", "measured.js", "domains.js", "main.js",
)  # fmt: skip
_IMPORT = re.compile(r"^import (\{.*\}) from '\./(.*)';$", re.MULTILINE)
_EXPORT = re.compile(r"^export (?=(?:function|class|const) (\w+))", re.MULTILINE)


def page_of(facts: Facts) -> str:
    """The page's text, in HTML."""
    style, before = "".join(map(part, _STYLES)), part(_BEFORE_ALL)
    script = "const modules = {};\n" + "".join(map(_module, MODULES))
    policy = "; ".join(
        (
            "default-src 'none'",
            f"script-src {_sum(before)} {_sum(script)}",
            f"style-src {_sum(style)}",
            "base-uri 'none'",
            "form-action 'none'",
        )
    )
    return Template(part("run.html")).substitute(
        policy=policy,
        title=html.escape(facts["title"]),
        style=style,
        before=before,
        facts=_data(facts),
        script=script,
    )


@cache
def part(name: str) -> str:
    """A file of the folder `page`."""
    return files("tp_sdk").joinpath("page", name).read_text(encoding="utf-8")


def _module(name: str) -> str:
    """A module as a function of its own, whose value is what it exports: there is no other file to import."""
    text = part(name)
    exported = ", ".join(_EXPORT.findall(text))
    body = _IMPORT.sub(r"const \1 = modules['\2'];", _EXPORT.sub("", text))
    return f"modules['{name}'] = (() => {{\n{body}return {{ {exported} }};\n}})();\n"


def _data(facts: Facts) -> str:
    """JSON in which nothing ends a script, or begins a comment in one, whatever the facts hold."""
    return json.dumps(facts, separators=(",", ":")).replace("<", "\\u003c")


def _sum(text: str) -> str:
    """What a policy names an inline text by."""
    return f"'sha256-{base64.b64encode(hashlib.sha256(text.encode()).digest()).decode()}'"

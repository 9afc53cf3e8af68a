"""What the page says of reports and refusals is what the tools of sdk/ say."""

from __future__ import annotations

import json
import re
from dataclasses import replace
from pathlib import Path
from typing import Any

import pytest
from conftest import TOP, Page, conformance
from tp_sdk.build import load_programs
from tp_sdk.description import read_description
from tp_sdk.explain import Explanation, explain
from tp_sdk.known import Known, known_with
from tp_sdk.refusals import Refusal
from tp_sdk.report import parse_report
from tp_sdk.telling import Telling

EXAMPLES = TOP / "examples"
FILE = "image.toml"

TELL = """
const [texts, image] = given;
const words = await (await fetch('/data/words.json')).json();
const { Telling } = await import('/telling.js');
const { parseReport } = await import('/report.js');
const { readImage } = await import('/image.js');
const known = image === null ? null : readImage(image);
return texts.map((text) => {
  const report = parseReport(text);
  const telling = new Telling(words, report, 'image.toml', known);
  const domains = report.sections.flatMap((it) => {
    const [head, ...lines] = telling.domain(it);
    return [head, ...lines.map((line) => `  ${line}`)];
  });
  return [telling.head(), ...domains, ...telling.switches()];
});
"""

EXPLAIN = """
const [rows] = given;
const words = await (await fetch('/data/words.json')).json();
const { explain, parseRefusal, positionOf } = await import('/refusal.js');
return rows.map(([text, line]) => {
  const { start, sentence } = explain(words, text, parseRefusal(line));
  return { ...positionOf(text, start), sentence };
});
"""


def known_of(image: Path) -> Known:
    """What an image tells of a run; its path is not told in the page."""
    description = read_description(image)
    return replace(known_with(description, load_programs(description), []), file=None)


def reports() -> list[tuple[Path, Path | None]]:
    """Reports, with the image of each where there is one."""
    found: list[tuple[Path, Path | None]] = [
        (it, it.with_suffix(".toml"))
        for it in sorted(EXAMPLES.glob("*.report"))
        if it.read_text().endswith("\nend\n")
    ]
    found += [
        (it, it.parents[1] / f"{it.stem}.toml")
        for it in sorted(EXAMPLES.glob("channels/*/*/secret-[057].report"))
    ]
    return found + [(it, None) for it in sorted((TOP / "sdk" / "tests" / "reports").glob("*.report"))]


def assert_told(opened: Page, texts: list[str], image: Path | None = None) -> None:
    """Reports are told as the tools tell them."""
    known = known_of(image) if image else Known()
    due = [Telling(parse_report(text, FILE), FILE, known).sentences() for text in texts]
    assert opened.module(TELL, texts, image.read_text() if image else None) == due


def test_a_report_in_sentences(opened: Page) -> None:
    assert len(reports()) > 40
    for file, image in reports():
        assert_told(opened, [file.read_text()], image)


# Lines that no example has: each exception, text that is none, errors by the hundred, a list of calls.
STRANGE = """domain 0 red
status stopped {code} pc 00010010 value {value}
retired 1
thread 0 ready pc 00010010 x1=00000001
thread 1 waiting 3 pc 00010020
readings {readings}
replies {replies}
out {out}
mem 00000000
switch 0 used 5 pad 6150 count 0
end
"""


@pytest.mark.parametrize(
    "value", ["00000000", "02000033", "0000202f", "00007053", "c0001073", "0000100f", "00000001", "ffffffff"]
)
def test_what_stops_a_domain(opened: Page, value: str) -> None:
    values = {"value": value, "readings": "1 last 7 list 7", "replies": "0", "out": "0"}
    assert_told(opened, [STRANGE.format(code=code, **values) for code in (*range(16), 24)])


@pytest.mark.parametrize("pointer", [0, 0x7EFF0, 0x7E000, 0x7F010, 0x21000, 0x100])
def test_where_an_address_lies(opened: Page, pointer: int) -> None:
    near = [
        0,
        0xFFF,
        0x1000,
        0xFFFF,
        0x10000,
        0x10FFC,
        0x11000,
        0x15FFF,
        0x16000,
        0x16001,
        0x7EFFF,
        0x7F000,
        0x80000,
    ]
    registers = f"x1=00010020 x2={pointer:08x}" if pointer else "x1=00010020"
    form = STRANGE.replace("x1=00000001", registers)
    texts = [
        form.format(code=code, value=f"{value:08x}", readings="0", replies="0", out="0")
        for value in (*near, 0x7EFE0, 0x21008, 0x4A800, 0xFFFF0001, 0xFFFFFFFF)
        for code in (0, 1, 4, 5, 6, 7, 12, 13, 15, 24)
    ]
    assert_told(opened, texts, EXAMPLES / "channels" / "lines" / "secret-5.toml")


@pytest.mark.parametrize(
    "out", ["", "41", "410a420a", "0041", "ff", "c3a9", "0a0a", "e280a8", "c2a0", "41" * 40, "00" * 40]
)
def test_what_is_printed_and_replied(opened: Page, out: str) -> None:
    replies = " ".join(f"{number % 15}:0" for number in range(40))
    counts = ("0", f"40 last 9:0 list {replies}", f"400 last 9:0 list {replies}", "1 last 11:0 list 11:0")
    values = {"code": 13, "value": "00000000", "readings": "300 last 9 list 5 7 3"}
    printed = f"{len(out) // 2} {out}" if out else "0"
    assert_told(opened, [STRANGE.format(replies=it, out=printed, **values) for it in counts])


def plain(it: Explanation) -> dict[str, Any]:
    """What the page tells of it: no word that was meant instead, no other place."""
    reason = it.reason().removesuffix(it.hint) if it.hint else it.reason()
    return {
        "line": it.line,
        "column": it.column,
        "sentence": reason.replace(", or fewer `calls` of ", "\0").partition("\0")[0],
    }


def refusals() -> list[tuple[str, str]]:
    """Refused images and their lines: those of examples/, of the sdk's own table, and of conformance/."""
    files = sorted(EXAMPLES.glob("refused-*.report"))
    found = [(it.with_suffix(".toml").read_text(), it.read_text()) for it in files]
    two = re.sub(" *#.*", "", (EXAMPLES / "two-domains.toml").read_text())
    for row in (TOP / "sdk" / "tests" / "refusals.txt").read_text().splitlines():
        if not row.startswith("#"):
            _, old, new, line, *_ = row.replace("~", "\n").split("|")
            found.append((two.replace(old, new), f"refused {line}\n"))
    for file in sorted((TOP / "conformance").glob("*/*.expect")):
        image = file.with_suffix(".toml")
        for row in conformance().rows(file.read_text()):
            status, _, line = row.due.partition("\n")
            if status == "status 1" and row.words == "check":
                found.append((row.image(image.read_text()), line))
    return found


def test_a_refusal_at_its_place(opened: Page) -> None:
    # (K1 has a test of its own; where an entry's domain is `true` or below 0 the tools name it as Python counts)
    others = re.compile(r"refused K(1 |2 at 23 |16 at \d+ found -\d+ wanted 2)")
    rows = [(image, line) for image, line in refusals() if not others.match(line)]
    assert len(rows) > 400
    due = [plain(explain(image.encode(), FILE, Refusal.parse(line))) for image, line in rows]
    found = opened.module(EXPLAIN, rows)
    assert [it for it in zip(rows, due, found) if it[1] != it[2]] == []


@pytest.mark.parametrize(
    "text, line, column",
    [
        ("frames = \nshared = 512\n", 1, 10),
        ("frames = 64\nframes = 64\n", 2, 1),
        ('name = "red\n', 1, 8),
        ("l1i = { sets = 16\n", 1, 18),
        ("a = 9223372036854775808\n", 1, 5),
        ("a = 1 b = 2\n", 1, 7),
        ("[[domain\n", 1, 9),
    ],
)
def test_where_a_text_is_no_toml(opened: Page, text: str, line: int, column: int) -> None:
    (found,) = opened.module(EXPLAIN, [(text, "refused K1 at 0 found 0 wanted 0\n")])
    assert (found["line"], found["column"]) == (line, column)
    assert found["sentence"].startswith("K1: the text: ")


def test_the_words_are_made_anew(opened: Page) -> None:
    from words import every_word

    made = json.loads((TOP / "web" / "out" / "data" / "words.json").read_text())
    assert json.loads(json.dumps(every_word())) == made

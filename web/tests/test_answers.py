"""What the module answers is what the program does, to the byte: the recorded reports of examples/, the rows
of conformance/, and the program itself."""

from __future__ import annotations

import subprocess
from pathlib import Path
from typing import Any

import pytest
from conftest import GUARDS, TOP, Page, call_of, conformance
from tp_sdk.library import CALLS

EXAMPLES = TOP / "examples"
MOST_BYTES = 1_048_576
REFUSED, TOO_LONG = 1, 6
NO_COMMAND = "status 2\n"
HOSTILE = {
    "arrays in arrays": b"a = " + b"[" * 500_000 + b"]" * 500_000,
    "tables in tables": b"a = " + b"{b=" * 340_000,
    "a dotted key": b"a." * 500_000 + b"b = 1",
    "a dotted header": b"[" + b"a." * 500_000 + b"b]",
    "many tables": b"[[x]]\n" * 170_000,
    "many keys": b"".join(b"k%d = 1\n" % number for number in range(90_000)),
    "one string": b'a = "' + b"x" * 1_048_000 + b'"',
    "no text": b"\xff\xfe\x80",
    "nothing": b"",
}


def differing(due: list[tuple[str, int, bytes]], answers: list[dict[str, Any]]) -> list[str]:
    """Which answers are others than what is due."""
    assert len(due) == len(answers)
    return [
        f"{what}: status {it.get('status')} {it.get('trap', '')} {it.get('text', '')[:80]!r}, due {status} {text[:80]!r}"
        for (what, status, text), it in zip(due, answers)
        if it.get("trap") or it["status"] != status or it["text"].encode() != text
    ]


def test_each_example_has_its_report(opened: Page, gallery: dict[str, Any]) -> None:
    due, calls = [], []
    for image in gallery["images"]:
        file = EXAMPLES / image["file"]
        report = file.with_suffix(".report").read_bytes()
        words = [image["command"]["command"]]
        for name, value in list(image["command"].items())[1:]:
            words += [f"--{name}", str(value)]
        due.append((image["file"], REFUSED if report.startswith(b"refused") else 0, report))
        calls.append(call_of(words, file.read_bytes()))
    assert differing(due, opened.ask(calls)) == []


def test_each_image_of_a_channel_has_its_reports(opened: Page, gallery: dict[str, Any]) -> None:
    due, calls = [], []
    for channel in gallery["channels"]:
        folder = EXAMPLES / "channels" / channel["name"]
        for report in sorted(folder.glob("*/*.report")):
            guard = report.parent.name
            words = "run" if guard == "run" else f"ablate --off {guard}"
            due.append((str(report.relative_to(EXAMPLES)), 0, report.read_bytes()))
            calls.append(
                call_of(f"{words} --slots {channel['slots']}", (folder / f"{report.stem}.toml").read_bytes())
            )
    assert len(due) > 90
    assert differing(due, opened.ask(calls)) == []


def is_of_module(words: str) -> bool:
    """The module has a call for it: words that are no command are for the program alone."""
    command, *rest = words.split() or [""]
    options, _ = CALLS.get(command, ([], False))
    numbers = [value for name, value in zip(rest[::2], rest[1::2]) if name != "--off"]
    has_guard = "--off" not in rest or rest[rest.index("--off") + 1] in GUARDS
    return (
        command in CALLS
        and sorted(rest[::2]) == sorted(options)
        and len(rest) % 2 == 0
        and all(it.isdigit() and int(it) < 2**32 for it in numbers)
        and has_guard
    )


@pytest.mark.parametrize("folder", sorted(it.name for it in (TOP / "conformance").iterdir() if it.is_dir()))
def test_each_row_of_another_model(opened: Page, folder: str) -> None:
    rows = conformance()
    for file in sorted((TOP / "conformance" / folder).glob("*.expect")):
        image = file.with_suffix(".toml")
        text = image.read_text() if image.exists() else ""
        due, calls = [], []
        for row in rows.rows(file.read_text()):
            *first, words = row.words.split(" | ")
            if not all(map(is_of_module, [*first, words])):
                assert row.due.startswith(NO_COMMAND), row.words
                continue
            given = row.image(text).encode()
            for part in first:
                given = opened.ask([call_of(part, given)])[0]["text"].encode()
            status, _, answer = row.due.partition("\n")
            due.append((f"{file.stem}: {row.words}", int(status.removeprefix("status ")), answer.encode()))
            calls.append(call_of(words, given))
        assert differing(due, opened.ask(calls)) == []


def of_program(program: Path, words: str, image: bytes) -> tuple[str, int, bytes]:
    """What is due, by the program."""
    done = subprocess.run([program, *words.split()], input=image, capture_output=True, check=False)
    return words, done.returncode, done.stdout


def compared(opened: Page, program: Path, asked: list[tuple[str, bytes]]) -> list[str]:
    """Which of these words and images the module answers otherwise."""
    due = [of_program(program, words, image) for words, image in asked]
    return differing(due, opened.ask([call_of(words, image) for words, image in asked]))


def test_each_command_on_each_example(opened: Page, program: Path) -> None:
    words = ["check", "bound", "run --slots 6", "alone --domain 1 --slots 6", "harts --slots 6 --seed 7"]
    words += ["redact --domain 0", "redact --domain 1"]
    words += [f"ablate --off {guard} --slots 6" for guard in GUARDS]
    images = sorted(EXAMPLES.glob("*.toml")) + sorted(EXAMPLES.glob("channels/*/secret-[05].toml"))
    for image in images:
        assert compared(opened, program, [(it, image.read_bytes()) for it in words]) == []


def test_seeds_and_numbers_at_their_ends(opened: Page, program: Path) -> None:
    image = (EXAMPLES / "two-domains.toml").read_bytes()
    seeds = [
        (f"{command} --seed {seed}", b"") for command in ("gen", "demo") for seed in (0, 1, 7, 4_294_967_295)
    ]
    ends = ["run --slots 0", "run --slots 65536", "run --slots 65537", "alone --domain 31 --slots 1"]
    ends += ["alone --domain 32 --slots 1", "harts --slots 2 --seed 4294967295"]
    ends += ["redact --domain 31", "redact --domain 32"]
    assert compared(opened, program, seeds + [(words, image) for words in ends]) == []


@pytest.mark.parametrize("what", HOSTILE)
def test_hostile_texts(opened: Page, program: Path, what: str) -> None:
    assert compared(opened, program, [("check", HOSTILE[what])]) == []


def test_an_image_of_a_mebibyte_is_read_and_one_byte_more_is_not(opened: Page) -> None:
    image = (EXAMPLES / "two-domains.toml").read_bytes()
    whole = image + b"\n" * (MOST_BYTES - len(image))
    one, two = opened.ask([call_of("check", whole), call_of("check", whole + b"\n")])
    assert (one["status"], one["text"]) == (0, "accepted\n")
    assert (two["status"], two["text"]) == (TOO_LONG, "too long\n")


def test_a_text_longer_than_the_room_is_asked_for_again(opened: Page) -> None:
    file = EXAMPLES / "victim.toml"
    call = call_of("run --slots 24", file.read_bytes())
    for room in (0, 1, 100, 1 << 20):
        (answer,) = opened.ask([call | {"room": room}])
        assert answer["text"].encode() == file.with_suffix(".report").read_bytes()

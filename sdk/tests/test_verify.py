"""What a tenant checks of a report with an image of its own."""

from __future__ import annotations

import re
import tomllib
from pathlib import Path

import pytest
from conftest import REPOSITORY, run_tool

from tp_sdk.faults import Fault
from tp_sdk.program import Program
from tp_sdk.report import parse_report
from tp_sdk.schedule import domain_names
from tp_sdk.verify import Held

EXAMPLES = REPOSITORY / "examples"
REPORT = EXAMPLES / "victim.report"
REDACTED = EXAMPLES / "redacted.toml"


def test_the_image_has_nothing_else_of_the_victim() -> None:
    whole, redacted = (tomllib.loads((EXAMPLES / name).read_text()) for name in ("victim.toml", REDACTED))
    exit_at_once = {"page": 16, "pages": 1, "rights": "x", "hex": "9308000073000000"}
    victim = {"name": "e0", "colours": [1], "entry": 0x10000, "segment": [exit_at_once]}
    assert redacted == whole | {"domain": [victim, whole["domain"][1]]}


def test_the_section_is_that_of_the_host(program: Program) -> None:
    ended = run_tool("tp-verify", REDACTED, REPORT, "--domain", "spy")
    assert (ended.returncode, ended.stdout) == (0, "spy: the section of 24 slots is the same\n")


def test_the_section_alone(program: Program, tmp_path: Path) -> None:
    section = parse_report(REPORT.read_text(), "report").section("spy")
    alone = tmp_path / "spy.section"
    alone.write_text(f"domain 1 spy\n{section.text}")
    ended = run_tool("tp-verify", REDACTED, alone, "--domain", "spy", "--slots", "24")
    assert (ended.returncode, ended.stdout) == (0, "spy: the section of 24 slots is the same\n")
    assert run_tool("tp-verify", REDACTED, alone, "--domain", "spy", "--slots", "23").returncode == 1


def test_the_first_line_that_differs_is_told(program: Program, tmp_path: Path) -> None:
    lines = REPORT.read_text().splitlines()
    place = next(at for at, line in enumerate(lines) if line == "domain 1 spy")
    retired = lines[place + 2]
    lines[place + 2] = "retired 1"
    false = tmp_path / "false.report"
    false.write_text("\n".join(lines) + "\n")
    ended = run_tool("tp-verify", REDACTED, false, "--domain", "spy")
    told = f"{false}:{place + 3}: the report has 'retired 1', and the image gives '{retired}'\n"
    assert (ended.returncode, ended.stdout) == (1, told)


def test_the_others_section_is_another(program: Program) -> None:
    report = parse_report(REPORT.read_text(), "report")
    with pytest.raises(Fault, match="the report has no domain 'e0'"):
        Held.read(REDACTED, "e0").difference(program, report, 24)


def test_a_domain_that_is_not_there() -> None:
    with pytest.raises(Fault, match="there is no domain 'victim': it has e0, spy"):
        Held.read(REDACTED, "victim")


def test_a_report_of_another_schedule() -> None:
    report = parse_report((EXAMPLES / "two-harts.report").read_text(), "report")
    report.switches.pop()
    with pytest.raises(Fault, match="has 2 entries, and the report"):
        Held.read(REDACTED, "spy").slots_of(report)


def test_a_report_without_a_guard() -> None:
    report = parse_report("unprotected flush\n" + REPORT.read_text(), "report")
    with pytest.raises(Fault, match="without its guard flush"):
        Held.read(REDACTED, "spy").slots_of(report)


# ---- a domain to which boxes lead

STORE = EXAMPLES / "key-store.toml"
BESIDE = f"friend: the section of 16 slots is the same beside stranger and store, as {STORE} has them\n"


def test_what_its_senders_tell_it_is_of_the_section(program: Program, tmp_path: Path) -> None:
    report = STORE.with_suffix(".report")
    ended = run_tool("tp-verify", STORE, report, "--domain", "friend")
    assert (ended.returncode, ended.stdout) == (0, BESIDE)
    for name in ("stranger", "spy"):
        ended = run_tool("tp-verify", STORE, report, "--domain", name)
        assert (ended.returncode, ended.stdout) == (0, f"{name}: the section of 16 slots is the same\n")
    # what the tenant holds has these, too
    redacted = tmp_path / "friend.toml"
    redacted.write_text(program.run(["redact", "--domain", "0"], STORE.read_text()).text)
    ended = run_tool("tp-verify", redacted, report, "--domain", "friend")
    assert (ended.returncode, ended.stdout) == (0, BESIDE.replace(f"{STORE}", f"{redacted}"))
    other = tmp_path / "other.report"
    other.write_text(report.read_text().replace("retired ", "retired 1", 1))
    ended = run_tool("tp-verify", redacted, other, "--domain", "friend")
    assert ended.returncode == 1
    assert ended.stdout.endswith(f" beside stranger and store, as {redacted} has them\n")


def test_a_section_of_one_that_was_told_nothing(program: Program, tmp_path: Path) -> None:
    section = tmp_path / "friend.section"
    words = (STORE, section, "--domain", "friend", "--slots", "16")
    section.write_text(program.run(["alone", "--domain", "0", "--slots", "16"], STORE.read_text()).text)
    alone = "friend: the section of 16 slots is the same alone, with no word coming in\n"
    ended = run_tool("tp-verify", *words)
    assert (ended.returncode, ended.stdout) == (0, alone)
    own = parse_report(STORE.with_suffix(".report").read_text(), "").section("friend")
    section.write_text(f"domain 0 friend\n{own.text}")
    ended = run_tool("tp-verify", *words)
    assert (ended.returncode, ended.stdout) == (0, BESIDE)


def test_where_words_may_come_earlier_it_is_told(program: Program, tmp_path: Path) -> None:
    image, report = tmp_path / "told.toml", tmp_path / "told.report"
    image.write_text((EXAMPLES / "two-harts.toml").read_text() + "\n[[mail]]\nfrom = 0\nto = 1\n")
    text = program.run(["run", "--slots", "2"], image.read_text()).text
    receiver = domain_names(tomllib.loads(image.read_text()))[1]
    report.write_text(text)
    assert run_tool("tp-verify", image, report, "--domain", receiver).returncode == 0
    report.write_text(re.sub(r"^retired \d+$", "retired 1", text, flags=re.MULTILINE))
    ended = run_tool("tp-verify", image, report, "--domain", receiver)
    assert ended.returncode == 1 and "; which words come in may go by who passes a slot's end" in ended.stdout

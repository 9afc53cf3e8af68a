"""The page of a run: its facts, what is safe in it, the tool's words. test_html_views.py opens it in a browser."""

from __future__ import annotations

import base64
import hashlib
import json
import re
import subprocess
import sys
from pathlib import Path
from typing import Any

import pytest
from conftest import REPOSITORY, SDK, run_tool

pytest.importorskip("elftools")

from tp_sdk.commands.report import main  # noqa: E402
from tp_sdk.images import read_image  # noqa: E402
from tp_sdk.measurements import MEASURES, by_schedule, measurements_of  # noqa: E402
from tp_sdk.page_file import MODULES, part  # noqa: E402
from tp_sdk.report import parse_report  # noqa: E402
from tp_sdk.schedule import entries_of, harts_in, slots_of_each  # noqa: E402

EXAMPLES = REPOSITORY / "examples"
RUNS = [it for it in sorted(EXAMPLES.glob("*.report")) if it.read_text().endswith("\nend\n")]
LINES = EXAMPLES / "channels" / "lines"
PAGE = SDK / "tp_sdk" / "page"
HOSTILE = "</script><script>document.title='run'</script><img/src=x/onerror=alert(1)><!--<script>"


def write_page(file: Path, report: Path, *words: str | Path) -> Path:
    """A page of a report, written by the tool in this process."""
    assert main([str(it) for it in (report, "--html", file, *words)]) == 0
    return file


def facts_in(page: Path) -> dict[str, Any]:
    """The facts that a page has, as a browser reads them."""
    (found,) = re.findall(
        r'<script type="application/json" id="facts">(.*?)</script>', page.read_text(), re.S
    )
    facts: dict[str, Any] = json.loads(found)
    return facts


def hostile_report(file: Path) -> Path:
    """A report whose name and printed bytes are markup."""
    out = f"{len(HOSTILE)} {HOSTILE.encode().hex()}"
    text = f"domain 0 {HOSTILE}\nstatus exited 0\nretired 1\nreadings 0\nreplies 0\nout {out}\nmem 00000000\n"
    file.write_text(f"{text}switch 0 used 1 pad 2 count 3\nend\n")
    return file


@pytest.fixture
def without_program(tmp_path: Path, monkeypatch: pytest.MonkeyPatch) -> None:
    """No image is run again to see whether a report is its own."""
    monkeypatch.setenv("TP", str(tmp_path / "none"))


# ---- the facts


@pytest.mark.parametrize("report", RUNS, ids=lambda it: it.stem)
def test_the_facts_are_the_reports(
    report: Path, without_program: None, tmp_path: Path, capsys: pytest.CaptureFixture[str]
) -> None:
    image = report.with_suffix(".toml")
    facts = facts_in(write_page(tmp_path / "a.html", report, "--image", image))
    main([str(report), "--image", str(image), "--json"])
    assert facts["run"] == json.loads(capsys.readouterr().out)
    main([str(report), "--image", str(image)])
    lines = capsys.readouterr().out.splitlines()
    count = len(facts["switch_sentences"])
    assert (lines[0], lines[-count:]) == (facts["head"], facts["switch_sentences"])
    entries, read = entries_of(read_image(image, None), str(image)), parse_report(report.read_text(), "")
    schedule = facts["schedule"]
    assert (schedule["harts"], schedule["slots"]) == (harts_in(entries), slots_of_each(entries, read))
    assert [
        (it["domain"], it["length"], it["pad"], it["hart"], it["used"]) for it in schedule["entries"]
    ] == [
        (entry.domain, entry.length, entry.pad, entry.hart, switch.used)
        for entry, switch in zip(entries, read.switches)
    ]
    for section, told in zip(read.sections, facts["measurements"]):
        ended = by_schedule(entries, schedule["slots"], section.number)
        for name in MEASURES:
            due = measurements_of(section, name, ended)
            over_end = [place for place, is_over in enumerate(due.is_over_end) if is_over]
            assert told[name] == {"cycles": [*due.cycles], "over_end": over_end, "made": due.made}


def test_the_memory_is_whole(without_program: None, tmp_path: Path) -> None:
    report = EXAMPLES / "victim.report"
    memory = facts_in(write_page(tmp_path / "a.html", report, "--image", report.with_suffix(".toml")))[
        "memory"
    ]
    assert [(it["first"], it["last"], it["owner"]) for it in memory["rows"]] == [
        (0, 0, None), (1, 1, 0), (2, 2, 1), (3, 7, None),
    ]  # fmt: skip
    assert {sum(run["count"] for run in row["runs"]) for row in memory["rows"]} == {16}
    assert [run["use"] for run in memory["rows"][1]["runs"]] == ["clone", "table", "page", "free"]
    assert memory["owners"][1] == {"colours": [2], "clone": 4, "table": 2, "page": 3, "free": 7}


def test_a_report_alone_tells_of_pads_and_says_what_it_lacks(tmp_path: Path) -> None:
    facts = facts_in(write_page(tmp_path / "a.html", EXAMPLES / "victim.report"))
    assert facts["memory"] is None and "does not tell how long slots are" in facts["schedule"]["why_not"]
    assert facts["schedule"]["slots"] == 2
    assert [(it["length"], it["pad"], it["used"]) for it in facts["schedule"]["entries"]] == [
        (None, 6150, 736), (None, 6150, 755),
    ]  # fmt: skip


def test_with_pad_off_no_slot_has_its_place(tmp_path: Path) -> None:
    report = next((EXAMPLES / "channels").glob("*/pad/secret-0.report"))
    image = report.parents[1] / "secret-0.toml"
    facts = facts_in(write_page(tmp_path / "a.html", report, "--image", image))
    assert facts["schedule"]["why_not"].startswith("The guard pad was off")
    assert facts["memory"] is not None


def test_a_description_that_leaves_pads_out(
    program: object, compiler: str, built: Path, tmp_path: Path, monkeypatch: pytest.MonkeyPatch
) -> None:
    report = tmp_path / "hello.report"
    words = (built / "hello.toml", "--slots", "2", "--report", report)
    assert run_tool("tp-run", *words).returncode == 0
    # (the report tells them, so the program is not asked)
    monkeypatch.setenv("TP", str(tmp_path / "none"))
    facts = facts_in(write_page(tmp_path / "a.html", report, "--image", built / "hello.toml"))
    pads = [it.pad for it in parse_report(report.read_text(), "").switches]
    assert [it["pad"] for it in facts["schedule"]["entries"]] == pads


# ---- a second report


def test_what_differs_is_told_in_each_form(tmp_path: Path, capsys: pytest.CaptureFixture[str]) -> None:
    one, two = LINES / "flush" / "secret-3.report", LINES / "flush" / "secret-5.report"
    main([str(one), "--against", str(two)])
    lines = capsys.readouterr().out.splitlines()
    at = lines.index(f"compared with {two}: 10 slots, unprotected: the guard flush was off")
    assert lines[at + 1 :] == [
        "  sender (domain 0): 2 lines differ",
        "    thread 0: x12=0000002b x15=00003ac0 here, x12=0000002d x15=00003b40 there",
        "    mem: 0384a413 here, 0384a415 there",
        "  spy (domain 1): 1 line differs",
        "    readings, from reading 7 on: 31612 here, 31604 there",
        "  switches: the same",
    ]
    main([str(one), "--against", str(two), "--json"])
    told = json.loads(capsys.readouterr().out)
    jsonschema = pytest.importorskip("jsonschema")
    schema = json.loads((SDK / "report.schema.json").read_text())
    jsonschema.Draft7Validator(schema).validate(told)
    assert told["differences"]["sentences"] == [it.strip() for it in lines[at:]]
    facts = facts_in(write_page(tmp_path / "a.html", one, "--against", two))
    assert facts["run"] == told
    # (as the picture of both has it, in which the spy's fourth pair is the first that differs)
    assert facts["others"][1]["pairs"]["more"] == [0, 0, 0, 8, 0, -8, 0, 0]


@pytest.mark.parametrize(
    ("old", "new", "told"),
    [
        (
            "readings 8 last",
            "readings 300 last",
            "readings, the last: 128603 (8 in all) here, 128603 (300 in all) there",
        ),
        ("out 0", "out 2 6869", "bytes printed, from byte 0 on: none (0 in all) here, 68 (2 in all) there"),
        ("status running", "status exited 3", "status: running here, exited 3 there"),
        ("switch 1 used 755", "switch 1 used 800", "entry 1, used: 755 here, 800 there"),
        ("pad 6150 count 8\nend", "pad 6150 count 9\nend", "entry 1, switches: 8 here, 9 there"),
        ("thread 0 ", "thread 3 ", "thread 3: none here, "),
    ],
)
def test_each_kind_of_difference(
    old: str, new: str, told: str, tmp_path: Path, capsys: pytest.CaptureFixture[str]
) -> None:
    one, two = EXAMPLES / "spy-loud.report", tmp_path / "other.report"
    assert old in one.read_text()
    two.write_text(one.read_text().replace(old, new, 1))
    main([str(one), "--against", str(two)])
    assert told in capsys.readouterr().out


def test_a_report_differs_in_nothing_from_itself(capsys: pytest.CaptureFixture[str]) -> None:
    for report in RUNS:
        main([str(report), "--against", str(report)])
        told = capsys.readouterr().out.split("compared with")[1]
        assert "differ" not in told and told.endswith("switches: the same\n")


# ---- what is safe in it


def test_its_policy_lets_its_own_parts_through_alone(tmp_path: Path) -> None:
    html = write_page(tmp_path / "a.html", EXAMPLES / "victim.report").read_text()
    (policy,) = re.findall(r'http-equiv="Content-Security-Policy" content="(.*?)"', html)
    inline = re.findall(r"<(style|script)(?: type=\"module\")?>(.*?)</\1>", html, re.S)
    sums = [base64.b64encode(hashlib.sha256(text.encode()).digest()).decode() for _, text in inline]
    style, before, script = (f"'sha256-{it}'" for it in sums)
    assert policy == (
        f"default-src 'none'; script-src {before} {script}; style-src {style}; "
        "base-uri 'none'; form-action 'none'"
    )
    markup = re.sub(r"<(style|script)\b.*?</\1>", "", html, flags=re.S)
    assert not re.search(r"\ssrc=|\sstyle=|\son\w+=|https?://|<link", markup)
    assert (
        "http://www.w3.org/2000/svg" in html
        and len(re.findall(r"https?://(?!www\.w3\.org/2000/svg)", html)) == 0
    )


def test_a_hostile_name_ends_no_script(tmp_path: Path) -> None:
    report = hostile_report(tmp_path / "<b>&.report")
    page = write_page(tmp_path / "a.html", report, "--against", report)
    text, plain = page.read_text(), write_page(tmp_path / "b.html", EXAMPLES / "victim.report").read_text()
    for tag in ("<script", "</script", "<!--", "<img", "<b>"):
        assert text.count(tag) == plain.count(tag)
    (domain,) = facts_in(page)["run"]["domains"]
    assert (domain["name"], domain["printed"]["text"]) == (HOSTILE, HOSTILE)
    assert "<title>&lt;b&gt;&amp;.report: a run" in text


def test_its_parts_are_modules_that_name_those_before_them_and_read_no_markup() -> None:
    scripts = sorted(it.name for it in PAGE.glob("*.js"))
    assert scripts == sorted([*MODULES, "theme.js"])
    for place, name in enumerate(MODULES):
        text = part(name)
        lines = [it for it in text.splitlines() if it.startswith(("import", "export"))]
        for line in lines:
            found = re.fullmatch(r"import \{ ([\w, ]+) \} from '\./(.*)';", line)
            if found is None:
                assert re.match(r"export (?:function|class|const) \w+", line), (name, line)
                continue
            assert found[2] in MODULES[:place], (name, line)
            for it in found[1].split(", "):
                assert re.search(rf"^export (?:function|class|const) {it}\b", part(found[2]), re.M), (
                    name,
                    it,
                )
        assert not re.search(
            r"innerHTML|outerHTML|insertAdjacentHTML|document\.write|\beval\b|new Function", text
        )


# ---- words, and what is at fault


def test_words() -> None:
    report = EXAMPLES / "victim.report"
    told = run_tool("tp-report", "-", "--html", "-", given=report.read_text())
    assert told.returncode == 0 and told.stdout.startswith("<!doctype html>") and told.stderr == ""
    for words in (("--html", "a.html", "--json"), ("--html",), ("--html", "-", "--schema")):
        ended = run_tool("tp-report", report, *words)
        assert ended.returncode == 2 and ended.stdout == "" and "Traceback" not in ended.stderr
    for option in ("--html PAGE", "--against REPORT"):
        assert option in run_tool("tp-report", "--help").stdout


def test_what_is_at_fault_is_one_sentence(program: object, tmp_path: Path) -> None:
    loud, quiet = EXAMPLES / "spy-loud.report", EXAMPLES / "spy-quiet.report"
    page, no_report = tmp_path / "a.html", tmp_path / "no.report"
    no_report.write_text("accepted\n")
    long, fewer = tmp_path / "long.report", tmp_path / "fewer.report"
    long.write_text("switch 0 used 1 pad 2 count 999999999999\nend\n")
    fewer.write_text("switch 0 used 1 pad 2 count -1\nend\n")
    other = tmp_path / "other.toml"
    other.write_text((EXAMPLES / "spy-loud.toml").read_text().replace('hex = "', 'hex = "13000000', 1))
    for words, told in (
        ((loud, "--html", tmp_path / "none" / "a.html"), f"{tmp_path}/none/a.html: No such file or directory"),
        ((loud, "--html", tmp_path), f"{tmp_path}: Is a directory"),
        ((no_report, "--html", page), f"{no_report}: no report, which ends with the line 'end'"),
        ((tmp_path / "none", "--html", page), f"{tmp_path}/none: No such file or directory"),
        ((loud, "--html", page, "--against", no_report), f"{no_report}: no report, which ends with the line"),
        ((loud, "--html", page, "--against", quiet), f"{quiet}:1: a report of another image: domain 0 is"),
        ((loud, "--html", page, "--image", EXAMPLES / "victim.toml"), f"{loud}:1: a report of another image"),
        ((loud, "--html", page, "--image", other), f"{loud}:3: a report of another image: 'retired "),
        ((loud, "--html", page, "--image", no_report), f"{no_report}: no TOML: "),
        ((long, "--html", page), f"{long}: its switches are of 999,999,999,999 slots: a run has 262,144 at most"),
        ((fewer, "--html", page), f"{fewer}:1: no section of a report begins here"),
    ):  # fmt: skip
        ended = run_tool("tp-report", *words)
        assert ended.returncode == 1 and ended.stdout == ""
        assert ended.stderr.startswith(f"tp-report: {told}") and ended.stderr.count("\n") == 1, ended.stderr
        assert not page.exists()


def test_a_page_that_no_room_is_left_for() -> None:
    if not Path("/dev/full").exists():
        pytest.skip("there is no /dev/full")
    command = [sys.executable, SDK / "tp-report", EXAMPLES / "victim.report", "--html", "/dev/full"]
    ended = subprocess.run(command, capture_output=True, text=True, check=False)
    assert (ended.returncode, ended.stderr) == (1, "tp-report: /dev/full: No space left on device\n")

"""Memory that runs out, runs that are stopped, and how fast the module is beside the program."""

from __future__ import annotations

import re
import subprocess
import time
from pathlib import Path

from conftest import TOP, Page, call_of

EXAMPLES = TOP / "examples"
MEMORY = 5
MEBIBYTE = 1 << 20
RUNS = 5


def test_memory_that_runs_out_is_a_status(opened: Page) -> None:
    call = call_of("run --slots 4", (EXAMPLES / "two-domains.toml").read_bytes())
    limits = [1_200_000 + 50_000 * step for step in range(120)]
    answers = opened.ask([call | {"memory": limit, "room": 4096} for limit in limits])
    assert {it["status"] for it in answers} == {MEMORY, 0}
    statuses = [it["status"] for it in answers]
    assert statuses == sorted(statuses, reverse=True), "with more memory it goes on as it should"
    assert all(it["text"] == "" for it in answers if it["status"] == MEMORY)
    assert all(it["memory"] <= limit + 65_536 for it, limit in zip(answers, limits))


def test_many_answers_take_no_more_memory(opened: Page) -> None:
    call = call_of("run --slots 10", (EXAMPLES / "channels" / "lines" / "secret-5.toml").read_bytes())
    answers = opened.ask([call] * 300)
    assert len({it["text"] for it in answers}) == 1
    assert max(it["memory"] for it in answers) == min(it["memory"] for it in answers) < 64 * MEBIBYTE


def test_a_run_is_stopped_in_the_middle_and_another_begun(page: Page) -> None:
    file = "channels/lines/secret-5.toml"
    text = (EXAMPLES / file).read_text()
    page.choose("gallery", file)
    page.wait("return document.getElementById('line').textContent.includes('run --slots 10')")
    # (of slots so long, in which its sender never rests, it would run for minutes)
    page.write(text.replace("length = 2000", "length = 1000000"))
    page.script("document.getElementById('slots').value = 65536")
    page.find("run").click()
    elapsed = "document.getElementById('elapsed').textContent"
    told = page.wait(f"return {elapsed}.includes('of some') && {elapsed}")
    assert re.fullmatch(r"[\d.]+ m?s of some [\d.]+ s", told), told
    page.find("stop").click()
    page.wait("return document.getElementById('outcome').textContent.startsWith('Stopped after')", 5)
    page.write(text)
    page.script("document.getElementById('slots').value = 10")
    page.find("run").click()
    page.wait("return document.getElementById('outcome').textContent.startsWith('Exit code 0')")
    report = EXAMPLES / "channels" / "lines" / "run" / "secret-5.report"
    assert page.script("return document.getElementById('report').textContent") == report.read_text()


def test_how_fast_it_is_beside_the_program(opened: Page, program: Path) -> None:
    image = (EXAMPLES / "channels" / "lines" / "secret-5.toml").read_bytes()
    words = "run --slots 20000"
    seconds = []
    for _ in range(RUNS):
        began = time.monotonic()
        text = subprocess.run([program, *words.split()], input=image, capture_output=True, check=True).stdout
        seconds.append(time.monotonic() - began)
    answers = opened.ask([call_of(words, image)] * RUNS)
    retired = sum(int(it) for it in re.findall(rb"^retired (\d+)$", text, re.MULTILINE))
    page, native = retired / min(it["took"] for it in answers) / 1000, retired / min(seconds) / 1e6
    print(
        f"\nguest instructions a second, in millions: {page:.1f} in the page, {native:.1f} by the program "
        f"({retired:,} retired, the best of {RUNS} runs)"
    )
    assert all(it["text"].encode() == text for it in answers)

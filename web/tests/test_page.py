"""The page itself: the tour, the workbench, links, what is safe in it, and how it looks."""

from __future__ import annotations

import json
import math
import re
import time
from typing import Any

import pytest
from browser import CONTRAST, NAMELESS, keep_picture, look, look_as_ever, open_until
from clauses import ledger
from conftest import OUT, TOP, Page
from selenium.webdriver.common.action_chains import ActionChains
from selenium.webdriver.common.keys import Keys
from tp_sdk.measurements import by_pads, measurements_of
from tp_sdk.report import parse_report

EXAMPLES = TOP / "examples"
STEPS: list[dict[str, Any]] = json.loads((TOP / "web" / "page" / "tour.json").read_text())
WIDTHS = (360, 768, 1280)
LOOKS = TOP / "web" / "tests" / "out"
SECRETS = 8

# Of each side of a picture its title, bits, and the cycles in the rows of its table.
SIDES = """
return [...document.getElementById(arguments[0]).querySelectorAll('figure')].map((figure) => ({
  title: figure.querySelector('strong').textContent,
  bits: figure.querySelector('.bits').textContent,
  rows: [...figure.querySelectorAll('tr')].map((row) => [...row.querySelectorAll('td')].map((it) => Number(it.textContent))),
  current: [...figure.querySelectorAll('tr')].findIndex((row) => row.hasAttribute('aria-current')),
  bars: figure.querySelector('.bars').getAttribute('aria-label'),
}));
"""


def recorded(channel: str, folder: str) -> list[list[int]]:
    """What the spy measured beside each secret, by the recorded reports."""
    files = [
        EXAMPLES / "channels" / channel / folder / f"secret-{secret}.report" for secret in range(SECRETS)
    ]
    sections = [parse_report(it.read_text(), it.name).section("spy") for it in files]
    return [list(measurements_of(it, "pairs", by_pads([])).cycles) for it in sections]


def run(page: Page) -> str:
    """Presses the button, and waits for what is told of it."""
    page.script("document.getElementById('outcome').textContent = ''")
    page.find("run").click()
    told = page.wait(
        "return document.getElementById('run').disabled ? '' : document.getElementById('outcome').textContent"
    )
    return str(told)


def open_image(page: Page, file: str) -> None:
    """Picks an image of the gallery."""
    page.choose("gallery", file)
    text = (EXAMPLES / file).read_text()
    page.wait(f"return document.querySelector('.CodeMirror').CodeMirror.getValue() === {json.dumps(text)}")


def fault(page: Page, beginning: str) -> str:
    """What is told of the image, once it begins so."""
    told = "document.getElementById('fault').textContent"
    return str(page.wait(f"return {told}.includes({json.dumps(beginning)}) && {told}"))


# ---- the tour


def test_the_tour_is_walked(page: Page) -> None:
    assert [it["guard"] for it in STEPS] == ["flush", "prefetch", "pad", "colour", "clone", "irq"]
    for number, step in enumerate(STEPS):
        title = f"{number + 1}. {step['title']}"
        page.wait(f"return document.getElementById('step-title').textContent === {json.dumps(title)}")
        page.wait(
            f"return document.querySelector('#tour-picture figure + figure strong')?.textContent === '{step['guard']} off'"
        )
        on, off = page.script(SIDES, "tour-picture")
        assert (on["title"], on["bits"]) == ("All guards on", "0.00 bits")
        assert (off["title"], off["bits"]) == (f"{step['guard']} off", f"{math.log2(SECRETS):.2f} bits")
        assert on["rows"] == recorded(step["channel"], "run")
        assert off["rows"] == recorded(step["channel"], step["guard"])
        if number + 1 < len(STEPS):
            page.find("next").click()
    assert not page.find("next").is_enabled()


def test_the_secret_is_slid_and_the_picture_redrawn(page: Page) -> None:
    secret = page.find("tour-picture-secret")
    for number in (6, 7):
        secret.send_keys(Keys.ARROW_RIGHT)
        _, off = page.script(SIDES, "tour-picture")
        assert off["current"] == number
        cycles = ", ".join(map(str, recorded("lines", "flush")[number]))
        assert off["bars"] == f"With secret {number} the spy measures {cycles} cycles."


def test_the_steps_go_by_the_keyboard(page: Page) -> None:
    page.find("step-flush").send_keys(Keys.ARROW_RIGHT)
    page.wait("return document.getElementById('step-title').textContent.startsWith('2.')")
    assert page.script("return document.activeElement.id") == "step-prefetch"


@pytest.mark.parametrize("step", STEPS, ids=lambda it: it["guard"])
def test_a_clause_of_the_tour_is_in_the_ledger(step: dict[str, Any]) -> None:
    clause = step["clause"]
    rows = {(row.crate, row.of, row.name) for row in ledger()}
    assert (clause["crate"], clause["of"], clause["name"]) in rows


def test_the_clauses_that_the_page_names_are_in_the_ledger() -> None:
    html = (TOP / "web" / "page" / "index.html").read_text()
    told = re.search(r"<h3>Proved</h3>.*?</div>", html, re.DOTALL)
    assert told is not None
    names = set(re.findall(r"<code>(\w+)</code>", told[0])) - {"unprotected", "tp_lib"}
    assert names == {"answers", "isolation", "pad", "tp_run"}
    rows = {row.name for row in ledger() if (row.crate, row.of) == ("tp_lib", "tp_run")}
    assert names - {"tp_run"} <= rows


def test_a_step_is_opened_in_the_workbench(page: Page) -> None:
    page.find("take").click()
    page.wait("return document.getElementById('outcome').textContent.startsWith('Exit code 0')")
    report = page.wait("return document.getElementById('report').textContent")
    assert report == (EXAMPLES / "channels/lines/flush/secret-5.report").read_text()


# ---- the workbench


def test_a_run_is_told_in_words_with_each_domain_alone(page: Page) -> None:
    open_image(page, "two-domains.toml")
    assert run(page).startswith("Exit code 0: done.")
    assert (
        page.script("return document.getElementById('report').textContent")
        == (EXAMPLES / "two-domains.report").read_text()
    )
    told = page.find("words").text
    assert "red (domain 0): exited with code 0" in told
    assert told.count("Alone it sees the same, to the byte") == 2


def test_with_a_guard_off_a_domain_alone_differs(page: Page) -> None:
    open_image(page, "channels/lines/secret-5.toml")
    page.choose("command", "ablate")
    assert page.find("line").text.endswith("./tp ablate --off flush --slots 10 < image.toml")
    run(page)
    told = page.find("words").text
    assert "unprotected: the guard flush was off" in told
    assert "Alone it would see something else" in told


def test_a_domain_to_which_boxes_lead_may_differ_alone(page: Page) -> None:
    open_image(page, "key-store.toml")
    run(page)
    told = page.find("words").text
    assert "box 0 from friend, box 1 to friend, box 2 from stranger" in told
    assert "Alone no word comes in, and 2 lines differ: boxes lead to it, from stranger, store." in told
    assert told.count("Alone it sees the same, to the byte") == 2
    assert page.script("return document.querySelectorAll('.alone.differs').length") == 0


def test_words_of_boxes_are_drawn(page: Page) -> None:
    open_image(page, "key-store.toml")
    run(page)
    page.find("tab-time").click()
    told = page.script("return document.getElementById('timeline-desc').textContent")
    due = "What friend put into box 0 until cycle 8150, if anything, came in in the slot of store from 22450."
    assert due in told and "earlier or later" not in told
    arrows = "return document.querySelectorAll('.timeline line.mail').length"
    assert page.script(arrows) == told.count("What ") == 5
    assert "Arrows: words of a box" in page.find("time").text
    # between harts, in which ends lie near each other
    boxes = "\n[[mail]]\nfrom = 0\nto = 1\n"
    page.write((EXAMPLES / "two-harts.toml").read_text() + boxes)
    page.script("document.getElementById('slots').value = 2")
    run(page)
    told = page.script("return document.getElementById('timeline-desc').textContent")
    assert page.script(arrows) == page.script(arrows.replace("line.mail", "line.mail.open")) == 1
    assert told.endswith(", or in one earlier or later.")


@pytest.mark.parametrize("command", ["alone", "harts", "check", "bound"])
def test_the_other_commands(page: Page, command: str) -> None:
    open_image(page, "two-harts.toml")
    page.choose("command", command)
    assert run(page).startswith("Exit code 0: done.")
    assert page.find("words").text


def test_the_timeline_has_what_each_slot_did(page: Page) -> None:
    open_image(page, "victim.toml")
    run(page)
    page.find("tab-time").click()
    told = page.script("return document.getElementById('timeline-desc').textContent")
    retired = sum(int(it) for it in re.findall(r"(\d+) instructions", told))
    assert len(re.findall(r"(victim|spy) from cycle", told)) == 8 and retired > 10_000
    assert page.script("return document.querySelectorAll('.timeline .slot, .timeline .ended').length") == 8


def test_the_picture_of_an_image_that_was_changed(page: Page) -> None:
    open_image(page, "channels/lines/secret-5.toml")
    text = (EXAMPLES / "channels/lines/secret-5.toml").read_text()
    page.write(text.replace("mem = 40", "mem = 38"))
    run(page)
    page.find("tab-spy").click()
    page.wait("return document.querySelectorAll('#spy-picture figure').length === 2")
    on, off = page.script(SIDES, "spy-picture")
    assert (on["bits"], off["bits"]) == ("0.00 bits", "3.00 bits")
    page.find("spy-picture-secret").send_keys(Keys.ARROW_LEFT)
    changed = page.script("return document.querySelector('.CodeMirror').CodeMirror.getValue()")
    assert 'hex = "04000000"' in changed and "mem = 38" in changed


def test_the_report_goes_with_the_secret_that_is_slid(page: Page) -> None:
    open_image(page, "channels/lines/secret-5.toml")
    run(page)
    page.find("tab-spy").click()
    page.find("spy-picture-secret").send_keys(Keys.ARROW_RIGHT, Keys.ARROW_RIGHT, Keys.ARROW_LEFT)
    due = json.dumps((EXAMPLES / "channels/lines/run/secret-6.report").read_text())
    page.wait(f"return document.getElementById('report').textContent === {due}")


def test_what_is_typed_last_is_what_is_told(page: Page) -> None:
    good = (EXAMPLES / "two-domains.toml").read_text()
    for text in ("[[x]]\n" * 100_000, "frames = \n", good + "\n" * 500_000, "x = 1\n", good):
        page.write(text)
        time.sleep(0.3)
    assert fault(page, "Accepted") == "Accepted: the image breaks no rule."


def test_an_image_is_drawn(page: Page) -> None:
    page.find("draw").click()
    page.wait("return document.querySelector('.CodeMirror').CodeMirror.getValue().includes('tp gen --seed')")
    assert run(page).startswith("Exit code 0: done.")


def test_a_fault_is_marked_at_its_place(page: Page) -> None:
    text = (EXAMPLES / "refused-k9.toml").read_text()
    page.write(text)
    told = fault(page, "K9")
    assert told.startswith("line 27, column 15K9: colours[1] of domain 1 (blue) is 1: the colour is one of")
    assert page.script("return document.querySelector('.broken').textContent") == "1"
    page.write(text.replace("colours = [2, 1]", "colours = [2]"))
    fault(page, "Accepted")
    assert page.script("return document.querySelectorAll('.broken').length") == 0
    page.write("frames = \n")
    assert fault(page, "K1").startswith("line 1, column 10K1: the text: a value is wanted")


@pytest.mark.parametrize(
    "text, due",
    [
        ("fra", ["frames"]),
        ("l1i = { sets = 16, pol", ["policy"]),
        ('l1i = { sets = 16, ways = 2, policy = "', ["lru", "fifo", "plru", "nmru"]),
        ("[[", ["domain", "schedule", "mail"]),
        ("[[mail]]\nfr", ["from"]),
        ("[[domain]]\nname = 'red'\ncol", ["colours"]),
        ("[[domain]]\nsegment = [\n  { page = 1, ri", ["rights"]),
        ("[[schedule]]\ndomain = 0\nlen", ["length"]),
        ("l2 = { back = ", ["true", "false"]),
        ("frames = 64 # fra", []),
    ],
)
def test_completions_come_from_the_schema(opened: Page, text: str, due: list[str]) -> None:
    ask = """
    const [text] = given;
    const schema = await (await fetch('/data/schema.json')).json();
    const { completionsAt } = await import('/completions.js');
    const { begun, items } = completionsAt(schema, text, '');
    return items.map((it) => it.shown).filter((it) => it.startsWith(begun));
    """
    assert opened.module(ask, text) == due


def test_the_editor_completes_as_one_types(page: Page) -> None:
    page.write("")
    page.script("document.querySelector('.CodeMirror').CodeMirror.focus()")
    ActionChains(page.driver).send_keys("f").perform()
    page.wait("return document.querySelector('.CodeMirror-hints')?.textContent.includes('frames')")
    ActionChains(page.driver).send_keys(Keys.ENTER).perform()
    assert page.script("return document.querySelector('.CodeMirror').CodeMirror.getValue()") == "frames = "
    ActionChains(page.driver).send_keys(Keys.TAB).perform()
    assert (
        page.script("return document.querySelector('.CodeMirror').contains(document.activeElement)") is False
    )


@pytest.mark.parametrize(
    "text", ["a = " + "[" * 500_000, "a.".join([""] * 500_000), "[" + "a." * 500_000, "[[x]]\n" * 100_000]
)
def test_a_hostile_text_holds_nothing_up(opened: Page, text: str) -> None:
    ask = """
    const { readToml } = await import('/toml.js');
    const began = performance.now();
    readToml(given[0]);
    return performance.now() - began;
    """
    assert opened.module(ask, text) < 10_000


# ---- links


def test_a_link_holds_the_image_and_the_call(page: Page) -> None:
    text = "# ünïcode & <b>\n" + (EXAMPLES / "two-domains.toml").read_text()
    page.write(text)
    page.choose("command", "alone")
    page.choose("domain", "1")
    page.find("share").click()
    link = page.wait("return document.getElementById('link').value")
    assert link.startswith(page.address + "#image=")
    page.open(link.removeprefix(page.address))
    assert page.script("return document.querySelector('.CodeMirror').CodeMirror.getValue()") == text
    assert page.find("line").text.endswith("./tp alone --domain 1 --slots 4 < image.toml")


@pytest.mark.parametrize(
    "fragment", ["#image=", "#image=!!", "#image=AAAA&command=run", "#image=eA&command=__proto__&slots=-1"]
)
def test_a_link_that_is_none_is_told(page: Page, fragment: str) -> None:
    page.open(fragment)
    assert "holds no image" in page.find("outcome").text


def test_a_link_to_a_text_without_end_is_refused(page: Page) -> None:
    make = """
    const { linkOf } = await import('/link.js');
    return linkOf('x'.repeat(50_000_000), { command: 'check' });
    """
    link = page.module(make)
    assert len(link) < 100_000
    page.open(link)
    assert "holds no image" in page.find("outcome").text


# ---- what is safe in it


def test_nothing_from_outside_is_allowed(page: Page) -> None:
    html = (OUT / "index.html").read_text()
    assert "default-src 'none'" in html
    assert not re.search(r"<script(?![^>]*\bsrc=)|<style|\sstyle=|\son\w+=|https?://", html)
    blocked = """
    const faults = [];
    addEventListener('securitypolicyviolation', (event) => faults.push(event.effectiveDirective));
    const tried = await fetch('https://example.invalid/').then(() => 'fetched', () => 'blocked');
    const script = document.createElement('script');
    script.textContent = 'window.inlineRan = true';
    document.body.append(script);
    await new Promise((done) => setTimeout(done, 100));
    return { tried, ran: window.inlineRan === true, faults };
    """
    told = page.module(blocked)
    assert told["tried"] == "blocked" and not told["ran"]
    assert {"connect-src", "script-src-elem"} <= set(told["faults"])
    page.console()  # (these two were asked for)


def test_nothing_of_the_page_reads_markup() -> None:
    for file in sorted(OUT.glob("*.js")):
        assert not re.search(
            r"innerHTML|outerHTML|insertAdjacentHTML|document\.write|\beval\b|new Function", file.read_text()
        ), file


MARKUP = "<img src=x onerror=alert(1)><script>alert(2)</script>"


def test_a_text_of_an_image_never_becomes_markup(page: Page) -> None:
    text = (EXAMPLES / "two-domains.toml").read_text().replace('name = "red"', f"name = '{MARKUP}'")
    page.write(text)
    assert MARKUP in fault(page, "K7")
    run(page)
    assert MARKUP in page.find("words").text
    printing = (
        "domain 0 red\nstatus exited 0\nretired 1\nreadings 0\nreplies 0\nout {} {}\nmem 00000000\nend\n"
    )
    report = printing.format(len(MARKUP), MARKUP.encode().hex())
    show = """
    const [report, markup] = given;
    const { Results } = await import('/results.js');
    const words = await (await fetch('/data/words.json')).json();
    const results = new Results(words, { ask: async () => ({ text: '' }) }, null);
    await results.show('', { command: 'run' }, { status: 0, text: report, took: 1000 }, null);
    return document.getElementById('words').textContent.includes(markup);
    """
    assert page.module(show, report, MARKUP)
    assert page.script("return document.querySelectorAll('img, main script').length") == 0


# ---- how it looks, and for whom


def test_everything_has_a_name(page: Page) -> None:
    assert page.script(NAMELESS) == []
    field = "document.querySelector('.CodeMirror').CodeMirror.getInputField()"
    names = ("role", "aria-label", "aria-multiline", "aria-describedby")
    told = [page.script(f"return {field}.getAttribute('{name}')") for name in names]
    assert told == ["textbox", "The image, in TOML", "true", "fault keys"]
    assert page.script("return document.documentElement.lang") == "en"
    heads = page.script(
        "return [...document.querySelectorAll('h1, h2, h3, h4')].map((it) => Number(it.tagName[1]))"
    )
    assert heads[0] == 1 and all(after - before <= 1 for before, after in zip(heads, heads[1:]))


@pytest.mark.parametrize("theme", ["light", "dark"])
@pytest.mark.parametrize("width", WIDTHS)
def test_it_fits_and_can_be_read(page: Page, width: int, theme: str) -> None:
    try:
        page.driver.set_window_size(width, 900)
        look(page.driver, width, theme)
        page.open()
        open_image(page, "channels/lines/secret-5.toml")
        run(page)
        for tab in ("time", "spy", "text", "words"):
            page.find(f"tab-{tab}").click()
            assert page.script("return document.documentElement.scrollWidth") <= width, tab
        ratio, text = page.script(CONTRAST)
        assert ratio >= 4.5, text
        keep_picture(page.driver, width, LOOKS / f"{theme}-{width}.png")
    finally:
        look_as_ever(page.driver)
        page.driver.set_window_size(1280, 1000)


def test_dark_is_chosen_and_kept(page: Page) -> None:
    def colour() -> str:
        return str(page.script("return getComputedStyle(document.body).backgroundColor"))

    def forget() -> None:
        page.script("localStorage.clear()")
        unchosen = "return document.documentElement.dataset.theme === undefined"
        open_until(page.open, lambda: page.script(unchosen))

    forget()
    before = colour()
    page.find("theme").click()
    after = colour()
    assert before != after
    open_until(page.open, lambda: colour() == after)
    forget()

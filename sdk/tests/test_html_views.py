"""The page of a run in headless Chromium: each of its views, by keys, with a mouse and with fingers."""

from __future__ import annotations

import re
import sys
import time
from collections.abc import Iterator
from pathlib import Path
from typing import Any

import pytest
from conftest import REPOSITORY

pytest.importorskip("selenium")
pytest.importorskip("elftools")
# (what the project's page is tested with)
sys.path.append(str(REPOSITORY / "web" / "tests"))

from browser import (  # noqa: E402
    CHROMIUM,
    CONTRAST,
    DRIVER,
    MOST_SECONDS,
    NAMELESS,
    faults_in_console,
    keep_picture,
    look,
    look_as_ever,
    open_until,
    started,
)
from selenium.webdriver import Chrome  # noqa: E402
from selenium.webdriver.common.action_chains import ActionChains  # noqa: E402
from selenium.webdriver.common.actions.wheel_input import ScrollOrigin  # noqa: E402
from selenium.webdriver.common.by import By  # noqa: E402
from selenium.webdriver.common.keys import Keys  # noqa: E402
from selenium.webdriver.support.ui import Select  # noqa: E402
from test_html import EXAMPLES, HOSTILE, LINES, hostile_report, write_page  # noqa: E402

from tp_sdk.images import read_image  # noqa: E402
from tp_sdk.keys import LIMITS, VERSION  # noqa: E402
from tp_sdk.mail import Mail, boxes_of, deliveries, longest_events  # noqa: E402
from tp_sdk.replay import image_text  # noqa: E402
from tp_sdk.report import parse_report  # noqa: E402
from tp_sdk.schedule import entries_of, hart_for, harts_in, slots_of, slots_of_each  # noqa: E402
from tp_sdk.words import SLOTS  # noqa: E402

PICTURES = Path(__file__).parent / "out"
WIDTHS = (360, 800, 1400)
FEWER = EXAMPLES / "fewer-calls"
HARTS = 4


class View:
    """A page in the browser."""

    def __init__(self, driver: Chrome, pages: dict[str, Path]) -> None:
        self.driver = driver
        self.pages = pages

    def open(self, name: str) -> None:
        """Opens a page, and waits until it is drawn."""
        self.driver.get(self.pages[name].as_uri())
        self.wait("return document.documentElement.dataset.ready === 'true'")
        self.rest()

    def wait(self, script: str) -> Any:
        """Waits until a script gives something."""
        end = time.monotonic() + MOST_SECONDS
        while not (it := self.script(script)):
            assert time.monotonic() < end, script
            time.sleep(0.02)
        return it

    def rest(self) -> None:
        """Waits until what was asked for is drawn."""
        self.driver.execute_async_script(
            "const done = arguments[0]; requestAnimationFrame(() => requestAnimationFrame(() => done()))"
        )

    def script(self, script: str, *words: Any) -> Any:
        """What a script gives."""
        return self.driver.execute_script(script, *words)

    def find(self, name: str) -> Any:
        """The element of this `id`."""
        return self.driver.find_element(By.ID, name)

    def text(self, name: str) -> str:
        """What it says."""
        return str(self.script("return document.getElementById(arguments[0]).textContent", name))

    def press(self, *keys: str) -> None:
        """Presses keys, one after the other, wherever the focus is."""
        for key in keys:
            ActionChains(self.driver).send_keys(key).perform()
        self.rest()

    def drawn(self) -> tuple[int, int]:
        """The first and the last slot that the timeline says to have drawn, of the first hart."""
        found = re.search(r"slots (?:of hart 0 )?([\d,]+) to ([\d,]+)", self.text("time-drawn"))
        assert found is not None
        first, last = (int(it.replace(",", "")) for it in found.groups())
        return first, last

    def rows(self, name: str) -> list[list[str]]:
        """The cells of a table below this `id`."""
        script = """return [...document.querySelectorAll(`#${arguments[0]} tbody tr`)]
            .map((row) => [...row.cells].map((cell) => cell.textContent))"""
        found: list[list[str]] = self.script(script, name)
        return found


@pytest.fixture(scope="module")
def driver() -> Iterator[Chrome]:
    """The browser."""
    if not CHROMIUM.exists() or not DRIVER.exists():
        pytest.skip(f"there is no {CHROMIUM}, or no {DRIVER}")
    it = started()
    yield it
    it.quit()


@pytest.fixture(scope="module")
def pages(tmp_path_factory: pytest.TempPathFactory) -> Iterator[dict[str, Path]]:
    """A page of each kind."""
    folder = tmp_path_factory.mktemp("pages")
    hostile = hostile_report(folder / "hostile.report")
    flush, beside = LINES / "flush" / "secret-3.report", LINES / "run" / "secret-5.report"
    unpadded = next((EXAMPLES / "channels").glob("*/pad/secret-0.report"))
    big, empty, far = big_run(folder), folder / "empty.report", folder / "far.report"
    store, told = EXAMPLES / "key-store.report", told_between_harts(folder)
    empty.write_text("end\n")
    far.write_text("".join(f"switch {it} used 1 pad {10**30} count 2\n" for it in range(2)) + "end\n")
    with pytest.MonkeyPatch.context() as patch:
        # (no image need be run again)
        patch.setenv("TP", str(folder / "none"))
        yield {
            name: write_page(folder / f"{name}.html", report, *words)
            for name, report, words in (
                ("whole", flush, ("--image", LINES / "secret-3.toml", "--against", beside)),
                ("victim", EXAMPLES / "victim.report", ("--image", EXAMPLES / "victim.toml")),
                ("harts", EXAMPLES / "two-harts.report", ("--image", EXAMPLES / "two-harts.toml")),
                ("unpadded", unpadded, ("--image", unpadded.parents[1] / "secret-0.toml")),
                ("alone", EXAMPLES / "victim.report", ()),
                ("hostile", hostile, ("--against", hostile)),
                ("empty", empty, ()),
                ("far", far, ()),
                ("big", big, ("--image", big.with_suffix(".toml"))),
                ("store", store, ("--image", store.with_suffix(".toml"))),
                ("told", told, ("--image", told.with_suffix(".toml"))),
            )
        }


@pytest.fixture
def view(driver: Chrome, pages: dict[str, Path]) -> Iterator[View]:
    """The browser with the pages; afterwards its console has no fault."""
    faults_in_console(driver)
    yield View(driver, pages)
    assert faults_in_console(driver) == []


def told_between_harts(folder: Path) -> Path:
    """A report of some slots of two harts, and beside it its image: boxes one way and the other, and turns of other
    lengths."""
    image, report = ((EXAMPLES / f"two-harts{it}").read_text() for it in (".toml", ".report"))
    before, _, after = image.rpartition("length = 10000")
    mail = "".join(f"\n[[mail]]\nfrom = {one}\nto = {other}\n" for one, other in ((0, 1), (1, 0)))
    (folder / "told.toml").write_text(f"{before}length = 7000{after}{mail}")
    (folder / "told.report").write_text(re.sub(r"count \d+$", "count 12", report, flags=re.MULTILINE))
    return folder / "told.report"


def big_run(folder: Path) -> Path:
    """A report, and beside it its image, at the ends of the limits."""
    most = LIMITS[VERSION.high]
    domains, entries, colours = most.domains.high, most.entries.high, 64
    image: dict[str, Any] = read_image(FEWER.with_suffix(".toml"), None)
    machine = image | {"frames": most.frames.high, "l2": image["l2"] | {"sets": 64 * colours}}
    first = image["domain"][0]
    machine["domain"] = [first | {"name": f"domain-{it}", "colours": [it + 1]} for it in range(domains)]
    machine["schedule"] = [
        {"domain": it % domains, "length": 1_000_000, "pad": 6150, "hart": it % HARTS}
        for it in range(entries)
    ]
    (folder / "big.toml").write_text(image_text(machine))
    readings = " ".join(str(6150 + 1000 * it) for it in range(256))
    section = (
        "domain {} domain-{}\nstatus running\nretired 1000000\nthread 0 ready pc 00010000\n"
        f"readings 100000 last 7 list {readings}\nreplies 5000 last 0:1 list {' '.join(['0:1'] * 256)}\n"
        f"out 4096 {'41' * 4096}\nmem 00000000\n"
    )
    count = HARTS * SLOTS.high // entries
    report = "".join(section.format(it, it) for it in range(domains))
    report += "".join(f"switch {it} used {1000 + it} pad 6150 count {count}\n" for it in range(entries))
    (folder / "big.report").write_text(f"{report}end\n")
    return folder / "big.report"


# ---- what is told


def test_each_part_is_told(view: View) -> None:
    view.open("whole")
    assert view.text("title") == "secret-3.report"
    assert view.text("unprotected").startswith("The guard flush was off")
    cards = view.find("cards").text
    assert "spy (domain 1): exited with code 0" in cards and "16 readings, the first 31518" in cards
    compared = view.find("compared").text
    assert "spy (domain 1): " in compared and "lines differ" in compared
    assert view.rows("switch-table")[0] == ["0", "sender", "5", "6,150", "659", "5,491", "10.7"]
    assert view.rows("measured-table")[3] == ["3", "31,590", "31,612", "22", "", "22", "0"]
    assert len(view.script("return [...document.querySelectorAll('#memory-map svg')]")) == 2
    assert view.text("printed") == "It printed nothing."


@pytest.mark.parametrize("name", ["victim", "harts"])
def test_the_slots_are_those_of_the_schedule(name: str, view: View) -> None:
    view.open(name)
    view.script("document.getElementById('time-table').open = true")
    view.wait("return document.querySelector('#time-table table')")
    view.find("timeline").send_keys("-", "-", "-", "-")
    view.rest()
    file = EXAMPLES / {"victim": "victim.toml", "harts": "two-harts.toml"}[name]
    image, report = read_image(file, None), parse_report(file.with_suffix(".report").read_text(), "")
    entries = entries_of(image, "")
    count = slots_of_each(entries, report)
    due = [
        [f"{it:,}" for it in (number + 1, hart, slot.entry)]
        + [image["domain"][slot.domain]["name"], f"{slot.start:,}", f"{slot.end:,}"]
        for hart in range(harts_in(entries))
        for number, slot in enumerate(slots_of(entries, count, hart))
    ]
    rows = view.rows("time-table")
    assert [row[:6] for row in rows] == due
    used = [report.switches[int(row[2])].used for row in rows]
    pads = [
        ["–"] * 3 if int(row[0]) == count else ["6,150", f"{it:,}", f"{6150 - it:,}"]
        for row, it in zip(rows, used)
    ]
    assert [row[6:] for row in rows] == pads
    drawn = view.script("return document.querySelectorAll('#timeline rect.slot').length")
    assert drawn == len(due)


def told_of_boxes(image: dict[str, Any], count: int) -> dict[tuple[int, int], list[str]]:
    """What is told of boxes of each slot, by its hart and its place there, among so many slots of each."""
    entries, boxes = entries_of(image, ""), boxes_of(image, "")
    names, is_of_many = [it["name"] for it in image["domain"]], harts_in(entries) > 1
    by: dict[tuple[int, int], list[str]] = {}
    to: dict[tuple[int, int, int], str] = {}
    for it in deliveries(entries, Mail(boxes, longest_events(image, "")), count):
        harts = [hart_for(entries, domain) for domain in (it.box.sender, it.box.receiver)]
        left, came = (
            f"slot {place + 1}{f' of hart {hart}' if is_of_many else ''}, of {names[domain]}"
            for place, hart, domain in zip((it.left, it.came), harts, (it.box.sender, it.box.receiver))
        )
        ends = [
            f", or in a slot of {of} earlier or later" if it.is_open else "" for of in ("that", "its own")
        ]
        words = f"What it put into box {it.box.number}, if anything, came in in {came}{ends[0]}."
        by.setdefault((harts[0], it.left), []).append(words)
        # (the last words before a slot are what comes in)
        to[
            harts[1], it.came, it.box.number
        ] = f"In it came in what {left}, put into box {it.box.number}{ends[1]}."
    for hart, place, box in sorted(to):
        by.setdefault((hart, place), []).append(to[hart, place, box])
    return by


@pytest.mark.parametrize("name", ["store", "told"])
def test_words_of_boxes_are_told_where_they_came_in(name: str, view: View, tmp_path: Path) -> None:
    report = EXAMPLES / "key-store.report" if name == "store" else told_between_harts(tmp_path)
    image, read = read_image(report.with_suffix(".toml"), None), parse_report(report.read_text(), "")
    entries, boxes = entries_of(image, ""), boxes_of(image, "")
    harts, count = harts_in(entries), slots_of_each(entries, read)
    due = told_of_boxes(image, count)
    view.open(name)
    view.find("timeline").send_keys("-", "-", "-", "-")
    for hart in range(harts):
        view.find("timeline").send_keys(Keys.HOME)
        for number in range(count):
            view.rest()
            own = view.text("slot-told")
            assert own.startswith(f"Slot {number + 1} of {count}" + (f" of hart {hart}" if harts > 1 else ""))
            assert re.findall(r"(?:What it|In it) .*?\.(?= |$)", own) == due.get((hart, number), [])
            view.find("timeline").send_keys(Keys.ARROW_RIGHT)
        view.find("timeline").send_keys(Keys.ARROW_DOWN)
    told = list(deliveries(entries, Mail(boxes, longest_events(image, "")), count))
    for kind, arrows in (("mail", told), ("mail.open", [it for it in told if it.is_open])):
        drawn = view.script(f"return document.querySelectorAll('#timeline line.{kind}').length")
        assert drawn == len(arrows) and bool(arrows) == (kind == "mail" or harts > 1)
    legend = view.find("time-legend").text
    assert "words of a box" in legend and ("a slot earlier or later" in legend) == (harts > 1)


def test_with_pad_off_nothing_is_waited(view: View) -> None:
    view.open("unpadded")
    assert "The guard pad was off" in view.text("time-why")
    assert view.text("slot-told").endswith("used 733 at most, and nothing was waited.")
    assert [row[5] for row in view.rows("switch-table")] == ["0", "0"]


def test_a_report_alone_has_its_pads_drawn(view: View) -> None:
    view.open("alone")
    assert "A report does not tell how long slots are" in view.text("time-why")
    assert view.script("return document.querySelectorAll('#timeline rect.used').length") == 2
    assert "of a length that is not known" in view.text("slot-told")
    assert "an image does, given by --image" in view.text("memory-map")
    assert not view.find("hart").is_displayed()


# ---- the timeline is moved


def test_the_timeline_goes_by_keys(view: View) -> None:
    view.open("victim")
    assert view.text("slot-told").startswith(
        "Slot 1 of 24: victim (entry 0), from cycle 6,150 to 16,150. Its pad:"
    )
    view.find("timeline").send_keys(Keys.ARROW_RIGHT)
    view.rest()
    assert view.text("slot-told").startswith("Slot 2 of 24: spy (entry 1), from cycle 22,300 to ")
    view.press(Keys.END)
    assert view.text("slot-told").endswith("The run ends with it.")
    assert view.drawn()[1] == 24
    view.press(Keys.ARROW_RIGHT)
    assert view.text("slot-told").startswith("Slot 24 of 24")
    view.press(Keys.HOME)
    assert view.text("slot-told").startswith("Slot 1 of 24") and view.drawn()[0] == 1
    first, last = view.drawn()
    view.press("+", "+")
    assert view.drawn()[1] - view.drawn()[0] < last - first
    view.press(Keys.PAGE_DOWN, Keys.PAGE_DOWN)
    assert view.drawn()[0] > first
    view.press("-", "-", "-", "-", "-", "-")
    assert view.drawn() == (1, 24)


def test_the_harts_go_by_keys_and_fields(view: View) -> None:
    view.open("harts")
    assert "of hart 0: red" in view.text("slot-told")
    view.find("timeline").send_keys(Keys.ARROW_DOWN)
    view.rest()
    assert "of hart 1: blue" in view.text("slot-told")
    Select(view.find("hart")).select_by_value("0")
    view.find("slot").send_keys(Keys.BACKSPACE, "2", Keys.ENTER)
    view.rest()
    assert view.text("slot-told").startswith("Slot 2 of 2 of hart 0: red")


def test_the_timeline_goes_with_a_mouse(view: View) -> None:
    view.open("victim")
    box = view.find("timeline")
    view.script("arguments[0].scrollIntoView({ block: 'center' })", box)
    first, last = view.drawn()
    view.find("nearer").click()
    view.rest()
    nearer = view.drawn()
    assert nearer[1] - nearer[0] < last - first
    ActionChains(view.driver).click_and_hold(box).move_by_offset(-300, 0).release().perform()
    view.rest()
    assert view.drawn()[0] > nearer[0] and view.text("slot-told").startswith("Slot 1 ")
    # a click without a move chooses what is there
    ActionChains(view.driver).move_to_element(box).click().perform()
    view.rest()
    assert not view.text("slot-told").startswith("Slot 1 ")
    # the box has the focus now, and so the wheel
    before = view.drawn()
    ActionChains(view.driver).scroll_from_origin(ScrollOrigin.from_element(box), 0, 800).perform()
    view.rest()
    assert view.drawn()[1] - view.drawn()[0] > before[1] - before[0]
    view.script("document.activeElement.blur()")
    before, top = view.drawn(), view.script("return scrollY")
    ActionChains(view.driver).scroll_from_origin(ScrollOrigin.from_element(box), 0, 200).perform()
    view.wait(f"return scrollY > {top}")
    assert view.drawn() == before


def test_the_timeline_goes_with_fingers(view: View) -> None:
    look(view.driver, 360, "light")
    view.driver.execute_cdp_cmd("Emulation.setTouchEmulationEnabled", {"enabled": True, "maxTouchPoints": 2})
    try:
        view.open("victim")
        view.script("document.getElementById('timeline').scrollIntoView({ block: 'center' })")
        first, last = view.drawn()
        fingers(view, [(150, 250), (170, 230), (190, 210)])
        assert view.drawn()[1] - view.drawn()[0] > last - first
        before = view.drawn()
        fingers(view, [(200, 220), (150, 280), (110, 330)])
        assert view.drawn()[1] - view.drawn()[0] < before[1] - before[0]
        before = view.drawn()
        fingers(view, [(330,), (200,), (100,)])
        fingers(view, [(330,), (200,), (100,)])
        assert view.drawn()[0] > before[0]
    finally:
        view.driver.execute_cdp_cmd("Emulation.setTouchEmulationEnabled", {"enabled": False})
        look_as_ever(view.driver)


def fingers(view: View, places: list[tuple[int, ...]]) -> None:
    """Puts fingers onto the timeline, moves them from place to place, and takes them off."""
    y = view.script(
        "const it = document.getElementById('timeline').getBoundingClientRect(); return it.top + 40"
    )
    kinds = ["touchStart", *["touchMove"] * (len(places) - 1)]
    for kind, at in zip(kinds, places):
        points = [{"x": x, "y": y, "id": number} for number, x in enumerate(at)]
        view.driver.execute_cdp_cmd("Input.dispatchTouchEvent", {"type": kind, "touchPoints": points})
    view.driver.execute_cdp_cmd("Input.dispatchTouchEvent", {"type": "touchEnd", "touchPoints": []})
    view.rest()


# ---- switches and readings


def test_the_switches_are_sorted_by_each_column(view: View) -> None:
    view.open("big")
    for heads in (("by-used", "ascending"), ("by-used", "descending"), ("by-domain", "ascending")):
        view.find(heads[0]).send_keys(Keys.ENTER)
        sort = f"return document.getElementById('{heads[0]}').parentElement.getAttribute('aria-sort')"
        assert view.script(sort) == heads[1]
        assert view.script("return document.activeElement.id") == heads[0]
    entries = [row[0] for row in view.rows("switch-table")]
    assert entries[:3] == ["0", "32", "64"] and len(entries) == 256
    view.find("by-used").click()
    view.find("by-used").click()
    assert [row[0] for row in view.rows("switch-table")][:2] == ["255", "254"]
    assert view.script("return document.querySelector('#switch-chart g text').textContent") == "255 domain-31"


def test_the_readings_go_by_domain_and_measure(view: View) -> None:
    view.open("victim")
    assert view.text("measured").startswith("victim: 96 measurements by pairs")
    Select(view.find("reader")).select_by_value("1")
    Select(view.find("measure")).select_by_value("steps")
    assert view.text("measured").startswith("spy: 255 measurements by steps; within ")
    spy = parse_report((EXAMPLES / "victim.report").read_text(), "").section("spy").readings
    rows = view.rows("measured-table")
    assert [int(row[3].replace(",", "")) for row in rows] == [two - one for one, two in zip(spy, spy[1:])]
    assert len(view.script("return [...document.querySelectorAll('#measured-chart rect')]")) == 255
    assert "within it" in {row[4] for row in rows}


# ---- a long run, a hostile one


def test_a_long_run_opens_and_is_drawn_in_part(view: View) -> None:
    view.open("big")
    assert view.script("return document.querySelectorAll('#cards article').length") == 32
    for _ in range(12):
        view.find("farther").click()
    view.rest()
    assert "of 65,536, at most 75 at once of each hart" in view.text("time-drawn")
    assert view.drawn() == (1, 75)
    assert view.script("return document.querySelectorAll('#timeline rect').length") < 1200
    view.find("timeline").send_keys(Keys.END)
    view.rest()
    (*_, last) = slots_of(
        entries_of(read_image(view.pages["big"].with_suffix(".toml"), None), ""), SLOTS.high
    )
    assert view.text("slot-told") == (
        f"Slot 65,536 of 65,536 of hart 0: domain-28 (entry 252), from cycle {last.start:,} to {last.end:,}. "
        "The run ends with it."
    )
    assert "Drawn are the first 64 of 256 entries" in view.text("switch-chart")
    assert len(view.rows("switch-table")) == 256
    assert "99,744 more were made" not in view.text("measured")
    assert "49,872 more were made, and a report lists the first 256 readings" in view.text("measured")


def test_a_hostile_name_is_text(view: View) -> None:
    view.open("hostile")
    assert view.driver.title == "hostile.report: a run, told and drawn"
    assert view.script("return document.querySelectorAll('img').length") == 0
    assert view.script("return document.scripts.length") == 3
    assert (
        HOSTILE in view.text("cards") and HOSTILE in view.text("printed") and HOSTILE in view.text("compared")
    )
    assert view.script("return document.documentElement.scrollWidth <= innerWidth")


@pytest.mark.parametrize("name", ["empty", "far"])
def test_a_report_of_nothing_and_one_of_great_numbers(name: str, view: View) -> None:
    view.open(name)
    told = {"empty": "The report has no line of a switch.", "far": "A whole bar: the pad, in cycles."}
    assert told[name] in view.text("switch-chart")
    assert ("No slot was run." in view.text("time-why")) == (name == "empty")
    if name == "far":
        view.find("timeline").send_keys(*["+"] * 9)
        view.rest()
        assert view.text("slot-told").startswith("Slot 1 of 2")


def test_no_script_of_others_is_run(view: View) -> None:
    view.open("victim")
    tried = """
    const faults = [], done = arguments[0];
    addEventListener('securitypolicyviolation', (event) => faults.push(event.effectiveDirective));
    const script = document.createElement('script');
    script.textContent = 'window.ran = true';
    document.body.append(script);
    document.body.setAttribute('onclick', 'window.ran = true');
    document.body.click();
    fetch('https://example.invalid/').catch(() => setTimeout(() => done([window.ran === true, faults]), 50));
    """
    ran, faults = view.driver.execute_async_script(tried)
    assert not ran and {"script-src-elem", "script-src-attr", "connect-src"} <= set(faults)
    faults_in_console(view.driver)  # (these were asked for)


# ---- how it looks, and for whom


def test_everything_is_reached_by_the_tab_key(view: View) -> None:
    view.open("whole")
    reached = []
    for _ in range(40):
        view.press(Keys.TAB)
        told = view.script(
            "const it = document.activeElement; const { outlineStyle, outlineWidth } = getComputedStyle(it);"
            "return [it.id || it.className || it.textContent, outlineStyle, parseInt(outlineWidth), it.tagName]"
        )
        if told[3] == "BODY":
            break
        reached.append(told[0])
        assert told[1] == "solid" and told[2] >= 2, told
    ids = ["skip", "brand", "theme", "earlier", "later", "nearer", "farther", "slot", "timeline", "by-entry"]
    ids += ["switch-table", "reader", "measure", "measured-table"]
    places = [reached.index(it) for it in ids if it != "switch-table"]
    assert places == sorted(places)
    view.open("whole")
    view.press(Keys.TAB, Keys.ENTER, Keys.TAB)
    assert view.script("return document.activeElement.id") == "earlier"


def test_everything_has_a_name(view: View) -> None:
    for name in ("whole", "alone"):
        view.open(name)
        assert view.script(NAMELESS) == []
        regions = (
            "[...document.querySelectorAll('[role=region], [role=application], [role=group], svg[role=img]')]"
        )
        assert view.script(f"return {regions}.filter((it) => !it.getAttribute('aria-label')).length") == 0
        heads = "[...document.querySelectorAll('h1, h2, h3, h4')].map((it) => Number(it.tagName[1]))"
        levels = view.script(f"return {heads}")
        assert levels[0] == 1 and all(two - one <= 1 for one, two in zip(levels, levels[1:]))
        assert view.script("return document.documentElement.lang") == "en"
        double = "const ids = [...document.querySelectorAll('[id]')].map((it) => it.id);"
        assert view.script(f"{double} return ids.length - new Set(ids).size") == 0


@pytest.mark.parametrize("theme", ["light", "dark"])
@pytest.mark.parametrize("width", WIDTHS)
def test_it_fits_and_can_be_read(view: View, width: int, theme: str) -> None:
    try:
        # (the long one is told in the same parts)
        for name in ("whole", "big") if (width, theme) == (360, "light") else ("whole",):
            look(view.driver, width, theme)
            view.open(name)
            view.script("for (const it of document.querySelectorAll('details')) it.open = true")
            view.rest()
            assert view.script("return document.documentElement.scrollWidth") <= width
            ratio, text = view.script(CONTRAST)
            assert ratio >= 4.5, text
            view.script("for (const it of document.querySelectorAll('details')) it.open = false")
            if name == "whole":
                keep_picture(view.driver, width, PICTURES / f"{theme}-{width}.png")
    finally:
        look_as_ever(view.driver)


def test_dark_is_chosen_and_kept(view: View) -> None:
    def colour() -> str:
        return str(view.script("return getComputedStyle(document.body).backgroundColor"))

    def forget() -> None:
        view.script("localStorage.clear()")
        unchosen = "return document.documentElement.dataset.theme === undefined"
        open_until(lambda: view.open("victim"), lambda: view.script(unchosen))

    view.open("victim")
    forget()
    before = colour()
    view.find("theme").send_keys(Keys.ENTER)
    after = colour()
    assert before != after
    open_until(lambda: view.open("harts"), lambda: colour() == after)
    forget()


def test_it_prints(view: View) -> None:
    try:
        look(view.driver, 720, "dark")
        media = {"media": "print", "features": [{"name": "prefers-color-scheme", "value": "dark"}]}
        view.driver.execute_cdp_cmd("Emulation.setEmulatedMedia", media)
        view.open("whole")
        for name in ("theme", "time-tools", "time-keys"):
            assert not view.find(name).is_displayed()
        assert view.script("return getComputedStyle(document.body).backgroundColor") == "rgb(255, 255, 255)"
        assert view.script("return document.documentElement.scrollWidth") <= 720
        tables = "[...document.querySelectorAll('.scrolled')].filter((it) => it.scrollHeight > it.clientHeight + 2)"
        assert view.script(f"return {tables}.length") == 0
        keep_picture(view.driver, 720, PICTURES / "print.png")
    finally:
        look_as_ever(view.driver)

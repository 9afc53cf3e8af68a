"""Headless Chromium for the tests of pages, those of the sdk too: how it is started, at which width and in
which colours a page is looked at, and what is asked of every page."""

from __future__ import annotations

import time
from collections.abc import Callable
from pathlib import Path
from typing import Any

from selenium import webdriver
from selenium.webdriver.chrome.service import Service

CHROMIUM = Path("/usr/bin/chromium")
DRIVER = Path("/usr/bin/chromedriver")
MOST_SECONDS = 60  # on a busy machine

FLAGS = (
    "--headless=new",
    "--no-sandbox",
    "--disable-gpu",
    "--disable-dev-shm-usage",
    "--hide-scrollbars",
    # (what moves slowly can't be clicked)
    "--force-prefers-reduced-motion",
)


NAMELESS = """
return [...document.querySelectorAll('button, input, select, textarea, a, [role=tab], [role=img]')].filter((it) => {
  if (it.closest('.CodeMirror')) return false;
  const name = it.getAttribute('aria-label') || (it.getAttribute('aria-labelledby') ?? '').split(' ')
    .map((id) => document.getElementById(id)?.textContent ?? '').join('') || it.textContent.trim()
    || [...(it.labels ?? [])].map((label) => label.textContent).join('');
  return !name;
}).map((it) => it.outerHTML.slice(0, 120));
"""

# The least contrast of the texts that can be seen, by WCAG's measure, with the text that has it.
CONTRAST = """
const canvas = document.createElement('canvas').getContext('2d', { willReadFrequently: true });
const rgba = (colour) => { canvas.clearRect(0, 0, 1, 1); canvas.fillStyle = colour; canvas.fillRect(0, 0, 1, 1); return [...canvas.getImageData(0, 0, 1, 1).data]; };
const light = (parts) => { const [r, g, b] = parts.map((it) => it / 255).map((it) => (it <= 0.04045 ? it / 12.92 : ((it + 0.055) / 1.055) ** 2.4)); return 0.2126 * r + 0.7152 * g + 0.0722 * b; };
const behind = (it) => { for (; it; it = it.parentElement) { const c = rgba(getComputedStyle(it).backgroundColor); if (c[3] > 250) return c; } return rgba(getComputedStyle(document.body).backgroundColor); };
let least = [99, ''];
for (const it of document.querySelectorAll('main *, header *, footer *')) {
  const has = [...it.childNodes].some((node) => node.nodeType === 3 && node.textContent.trim());
  if (!has || !it.checkVisibility() || it.closest('.CodeMirror, svg, noscript, :disabled')) continue;
  const [one, two] = [light(rgba(getComputedStyle(it).color).slice(0, 3)), light(behind(it).slice(0, 3))];
  const ratio = (Math.max(one, two) + 0.05) / (Math.min(one, two) + 0.05);
  if (ratio < least[0]) least = [ratio, it.textContent.trim().slice(0, 40)];
}
return least;
"""


def started() -> webdriver.Chrome:
    """The browser, which whoever starts it ends by `quit`."""
    options = webdriver.ChromeOptions()
    options.binary_location = str(CHROMIUM)
    for flag in FLAGS:
        options.add_argument(flag)
    options.set_capability("goog:loggingPrefs", {"browser": "ALL"})
    it = webdriver.Chrome(service=Service(str(DRIVER)), options=options)
    it.set_script_timeout(600)
    it.set_window_size(1280, 1000)
    return it


def faults_in_console(driver: webdriver.Chrome) -> list[str]:
    """What the console has of faults since it was last asked."""
    return [it["message"] for it in driver.get_log("browser") if it["level"] in ("SEVERE", "WARNING")]


def open_until(opens: Callable[[], None], is_so: Callable[[], bool]) -> None:
    """Opens a page until it is so. What pages keep is written by another process of the browser's, which a page that is
    opened at once may be ahead of."""
    end = time.monotonic() + MOST_SECONDS
    opens()
    while not is_so():
        assert time.monotonic() < end, "what was kept is not seen"
        time.sleep(0.05)
        opens()


def look(driver: webdriver.Chrome, width: int, theme: str, height: int = 900) -> None:
    """From now on pages are so wide, and the system is `light` or `dark`."""
    metrics: dict[str, Any] = {
        "width": width,
        "height": height,
        "deviceScaleFactor": 1,
        "mobile": width < 500,
    }
    driver.execute_cdp_cmd("Emulation.setDeviceMetricsOverride", metrics)
    features = [{"name": "prefers-color-scheme", "value": theme}]
    driver.execute_cdp_cmd("Emulation.setEmulatedMedia", {"features": features})


def look_as_ever(driver: webdriver.Chrome) -> None:
    """Ends what `look` began."""
    driver.execute_cdp_cmd("Emulation.clearDeviceMetricsOverride", {})
    driver.execute_cdp_cmd("Emulation.setEmulatedMedia", {"features": []})


def keep_picture(driver: webdriver.Chrome, width: int, file: Path) -> None:
    """Writes a picture of the whole page as it is looked at."""
    height = driver.execute_script("return document.documentElement.scrollHeight")
    metrics = {"width": width, "height": height, "deviceScaleFactor": 1, "mobile": width < 500}
    driver.execute_cdp_cmd("Emulation.setDeviceMetricsOverride", metrics)
    file.parent.mkdir(parents=True, exist_ok=True)
    driver.save_screenshot(str(file))

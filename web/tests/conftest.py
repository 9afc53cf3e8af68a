"""What the tests run on: the page of web/out in headless Chromium, served from this machine alone; the
program. `web/check` runs them."""

from __future__ import annotations

import base64
import functools
import http.server
import importlib.machinery
import importlib.util
import json
import os
import sys
import threading
import time
from collections.abc import Iterator
from pathlib import Path
from types import ModuleType
from typing import Any

import pytest

TOP = Path(__file__).resolve().parents[2]
OUT = TOP / "web" / "out"
sys.path[:0] = [str(TOP / "sdk"), str(TOP / "web" / "data"), str(TOP / "docs" / "lessons")]

from browser import MOST_SECONDS, faults_in_console, started  # noqa: E402
from selenium import webdriver  # noqa: E402
from selenium.webdriver.common.by import By  # noqa: E402
from selenium.webdriver.support.ui import Select  # noqa: E402

GUARDS = ("flush", "prefetch", "pad", "colour", "clone", "irq")

# Asks the module, in a worker of its own, for the answer of each call, one after the other.
ASK = """
const [calls, done] = arguments;
(async () => {
  const { Engine } = await import('/engine.js');
  const { compile } = await import('/module.js');
  window.engineOfTests ??= new Engine(await compile('/tp.wasm'));
  const answers = [];
  for (const { bytes, ...call } of calls) {
    const image = bytes === undefined ? undefined : Uint8Array.from(atob(bytes), (it) => it.charCodeAt(0));
    answers.push(await window.engineOfTests.ask({ ...call, image }));
  }
  return answers;
})().then(done, (fault) => done({ fault: `${fault}` }));
"""


class Page:
    """The page in a browser."""

    def __init__(self, driver: webdriver.Chrome, address: str) -> None:
        self.driver = driver
        self.address = address

    def open(self, fragment: str = "") -> None:
        """Loads it anew, and waits until it is ready."""
        self.driver.get("about:blank")
        self.driver.get(self.address + fragment)
        self.wait("return document.documentElement.dataset.ready === 'true'")

    def wait(self, script: str, seconds: float = MOST_SECONDS) -> Any:
        """Waits until a script gives something."""
        end = time.monotonic() + seconds
        while not (it := self.driver.execute_script(script)):
            if time.monotonic() > end:
                raise AssertionError(f"not within {seconds} seconds: {script}")
            time.sleep(0.05)
        return it

    def find(self, name: str) -> Any:
        """The element of this `id`."""
        return self.driver.find_element(By.ID, name)

    def choose(self, name: str, value: str) -> None:
        """Chooses in a list."""
        Select(self.find(name)).select_by_value(value)

    def write(self, text: str) -> None:
        """Puts a text into the editor."""
        self.script("document.querySelector('.CodeMirror').CodeMirror.setValue(arguments[0])", text)

    def script(self, script: str, *words: Any) -> Any:
        """Runs a script in it."""
        return self.driver.execute_script(script, *words)

    def module(self, script: str, *words: Any) -> Any:
        """What an asynchronous function with the arguments `given` gives, in which modules can be imported."""
        run = "const done = arguments[arguments.length - 1], given = [...arguments].slice(0, -1);"
        run += f"(async () => {{ {script} }})().then(done, (fault) => done({{ fault: `${{fault}}` }}));"
        answer = self.driver.execute_async_script(run, *words)
        assert not (isinstance(answer, dict) and "fault" in answer), answer["fault"]
        return answer

    def ask(self, calls: list[dict[str, Any]]) -> list[dict[str, Any]]:
        """The module's answers."""
        answers = self.driver.execute_async_script(ASK, calls)
        assert isinstance(answers, list), answers
        return answers

    def console(self) -> list[str]:
        """What the console has of faults since it was last asked."""
        return faults_in_console(self.driver)


def call_of(words: str | list[str], image: bytes = b"") -> dict[str, Any]:
    """A command's words as a call of the module."""
    command, *rest = words.split() if isinstance(words, str) else words
    flags = {name.removeprefix("--"): value for name, value in zip(rest[::2], rest[1::2])}
    numbers = {name: value if name == "off" else int(value) for name, value in flags.items()}
    return {"command": command, **numbers, "bytes": base64.b64encode(image).decode()}


@functools.cache
def conformance() -> ModuleType:
    """conformance/check, which reads the rows."""
    file = str(TOP / "conformance" / "check")
    loader = importlib.machinery.SourceFileLoader("rows_of_conformance", file)
    spec = importlib.util.spec_from_loader(loader.name, loader)
    assert spec is not None
    module = importlib.util.module_from_spec(spec)
    loader.exec_module(module)
    return module


@pytest.fixture(scope="session")
def address() -> Iterator[str]:
    """A plain server of files, as `python3 -m http.server -d web/out` is."""

    class Quiet(http.server.SimpleHTTPRequestHandler):
        def log_message(self, format: str, *words: Any) -> None:
            pass

    server = http.server.ThreadingHTTPServer(("127.0.0.1", 0), functools.partial(Quiet, directory=str(OUT)))
    threading.Thread(target=server.serve_forever, daemon=True).start()
    yield f"http://127.0.0.1:{server.server_address[1]}/"
    server.shutdown()


@pytest.fixture(scope="session")
def driver() -> Iterator[webdriver.Chrome]:
    """The browser."""
    it = started()
    yield it
    it.quit()


@pytest.fixture(scope="session")
def opened(driver: webdriver.Chrome, address: str) -> Page:
    """The page, opened once: for tests that ask the module alone."""
    it = Page(driver, address)
    it.open()
    return it


@pytest.fixture
def page(opened: Page) -> Iterator[Page]:
    """The page, opened anew; afterwards its console has no fault."""
    opened.open()
    opened.console()
    yield opened
    assert opened.console() == []


@pytest.fixture(scope="session")
def program() -> Path:
    """The program that the variable TP names, else the one that `./tp --prove` builds."""
    path = Path(os.environ.get("TP") or TOP / "crates" / "tp" / "out" / "tp")
    if path.suffix == ".so" or not os.access(path, os.X_OK):
        pytest.skip(f"there is no program at {path}: './tp --prove' proves and builds it")
    return path


@pytest.fixture(scope="session")
def gallery() -> dict[str, Any]:
    """The gallery, as the page has it."""
    it: dict[str, Any] = json.loads((OUT / "data" / "gallery.json").read_text())
    return it

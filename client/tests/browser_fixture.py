"""A browser without a window, and a page of a few scripts of all kinds to look at."""

import os
import subprocess
from collections.abc import Iterator
from dataclasses import dataclass
from pathlib import Path
from typing import Any

import pytest
from selenium import webdriver
from selenium.webdriver.chrome.service import Service
from selenium.webdriver.common.by import By
from selenium.webdriver.remote.webelement import WebElement

from pdsuite.page.links import page_file_name_of
from tests.helpers import FAILS, HANGS, OPENED, TOP

WORDS = ("--headless=new", "--no-sandbox", "--disable-gpu", "--disable-dev-shm-usage", "--hide-scrollbars")
OPENING = (TOP / "examples/send.txt").read_bytes().split(b"\n", 1)[1].rsplit(b"\n", 2)[0] + b"\n"
EVIL = b'<img src=x onerror="document.title=1"><b>&amp;'
HTML = b"<script>document.title='x'</script>\n"
SCRIPTS = {
    b"pass": OPENED,
    b"fail": FAILS,
    b"seq": OPENING + b"+0    > P. 1:501(500) ack 1\n",
    b"missing": OPENING + b"+0    > P. 1:1001(1000) ack 1\n+0 > . 1001:2001(1000) ack 1\n",
    b"syntax": b"+0 > X. 0:0(0)\n",
    EVIL: b"// " + HTML + b"0 <b>bold</b>\n",
    b"$\\frac{$": b"// $\\frac{$\n" + FAILS,
    b"\xff\x1b": b"// \xff\x1b[2J\n" + FAILS,
    "grün".encode(): OPENED,
}

VISIBLE = """
return [...document.querySelectorAll(arguments[0])].filter((it) => it.checkVisibility()).map((it) => it.innerText);
"""


@dataclass
class Browser:
    """A browser, and the page that is looked at."""

    driver: webdriver.Chrome
    folder: Path

    def look(self, file: str = "index.html", width: int = 1_200, scheme: str = "light") -> None:
        """Shows a file of the page."""
        size = {"width": width, "height": 900, "deviceScaleFactor": 1, "mobile": False}
        self.driver.execute_cdp_cmd("Emulation.setDeviceMetricsOverride", size)
        media = {"features": [{"name": "prefers-color-scheme", "value": scheme}]}
        self.driver.execute_cdp_cmd("Emulation.setEmulatedMedia", media)
        self.driver.get("about:blank")
        self.driver.get((self.folder / file.split("#")[0]).as_uri() + "".join(file.partition("#")[1:]))

    def look_at(self, path: str) -> None:
        """Shows the page of a script."""
        self.look(f"scripts/{page_file_name_of(path)}")

    def all(self, selector: str) -> list[WebElement]:
        """The elements that a selector finds."""
        return self.driver.find_elements(By.CSS_SELECTOR, selector)

    def texts(self, selector: str) -> list[str]:
        """The texts of the elements that a selector finds and that can be seen."""
        texts = self.run(VISIBLE, selector)
        assert isinstance(texts, list)
        return texts

    def run(self, script: str, *words: str) -> object:
        """The answer of a script that runs in the page."""
        execute: Any = self.driver.execute_script
        return execute(script, *words)

    def press(self, *keys: str) -> None:
        """Presses keys, whatever has the focus."""
        for key in keys:
            self.driver.switch_to.active_element.send_keys(key)


def make(top: Path, programs: Path) -> Path:
    """Makes the page of the scripts in a folder, which stands beside them."""
    environment = {**os.environ, "PDSUITE_PROGRAMS": str(programs)}
    words: list[str | Path] = [TOP / "pdsuite", "run", "--html", "out", "in"]
    done = subprocess.run(words, cwd=top, env=environment, capture_output=True, timeout=HANGS)
    assert (done.returncode, done.stderr) == (1, b"")
    return top / "out"


@pytest.fixture(scope="session")
def driver(tmp_path_factory: pytest.TempPathFactory) -> Iterator[webdriver.Chrome]:
    """A browser without a window."""
    options: Any = webdriver.ChromeOptions()
    for word in (*WORDS, f"--user-data-dir={tmp_path_factory.mktemp('profile')}"):
        options.add_argument(word)
    options.binary_location = "/usr/bin/chromium"
    begin: Any = webdriver.Chrome
    with begin(service=Service("/usr/bin/chromedriver"), options=options) as chrome:
        yield chrome


@pytest.fixture(scope="session")
def few(driver: webdriver.Chrome, programs: Path, tmp_path_factory: pytest.TempPathFactory) -> Browser:
    """The page of a few scripts of all kinds."""
    top = tmp_path_factory.mktemp("few")
    (top / "in").mkdir()
    for name, text in SCRIPTS.items():
        (top / "in" / os.fsdecode(name + b".pkt")).write_bytes(text)
    return Browser(driver, make(top, programs))


def path(name: bytes) -> bytes:
    """The path of one of the few scripts."""
    return b"in/" + name + b".pkt"

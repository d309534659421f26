"""Chromium without a window, driven by selenium: it fills in a page's questions by their texts."""
from __future__ import annotations

import os
import pathlib
import shutil
import signal
import socket
import subprocess
import sys
import time
import urllib.request
from collections.abc import Mapping
from typing import Any

from browsing import EXAMPLES, HERE, MISSING

try:
    from selenium import webdriver
    from selenium.common.exceptions import WebDriverException
    from selenium.webdriver.chrome.service import Service
    from selenium.webdriver.common.by import By
except ImportError:
    webdriver = None  # type: ignore[assignment]

CHROME, CHROMEDRIVER = shutil.which("chromium") or shutil.which("google-chrome"), shutil.which("chromedriver")


def missing() -> str:
    """What a test in a browser wants and isn't here."""
    if MISSING:
        return MISSING
    if webdriver is None:
        return "selenium isn't installed (Debian: python3-selenium)"
    return "" if CHROME and CHROMEDRIVER else "chromium or chromedriver isn't installed (Debian: chromium chromium-driver)"


def free_port() -> int:
    with socket.socket() as found:
        found.bind(("127.0.0.1", 0))
        return int(found.getsockname()[1])


class Server:
    """`web/run` over an example, or a rulebase that lies elsewhere, in a process of its own."""

    def __init__(self, rulebase: str | pathlib.Path, store: pathlib.Path, port: int = 0, workers: int = 0, env: Mapping[str, str] | None = None) -> None:
        self.port = port or free_port()
        words = [sys.executable, str(HERE.parent / "run"), str(EXAMPLES / rulebase), "--port", str(self.port), "--store", str(store)]
        self.process = subprocess.Popen(
            words + (["--workers", str(workers)] if workers else []), stdout=subprocess.DEVNULL, stderr=subprocess.DEVNULL,
            env={**os.environ, **(env or {})},
        )  # fmt: skip
        self.address = f"http://127.0.0.1:{self.port}"
        for _ in range(900):
            try:
                urllib.request.urlopen(self.address + "/", timeout=2).close()
                return
            except OSError:
                time.sleep(0.1)
        self.kill()
        raise RuntimeError("the server doesn't answer")

    def kill(self) -> None:
        self.process.kill()
        self.process.wait()

    def stop(self) -> None:
        self.process.send_signal(signal.SIGTERM)
        self.process.wait(20)


class Driven:
    """A browser over a server."""

    def __init__(self, address: str, has_script: bool = True) -> None:
        said = webdriver.ChromeOptions()
        for word in ("--headless=new", "--no-sandbox", "--disable-dev-shm-usage", "--disable-gpu", "--lang=en-US", "--force-device-scale-factor=1"):
            said.add_argument(word)
        if not has_script:
            said.add_experimental_option("prefs", {"profile.managed_default_content_settings.javascript": 2})
        said.binary_location = CHROME or ""
        self.driver = webdriver.Chrome(service=Service(CHROMEDRIVER or ""), options=said)
        self.address = address

    def open(self, path: str) -> None:
        self.driver.get(self.address + path)

    @property
    def path(self) -> str:
        return str(self.driver.current_url).removeprefix(self.address)

    @property
    def text(self) -> str:
        return str(self.driver.find_element(By.TAG_NAME, "body").text)

    def all(self, chosen: str) -> list[Any]:
        return list(self.driver.find_elements(By.CSS_SELECTOR, chosen))

    def one(self, chosen: str) -> Any:
        return self.driver.find_element(By.CSS_SELECTOR, chosen)

    def start(self) -> None:
        self.open("/")
        self.press(self.one("form[action='/start'] button").click)

    @property
    def questions(self) -> dict[str, str]:
        """The questions of the page, and the key of each."""
        return {
            field.find_element(By.TAG_NAME, "legend").text: field.find_element(By.CSS_SELECTOR, "input[type=hidden]").get_attribute("name")[:-2]
            for field in self.all("fieldset.question")
        }

    def put(self, control: str, text: str) -> None:
        found = self.driver.find_element(By.ID, control)
        found.clear()
        found.send_keys(text)

    def forge(self, name: str, text: str) -> None:
        """Puts into a hidden control what the page didn't."""
        self.driver.execute_script("document.querySelector(`main form [name=${arguments[0]}]`).value = arguments[1]", name, text)

    def choose(self, control: str) -> None:
        found = self.driver.find_element(By.ID, control)
        if not found.is_selected():
            found.click()

    def fill(self, question: str, said: Any) -> None:
        """True and False, lists of names, days as ISO texts, numbers and texts; "~" for who can't say."""
        key = self.questions[question]
        if said == "~":
            self.choose(f"{key}-n")
        elif isinstance(said, bool):
            self.choose(key if said else f"{key}-2")
        elif isinstance(said, list):
            for number, name in enumerate(said):
                if not self.all(f"#{key}-{number}"):
                    self.press(self.one(f"button[value='add-name:{key}']").click)
                self.put(f"{key}-{number}", name)
            if not said:
                self.choose(f"{key}-none")
        elif self.all(f"#{key}-d"):
            for part, text in zip("ymd", said.split("-")):
                self.put(f"{key}-{part}", text)
        else:
            self.put(key, str(said))

    def press(self, act: Any) -> None:
        """Does what leads to another page, and waits for that."""
        old = self.one("html")
        act()
        for _ in range(600):
            try:
                old.tag_name
            except WebDriverException:
                return
            time.sleep(0.1)
        raise AssertionError("no other page has come")

    def go(self) -> None:
        self.press(self.one(".buttons button").click)

    def answer(self, known: dict[str, Any]) -> None:
        """Answers the questions of the page from what is known, and goes on."""
        for question in self.questions:
            self.fill(question, known[question])
        self.go()

    def interview(self, known: dict[str, Any], most: int = 40) -> None:
        """Answers page after page up to the result."""
        for _ in range(most):
            if not self.path.startswith("/questions"):
                return
            self.answer(known)
            assert not self.all(".summary"), self.text[:600]
        raise AssertionError("there is no end of questions")

    def width(self, width: int, height: int = 900) -> None:
        self.driver.execute_cdp_cmd("Emulation.setDeviceMetricsOverride", {"width": width, "height": height, "deviceScaleFactor": 1, "mobile": False})

    def overflow(self, width: int) -> int:
        """By how many pixels the page is wider than the window."""
        self.width(width)
        return int(self.driver.execute_script("return document.documentElement.scrollWidth")) - width

    def picture(self, path: pathlib.Path, width: int, most: int = 3000) -> None:
        self.width(width)
        height = int(self.driver.execute_script("return document.documentElement.scrollHeight"))
        self.width(width, min(max(height, 200), most))
        self.driver.save_screenshot(str(path))

    def quit(self) -> None:
        self.driver.quit()

"""The page in a browser, and in Chromium without a window and without a network. firefox.py has it in Firefox."""

from __future__ import annotations

import json
import os
import shutil
import time
from abc import ABC, abstractmethod
from contextlib import suppress
from importlib.util import find_spec
from pathlib import Path
from typing import Any, Callable, Sequence

with suppress(ImportError):
    from selenium import webdriver
    from selenium.webdriver.chrome.service import Service
    from selenium.webdriver.common.by import By

PATIENCE = float(os.environ.get("PAGE_PATIENCE", "120"))  # seconds
WORDS = "headless=new no-sandbox disable-gpu disable-dev-shm-usage hide-scrollbars".split()
OWN = ("file:", "blob:", "data:")


class Browser(ABC):
    """A browser with the page."""

    def __init__(self, downloads: Path) -> None:
        """`downloads` is the folder for what the page saves."""
        self.downloads, self.log, self.requests = downloads, list[str](), list[str]()

    @staticmethod
    @abstractmethod
    def lacking() -> str:
        """Why this browser can't be driven here, or nothing."""

    @abstractmethod
    def go(self, address: str) -> None:
        """Opens an address, and waits until all of it is there."""

    @abstractmethod
    def execute(self, script: str, *arguments: Any) -> Any:
        """Runs the body of a function in the page, and returns its result."""

    @abstractmethod
    def execute_async(self, script: str, *arguments: Any) -> Any:
        """Runs the body of a function in the page. Its last argument is a function that it calls with its result."""

    @abstractmethod
    def drop(self, files: Sequence[Path]) -> None:
        """Drops files and folders on the page, as the user's file manager would."""

    @abstractmethod
    def give(self, files: Sequence[Path], to: str = "files") -> None:
        """Chooses files, or one folder, as if the user had picked them."""

    @abstractmethod
    def collect(self) -> None:
        """Takes what the browser has logged since, and which addresses it requested besides the page's own."""

    @abstractmethod
    def close(self) -> None:
        """Ends the browser."""

    def open(self, page: Path) -> None:
        self.go(page.as_uri())
        self.wait_for("document.body.dataset.ready || !document.getElementById('complaint').hidden")

    def evaluate(self, expression: str, *arguments: Any) -> Any:
        return self.execute(f"return {expression}", *arguments)

    def wait_for(self, expression: str) -> bool:
        return self.wait(lambda: self.evaluate(f"Boolean({expression})"))

    def wait(self, is_so: Callable[[], Any]) -> bool:
        until = time.monotonic() + PATIENCE
        while not is_so():
            if time.monotonic() > until:
                return False
            time.sleep(0.02)
        return True

    def start_again(self) -> None:
        self.click("#again")

    def text(self, selector: str) -> str:
        """The text of an element, or nothing."""
        return str(self.evaluate("document.querySelector(arguments[0])?.innerText ?? ''", selector))

    def texts(self, selector: str) -> list[str]:
        return list(self.evaluate("Array.from(document.querySelectorAll(arguments[0]), (it) => it.innerText)", selector))

    def click(self, selector: str) -> None:
        self.execute("document.querySelector(arguments[0]).click()", selector)

    def downloaded(self, name: str) -> bytes:
        """The bytes of a file that the page saves."""
        path = self.downloads / name
        # Firefox begins with an empty file, and one beside it.
        self.wait(lambda: path.exists() and path.stat().st_size and not [*self.downloads.glob("*.part")])
        text = path.read_bytes() if path.exists() else b""
        path.unlink(missing_ok=True)
        return text


class Chromium(Browser):
    """Chromium without a window, and without a network except this machine's own."""

    def __init__(self, downloads: Path, width: int = 1400, height: int = 900, is_dark: bool = False) -> None:
        super().__init__(downloads)
        options = webdriver.ChromeOptions()
        options.binary_location = shutil.which("chromium")
        for word in [*WORDS, "host-resolver-rules=MAP * ~NOTFOUND , EXCLUDE 127.0.0.1"]:
            options.add_argument(f"--{word}")
        options.set_capability("goog:loggingPrefs", {"browser": "ALL", "performance": "ALL"})
        self.driver = webdriver.Chrome(service=Service(shutil.which("chromedriver")), options=options)
        self.driver.set_script_timeout(PATIENCE)
        self.command("Browser.setDownloadBehavior", behavior="allow", downloadPath=str(downloads))
        self.command("Emulation.setDeviceMetricsOverride", width=width, height=height, deviceScaleFactor=1, mobile=False)
        scheme = {"name": "prefers-color-scheme", "value": "dark" if is_dark else "light"}
        self.command("Emulation.setEmulatedMedia", features=[scheme])

    @staticmethod
    def lacking() -> str:
        if not (shutil.which("chromium") and shutil.which("chromedriver")):
            return "chromium and chromium-driver aren't installed"
        return "" if find_spec("selenium") else "python3-selenium isn't installed"

    def command(self, name: str, **arguments: Any) -> Any:
        return self.driver.execute_cdp_cmd(name, arguments)

    def go(self, address: str) -> None:
        self.driver.get(address)

    def execute(self, script: str, *arguments: Any) -> Any:
        return self.driver.execute_script(script, *arguments)

    def execute_async(self, script: str, *arguments: Any) -> Any:
        return self.driver.execute_async_script(script, *arguments)

    def give(self, files: Sequence[Path], to: str = "files") -> None:
        self.execute("document.getElementById(arguments[0]).hidden = false", to)
        self.driver.find_element(By.ID, to).send_keys("\n".join(map(str, files)))
        self.execute("document.getElementById(arguments[0]).hidden = true", to)

    def drop(self, files: Sequence[Path]) -> None:
        data = {"items": [], "files": [str(file) for file in files], "dragOperationsMask": 1}
        for step in ("dragEnter", "dragOver", "drop"):
            self.command("Input.dispatchDragEvent", type=step, x=400, y=300, data=data)

    def collect(self) -> None:
        self.log += [entry["message"] for entry in self.driver.get_log("browser")]
        events = [json.loads(entry["message"])["message"] for entry in self.driver.get_log("performance")]
        asked = [event["params"]["request"]["url"] for event in events if event["method"] == "Network.requestWillBeSent"]
        self.requests += [url for url in asked if not url.startswith(OWN)]

    def picture(self, path: Path) -> None:
        self.driver.get_screenshot_as_file(str(path))

    def close(self) -> None:
        self.driver.quit()

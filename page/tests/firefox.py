"""The page in Firefox, in a window on a screen in memory. Files are dragged onto it from another window, as from a file manager's.

    firefox.py FILE...

is that other window. It ends when its files were dropped.
"""

from __future__ import annotations

import json
import os
import shutil
import socket
import subprocess
import sys
from importlib.util import find_spec
from pathlib import Path
from typing import Any, Sequence

from browser import PATIENCE, Browser

WIDTH, HEIGHT = 1400, 900
HANDLE = (WIDTH + 50, HEIGHT // 2)  # a place in the window of files, which is to the right of Firefox's page
STEPS = 8  # in which the mouse goes from one to the other
SCREEN = f"Xvfb -displayfd 1 -screen 0 {WIDTH + 100}x{HEIGHT}x24 -nolisten tcp".split()
FIREFOX = "firefox-esr --marionette --remote-allow-system-access --no-remote --profile".split()
PREFERENCES = {"marionette.port": 0, "network.dns.disabled": True, "browser.download.folderList": 2}

# What Firefox knows of pages: their requests, as they begin, and their errors.
WATCH = """
window.asked = [];
Services.obs.addObserver((channel) => {
  const { URI, loadInfo } = channel.QueryInterface(Ci.nsIChannel);
  if (loadInfo.browsingContextID) window.asked.push(URI.spec);
}, "http-on-modify-request");
Services.console.reset();
"""
COLLECT = """
const errors = Services.console.getMessageArray().filter((each) => each instanceof Ci.nsIScriptError && !each.isFromChromeContext);
const found = [errors.map(String), window.asked];
window.asked = [];
Services.console.reset();
return found;
"""


class Firefox(Browser):
    """Firefox with a fresh profile, driven by its protocol Marionette."""

    def __init__(self, downloads: Path) -> None:
        super().__init__(downloads)
        self.count = 0
        self.environment = {**os.environ, "GDK_BACKEND": "x11"}
        self.processes: list[subprocess.Popen[str]] = []
        try:
            self.environment["DISPLAY"] = f":{self.begin(SCREEN, subprocess.PIPE).stdout.readline().strip()}"
            self.connect(downloads / "profile")
        except BaseException:
            self.close()
            raise

    @staticmethod
    def lacking() -> str:
        missing = [name for name in ("firefox-esr", "Xvfb", "xdotool") if not shutil.which(name)]
        missing += [] if find_spec("gi") else ["python3-gi"]
        return f"for Firefox these aren't installed: {', '.join(missing)}" if missing else ""

    def begin(self, words: Sequence[object], output: int = subprocess.DEVNULL) -> subprocess.Popen[str]:
        process = subprocess.Popen(words, env=self.environment, stdout=output, stderr=subprocess.DEVNULL, text=True)
        self.processes.append(process)
        return process

    def connect(self, profile: Path) -> None:
        """Starts Firefox, waits until it has written its port into a file, and begins a session."""
        profile.mkdir()
        preferences = {**PREFERENCES, "browser.download.dir": str(self.downloads)}
        lines = [f"user_pref({json.dumps(name)}, {json.dumps(value)});\n" for name, value in preferences.items()]
        (profile / "user.js").write_text("".join(lines))
        self.begin([*FIREFOX, profile])
        port = profile / "MarionetteActivePort"
        if not self.wait(lambda: port.exists() and port.read_text()):
            raise TimeoutError("Firefox doesn't start")
        self.stream = socket.create_connection(("127.0.0.1", int(port.read_text())), 3 * PATIENCE).makefile("rwb")
        self.read()
        self.call("WebDriver:NewSession")
        self.call("WebDriver:SetTimeouts", script=int(PATIENCE * 1000))
        self.call("WebDriver:SetWindowRect", x=0, y=0, width=WIDTH, height=HEIGHT)
        self.in_firefox(WATCH)

    def read(self) -> Any:
        """Reads a message: its length, a colon and JSON."""
        length = b""
        while (byte := self.stream.read(1)) != b":":
            length += byte
        return json.loads(self.stream.read(int(length)))

    def call(self, name: str, **arguments: Any) -> Any:
        self.count += 1
        text = json.dumps([0, self.count, name, arguments]).encode()
        self.stream.write(b"%d:%s" % (len(text), text))
        self.stream.flush()
        _, _, error, result = self.read()
        if error:
            raise RuntimeError(f"{name}: {error}")
        return result.get("value") if isinstance(result, dict) else result

    def in_firefox(self, script: str) -> Any:
        """Runs a script in Firefox itself, outside of pages."""
        self.call("Marionette:SetContext", value="chrome")
        try:
            return self.call("WebDriver:ExecuteScript", script=script, args=[])
        finally:
            self.call("Marionette:SetContext", value="content")

    def go(self, address: str) -> None:
        self.call("WebDriver:Navigate", url=address)

    def execute(self, script: str, *arguments: Any) -> Any:
        return self.call("WebDriver:ExecuteScript", script=script, args=arguments)

    def execute_async(self, script: str, *arguments: Any) -> Any:
        return self.call("WebDriver:ExecuteAsyncScript", script=script, args=arguments)

    def give(self, files: Sequence[Path], to: str = "files") -> None:
        self.execute("document.getElementById(arguments[0]).hidden = false", to)
        element = self.call("WebDriver:FindElement", using="css selector", value=f"#{to}")
        self.call("WebDriver:ElementSendKeys", id=next(iter(element.values())), text="\n".join(map(str, files)))
        self.execute("document.getElementById(arguments[0]).hidden = true", to)

    def drop(self, files: Sequence[Path]) -> None:
        window = self.begin([sys.executable, "-B", __file__, *files], subprocess.PIPE)
        window.stdout.readline()
        left, top = self.evaluate("[mozInnerScreenX + 400, mozInnerScreenY + 300]")
        self.mouse("mousemove", *HANDLE, "mousedown", 1)
        for step in range(1, STEPS + 1):
            self.mouse("mousemove", *(round(a + (b - a) * step / STEPS) for a, b in zip(HANDLE, (left, top))))
        if not window.stdout.readline():
            raise TimeoutError("Firefox doesn't take what is dragged")
        self.mouse("mouseup", 1)
        window.wait(PATIENCE)

    def mouse(self, *words: object) -> None:
        subprocess.run(["xdotool", *map(str, words)], env=self.environment, check=True)

    def collect(self) -> None:
        log, requests = self.in_firefox(COLLECT)
        self.log += log
        self.requests += requests

    def close(self) -> None:
        for process in reversed(self.processes):
            process.terminate()
            process.communicate()


def tell_action(_: Any, action: int) -> None:
    if action:
        print("taken", flush=True)


def offer(files: Sequence[Path]) -> None:
    """Shows a window from which files can be dragged, until they were dropped. Prints a line when that can begin, and one when the window
    below the mouse takes them."""
    import gi

    gi.require_version("Gdk", "3.0")
    gi.require_version("Gtk", "3.0")
    from gi.repository import Gdk, GLib, Gtk

    window = Gtk.Window(type=Gtk.WindowType.POPUP)
    window.move(WIDTH, 0)
    window.resize(100, HEIGHT)
    window.drag_source_set(Gdk.ModifierType.BUTTON1_MASK, [], Gdk.DragAction.COPY)
    window.drag_source_add_uri_targets()
    window.connect("map-event", lambda *_: print("shown", flush=True))
    window.connect("drag-begin", lambda _, drag: drag.connect("action-changed", tell_action))
    window.connect("drag-data-get", lambda _, drag, data, *more: data.set_uris([file.as_uri() for file in files]))
    window.connect("drag-end", lambda *_: Gtk.main_quit())
    GLib.timeout_add_seconds(int(PATIENCE), Gtk.main_quit)
    window.show_all()
    Gtk.main()


if __name__ == "__main__":
    offer([Path(name).resolve() for name in sys.argv[1:]])

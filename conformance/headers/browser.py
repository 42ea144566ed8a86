"""A browser without a window, driven as a person drives one: by its DevTools protocol, over two pipes.

    with browser.Browser("chromium-headless-shell", folder) as page:
        page.open("file:///tmp/zlib.html")
        page.write("crc32")
        page.press("Enter")
        page.text("h2")
"""

import base64
import itertools
import json
import os
import struct
import subprocess
import time
import zlib
from pathlib import Path

KEYS = {"Enter": ("Enter", 13, "\r"), "ArrowDown": ("ArrowDown", 40, ""), "ArrowUp": ("ArrowUp", 38, ""),
        "Escape": ("Escape", 27, ""), "Tab": ("Tab", 9, ""), "/": ("Slash", 191, "/")}
SECONDS = 60


class Failed(Exception):
    """What the browser says against a request, or that it says nothing."""


class Browser:
    """One page in a browser of its own."""

    def __init__(self, program: str, folder: Path, width: int = 1280, height: int = 900):
        to_browser, self._write = os.pipe()
        self._read, from_browser = os.pipe()
        words = [program, "--no-sandbox", "--disable-gpu", "--remote-debugging-pipe", "--force-color-profile=srgb",
                 f"--user-data-dir={folder}", f"--window-size={width},{height}"]
        # The protocol's pipes are the descriptors 3 and 4.
        script = f'exec 3<&{to_browser} 4>&{from_browser}; exec "$@"'
        self._ended = subprocess.Popen(["sh", "-c", script, "sh", *words], pass_fds=(to_browser, from_browser),
                                       stdout=subprocess.DEVNULL, stderr=subprocess.DEVNULL)
        os.close(to_browser)
        os.close(from_browser)
        self._numbers, self._held, self._session = itertools.count(1), b"", None
        self.requests: list[str] = []
        target = self.ask("Target.createTarget", url="about:blank", width=width, height=height)["targetId"]
        self._session = self.ask("Target.attachToTarget", targetId=target, flatten=True)["sessionId"]
        self.ask("Page.enable")
        self.ask("Network.enable")
        self.ask("Accessibility.enable")

    def __enter__(self) -> "Browser":
        return self

    def __exit__(self, *_) -> None:
        self._session = None
        try:
            self.ask("Browser.close")
            self._ended.wait(SECONDS)
        except (Failed, OSError, subprocess.TimeoutExpired):
            self._ended.kill()
            self._ended.wait()
        os.close(self._write)
        os.close(self._read)

    def _next(self) -> dict:
        while b"\0" not in self._held:
            found = os.read(self._read, 1 << 16)
            if not found:
                raise Failed("the browser ended")
            self._held += found
        message, self._held = self._held.split(b"\0", 1)
        return json.loads(message)

    def ask(self, method: str, **words) -> dict:
        number = next(self._numbers)
        message = {"id": number, "method": method, "params": words} | ({"sessionId": self._session} if self._session
                                                                       else {})
        os.write(self._write, json.dumps(message).encode() + b"\0")
        while True:
            told = self._next()
            if told.get("method") == "Network.requestWillBeSent":
                self.requests.append(told["params"]["request"]["url"])
            if told.get("id") == number:
                if "error" in told:
                    raise Failed(f"{method}: {told['error']['message']}")
                return told["result"]

    def value(self, expression: str):
        """What an expression of the page's script is."""
        told = self.ask("Runtime.evaluate", expression=expression, returnByValue=True, awaitPromise=True)
        if "exceptionDetails" in told:
            raise Failed(f"{expression}: {told['exceptionDetails']}")
        return told["result"].get("value")

    def open(self, url: str) -> None:
        self.ask("Page.navigate", url=url)
        end = time.monotonic() + SECONDS
        while self.value("document.readyState") != "complete" or self.value("location.href") == "about:blank":
            if time.monotonic() > end:
                raise Failed(f"{url} is not loaded")
            time.sleep(0.02)

    def write(self, text: str) -> None:
        """Writes where the focus is."""
        self.ask("Input.insertText", text=text)

    def press(self, key: str) -> None:
        code, number, text = KEYS[key]
        words = {"key": key, "code": code, "windowsVirtualKeyCode": number}
        self.ask("Input.dispatchKeyEvent", type="keyDown", **words, **({"text": text} if text else {}))
        self.ask("Input.dispatchKeyEvent", type="keyUp", **words)
        self.value("new Promise(done => setTimeout(done, 30))")

    def middle(self, selector: str) -> tuple[float, float]:
        """The middle of the first element of a selector, scrolled into view."""
        return tuple(self.value(f"(() => {{ const it = document.querySelector({json.dumps(selector)}); "
                                "it.scrollIntoView({block: 'nearest'}); const at = it.getBoundingClientRect(); "
                                "return [at.x + at.width / 2, at.y + at.height / 2]; })()"))

    def click(self, selector: str) -> None:
        x, y = self.middle(selector)
        for kind in ("mousePressed", "mouseReleased"):
            self.ask("Input.dispatchMouseEvent", type=kind, x=x, y=y, button="left", clickCount=1)
        self.value("new Promise(done => setTimeout(done, 30))")

    def text(self, selector: str) -> list[str]:
        """What is seen of the elements of a selector: those that are shown."""
        return self.value(f"[...document.querySelectorAll({json.dumps(selector)})].filter(it => it.checkVisibility())"
                          ".map(it => it.innerText.trim())")

    def spoken(self) -> list[tuple[str, str]]:
        """What a screen reader is told: role and name of each node."""
        nodes = self.ask("Accessibility.getFullAXTree")["nodes"]
        return [(each["role"]["value"], each.get("name", {}).get("value", "")) for each in nodes
                if not each.get("ignored")]

    def size(self, width: int, height: int) -> None:
        self.ask("Emulation.setDeviceMetricsOverride", width=width, height=height, deviceScaleFactor=1, mobile=False)

    def prefers(self, scheme: str) -> None:
        self.ask("Emulation.setEmulatedMedia", features=[{"name": "prefers-color-scheme", "value": scheme}])

    def picture(self, **words) -> bytes:
        """What is to be seen, as a PNG."""
        return base64.b64decode(self.ask("Page.captureScreenshot", format="png", **words)["data"])

    def colour(self, x: float, y: float) -> tuple[int, int, int]:
        """The colour of one point as it is seen."""
        return pixels(self.picture(clip={"x": x, "y": y, "width": 1, "height": 1, "scale": 1}))[0][0]


def pixels(png: bytes) -> list[list[tuple[int, int, int]]]:
    """The colours of a PNG of 8 bits a channel, row by row."""
    at, held, width, channels = 8, b"", 0, 0
    while at < len(png):
        length, kind = struct.unpack(">I4s", png[at:at + 8])
        part = png[at + 8:at + 8 + length]
        if kind == b"IHDR":
            width, _, _, colours = struct.unpack(">IIBB", part[:10])
            channels = {2: 3, 6: 4}[colours]
        held += part if kind == b"IDAT" else b""
        at += length + 12
    data, stride, rows, before = zlib.decompress(held), width * channels, [], bytes(width * channels)
    for start in range(0, len(data), stride + 1):
        row, how = bytearray(data[start + 1:start + 1 + stride]), data[start]
        for i in range(stride if how else 0):
            left, above = row[i - channels] if i >= channels else 0, before[i]
            corner = before[i - channels] if i >= channels else 0
            row[i] = row[i] + (0, left, above, (left + above) // 2, paeth(left, above, corner))[how] & 255
        before = bytes(row)
        rows.append([tuple(before[i:i + 3]) for i in range(0, stride, channels)])
    return rows


def paeth(left: int, above: int, corner: int) -> int:
    """The neighbour that is nearest to left + above - corner (PNG, 9.4)."""
    guess = left + above - corner
    return min((left, above, corner), key=lambda it: abs(guess - it))

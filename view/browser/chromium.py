"""Drives a headless Chromium over its debugging pipe, with the standard library alone."""

import base64
import json
import os
import subprocess
import tempfile
import time
from pathlib import Path
from typing import Any

#: What Chromium reads commands from and writes answers to.
_READS, _WRITES = 3, 4


class Chromium:
    """One page of a headless browser; used with `with`."""

    def __init__(self, binary: str = "chromium"):
        self._profile = tempfile.TemporaryDirectory()
        command_read, self._command = os.pipe()
        self._answer, answer_write = os.pipe()
        flags = [
            "--headless=new", "--no-sandbox", "--disable-gpu", "--hide-scrollbars", "--remote-debugging-pipe",
            f"--user-data-dir={self._profile.name}", "about:blank",
        ]
        script = f'exec "$@" {_READS}<&{command_read} {_WRITES}>&{answer_write}'
        self._process = subprocess.Popen(
            ["bash", "-c", script, "bash", binary, *flags], pass_fds=(command_read, answer_write),
            stdout=subprocess.DEVNULL, stderr=subprocess.DEVNULL,
        )
        os.close(command_read)
        os.close(answer_write)
        self._bytes = b""
        self._count = 0
        self._session: str | None = None
        self.errors: list[str] = []
        target = next(t for t in self.call("Target.getTargets")["targetInfos"] if t["type"] == "page")
        self._session = self.call("Target.attachToTarget", targetId=target["targetId"], flatten=True)["sessionId"]
        for domain in ("Page", "Runtime"):
            self.call(f"{domain}.enable")

    def __enter__(self) -> "Chromium":
        return self

    def __exit__(self, *_: object) -> None:
        self._process.terminate()
        self._process.wait()
        os.close(self._command)
        os.close(self._answer)
        for _ in range(20):
            try:
                self._profile.cleanup()
                return
            except OSError:
                time.sleep(0.1)

    def _message(self) -> dict[str, Any]:
        while b"\0" not in self._bytes:
            piece = os.read(self._answer, 1 << 20)
            if not piece:
                raise EOFError("Chromium has gone")
            self._bytes += piece
        message, _, self._bytes = self._bytes.partition(b"\0")
        return json.loads(message)

    def call(self, method: str, **params: Any) -> dict[str, Any]:
        """Calls a method of the debugging protocol and answers its result."""
        self._count += 1
        message = {"id": self._count, "method": method, "params": params}
        if self._session:
            message["sessionId"] = self._session
        os.write(self._command, json.dumps(message).encode() + b"\0")
        while True:
            answer = self._message()
            if answer.get("method") == "Runtime.exceptionThrown":
                details = answer["params"]["exceptionDetails"]
                self.errors.append(details.get("exception", {}).get("description", details["text"]))
            if answer.get("id") == self._count:
                if "error" in answer:
                    raise RuntimeError(f"{method}: {answer['error']['message']}")
                return answer["result"]

    def processor_seconds(self) -> dict[int, float]:
        """The processor's time that each of the browser's processes took so far."""
        page, self._session = self._session, None
        processes = self.call("SystemInfo.getProcessInfo")["processInfo"]
        self._session = page
        return {process["id"]: process["cpuTime"] for process in processes}

    def view(self, width: int, height: int, dark: bool = False) -> None:
        """The window's size, and whether the system asks for dark colours."""
        self.call("Emulation.setDeviceMetricsOverride", width=width, height=height, deviceScaleFactor=1, mobile=False)
        scheme = {"name": "prefers-color-scheme", "value": "dark" if dark else "light"}
        self.call("Emulation.setEmulatedMedia", features=[scheme])

    def open(self, page: Path, fragment: str = "") -> float:
        """Opens a file and waits until it is drawn; answers the processor's seconds, which are no more where others use it too."""
        before = self.processor_seconds()
        self.call("Page.navigate", url="about:blank")
        self.call("Page.navigate", url=page.resolve().as_uri() + fragment)
        while self.value("document.readyState") != "complete" or "file:" not in self.value("location.href"):
            time.sleep(0.02)
        self.settle()
        return sum(spent - before.get(process, 0) for process, spent in self.processor_seconds().items())

    def settle(self) -> None:
        """Waits until two frames are drawn."""
        self.value("new Promise(done => requestAnimationFrame(() => requestAnimationFrame(done)))")

    def value(self, expression: str) -> Any:
        """The value of an expression in the page."""
        answer = self.call("Runtime.evaluate", expression=expression, awaitPromise=True, returnByValue=True)
        if "exceptionDetails" in answer:
            details = answer["exceptionDetails"]
            raise RuntimeError(details.get("exception", {}).get("description", details["text"]))
        return answer["result"].get("value")

    def key(self, key: str, shift: bool = False) -> None:
        """Presses a key."""
        text = {"text": key} if len(key) == 1 else {"text": "\r"} if key == "Enter" else {}
        common = {"key": key, "modifiers": 8 if shift else 0}
        if key in ("Tab", "Enter", "Escape"):
            common["windowsVirtualKeyCode"] = {"Tab": 9, "Enter": 13, "Escape": 27}[key]
        self.call("Input.dispatchKeyEvent", type="keyDown", **common, **text)
        self.call("Input.dispatchKeyEvent", type="keyUp", **common)
        self.settle()

    def pointer(self, kind: str, x: float, y: float, **more: Any) -> None:
        """A pointer event: `mouseMoved`, `mousePressed`, `mouseReleased` or `mouseWheel`."""
        self.call("Input.dispatchMouseEvent", type=kind, x=x, y=y, **more)
        self.settle()

    def picture(self, file: Path, whole: bool = True) -> None:
        """Writes a picture of the page, whole or what the window shows."""
        answer = self.call("Page.captureScreenshot", format="png", captureBeyondViewport=whole)
        file.write_bytes(base64.b64decode(answer["data"]))

"""Chromium without a window, for scripts that look at pages."""

from __future__ import annotations

import base64
import json
import os
import shutil
import subprocess
import tempfile
import time
from typing import Any

# So long a page may take until it shows what is waited for, in seconds.
PATIENCE = 60
# What the document shows, as an object.
SEEN = """(() => {
  const rows = (id) => [...document.querySelectorAll(`#${id} tbody tr`)].map((row) =>
    [...row.children].map((cell) => cell.textContent));
  const text = (id) => (document.getElementById(id) || { textContent: null }).textContent;
  return JSON.stringify({
    step: Number(document.body.dataset.step), address: location.hash, shown: text("step"),
    event: text("event"), reply: text("reply"),
    ranks: [...document.querySelectorAll("[data-rank]")].map((panel) => Object.fromEntries(
      [...panel.querySelectorAll("[data-member]")].map((one) => [one.dataset.member, one.textContent]))),
    logger: rows("logger"), wires: rows("wires"), console: rows("console"), printed: text("printed"),
    markers: [...document.querySelectorAll("#program li")].map((line) =>
      line.querySelector(".marker").textContent),
    frames: document.querySelectorAll("#diagram [data-frame]").length,
  });
})()"""


def chromium() -> str | None:
    """The path of chromium, if it is there."""
    return shutil.which("chromium") or shutil.which("chromium-browser") or shutil.which("google-chrome")


class Wrong(Exception):
    """What is wrong with a page."""


class Browser:
    """Chromium without a window, driven over its DevTools protocol on a pair of pipes."""

    def __init__(self, path: str) -> None:
        self.home = tempfile.mkdtemp()
        there, self.to = os.pipe()
        self.of, back = os.pipe()
        # It reads from descriptor 3 and writes to 4. A page of the machine's own needs no sandbox.
        line = f'exec "$@" 3<&{there} 4>&{back}'
        words = ["--headless", "--no-sandbox", "--disable-gpu", "--remote-debugging-pipe", f"--user-data-dir={self.home}"]
        self.process = subprocess.Popen(
            ["bash", "-c", line, "bash", path, *words],
            pass_fds=(there, back), stdout=subprocess.DEVNULL, stderr=subprocess.DEVNULL,
        )
        os.close(there)
        os.close(back)
        self.left, self.number, self.errors = b"", 0, []
        self.session = None
        target = self.call("Target.createTarget", url="about:blank")["targetId"]
        self.session = self.call("Target.attachToTarget", targetId=target, flatten=True)["sessionId"]
        for domain in ("Page", "Runtime", "Log"):
            self.call(f"{domain}.enable")
        self.call("Emulation.setDeviceMetricsOverride", width=1200, height=900, deviceScaleFactor=1, mobile=False)

    def close(self) -> None:
        """Ends the browser."""
        os.close(self.to)
        self.process.terminate()
        self.process.wait()
        os.close(self.of)
        shutil.rmtree(self.home, ignore_errors=True)

    def call(self, method: str, **parameters: Any) -> dict[str, Any]:
        """The answer to a call; errors of the page that come before it are kept."""
        self.number += 1
        message = {"id": self.number, "method": method, "params": parameters}
        if self.session is not None:
            message["sessionId"] = self.session
        os.write(self.to, json.dumps(message).encode() + b"\0")
        while True:
            answer = self.message()
            if answer.get("id") == self.number:
                if "error" in answer:
                    raise Wrong(f"{method}: {answer['error'].get('message')}")
                return answer["result"]
            self.note(answer)

    def message(self) -> dict[str, Any]:
        """The next message of the browser."""
        while b"\0" not in self.left:
            more = os.read(self.of, 1 << 16)
            if not more:
                raise Wrong("the browser has ended")
            self.left += more
        text, self.left = self.left.split(b"\0", 1)
        return json.loads(text)

    def note(self, message: dict[str, Any]) -> None:
        """Keeps an error that the page reports."""
        method, about = message.get("method"), message.get("params", {})
        if method == "Runtime.exceptionThrown":
            self.errors.append(about["exceptionDetails"].get("text", "an exception"))
        elif method == "Log.entryAdded" and about["entry"]["level"] == "error":
            self.errors.append(about["entry"]["text"])
        elif method == "Runtime.consoleAPICalled" and about["type"] in ("error", "assert"):
            self.errors.append("console.error was called")

    def value(self, expression: str) -> Any:
        """The value of an expression in the page."""
        result = self.call("Runtime.evaluate", expression=expression, returnByValue=True)
        if "exceptionDetails" in result:
            raise Wrong(f"{expression[:40]}: {result['exceptionDetails'].get('text')}")
        return result["result"].get("value")

    def open(self, path: str) -> None:
        """Opens a file, and waits until it is shown."""
        self.call("Page.navigate", url="about:blank")
        self.call("Page.navigate", url=f"file://{path}")
        self.wait("document.readyState === 'complete' && document.body.dataset.step !== undefined", "the page shows no step")

    def wait(self, condition: str, otherwise: str) -> None:
        """Waits until an expression in the page is true."""
        ends = time.monotonic() + PATIENCE
        while not self.value(condition):
            if time.monotonic() > ends:
                raise Wrong(otherwise)
            time.sleep(0.01)

    def press(self, key: str) -> None:
        """Presses a key."""
        # (a key without a text does nothing to a button)
        text = {"text": TEXTS[key]} if key in TEXTS else {}
        self.call("Input.dispatchKeyEvent", type="keyDown" if text else "rawKeyDown", key=key, code=key, windowsVirtualKeyCode=KEYS[key], **text)
        self.call("Input.dispatchKeyEvent", type="keyUp", key=key, code=key, windowsVirtualKeyCode=KEYS[key])

    def go(self, step: int) -> None:
        """Goes to a step by the address."""
        self.value(f"location.hash = '#{step}'")
        self.wait(f"document.body.dataset.step === '{step}'", f"the address #{step} leads nowhere")

    def seen(self) -> dict[str, Any]:
        """What the document shows."""
        return json.loads(self.value(SEEN))

    def picture(self, path: str) -> None:
        """Writes a picture of the page."""
        data = self.call("Page.captureScreenshot", format="png")["data"]
        with open(path, "wb") as file:
            file.write(base64.b64decode(data))


KEYS = {"ArrowLeft": 37, "ArrowRight": 39, "Home": 36, "End": 35, "Tab": 9, "Enter": 13}
TEXTS = {"Enter": "\r"}

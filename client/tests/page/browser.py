"""Chromium without a window, by its DevTools protocol over two pipes."""
import base64
import fcntl
import json
import os
import select
import shutil
import subprocess
import tempfile
import time
from typing import Any, Dict, List, Optional

CHROMIUM = next(filter(None, map(shutil.which, ("chromium", "chromium-browser", "google-chrome"))), "")
# (tests run beside other work)
PATIENCE = 60.0


class Browser:
    def __init__(self) -> None:
        self.folder, self.number, self.data = tempfile.mkdtemp(), 0, b""
        theirs, self.to = os.pipe()
        self.from_, ours = os.pipe()
        high = [fcntl.fcntl(number, fcntl.F_DUPFD, 64) for number in (theirs, ours)]
        for number in (theirs, ours):
            os.close(number)
        flags = "--headless=new --no-sandbox --disable-gpu --disable-extensions --disable-background-networking --no-first-run --mute-audio --hide-scrollbars".split()
        command = [CHROMIUM, *flags, "--user-data-dir=" + self.folder, "--remote-debugging-pipe", "about:blank"]
        self.process = subprocess.Popen(
            command, pass_fds=(3, 4), stdin=subprocess.DEVNULL, stdout=subprocess.DEVNULL, stderr=subprocess.DEVNULL, start_new_session=True,
            preexec_fn=lambda: (os.dup2(high[0], 3), os.dup2(high[1], 4)),  # noqa: PLW1509
        )
        for number in high:
            os.close(number)

    def ask(self, method: str, session: str = "", patience: float = PATIENCE, **params: Any) -> Dict[str, Any]:
        """Calls a method. Returns its result."""
        self.number += 1
        message = {"id": self.number, "method": method, "params": params, **({"sessionId": session} if session else {})}
        data = json.dumps(message).encode() + b"\0"
        while data:
            data = data[os.write(self.to, data) :]
        end = time.monotonic() + patience
        while time.monotonic() < end:
            part, found, rest = self.data.partition(b"\0")
            if found:
                self.data, reply = rest, json.loads(part)
                if reply.get("id") == self.number:
                    if "error" in reply:
                        raise RuntimeError("%s: %s" % (method, reply["error"]["message"]))
                    return reply["result"]
            elif select.select([self.from_], [], [], 0.2)[0]:
                new = os.read(self.from_, 1 << 20)
                if not new:
                    raise RuntimeError("chromium has ended")
                self.data += new
        raise RuntimeError("chromium does not answer %s" % method)

    def open(self, address: str, width: int = 1440, height: int = 900, **options: Any) -> "Tab":
        target = self.ask("Target.createTarget", url="about:blank", **options)["targetId"]
        tab = Tab(self, self.ask("Target.attachToTarget", targetId=target, flatten=True)["sessionId"], target)
        tab.ask("Emulation.setDeviceMetricsOverride", width=width, height=height, deviceScaleFactor=1, mobile=False)
        tab.ask("Emulation.setFocusEmulationEnabled", enabled=True)
        tab.ask("Page.enable")
        tab.go(address)
        return tab

    def close(self) -> None:
        self.process.kill()
        self.process.wait()
        for number in (self.to, self.from_):
            os.close(number)
        shutil.rmtree(self.folder, ignore_errors=True)


class Tab:
    def __init__(self, browser: Browser, session: str, target: str):
        self.browser, self.session, self.target = browser, session, target

    def ask(self, method: str, **params: Any) -> Dict[str, Any]:
        return self.browser.ask(method, self.session, **params)

    def go(self, address: str) -> None:
        self.ask("Page.navigate", url=address)

    def run(self, script: str) -> Any:
        """Runs a script, or awaits its promise. Returns its value."""
        reply = self.ask("Runtime.evaluate", expression=script, returnByValue=True, awaitPromise=True, userGesture=True)
        if "exceptionDetails" in reply:
            raise RuntimeError(reply["exceptionDetails"].get("exception", {}).get("description") or reply["exceptionDetails"]["text"])
        return reply["result"].get("value")

    def wait(self, condition: str, seconds: float = PATIENCE) -> Any:
        """Waits until a condition is true. Returns its value."""
        end, fault = time.monotonic() + seconds, None  # type: float, Optional[Exception]
        while time.monotonic() < end:
            try:
                value, fault = self.run(condition), None
                if value:
                    return value
            except RuntimeError as why:
                fault = why
            time.sleep(0.02)
        raise AssertionError("not in %d s: %s %s; the page: %s" % (seconds, condition, fault or "", self.run("document.body.innerText")[:1500]))

    def press(self, key: str, text: str = "", modifiers: int = 0, code: int = 0) -> None:
        """Presses a key; `modifiers` is 2 for Ctrl."""
        text = text or (key if len(key) == 1 and not modifiers else "\r" if key == "Enter" and not modifiers else "")
        known = {"Enter": 13, "Escape": 27, "Tab": 9, "ArrowLeft": 37, "ArrowUp": 38, "ArrowRight": 39, "ArrowDown": 40, "End": 35, "Home": 36}
        what = {"key": key, "code": key, "windowsVirtualKeyCode": code or known.get(key, ord(key[0].upper())), "modifiers": modifiers}
        self.ask("Input.dispatchKeyEvent", type="keyDown", **what, **({"text": text} if text else {}))
        self.ask("Input.dispatchKeyEvent", type="keyUp", **what)

    def type(self, text: str) -> None:
        self.ask("Input.insertText", text=text)

    def look(self, theme: str) -> None:
        self.ask("Emulation.setEmulatedMedia", features=[{"name": "prefers-color-scheme", "value": theme}, {"name": "prefers-reduced-motion", "value": "reduce"}])

    def picture(self, path: str) -> None:
        self.run("new Promise(done => requestAnimationFrame(() => requestAnimationFrame(done)))")
        with open(path, "wb") as file:
            file.write(base64.b64decode(self.ask("Page.captureScreenshot", format="png")["data"]))

    def names(self) -> List[Dict[str, Any]]:
        """Returns role and name of each control by the accessibility tree."""
        nodes = self.ask("Accessibility.getFullAXTree")["nodes"]
        controls = ("button", "textbox", "searchbox", "checkbox", "radio", "tab", "listbox", "link", "separator", "DisclosureTriangle", "spinbutton")
        return [
            {"role": node["role"]["value"], "name": node.get("name", {}).get("value", "")}
            for node in nodes if not node.get("ignored") and node.get("role", {}).get("value") in controls
        ]

"""Chromium through Selenium, and Firefox through Marionette, the protocol that it has by itself: Debian has no geckodriver."""

from __future__ import annotations

import base64
import json
import shutil
import socket
import subprocess
import tempfile
import time
from pathlib import Path
from typing import Any, List

from selenium import webdriver
from selenium.webdriver.common.by import By

ELEMENT = "element-6066-11e4-a52e-4f735466cecf"


class Chromium:
    """Chromium without a window, on a screen of some width."""

    def __init__(self, width: int, dark: bool) -> None:
        options = webdriver.ChromeOptions()
        options.binary_location = "/usr/bin/chromium"
        for argument in ("--headless=new", "--no-sandbox", "--disable-dev-shm-usage", "--disable-gpu", "--hide-scrollbars"):
            options.add_argument(argument)
        options.set_capability("goog:loggingPrefs", {"browser": "ALL"})
        from selenium.webdriver.chrome.service import Service

        self.driver = webdriver.Chrome(service=Service("/usr/bin/chromedriver"), options=options)
        scheme = {"name": "prefers-color-scheme", "value": "dark" if dark else "light"}
        self.driver.execute_cdp_cmd("Emulation.setEmulatedMedia", {"features": [scheme]})
        size = {"width": width, "height": 1400, "deviceScaleFactor": 1, "mobile": False}
        self.driver.execute_cdp_cmd("Emulation.setDeviceMetricsOverride", size)

    def open(self, url: str) -> None:
        self.driver.get(url)

    def run(self, script: str, *values: Any) -> Any:
        return self.driver.execute_script(script, *values)

    def click(self, css: str) -> None:
        self.driver.find_element(By.CSS_SELECTOR, css).click()

    def type(self, css: str, text: str) -> None:
        self.driver.find_element(By.CSS_SELECTOR, css).send_keys(text)

    def screenshot(self, path: Path) -> None:
        self.driver.save_screenshot(str(path))

    def messages(self) -> List[str]:
        return [entry["message"] for entry in self.driver.get_log("browser")]

    def version(self) -> str:
        return f"Chromium {self.driver.capabilities['browserVersion']}"

    def close(self) -> None:
        self.driver.quit()


class Firefox:
    """Firefox without a window, on a screen of some width."""

    def __init__(self, width: int, dark: bool) -> None:
        self.profile = tempfile.mkdtemp()
        with socket.socket() as free:
            free.bind(("127.0.0.1", 0))
            port = free.getsockname()[1]
        settings = {
            "marionette.port": port,
            "layout.css.prefers-color-scheme.content-override": 0 if dark else 1,
            "app.update.enabled": False,
            "datareporting.policy.dataSubmissionEnabled": False,
        }
        lines = [f"user_pref({json.dumps(name)}, {json.dumps(value)});\n" for name, value in settings.items()]
        Path(self.profile, "user.js").write_text("".join(lines))
        # Its console is read with access to the browser's own scripts.
        command = ["firefox-esr", "--headless", "--marionette", "-remote-allow-system-access", "--no-remote", "--profile", self.profile]
        self.process = subprocess.Popen(command, stdout=subprocess.DEVNULL, stderr=subprocess.DEVNULL)
        self.number = 0
        try:
            self.socket = connected(port)
            self._received()
            self.capabilities = self._ask("WebDriver:NewSession", {"capabilities": {"alwaysMatch": {}}})["capabilities"]
            self._ask("WebDriver:SetWindowRect", {"width": width, "height": 1400})
            self._in_chrome("Services.console.reset();")
        except BaseException:
            self.process.kill()
            raise

    def _received(self) -> Any:
        length = b""
        while not length.endswith(b":"):
            length += self.socket.recv(1)
        left = int(length[:-1])
        data = b""
        while len(data) < left:
            data += self.socket.recv(left - len(data))
        return json.loads(data)

    def _ask(self, command: str, values: dict[str, Any]) -> Any:
        self.number += 1
        data = json.dumps([0, self.number, command, values]).encode()
        self.socket.sendall(f"{len(data)}:".encode() + data)
        _, number, error, result = self._received()
        assert number == self.number
        if error:
            raise RuntimeError(f"{command}: {error['error']}: {error['message']}")
        return result

    def _in_chrome(self, script: str) -> Any:
        self._ask("Marionette:SetContext", {"value": "chrome"})
        found = self._ask("WebDriver:ExecuteScript", {"script": script, "args": []})["value"]
        self._ask("Marionette:SetContext", {"value": "content"})
        return found

    def _find(self, css: str) -> str:
        return self._ask("WebDriver:FindElement", {"using": "css selector", "value": css})["value"][ELEMENT]

    def open(self, url: str) -> None:
        self._ask("WebDriver:Navigate", {"url": url})

    def run(self, script: str, *values: Any) -> Any:
        return self._ask("WebDriver:ExecuteScript", {"script": script, "args": list(values)})["value"]

    def click(self, css: str) -> None:
        self._ask("WebDriver:ElementClick", {"id": self._find(css)})

    def type(self, css: str, text: str) -> None:
        self._ask("WebDriver:ElementSendKeys", {"id": self._find(css), "text": text})

    def screenshot(self, path: Path) -> None:
        path.write_bytes(base64.b64decode(self._ask("WebDriver:TakeScreenshot", {"full": False})["value"]))

    def messages(self) -> List[str]:
        """What pages wrote to the console, and each error and warning of a page: of a script, a style sheet or a policy."""
        return self._in_chrome(
            """
            const storage = Cc["@mozilla.org/consoleAPI-storage;1"].getService(Ci.nsIConsoleAPIStorage);
            const written = storage.getEvents()
                .filter((it) => /^http:/.test(it.filename))
                .map((it) => `${it.level}: ${Array.from(it.arguments).join(" ")}`);
            const logged = Services.console.getMessageArray()
                .filter((it) => it instanceof Ci.nsIScriptError && /^http:/.test(it.sourceName))
                .map((it) => `${it.sourceName}: ${it.errorMessage}`);
            return [...written, ...logged];
            """
        )

    def version(self) -> str:
        return f"Firefox {self.capabilities['browserVersion']}"

    def close(self) -> None:
        try:
            self._ask("Marionette:Quit", {"flags": ["eForceQuit"]})
        finally:
            self.socket.close()
            self.process.wait(timeout=30)
            shutil.rmtree(self.profile, ignore_errors=True)


def connected(port: int) -> socket.socket:
    """A socket to a port that opens within a minute."""
    for _ in range(120):
        try:
            return socket.create_connection(("127.0.0.1", port), timeout=120)
        except ConnectionRefusedError:
            time.sleep(0.5)
    raise RuntimeError("Firefox doesn't open its port")

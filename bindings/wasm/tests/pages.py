"""What the tests of the page share: a server, and how a page is asked."""

from __future__ import annotations

import functools
import http.server
import sys
import threading
import time
from pathlib import Path
from typing import Any, Union

ROOT = Path(__file__).resolve().parents[3]
sys.path[:0] = [str(ROOT / "tests/model"), str(Path(__file__).parent)]
from browsers import Chromium, Firefox  # noqa: E402

Browser = Union[Chromium, Firefox]


class Server(http.server.SimpleHTTPRequestHandler):
    """`python3 -m http.server` without its log."""

    def log_message(self, *words: Any) -> None:
        pass


def served(folder: Path) -> http.server.ThreadingHTTPServer:
    handler = functools.partial(Server, directory=str(folder))
    server = http.server.ThreadingHTTPServer(("127.0.0.1", 0), handler)
    threading.Thread(target=server.serve_forever, daemon=True).start()
    return server


def address_of(server: http.server.ThreadingHTTPServer) -> str:
    return f"http://127.0.0.1:{server.server_address[1]}/web/"


def same(found: Any, wanted: Any, what: str = "") -> None:
    if found != wanted:
        raise AssertionError(f"{what}: {found!r} was found, {wanted!r} is wanted")


def wait(browser: Browser, script: str, seconds: int = 60) -> None:
    for _ in range(seconds * 10):
        if browser.run(f"return Boolean({script})"):
            return
        time.sleep(0.1)
    raise AssertionError(f"never true: {script}")


def opened(browser: Browser, url: str) -> None:
    browser.open(url)
    wait(browser, "'ready' in document.documentElement.dataset")


def text(browser: Browser, name: str) -> str:
    return browser.run("return document.getElementById(arguments[0]).textContent", name)


def fill(browser: Browser, values: dict[str, Any]) -> None:
    """Gives inputs values, without an event."""
    script = "for (const [id, value] of Object.entries(arguments[0])) document.getElementById(id).value = value"
    browser.run(script, values)


def error(browser: Browser) -> str | None:
    """The message that is shown, if one is."""
    return browser.run("const it = document.getElementById('error'); return it.hidden ? null : it.textContent")


def choose(browser: Browser, change: str) -> None:
    """Chooses what is changed on the way."""
    browser.run("const it = document.getElementById('change'); it.value = arguments[0]; it.dispatchEvent(new Event('change'))", change)


def drop(browser: Browser, name: str, data: bytes) -> None:
    """Drops a file on the page."""
    script = """
        const files = new DataTransfer();
        files.items.add(new File([Uint8Array.from(arguments[1])], arguments[0]));
        document.getElementById("drop").dispatchEvent(new DragEvent("drop", { dataTransfer: files, bubbles: true, cancelable: true }));
    """
    browser.run(script, name, list(data))

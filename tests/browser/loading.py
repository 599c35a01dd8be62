"""A page loads nothing, and its policy lets nothing be loaded."""

import functools
import http.server
import threading
import time
from pathlib import Path
from typing import Any

from tests.browser.browsers import Browser
from tests.shared.checks import check, same


class Asked(http.server.SimpleHTTPRequestHandler):
    """A server that keeps what it was asked for."""

    paths: list[str] = []

    def do_GET(self) -> None:
        self.paths.append(self.path)
        super().do_GET()

    def log_message(self, format: str, *words: Any) -> None:
        """Says nothing."""


LOADING = """(async (address) => {
    const done = [];
    new Image().src = `${address}/image`;
    for (const [name, key] of [["script", "src"], ["iframe", "src"], ["link", "href"]]) {
        const made = document.createElement(name);
        try {
            made.rel = "stylesheet";
            made[key] = `${address}/${name}`;
            document.body.append(made);
        } catch (error) {
            done.push(name);
        }
    }
    await fetch(`${address}/fetch`).catch(() => done.push("fetch"));
    const inline = document.createElement("style");
    inline.textContent = "h1 { color: rgb(1, 2, 3) }";
    document.head.append(inline);
    if (getComputedStyle(document.querySelector("h1")).color !== "rgb(1, 2, 3)") done.push("style");
    await new Promise((resume) => setTimeout(resume, 500));
    return done;
})"""


def check_policy(browser: Browser, page: Path) -> None:
    """Nothing is loaded, neither by the page nor by what might come into it."""
    Asked.paths.clear()
    handler = functools.partial(Asked, directory=page.parent)
    server = http.server.ThreadingHTTPServer(("127.0.0.1", 0), handler)
    threading.Thread(target=server.serve_forever, daemon=True).start()
    address = f"http://127.0.0.1:{server.server_port}"
    browser.go(f"{address}/{page.name}")
    browser.wait("document.documentElement.dataset.state === 'shown'")
    time.sleep(1)
    asked = [path for path in Asked.paths if path != "/favicon.ico"]
    same(asked, [f"/{page.name}"], f"{browser.name}: the page loads nothing")
    same(browser.messages(), [], f"{browser.name}: messages in the console over HTTP")
    Asked.paths.clear()
    told = browser.call(LOADING, address)
    same(Asked.paths, [], f"{browser.name}: the policy forbids loading")
    for name in ("fetch", "style"):
        check(name in told, f"{browser.name}: the policy forbids {name}", told)
    browser.messages()
    server.shutdown()

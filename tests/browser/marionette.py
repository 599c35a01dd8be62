"""Speaks Firefox's own protocol, Marionette, over its socket, for where there is no geckodriver.

A message is its length, a colon and JSON: `[0, number, command, words]` asks, `[1, number, error,
answer]` answers.
"""

import json
import shutil
import socket
import subprocess
import tempfile
import time
from pathlib import Path
from typing import Any

PREFERENCES = {
    "marionette.port": 0,  # any free one; it stands in a file then
    "browser.shell.checkDefaultBrowser": False,
    "browser.startup.homepage_override.mstone": "ignore",
    "datareporting.policy.dataSubmissionEnabled": False,
    "toolkit.telemetry.reportingpolicy.firstRun": False,
    "privacy.reduceTimerPrecision": False,
    "app.update.enabled": False,
    "network.captive-portal-service.enabled": False,
    "network.connectivity-service.enabled": False,
}


class MarionetteError(Exception):
    """What Firefox answers where it can't do what was asked."""


class Marionette:
    """A Firefox without a window, with a profile of its own."""

    def __init__(self, program: str) -> None:
        self.profile = Path(tempfile.mkdtemp(prefix="mmquery-firefox-"))
        lines = (f"user_pref({json.dumps(k)}, {json.dumps(v)});" for k, v in PREFERENCES.items())
        (self.profile / "user.js").write_text("\n".join(lines))
        words = [program, "--headless", "--marionette", "--remote-allow-system-access"]
        self.process = subprocess.Popen(
            [*words, "--no-remote", "--profile", str(self.profile)],
            stdout=subprocess.DEVNULL,
            stderr=subprocess.DEVNULL,
        )
        self.number = 0
        self.socket = self.connected()
        self.file = self.socket.makefile("rb")
        self.read()  # what it says of itself
        self.ask("WebDriver:NewSession", {"capabilities": {}})

    def connected(self) -> socket.socket:
        """A connection to the port that Firefox wrote into its profile."""
        port = self.profile / "MarionetteActivePort"
        end = time.time() + 180
        while time.time() < end and self.process.poll() is None:
            try:
                return socket.create_connection(("127.0.0.1", int(port.read_text())), 600)
            except (OSError, ValueError):
                time.sleep(0.1)
        self.process.kill()
        self.process.wait()
        shutil.rmtree(self.profile, ignore_errors=True)
        raise MarionetteError("firefox didn't open its port")

    def read(self) -> Any:
        """The next message."""
        length = b""
        while not length.endswith(b":"):
            byte = self.file.read(1)
            if not byte:
                raise MarionetteError("firefox closed the connection")
            length += byte
        return json.loads(self.file.read(int(length[:-1])))

    def ask(self, command: str, words: dict[str, Any] | None = None) -> Any:
        """Asks, and waits for the answer."""
        self.number += 1
        message = json.dumps([0, self.number, command, words or {}]).encode()
        self.socket.sendall(b"%d:%s" % (len(message), message))
        _, _, error, answer = self.read()
        if error:
            raise MarionetteError(f"{command}: {error.get('error')}: {error.get('message')}")
        is_value = isinstance(answer, dict) and set(answer) == {"value"}
        return answer["value"] if is_value else answer

    def as_browser(self, script: str, *words: Any) -> Any:
        """Runs a script with the browser's own rights."""
        self.ask("Marionette:SetContext", {"value": "chrome"})
        try:
            return self.ask("WebDriver:ExecuteScript", {"script": script, "args": list(words)})
        finally:
            self.ask("Marionette:SetContext", {"value": "content"})

    def close(self) -> None:
        """Ends it, and removes its profile."""
        try:
            self.ask("Marionette:Quit", {"flags": ["eForceQuit"]})
        except (MarionetteError, OSError):
            pass
        self.socket.close()
        try:
            self.process.wait(10)
        except subprocess.TimeoutExpired:
            self.process.kill()
            self.process.wait()
        shutil.rmtree(self.profile, ignore_errors=True)

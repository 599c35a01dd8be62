"""Chromium and WebKitGTK by selenium, Firefox by Marionette, behind one interface."""

import importlib
import os
import shutil
import subprocess
import tempfile
import time
from abc import ABC, abstractmethod
from pathlib import Path
from typing import Any

from tests.browser.marionette import Marionette
from tests.browser.scripts import GATHER
from tests.shared.checks import check, same


def optional(name: str) -> Any:
    """A module, or None where it isn't installed."""
    try:
        return importlib.import_module(name)
    except ImportError:
        return None


webdriver = optional("selenium.webdriver")
WINDOW = (1280, 900)  # the width and height of a page, but where narrower ones are tried
SCREEN = "1600x1200x24"  # wider and higher than WINDOW with a browser's own parts, 24 bits a dot


class Keys:
    """Keys that aren't letters, as browsers' drivers name them."""

    TAB = "\ue004"
    ENTER = "\ue007"
    ESCAPE = "\ue00c"
    SPACE = "\ue00d"
    DOWN = "\ue015"
    UP = "\ue013"
    RIGHT = "\ue014"


class Browser(ABC):
    """A browser without a window. Every message in its console is kept."""

    name: str

    @abstractmethod
    def go(self, address: str) -> None:
        """Opens an address."""

    @abstractmethod
    def run(self, script: str, *given: Any) -> Any:
        """What the body of a function returns in the page."""

    @abstractmethod
    def call(self, function: str, *given: Any) -> Any:
        """The answer of a function of the page that may wait."""

    @abstractmethod
    def press(self, *keys: str) -> None:
        """Presses keys, one after the other."""

    @abstractmethod
    def choose(self, selector: str, paths: list[Path]) -> None:
        """Gives files to a field for files."""

    @abstractmethod
    def size(self, width: int, height: int) -> bool:
        """Gives the page a size; whether that can be done."""

    @abstractmethod
    def emulate(self, scheme: str, media: str = "") -> bool:
        """Shows the page light or dark, printed or on a screen. Whether that can be done."""

    @abstractmethod
    def messages(self) -> list[str]:
        """What came into the console since the last time."""

    @abstractmethod
    def close(self) -> None:
        """Ends it."""

    def stays_silent(self, when: str) -> None:
        """Counts whether nothing came into the console, where that can be read."""
        same(self.messages(), [], f"{self.name}: messages in the console {when}")

    def wait(self, script: str, *given: Any, seconds: float = 30) -> Any:
        """Waits until an expression has a value that isn't false."""
        end = time.time() + seconds
        while time.time() < end:
            value = self.run(f"return {script}", *given)
            if value:
                return value
            time.sleep(0.01)
        return None

    def is_at(self, heading: str) -> Any:
        """Whether the view with this heading comes."""
        shown = "document.querySelector('#main h1')?.textContent"
        return self.wait(f"{shown} === arguments[0]", heading)

    def open(self, page: Path, address: str = "") -> None:
        """Opens a page anew, and waits until it shows something."""
        self.go("about:blank")
        self.go(f"{page.as_uri()}{address}")
        state = self.wait(
            "document.readyState === 'complete'"
            " && document.documentElement.dataset.state !== 'loading'"
            " && document.documentElement.dataset.state"
        )
        check(state == "shown", f"{self.name}: {page.name} opens", state or "nothing is shown")
        self.run(GATHER)

    def show(self, address: str, heading: str) -> dict[str, Any]:
        """What a view shows."""
        shown = self.call("gather", address, heading)
        return shown if isinstance(shown, dict) else {}

    def focused(self) -> Any:
        """What has the focus: tag, id, the beginning of its text, its name."""
        return self.run(
            "const at = document.activeElement;"
            "return [at.tagName, at.id, at.textContent.slice(0, 80), at.getAttribute('aria-label')]"
        )

    def tab_until(self, condition: str, most: int = 500) -> bool:
        """Presses the tabulator until the focused element fits; whether it came to one."""
        for _ in range(most):
            self.press(Keys.TAB)
            if self.run(f"const at = document.activeElement; return Boolean({condition})"):
                return True
        return False


class Driven(Browser):
    """A browser that selenium drives."""

    driver: Any

    def go(self, address: str) -> None:
        self.driver.get(address)

    def run(self, script: str, *given: Any) -> Any:
        return self.driver.execute_script(script, *given)

    def call(self, function: str, *given: Any) -> Any:
        return self.driver.execute_async_script(waiting(function), *given)

    def press(self, *keys: str) -> None:
        webdriver.ActionChains(self.driver).send_keys(*keys).perform()

    def choose(self, selector: str, paths: list[Path]) -> None:
        field = self.driver.find_element("css selector", selector)
        field.send_keys("\n".join(map(str, paths)))


class Chromium(Driven):
    """Chromium, by chromedriver."""

    name = "chromium"

    def __init__(self, *more: str) -> None:
        options = webdriver.ChromeOptions()
        options.binary_location = shutil.which("chromium")
        words = ("headless=new", "no-sandbox", "disable-gpu", "hide-scrollbars")
        for word in (*words, f"window-size={WINDOW[0]},{WINDOW[1]}", *more):
            options.add_argument(f"--{word}")
        options.set_capability("goog:loggingPrefs", {"browser": "ALL"})
        services = optional("selenium.webdriver.chrome.service")
        self.folder = tempfile.TemporaryDirectory(ignore_cleanup_errors=True)  # it leaves files
        surroundings = {**os.environ, "TMPDIR": self.folder.name}
        service = services.Service(shutil.which("chromedriver"), env=surroundings)
        self.driver = webdriver.Chrome(service=service, options=options)
        self.driver.set_script_timeout(500)
        self.size(*WINDOW)

    def size(self, width: int, height: int) -> bool:
        metrics = {"width": width, "height": height, "deviceScaleFactor": 1, "mobile": False}
        self.driver.execute_cdp_cmd("Emulation.setDeviceMetricsOverride", metrics)
        return True

    def emulate(self, scheme: str, media: str = "") -> bool:
        features = [{"name": "prefers-color-scheme", "value": scheme}]
        given = {"media": media, "features": features}
        self.driver.execute_cdp_cmd("Emulation.setEmulatedMedia", given)
        return True

    def messages(self) -> list[str]:
        return [entry["message"] for entry in self.driver.get_log("browser")]

    def names(self) -> list[dict[str, Any]]:
        """The tree that who doesn't see is told."""
        tree = self.driver.execute_cdp_cmd("Accessibility.getFullAXTree", {})
        return list(tree["nodes"])

    def close(self) -> None:
        self.driver.quit()
        self.folder.cleanup()


SCHEMES = {"dark": 0, "light": 1}


class Firefox(Browser):
    """Firefox, by Marionette."""

    name = "firefox"

    def __init__(self) -> None:
        self.marionette = Marionette(shutil.which("firefox-esr") or "firefox")
        self.marionette.ask("WebDriver:SetTimeouts", {"script": 500_000, "pageLoad": 120_000})
        self.page = "about:blank"
        self.size(*WINDOW)

    def go(self, address: str) -> None:
        self.page = address.split("#")[0]
        self.marionette.ask("WebDriver:Navigate", {"url": address})

    def run(self, script: str, *given: Any) -> Any:
        # What is defined on `window` has to be seen by later scripts.
        told = {"script": script, "args": list(given), "sandbox": None}
        return self.marionette.ask("WebDriver:ExecuteScript", told)

    def call(self, function: str, *given: Any) -> Any:
        told = {"script": waiting(function), "args": list(given), "sandbox": None}
        return self.marionette.ask("WebDriver:ExecuteAsyncScript", told)

    def press(self, *keys: str) -> None:
        actions = []
        for key in "".join(keys):
            actions += [{"type": "keyDown", "value": key}, {"type": "keyUp", "value": key}]
        source = {"type": "key", "id": "keys", "actions": actions}
        self.marionette.ask("WebDriver:PerformActions", {"actions": [source]})

    def choose(self, selector: str, paths: list[Path]) -> None:
        told = {"using": "css selector", "value": selector}
        (field,) = self.marionette.ask("WebDriver:FindElement", told).values()
        given = {"id": field, "text": "\n".join(map(str, paths))}
        self.marionette.ask("WebDriver:ElementSendKeys", given)

    def size(self, width: int, height: int) -> bool:
        size = {"width": width, "height": height}
        self.marionette.ask("WebDriver:SetWindowRect", size)
        inner = self.run("return [window.innerWidth, window.innerHeight]")
        more = {"width": 2 * width - inner[0], "height": 2 * height - inner[1]}
        self.marionette.ask("WebDriver:SetWindowRect", more)
        return bool(self.run("return window.innerWidth") == width)

    def emulate(self, scheme: str, media: str = "") -> bool:
        self.marionette.as_browser(
            "Services.prefs.setIntPref('layout.css.prefers-color-scheme.content-override',"
            " arguments[0]);"
            "gBrowser.selectedBrowser.browsingContext.mediumOverride = arguments[1];",
            SCHEMES[scheme],
            media,
        )
        time.sleep(0.1)
        return True

    def messages(self) -> list[str]:
        found = self.marionette.as_browser(
            "const found = Services.console.getMessageArray().map((one) => {"
            "  try { one.QueryInterface(Ci.nsIScriptError); } catch (error) { return null; }"
            "  return [one.sourceName, one.errorMessage];"
            "}).filter(Boolean);"
            "Services.console.reset();"
            "return found;"
        )
        name = self.page.rsplit("/", 1)[-1]
        return [text for source, text in found if source.split("#")[0].endswith(name)]

    def close(self) -> None:
        self.marionette.close()


# The browser that WebKitGTK comes with, in the folder of its version.
MINI_BROWSERS = "*/webkit2gtk-*/MiniBrowser"


def mini_browser() -> Path | None:
    """WebKitGTK's browser, where Debian's package puts it."""
    return next(iter(sorted(Path("/usr/lib").glob(MINI_BROWSERS))), None)


class Screen:
    """A screen that nobody sees, for a browser that needs one."""

    def __init__(self) -> None:
        words = ["Xvfb", "-displayfd", "1", "-screen", "0", SCREEN, "-nolisten", "tcp"]
        self.process = subprocess.Popen(
            words, stdout=subprocess.PIPE, stderr=subprocess.DEVNULL, text=True
        )
        assert self.process.stdout is not None
        self.name = f":{self.process.stdout.readline().strip()}"

    def close(self) -> None:
        """Takes it away."""
        self.process.terminate()
        self.process.wait()


class WebKit(Driven):
    """WebKitGTK's own browser, by its driver. Its console can't be read, and it can't be told to be
    light or dark."""

    name = "webkitgtk"

    def __init__(self) -> None:
        self.screen = Screen()
        options = importlib.import_module("selenium.webdriver.webkitgtk.options").Options()
        options.binary_location = str(mini_browser())
        options.add_argument("--automation")
        before = os.environ.get("DISPLAY")
        os.environ["DISPLAY"] = self.screen.name
        try:
            path = shutil.which("WebKitWebDriver")
            self.driver = webdriver.WebKitGTK(executable_path=path, options=options)
        finally:
            os.environ.pop("DISPLAY")
            if before is not None:
                os.environ["DISPLAY"] = before
        self.driver.set_script_timeout(500)
        self.size(*WINDOW)

    @staticmethod
    def is_here() -> bool:
        """Whether the browser, its driver and a screen are installed."""
        found = shutil.which("WebKitWebDriver") and shutil.which("Xvfb") and mini_browser()
        return webdriver is not None and bool(found)

    def size(self, width: int, height: int) -> bool:
        self.driver.set_window_rect(width=width, height=height)
        return bool(self.run("return window.innerWidth") == width)

    def emulate(self, scheme: str, media: str = "") -> bool:
        return False

    def messages(self) -> list[str]:
        return []

    def stays_silent(self, when: str) -> None:
        pass

    def close(self) -> None:
        self.driver.quit()
        self.screen.close()


def waiting(function: str) -> str:
    """A script that calls a function and waits for its answer."""
    return (
        "const done = arguments[arguments.length - 1];"
        f"({function})(...Array.from(arguments).slice(0, -1))"
        ".then(done, (error) => done({ error: String(error) }));"
    )


def missing() -> str | None:
    """What has to be installed before this test can run."""
    if webdriver is None or not shutil.which("chromium") or not shutil.which("chromedriver"):
        return "apt-get install chromium chromium-driver python3-selenium"
    if not shutil.which("firefox-esr") and not shutil.which("firefox"):
        return "apt-get install firefox-esr"
    return None


KINDS: dict[str, type[Browser]] = {"chromium": Chromium, "firefox": Firefox}
# The page that verifies is also tried in WebKitGTK, where that is installed.
VERIFYING_KINDS: dict[str, type[Browser]] = {**KINDS, "webkitgtk": WebKit}

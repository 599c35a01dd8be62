"""How large a page is, and how fast it shows what is asked for."""

from pathlib import Path
from typing import Any

from tests.browser.browsers import Browser, Keys
from tests.shared.checks import figure, same

# What is wanted of set.mm's page; bench/README.md has what was measured.
MOST_PAGE_BYTES = 12_000_000
MOST_SECONDS = 12
MOST_UNTIL_SHOWN = 1000  # milliseconds
MOST_FOR_A_KEY = 50
MOST_STALL = 100


def measure(browser: Browser, page: Path, took: float | None) -> None:
    """The figures of set.mm's page."""
    name = browser.name
    if took is not None:
        figure("bytes of the page", page.stat().st_size, MOST_PAGE_BYTES)
        figure("seconds to make it", round(took, 1), MOST_SECONDS, "s")
    for address in ("#theorem=2p2e4", "#theorem=zorn", "#chapter=2.6.1", "#"):
        value = least(lambda: time_to_show(browser, page, address), MOST_UNTIL_SHOWN * 0.8)
        what = f"{name}: milliseconds from opening {address} until it is shown"
        figure(what, value, MOST_UNTIL_SHOWN, "ms")
    stall = least(lambda: time_stalls(browser, page), MOST_STALL / 2, 3)
    what = f"{name}: milliseconds of the longest stall while the search is made ready"
    figure(what, stall, MOST_STALL, "ms")
    drawn = least(lambda: time_keys(browser, page), MOST_FOR_A_KEY * 0.8)
    figure(f"{name}: milliseconds of the slowest key in the search", drawn, MOST_FOR_A_KEY, "ms")
    drawings: list[float] = []
    stall = least(lambda: time_zoom(browser, page, drawings), MOST_STALL / 2)
    what = f"{name}: milliseconds of the longest stall while the picture is zoomed"
    figure(what, stall, MOST_STALL, "ms")
    what = f"{name}: milliseconds of the longest drawing of the picture"
    figure(what, min(drawings), MOST_STALL, "ms")
    same(browser.messages(), [], f"{name}: messages in the console while it was measured")


def least(take: Any, enough: float, tries: int = 4) -> float:
    """The least that is measured in some tries, since other work may go on beside it."""
    values: list[float] = []
    while len(values) < tries and not (values and min(values) <= enough):
        values.append(take())
    return min(values)


def time_to_show(browser: Browser, page: Path, address: str) -> float:
    """Milliseconds from opening an address until it is shown."""
    browser.open(page, address)
    return float(
        browser.run("return Math.round(performance.getEntriesByName('shown')[0].startTime)")
    )


FRAMES = """
window.gaps = [];
window.over = false;
let last = 0;
const frame = (now) => {
    if (last > 0) window.gaps.push(now - last);
    last = now;
    if (!window.over) requestAnimationFrame(frame);
};
requestAnimationFrame(frame);
"""


def longest_gap(browser: Browser) -> float:
    """The longest time between two frames since FRAMES ran, without its first two."""
    browser.run("window.over = true")
    return float(round(max(browser.run("return window.gaps.slice(2)"), default=0), 1))


def time_stalls(browser: Browser, page: Path) -> float:
    """The longest time between two frames while the texts of the search are made ready."""
    browser.open(page, "#theorem=2p2e4")
    browser.run(FRAMES)
    browser.call("searchReady")
    return longest_gap(browser)


def time_keys(browser: Browser, page: Path) -> float:
    """Types into the search: the longest that the page takes for a key."""
    browser.open(page, "#theorem=2p2e4")
    browser.call("searchReady")
    browser.run("document.activeElement.blur()")
    took = []
    for words in ("2p2e4", "( ph -> ps )", "zorn lemma", "choice", "e. RR", "discouraged"):
        browser.press("/")
        for sign in words:
            browser.press(sign)
            took.append(float(browser.run("return document.getElementById('search').dataset.took")))
        browser.press(Keys.ESCAPE, Keys.ESCAPE)
        browser.run("document.activeElement.blur()")
    return max(took)


def time_zoom(browser: Browser, page: Path, drawings: list[float]) -> float:
    """Zooms in and out by keys: the longest time between two frames."""
    browser.open(page)
    browser.wait("document.querySelector('canvas.picture')?.dataset.drawn")
    browser.call("searchReady")
    browser.run("document.querySelector('canvas.picture').focus()")
    browser.run(FRAMES)
    drawn = []
    for key in ["+"] * 12 + [Keys.DOWN] * 3 + ["-"] * 12 + ["0"]:
        browser.press(key)
        drawn.append(float(browser.run("return document.querySelector('.picture').dataset.drawn")))
    drawings.append(max(drawn[1:]))
    return longest_gap(browser)

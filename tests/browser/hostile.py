"""Pages of databases that do harm or lack something."""

import time
from pathlib import Path

from tests.browser.browsers import Browser
from tests.browser.databases import (
    COMMENTED,
    CORNERS,
    EVIL,
    EVIL_TITLE,
    EVIL_TYPESETTING,
    MISLEADING,
    OPEN,
    SHOWN_TITLE,
    endless,
)
from tests.browser.interface import check_narrow
from tests.browser.making import make_page
from tests.browser.scripts import CONTRAST
from tests.browser.truth import Truth
from tests.browser.views import Shown
from tests.shared.blocks import with_block
from tests.shared.checks import check, same

FAILED = "This can't be shown"
"""The heading of a view that could not be made."""
HEADING = "return document.querySelector('#main h1')?.textContent"


def check_hostile(browser: Browser, folder: Path, words: list[str], is_typeset: bool) -> Path:
    """A database with markup in all its texts, and a title with control bytes."""
    database = folder / '<b>&"evil".mm'
    text = EVIL + (EVIL_TYPESETTING if is_typeset else "") + (OPEN if "--open" in words else "")
    database.write_text(text, newline="")
    name = "".join(words).replace("|", "").replace(" ", "") + ("-typeset" if is_typeset else "")
    page = folder / f"hostile{name}.html"
    make_page(database, page, *words, "--title", EVIL_TITLE)
    truth = Truth(database, words)
    browser.open(page)
    same(browser.run("return document.title"), SHOWN_TITLE, "the title shows as text")
    heading = browser.run("return document.querySelector('h1').textContent")
    same(heading, SHOWN_TITLE, "the heading shows as text")
    made = browser.run("return document.getElementById('made').textContent")
    check('from <b>&"evil".mm, ' in made, "the file's name shows as text", made)
    shown = Shown(browser, truth)
    for label in truth.theorems:
        view = shown.theorem(label)
        if not is_typeset:
            shown.comment(view, label)
        for axiom in truth.marks(label):
            shown.chain(label, axiom, True)
    for label in truth.columns:
        shown.axiom(label)
    check_evil_comment(browser, words)
    if "--open" in words:
        kind = browser.show("#axiom=guess", "guess")["kind"]
        same(kind, "Open theorem", "an open theorem is told")
    if is_typeset:
        check_evil_symbols(browser, page)
    check_no_markup(browser, page)
    return page


def check_evil_comment(browser: Browser, words: list[str]) -> None:
    """The markup of a comment: what is kept, and what is text."""
    if words:
        return
    view = browser.show("#axiom=constructor", "constructor")
    for part in (
        "First </script><script>window.taken=1</script> and",
        "Second emphasis",
        "<style>",
        "See mmset.html#evil for more.",
    ):
        check(part in view["comment"], f"{browser.name}: a comment shows {part}", view["comment"])
    kept = browser.run(
        "const comment = document.getElementById('comment');"
        "return [comment.querySelectorAll('em').length, comment.querySelectorAll('strong').length,"
        " comment.querySelectorAll('[onclick]').length,"
        " Array.from(comment.querySelectorAll('a'), (link) => link.getAttribute('href'))]"
    )
    links = ["#axiom=constructor", "#search=%5BAuthor%5D", 'http://example.org/?a="b"']
    same(kept, [1, 1, 0, links], f"{browser.name}: what is kept of a comment's markup")
    same(view["discouraged"], ["New usage is discouraged"], f"{browser.name}: discouraged")
    view = browser.show("#axiom=__proto__", "__proto__")
    wanted = "Syntax with a form feed, a tab and a line feed. Another sentence."
    same(view["comment"], wanted, f"{browser.name}: white space of a comment")
    view = browser.show("#chapter=0.1", browser.run(TITLE_OF, "0.1"))
    check("Below </script>" in view["text"], f"{browser.name}: a chapter's text is text", view)


TITLE_OF = """
return Array.from(document.querySelectorAll("#place a")).find((link) =>
    link.getAttribute("href") === `#chapter=${arguments[0]}`).textContent;
"""


def check_evil_symbols(browser: Browser, page: Path) -> None:
    """A hostile `$t` comment runs nothing and hides nothing."""
    name = browser.name
    browser.open(page, "#axiom=ax-looks")
    text = browser.run("return document.querySelector('#statement').textContent")
    for part in ("gone away", "pale", "thin", "llat", "<a href", "<iframe", "far", "\ufffd", " - "):
        check(part in text, f"{name}: '{part}' is shown", text)
    hidden = browser.run(
        "return Array.from(document.querySelectorAll('#statement *'), (one) => one)"
        ".filter((one) => !one.checkVisibility({ opacityProperty: true, visibilityProperty: true })"
        " || one.getBoundingClientRect().width < 1"
        " || parseFloat(getComputedStyle(one).fontSize) < 8)"
        ".map((one) => one.outerHTML)"
    )
    same(hidden, [], f"{name}: hidden symbols")
    alike = browser.run(
        "return Array.from(document.querySelectorAll('.alike'), (one) => one.title)"
    )
    check("like" in alike, f"{name}: a symbol that looks like an earlier one is marked", alike)
    worst = browser.run(CONTRAST)
    check(worst["ratio"] >= 4.5, f"{name}: colours that can't be read aren't kept", worst)


def check_no_markup(browser: Browser, page: Path) -> None:
    """No element came of the texts, nothing ran, and the console is empty."""
    for address in ("", "#axiom=ax-looks", "#axiom=constructor", "#chapter=0.1", "#search=script"):
        browser.open(page, address)
        time.sleep(0.1)
        extra = browser.run(
            "return Array.from(document.querySelectorAll('img, iframe, object, link, base, form"
            ":not(#search-form), style, script:not([type=module]), [onclick], [onerror],"
            " [href^=javascript]'), (one) => one.outerHTML.slice(0, 80)).filter((one) =>"
            " !one.startsWith('<style>\\n/* Colours.') && !one.includes('octet-stream'))"
        )
        found = [extra, browser.run("return window.taken ?? null")]
        same(found, [[], None], f"{browser.name} {page.name}{address}: text is no markup")
    same(browser.messages(), [], f"{browser.name} {page.name}: messages in the console")


def check_corners(browser: Browser, folder: Path) -> None:
    """Databases in which something is missing, or which are made to hurt."""
    for name, text in CORNERS.items():
        database = folder / f"{name}.mm"
        database.write_text(text)
        page = folder / f"{name}.html"
        make_page(database, page)
        shown = Shown(browser, Truth(database))
        browser.open(page)
        for label in shown.truth.theorems:
            shown.theorem(label)
        for label in shown.truth.columns:
            shown.axiom(label)
        browser.open(page)
        found = browser.wait("document.querySelector('#main h1')")
        check(found, f"{browser.name} {name}: the overview")
        if name == "doubling":
            check_doubling(browser)
        if name == "labels":
            check_narrow(browser, page, ["#axiom=ax-mp"], folder)
        same(browser.messages(), [], f"{browser.name} {name}: messages in the console")


PLACES = """
const places = [];
const walker = document.createTreeWalker(document.querySelector("#statement .formula"), 4);
while (walker.nextNode()) {
    for (let at = 0; at < walker.currentNode.length; at++) {
        const range = document.createRange();
        range.setStart(walker.currentNode, at);
        range.setEnd(walker.currentNode, at + 1);
        places.push(range.getBoundingClientRect().left);
    }
}
return [document.getElementById("statement").textContent, places];
"""


def check_misleading(browser: Browser, folder: Path) -> None:
    """Formulas whose definitions would show them as others, and lists without end."""
    made_pages = {}
    for name, text in (("misleading", MISLEADING), ("endless", endless(20_000))):
        (folder / f"{name}.mm").write_text(text)
        made_pages[name] = folder / f"{name}.html"
        make_page(folder / f"{name}.mm", made_pages[name])
    for label, wanted in (
        ("turned", "(\u05d0\u2192\u05d1)"),
        ("struck", "r=\u25cc\u0338r"),
        ("hiding", "\ufffd\ufffdr"),
    ):
        browser.open(made_pages["misleading"], f"#axiom={label}")
        browser.is_at(label)
        text, places = browser.run(PLACES)
        same(text.replace(" ", "").removeprefix("|-"), wanted, f"{browser.name}: {label}")
        if label == "turned":
            same(places, sorted(places), f"{browser.name}: the order of signs")
    for address, label in (
        *(("axiom=given", "given"), ("axiom=told", "told"), ("axiom=apart", "apart")),
        *(("theorem=c20000", "c20000"), ("axiom=a7", "a7")),
    ):
        browser.open(made_pages["endless"])
        browser.run("window.location.hash = arguments[0]", f"#{address}")
        check(browser.is_at(label), f"{browser.name}: the view of {label}")
        size = browser.run("return document.querySelectorAll('*').length")
        check(size < 60_000, f"{browser.name}: elements of the view of {label}", size)
    same(browser.messages(), [], f"{browser.name}: messages in the console")


THROWS_ONCE = """
document.createElement = () => {
    delete document.createElement;
    throw new RangeError("no room");
};
"""


def check_failing(browser: Browser, folder: Path) -> None:
    """A view that can't be made says so: nothing of another one stands under its address. The same
    address shows its view where that can be made."""
    (folder / "commented.mm").write_text(COMMENTED)
    page, damaged = folder / "commented.html", folder / "damaged.html"
    make_page(folder / "commented.mm", page)
    text = page.read_text("utf-8")
    for name in ("comments-0", "chapter-texts"):
        text = with_block(text, name, b"not deflated")
    damaged.write_text(text, "utf-8")
    for address, heading in (("#axiom=told", "told"), ("#chapter=1", "A part")):
        browser.open(damaged, "#theorem=untold")
        check_view_fails(browser, address, "untold")
        browser.open(page, "#theorem=untold")
        check_view_is_made(browser, address, heading)
    for address, heading in (
        *(("#axiom=told", "told"), ("#chapter=1", "A part"), ("#search=a", "Search")),
        *(("#theorem=untold", "untold"), ("#", "commented.mm")),
    ):
        before, there = (
            ("#", "commented.mm") if "untold" in address else ("#theorem=untold", "untold")
        )
        browser.open(page, before)
        browser.run(THROWS_ONCE)
        check_view_fails(browser, address, there)
        check_view_is_made(browser, before, there)
        check_view_is_made(browser, address, heading)
    browser.messages()


def check_view_fails(browser: Browser, address: str, before: str) -> None:
    """The view at an address can't be made, and in place of the view with the heading `before` the
    page says so."""
    when = f"{browser.name}: after {before}, {address}"
    check(before in str(browser.run(HEADING)), f"{when}: the view before")
    browser.run("window.location.hash = arguments[0]", address)
    check(browser.is_at(FAILED), f"{when}: {FAILED}", browser.run(HEADING))
    left = browser.run("return document.querySelectorAll('#main > *').length")
    same(left, 4, f"{when}: parts of the view")
    title = browser.run("return document.title")
    same(title, "Not shown \u2014 commented.mm", f"{when}: the title")


def check_view_is_made(browser: Browser, address: str, heading: str) -> None:
    """The view at an address can be made, and has this heading."""
    browser.run("window.location.hash = arguments[0]", address)
    shown = "document.querySelector('#main h1')?.textContent.startsWith(arguments[0])"
    told = f"{browser.name}: {address} shows {heading}"
    check(browser.wait(shown, heading), told, browser.run(HEADING))


def check_doubling(browser: Browser) -> None:
    """Proofs of which a formula is cut, or whose formulas are too long, and one beside them."""
    for label, wanted in (
        ("small", "2 steps, and 2 others, which only build formulas."),
        ("long", "2 steps, and 18 others, which only build formulas."),
        ("large", "Its formulas have more than 20,000,000 signs together, too many to be shown"),
    ):
        browser.run("window.location.hash = `#theorem=${arguments[0]}`", label)
        browser.is_at(label)
        told = browser.wait(
            "document.querySelector('#proof [aria-busy=false]')?.innerText.trim()", seconds=60
        )
        check(wanted in str(told), f"{browser.name}: the proof of {label}", str(told)[:300])
        size = browser.run("return document.getElementById('proof').textContent.length")
        check(size < 100_000, f"{browser.name}: what is shown of the proof of {label}", size)

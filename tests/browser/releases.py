"""The page of a release beside the one before: what it says of the difference."""

from pathlib import Path

from tests.browser.browsers import Browser
from tests.browser.databases import NEWER, OLDER
from tests.browser.making import make_page
from tests.shared.checks import check, same


def check_against(browser: Browser, folder: Path) -> None:
    """A release beside the one before: what is new, gone and renamed, what gained axioms, why."""
    for name, text in (("older", OLDER), ("newer", NEWER)):
        (folder / f"{name}.mm").write_text(text)
    page = folder / "against.html"
    make_page(folder / "newer.mm", page, "--against", str(folder / "older.mm"), "--watch", "ax-2")
    browser.open(page, "#difference")
    view = browser.show("#difference", "Since older.mm")
    text = " ".join(view["text"].split())
    for part in (
        "3new axioms",
        "New theorems: 1",
        "Renamed: 1",
        "renamed was old",
        "Changed statementsNone.",
        "Gone theorems: 1",
        "gone |- B",
        "ax-2 3 theorems",
        "since b now cites c",
        "since d no longer cites ax-1",
    ):
        check(part in text, f"{browser.name}: the difference tells '{part}'", text)
    view = browser.show("#theorem=b", "b")
    for part in ("gainedax-2since b now cites c", "gainedax-5since b now cites ax-5", "lostax-1"):
        check(part in view["since"], f"{browser.name}: b tells '{part}'", view["since"])
    view = browser.show("#theorem=renamed", "renamed")
    check("Its label was old." in view["since"], f"{browser.name}: a renamed one", view["since"])
    view = browser.show("#theorem=fresh", "fresh")
    check("It is new." in view["since"], f"{browser.name}: a new one", view["since"])
    view = browser.show("#theorem=c", "c")
    same(view["since"], "", f"{browser.name}: one that is as it was")
    view = browser.show("#chapter=1.1", "Chapter one")
    for part in ("4 new", "1 gone", "1 renamed"):
        check(part in view["since"], f"{browser.name}: the chapter tells '{part}'", view["since"])
    same(view["shares"][0][0], "ax-2", f"{browser.name}: the watched axiom comes first")
    same(browser.messages(), [], f"{browser.name}: messages in the console of two releases")

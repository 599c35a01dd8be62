"""Tries the page in Chromium and Firefox.

Usage: python3 -m tests.browser [--small | --measure] [--only BROWSER] [--database NAME]
                                      [--seed N] [--theorems N] [--axioms N] [--keep FOLDER]

Pages of demo0, ql, hol, iset and set.mm of Debian are made and opened, and those of databases that
are written to do harm. What they show is compared with the program's reports, conditions of
distinct variables with metamath.exe, symbols with the `$t` comment by a reader of this test's own.
--small leaves set.mm out; --measure takes only its figures; --keep writes the pages into a folder.
The figures are printed; the last line is `N passed, M failed`. Status 1 is a failure, and 2 that a
browser, metamath or a database isn't here.
"""

import argparse
import contextlib
import random
import shutil
import signal
import sys
import tempfile
from pathlib import Path

from tests.browser import browsers, figures, hostile, interface, proofs, refusals, views
from tests.browser.browsers import Browser
from tests.browser.loading import check_policy
from tests.browser.making import make_page
from tests.browser.releases import check_against
from tests.browser.truth import Truth, metamath_conditions
from tests.browser.views import Shown
from tests.shared.checks import check, checks, figure, same
from tests.shared.samples import DEBIAN_DATABASES


def missing(what: str) -> None:
    """Ends the test: something isn't here."""
    print(f"browser: {what}", file=sys.stderr)
    sys.exit(2)


def options_of() -> argparse.Namespace:
    """The words of the command line."""
    parser = argparse.ArgumentParser(description=(__doc__ or "").split("\n", maxsplit=1)[0])
    parser.add_argument("--small", action="store_true")
    parser.add_argument("--measure", action="store_true")
    parser.add_argument("--only", choices=list(browsers.KINDS))
    parser.add_argument("--database", help="only this one of Debian, and nothing else")
    parser.add_argument("--seed", type=int, default=random.randrange(10**6))
    parser.add_argument("--theorems", type=int, default=300)
    parser.add_argument("--axioms", type=int, default=50)
    parser.add_argument("--keep", type=Path)
    return parser.parse_args()


class Pages:
    """The pages of the databases, made once for both browsers."""

    def __init__(self, folder: Path, options: argparse.Namespace) -> None:
        self.folder = folder
        self.options = options
        self.made: dict[str, tuple[Path, Truth | None, float]] = {}

    def page(self, name: str) -> tuple[Path, Truth, float]:
        """The page of a database, the truth on it, and how long it took."""
        database = DEBIAN_DATABASES / f"{name}.mm"
        page = self.folder / f"{name}.html"
        if name not in self.made:
            took = make_page(database, page)
            self.made[name] = (page, Truth(database), took)
            figure(f"bytes of the page of {name}.mm", page.stat().st_size, figures.MOST_PAGE_BYTES)
        page, truth, took = self.made[name]
        assert truth is not None
        return page, truth, took


def try_hostile(browser: Browser, folder: Path) -> None:
    """Databases that are written for this test."""
    page = hostile.check_hostile(browser, folder, [], False)
    hostile.check_hostile(browser, folder, [], True)
    for words in (["--only", "|-"], ["--only", "|-", "--open", "--essential"]):
        hostile.check_hostile(browser, folder, words, False)
    check_policy(browser, page)
    hostile.check_corners(browser, folder)
    hostile.check_misleading(browser, folder)
    hostile.check_failing(browser, folder)
    check_against(browser, folder)


def try_database(browser: Browser, pages: Pages, name: str, rng: random.Random) -> None:
    """A page of a database of Debian."""
    page, truth, _ = pages.page(name)
    options = pages.options
    is_large = name == "set"
    theorems = views.some(rng, truth.theorems, options.theorems if is_large else 30)
    axioms = views.some(rng, truth.columns, options.axioms if is_large else 10)
    browser.open(page)
    shown = Shown(browser, truth)
    views.check_sample(shown, theorems, axioms, rng)
    proofs.check_steps(browser, truth, theorems[:20])
    interface.check_chapters(browser, page, truth, rng, 12 if is_large else 4)
    interface.check_search(browser, page, truth, rng, 25)
    interface.check_told(browser, page, truth)
    interface.check_history(type(browser), page, theorems[:3])
    interface.check_cells(browser, page, truth, rng, 20)
    deep = max(theorems[:5], key=lambda label: len(truth.marks(label)))
    used = [label for label in truth.columns if truth.users[label]]
    numbers = [number for number, _, _ in truth.headings]
    chapter = [f"#chapter={rng.choice(numbers)}"] if numbers else []
    addresses = ["", f"#theorem={deep}", f"#axiom={used[-1]}", *chapter, "#search=a"]
    interface.check_looks(browser, page, addresses, pages.folder)
    axiom = next(one for one in truth.marks(deep) if one in used and truth.group(one) != "syntax")
    other = next(label for label in used if label != axiom)
    interface.check_keyboard(browser, page, truth, deep, axiom, other)
    if shown.known:
        interface.check_switch(browser, page, truth, deep)
        given = next((label for label in theorems if truth.hypotheses[label]), deep)
        interface.check_spelling(browser, page, truth, given)
    same(browser.messages(), [], f"{browser.name} {page.name}: messages in the console")
    print(f"{browser.name} {name}: {checks.passed} passed so far", flush=True)


def try_set(browser: Browser, pages: Pages) -> None:
    """What is known of set.mm."""
    page, truth, _ = pages.page("set")
    shown = Shown(browser, truth)
    browser.open(page)
    known = metamath_conditions(truth.path, ["ax-sep", "zorn", "ax-5", "zorn2lem4"])
    for label, pairs in known.items():
        view = shown.theorem(label) if label in truth.cited else shown.axiom(label)
        shown.conditions(view, label, pairs)
        shown.comment(view, label)
    views.check_colours(browser, page, "zorn", truth)
    interface.check_distinct_marks(browser, page, "zorn", "ax-5")
    browser.open(page)
    browser.call("searchReady")
    best, _ = browser.run(interface.FIND, "zorn lemma")
    same(best[:1], ["zorn"], f"{browser.name}: `zorn lemma` finds `zorn` first")
    best, _ = browser.run(interface.FIND, "lemma zorn")
    same(best[:1], ["zorn"], f"{browser.name}: and so does `lemma zorn`")
    _, told = browser.run(interface.FIND, "∃y∀x(x∈y")
    check(interface.number_in(told) > 0, f"{browser.name}: plain letters find shown ones", told)
    interface.check_reachable(browser, page, truth, "discouraged", True)
    same(browser.messages(), [], f"{browser.name}: messages in the console of set.mm's page")


def names_of(options: argparse.Namespace) -> list[str]:
    """The databases that are asked for. Ends the test where something isn't here."""
    lacking = browsers.missing()
    if lacking:
        missing(f"no browsers to try the page in: {lacking}")
    if not shutil.which("metamath"):
        missing("there is no metamath: apt-get install metamath")
    names = ["demo0", "hol", "ql", "iset"] + ([] if options.small else ["set"])
    names = [name for name in names if options.database in (None, name)]
    for name in names:
        if not (DEBIAN_DATABASES / f"{name}.mm").exists():
            missing(f"there is no {DEBIAN_DATABASES / name}.mm: apt-get install metamath-databases")
    return names


def main() -> None:
    """Runs the test."""
    options = options_of()
    names = names_of(options)
    # So that the browsers end, too.
    signal.signal(signal.SIGTERM, lambda *_: sys.exit(143))
    print(f"seed {options.seed}", flush=True)
    kinds = [kind for name, kind in browsers.KINDS.items() if options.only in (None, name)]
    with contextlib.ExitStack() as stack:
        folder = Path(stack.enter_context(tempfile.TemporaryDirectory()))
        if options.keep:
            options.keep.mkdir(parents=True, exist_ok=True)
            folder = options.keep.resolve()
        pages = Pages(folder, options)
        is_partial = options.measure or options.database is not None
        if not is_partial:
            refusals.check_refusals(folder)
        for at, kind in enumerate(kinds):
            browser = kind()
            stack.callback(browser.close)
            rng = random.Random(options.seed + at)
            if not is_partial:
                try_hostile(browser, folder)
            if not options.measure:
                for name in names:
                    try_database(browser, pages, name, rng)
            if "set" in names:
                page, _, took = pages.page("set")
                if not options.measure:
                    try_set(browser, pages)
                figures.measure(browser, page, took if at == 0 else None)
    checks.end()


if __name__ == "__main__":
    main()

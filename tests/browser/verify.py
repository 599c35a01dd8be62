"""Tries mmdepend.html in Chromium, in Firefox, and in WebKitGTK where that is installed.

Usage: python3 -m tests.browser.verify [MODULE] [--small | --measure] [--only BROWSER] [--seed N]
                                       [--theorems N] [--axioms N] [--keep FOLDER]

MODULE is the file of the program's core in WebAssembly; without it, answers of the program stand
for it. Files are dropped and chosen, refused, cancelled and compared; the blocks that the page
makes are compared with those of `mmquery page`, and what it shows of 300 theorems and 50 axioms of
set.mm with the program's reports. --small leaves set.mm out; --measure takes only the figures. The
program is `mmdepend`, or what the variable MMDEPEND names. The last line is `N passed, M
failed`; the status is 1 after a failure, and 2 where a browser or a database isn't here.
"""

import argparse
import contextlib
import os
import random
import shutil
import signal
import sys
import tempfile
from pathlib import Path

from tests.browser import browsers, verifying, views
from tests.browser.browsers import Browser, WebKit
from tests.browser.truth import PROGRAM
from tests.browser.verifying import Files
from tests.browser.views import Shown, check_sample
from tests.shared.checks import checks
from tests.shared.samples import DEBIAN_DATABASES


def options_of() -> argparse.Namespace:
    """The words of the command line."""
    form = argparse.RawDescriptionHelpFormatter
    parser = argparse.ArgumentParser(description=__doc__, formatter_class=form)
    parser.add_argument("module", metavar="MODULE", nargs="?", type=Path)
    parser.add_argument("--small", action="store_true")
    parser.add_argument("--measure", action="store_true")
    parser.add_argument("--only", choices=list(browsers.VERIFYING_KINDS))
    parser.add_argument("--seed", type=int, default=random.randrange(10**6))
    parser.add_argument("--theorems", type=int, default=300)
    parser.add_argument("--axioms", type=int, default=50)
    parser.add_argument("--keep", type=Path)
    return parser.parse_args()


def missing() -> str | None:
    """What isn't here."""
    if not shutil.which("metamath"):
        return "apt-get install metamath"
    if not (DEBIAN_DATABASES / "set.mm").exists():
        return "apt-get install metamath-databases"
    return browsers.missing()


def try_browser(browser: Browser, files: Files, options: argparse.Namespace, seed: int) -> None:
    """All of it in one browser."""
    rng = random.Random(seed)
    verifying.check_start(browser, files)
    verifying.check_policy(browser, files)
    verifying.check_workers(browser, files)
    verifying.check_refusals(browser, files)
    verifying.check_drop(browser, files)
    verifying.check_again(browser, files)
    verifying.check_pair(browser, files)
    verifying.check_hostile(browser, files)
    verifying.check_cancel(browser, files)
    for name in files.names:
        truth = verifying.check_database(browser, files, name)
        if truth is not None:
            is_large = name == "set"
            theorems = views.some(rng, truth.theorems, options.theorems if is_large else 20)
            axioms = views.some(rng, truth.columns, options.axioms if is_large else 10)
            check_sample(Shown(browser, truth), theorems, axioms, rng)
        print(f"{browser.name} {name}: {checks.passed} passed so far", flush=True)


def main() -> None:
    """Runs the tests."""
    options = options_of()
    lacking = missing()
    if lacking:
        print(f"check: {lacking}", file=sys.stderr)
        sys.exit(2)
    os.environ["MMDEPEND"] = PROGRAM
    signal.signal(signal.SIGTERM, lambda *_: sys.exit(143))  # so that the browsers end, too
    print(f"seed {options.seed}", flush=True)
    kinds = [
        kind
        for name, kind in browsers.VERIFYING_KINDS.items()
        if options.only in (None, name) and (name != "webkitgtk" or WebKit.is_here())
    ]
    if WebKit not in kinds:
        print("WebKitGTK is left out: apt-get install webkit2gtk-driver xvfb", flush=True)
    with contextlib.ExitStack() as stack:
        folder = Path(stack.enter_context(tempfile.TemporaryDirectory()))
        if options.keep:
            options.keep.mkdir(parents=True, exist_ok=True)
            folder = options.keep.resolve()
        files = Files(folder, options.module and options.module.resolve(), not options.small)
        for at, kind in enumerate(kinds):
            browser = kind()
            stack.callback(browser.close)
            if not options.measure:
                try_browser(browser, files, options, options.seed + at)
            for name in files.names:
                if name in verifying.MOST_SECONDS:
                    verifying.measure(kind, files, name)
        if options.module and options.only in (None, "chromium"):
            verifying.check_little_memory(files)
    checks.end()


if __name__ == "__main__":
    main()

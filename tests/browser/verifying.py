"""The page that verifies: from a file that is dropped or chosen to the page of its database.

Without a module the answers of the program stand for those of the core (`library_stub.js`).
"""

import base64
import functools
import gzip
import hashlib
import http.server
import json
import os
import subprocess
import threading
import time
from collections.abc import Iterable
from pathlib import Path

from query.program.refusals import FAULTS
from query.reports.choice import Options
from tests.browser import proofs
from tests.browser.browsers import WINDOW, Browser, Chromium, Keys, WebKit
from tests.browser.databases import EVIL, EVIL_TYPESETTING, NEWER, OLDER, OPEN
from tests.browser.interface import LEAST_CONTRAST
from tests.browser.loading import Asked
from tests.browser.making import run
from tests.browser.scripts import CONTRAST, GATHER, NAMES, TARGETS
from tests.browser.truth import HERE, PROGRAM, Truth
from tests.browser.views import Shown
from tests.shared.blocks import blocks_in
from tests.shared.checks import check, figure, same
from tests.shared.samples import DEBIAN_DATABASES

BUILD = HERE / "web" / "verifier" / "build"
STUB = HERE / "tests" / "shared" / "library_stub.js"
LEAKING = HERE / "tests" / "shared" / "library_leaking.js"
REPORTS = ("all", "matrix", "counts", "usage", "citations")
FAULTY = "$c a b $.\n\tx $a a\x0c b q $.\n"
EVIL_NAME = '<b>&"evil".mm'
# Of a quiet machine, in Chromium and Firefox: seconds until the first view is shown, and bytes that
# the page has at most.
MOST_SECONDS = {"set": 8.0, "iset": 1.5}
MOST_MEMORY = 450_000_000
# The theorem that is shown first.
FIRST_SHOWN = {"set": "2p2e4", "iset": "2p2e4"}

# Keeps the sums of all blocks that workers make, and saved reports instead of writing them to disk.
SPY = """
window.sums = {};
window.waiting = [];
const sumOf = async (bytes) => {
    const sum = new Uint8Array(await crypto.subtle.digest("SHA-256", bytes));
    return Array.from(sum, (byte) => byte.toString(16).padStart(2, "0")).join("");
};
const Real = window.Worker;
window.Worker = class extends Real {
    constructor(address) {
        super(address);
        this.addEventListener("message", ({ data }) => {
            if (data.stage !== "packed") return;
            for (const [name, block] of data.blocks) {
                window.waiting.push(sumOf(block).then((sum) => { window.sums[name] = sum; }));
            }
        });
    }
};
window.allSums = async () => {
    await Promise.all(window.waiting);
    return window.sums;
};
window.saves = [];
const create = URL.createObjectURL;
URL.createObjectURL = (blob) => {
    window.saves.push(blob);
    return create.call(URL, blob);
};
const click = HTMLAnchorElement.prototype.click;
HTMLAnchorElement.prototype.click = function () {
    if (this.download === "") click.call(this);
    else window.savedName = this.download;
};
window.savedSum = async () => {
    for (let turn = 0; window.savedName === undefined; turn++) {
        if (turn > 2000) return null;
        await new Promise((resume) => setTimeout(resume, 20));
    }
    const blob = window.saves[window.saves.length - 1];
    const told = [window.savedName, blob.size, await sumOf(await blob.arrayBuffer())];
    window.savedName = undefined;
    return told;
};
"""

# Drops files as a hand does. The texts are in base64.
DROP = """
const moved = new DataTransfer();
for (const [name, text] of arguments[0]) {
    moved.items.add(new File([Uint8Array.from(atob(text), (sign) => sign.charCodeAt(0))], name));
}
const at = document.getElementById("drop");
for (const kind of ["dragenter", "dragover", "drop"]) {
    at.dispatchEvent(new DragEvent(kind, { dataTransfer: moved, bubbles: true, cancelable: true }));
}
"""

DROP_ON_BODY = DROP.replace('document.getElementById("drop")', "document.body")

# When files are chosen, as near to the choice as the page's own listener.
CLOCK = """
document.getElementById("file").addEventListener("change", () => performance.mark("chosen"), true);
"""
TAKEN = """
return Math.round(performance.getEntriesByName("shown")[0].startTime -
    performance.getEntriesByName("chosen")[0].startTime);
"""

FETCHING = """(async (address) => {
    const done = [];
    await fetch(`${address}/fetch`).catch(() => done.push("fetch"));
    await import(`${address}/import`).catch(() => done.push("import"));
    try {
        new Worker(`${address}/worker`).onerror = () => done.push("worker");
    } catch (error) {
        done.push("worker");
    }
    try {
        const other = new Worker(URL.createObjectURL(new Blob(["postMessage(1)"])));
        other.onmessage = () => done.push("ran");
    } catch (error) {
        done.push("other blob");
    }
    await new Promise((resume) => setTimeout(resume, 500));
    return done;
})"""


class Answers:
    """What the program answers to requests, as the stub of the library has it."""

    def __init__(self) -> None:
        self.known: dict[str, dict[str, int]] = {}
        self.answers = bytearray()

    def add(self, path: Path, options: Options, names: Iterable[str] = ()) -> None:
        """Reports of a database; what the page itself asks for is always there."""
        asked = "matrix,citations,statements"
        self.put(path, asked, 2, Options(None, options.essential, options.open))
        for name in names:
            for form in (1, 2):
                self.put(path, name, form, options)

    def put(self, path: Path, name: str, form: int, options: Options) -> None:
        """One report."""
        done = subprocess.run(words_of(path, name, form, options), capture_output=True, check=False)
        size = path.stat().st_size
        key = [size, name, form, options.only, options.essential, options.open]
        start = len(self.answers)
        self.answers += done.stdout
        answer = {"status": done.returncode, "start": start, "end": len(self.answers)}
        self.known[json.dumps(key, separators=(",", ":"))] = answer

    def module(self) -> bytes:
        """All of it, in place of a module."""
        return json.dumps(self.known).encode() + b"\n" + self.answers


def words_of(path: Path, name: str, form: int, options: Options) -> list[str]:
    """The command that writes a report."""
    words = [PROGRAM, f"--report={name}", f"--form={form}"]
    words += [] if options.only is None else [f"--only={options.only}"]
    words += ["--essential"] * options.essential + ["--open"] * options.open
    return [*words, str(path)]


class Files:
    """The files of the test, and the page."""

    def __init__(self, folder: Path, module: Path | None, is_large: bool) -> None:
        self.folder = folder
        self.module = module
        self.page = folder / "mmdepend.html"
        self.maker = (
            subprocess.run([PROGRAM, "--version"], stdout=subprocess.PIPE, check=True)
            .stdout.decode("latin-1")
            .strip()
        )
        self.names = ["demo0", "hol", "ql", "iset"] + ["set"] * is_large
        self.texts = {
            "faulty.mm": FAULTY,
            "empty.mm": "",
            EVIL_NAME: EVIL + EVIL_TYPESETTING + OPEN,
            "older.mm": OLDER,
            "newer.mm": NEWER,
        }
        for name, text in self.texts.items():
            self.path(name).write_text(text, newline="")
        hol = (DEBIAN_DATABASES / "hol.mm").read_bytes()
        self.path("hol.mm.gz").write_bytes(gzip.compress(hol))
        self.path("damaged.mm.gz").write_bytes(gzip.compress(hol)[:-2000])
        parts = [gzip.compress(hol[at : at + 30_000]) for at in range(0, len(hol), 30_000)]
        self.path("parts.mm.gz").write_bytes(b"".join(parts))
        self.path("hol.mm.bz2").write_bytes(b"BZh9")
        self.path("picture.mm").write_bytes(b"\x89PNG\r\n\x1a\n\0\0\0\rIHDR")
        self.path("report.txt").write_bytes(b"mmdepend 1\naxioms 0\n")
        self.build()

    def path(self, name: str) -> Path:
        """A file of the test."""
        return self.folder / name

    def build(self) -> None:
        """Makes the page."""
        module = self.module or self.answers()
        surroundings = dict(os.environ)
        if self.module is None:
            surroundings["LIBRARY_SCRIPT"] = str(STUB)
        words = [str(BUILD), str(module), self.maker, str(self.page)]
        done = subprocess.run(words, env=surroundings, stderr=subprocess.PIPE, check=False)
        check(done.returncode == 0, "the page is built", done.stderr.decode())

    def answers(self) -> Path:
        """The answers that stand for a module."""
        answers = Answers()
        for name in self.names:
            answers.add(DEBIAN_DATABASES / f"{name}.mm", ALL, REPORTS if name == "hol" else ())
        for name in self.texts:
            answers.add(self.path(name), EVERYTHING if name == EVIL_NAME else ALL)
        for name in ("newer.mm", "faulty.mm"):
            answers.add(self.path(name), EVERYTHING)
        path = self.path("module.json")
        path.write_bytes(answers.module())
        return path


ALL = Options(only=None)
EVERYTHING = Options(only="|-", essential=True, open=True)


class Memory:
    """Watches how much memory the largest page of Chromium has."""

    def __init__(self, browser: Browser) -> None:
        self.first = browser.driver.service.process.pid if isinstance(browser, Chromium) else 0
        self.most = 0
        self.is_over = False
        self.thread = threading.Thread(target=self.watch, daemon=True)

    def __enter__(self) -> "Memory":
        self.thread.start()
        return self

    def __exit__(self, *_: object) -> None:
        self.is_over = True
        self.thread.join()

    def watch(self) -> None:
        """Looks every twentieth of a second."""
        while self.first and not self.is_over:
            own = [memory_of(number) for number in below(self.first)]
            self.most = max([self.most, *own])
            time.sleep(0.05)


def below(number: int) -> list[int]:
    """The processes that a process began, and those that these began."""
    try:
        tasks = Path(f"/proc/{number}/task").iterdir()
        text = " ".join((task / "children").read_text() for task in tasks)
    except OSError:
        return []
    found = [int(word) for word in text.split()]
    return found + [each for child in found for each in below(child)]


def memory_of(number: int) -> int:
    """The bytes that a process has for itself, if it is that of a page."""
    try:
        if b"--type=renderer" not in Path(f"/proc/{number}/cmdline").read_bytes():
            return 0
        lines = Path(f"/proc/{number}/status").read_text().splitlines()
    except OSError:
        return 0
    kept = dict(line.split(":", 1) for line in lines)
    return sum(int(kept[name].split()[0]) * 1024 for name in ("RssAnon", "RssShmem"))


def begin(browser: Browser, files: Files, address: str = "", spies: bool = True) -> None:
    """Opens the page anew."""
    browser.go("about:blank")
    browser.go(f"{files.page.as_uri()}{address}")
    state = browser.wait(
        "document.documentElement.dataset.state !== 'loading'"
        " && document.documentElement.dataset.state"
    )
    same(state, "start", f"{browser.name}: the page begins")
    browser.run(CLOCK)
    if spies:
        browser.run(SPY)


def shown(browser: Browser, what: str, seconds: float = 90) -> bool:
    """Waits until the database is shown."""
    over = browser.wait(
        "document.documentElement.dataset.state === 'shown'"
        " || document.querySelector('#answer h2') !== null",
        seconds=seconds,
    )
    told = answer_of(browser)
    good = check(over and told == "", f"{browser.name}: {what} is shown", told)
    browser.run(GATHER)
    return good


def answer_of(browser: Browser) -> str:
    """What the page answers instead of a database."""
    return str(browser.run("return document.getElementById('answer')?.innerText ?? ''"))


def told_within(browser: Browser, what: str, *parts: str) -> str:
    """Waits for an answer instead of a database, which has these parts."""
    browser.wait("document.querySelector('#answer h2') !== null", seconds=60)
    text = answer_of(browser)
    for part in parts:
        check(part in text, f"{browser.name}: {what}: '{part}'", text)
    focused = browser.run("return document.activeElement.tagName")
    same(focused, "H2", f"{browser.name}: {what}: the heading has the focus")
    is_ready = browser.run("return !document.getElementById('start').hidden")
    check(is_ready, f"{browser.name}: {what}: another file can be chosen")
    return text


def check_blocks(browser: Browser, path: Path, options: Options, older: Path | None = None) -> None:
    """The blocks of the page are those of the command."""
    words = ["page", str(path), *(["--against", str(older)] if older else [])]
    words += [] if options.only is None else ["--only", options.only]
    words += ["--essential"] * options.essential + ["--open"] * options.open
    blocks = blocks_in(run(words).stdout.decode())
    wanted = {name: hashlib.sha256(block).hexdigest() for name, block in blocks.items()}
    found = browser.call("allSums")
    odd = sorted(name for name in {*found, *wanted} if found.get(name) != wanted.get(name))
    same(odd, [], f"{browser.name} {path.name}: blocks other than those of the command")


def check_start(browser: Browser, files: Files) -> None:
    """The view at the start, for who doesn't see or has no mouse, light and dark."""
    begin(browser, files)
    name = browser.name
    same(browser.run(NAMES), [], f"{name}: names at the start")
    for scheme in ("light", "dark"):
        if not browser.emulate(scheme):
            continue
        worst = browser.run(CONTRAST)
        check(worst["ratio"] >= LEAST_CONTRAST, f"{name}: contrast at the start, {scheme}", worst)
    browser.emulate("light")
    same(browser.run(TARGETS), [], f"{name}: controls at the start are large enough")
    for condition in ("at.id === 'file'", "at.id === 'only'", "at.id === 'essential'"):
        check(browser.tab_until(condition, 30), f"{name}: the keyboard reaches {condition}")
    browser.press(Keys.SPACE)
    is_on = browser.run("return document.getElementById('essential').checked")
    check(is_on, f"{name}: the keyboard sets an option")
    if browser.size(320, 640):
        wide = browser.run("return document.documentElement.scrollWidth - window.innerWidth")
        check(wide <= 0, f"{name}: the start fits a telephone", wide)
        browser.size(*WINDOW)
    browser.stays_silent("at the start")


def check_policy(browser: Browser, files: Files) -> None:
    """Nothing is loaded, neither from a disk nor over HTTP, and nothing can be; no other script can
    work beside the page."""
    name = browser.name
    handler = functools.partial(Asked, directory=files.folder)
    server = http.server.ThreadingHTTPServer(("127.0.0.1", 0), handler)
    threading.Thread(target=server.serve_forever, daemon=True).start()
    address = f"http://127.0.0.1:{server.server_port}"
    Asked.paths.clear()
    browser.go(f"{address}/{files.page.name}")
    browser.wait("document.documentElement.dataset.state === 'start'")
    browser.choose("#file", [DEBIAN_DATABASES / "demo0.mm"])
    shown(browser, "demo0.mm over HTTP")
    time.sleep(1)
    asked = [path for path in Asked.paths if path != "/favicon.ico"]
    same(asked, [f"/{files.page.name}"], f"{name}: the page loads nothing")
    browser.stays_silent("over HTTP")
    for opened in ("HTTP", "a disk"):
        if opened == "a disk":
            begin(browser, files, spies=False)
        Asked.paths.clear()
        told = browser.call(FETCHING, address)
        same(Asked.paths, [], f"{name}: nothing is loaded from {opened}")
        for way in ("fetch", "import", "worker"):
            check(way in told, f"{name}: the policy forbids {way} from {opened}", told)
        if name == "chromium":
            is_stopped = "other blob" in told and "ran" not in told
            check(is_stopped, f"chromium: trusted types forbid another worker, {opened}", told)
    browser.messages()
    server.shutdown()


def check_workers(browser: Browser, files: Files) -> None:
    """What works beside the page can neither load nor send, were it another script."""
    handler = functools.partial(Asked, directory=files.folder)
    server = http.server.ThreadingHTTPServer(("127.0.0.1", 0), handler)
    threading.Thread(target=server.serve_forever, daemon=True).start()
    module, page = files.path("address"), files.path("leaking.html")
    module.write_text(f"http://127.0.0.1:{server.server_port}")
    words = [str(BUILD), str(module), "leaking", str(page)]
    subprocess.run(words, env={**os.environ, "LIBRARY_SCRIPT": str(LEAKING)}, check=True)
    Asked.paths.clear()
    browser.go(page.as_uri())
    browser.wait("document.documentElement.dataset.state === 'start'")
    browser.choose("#file", [DEBIAN_DATABASES / "demo0.mm"])
    ways = "closed: fetch import script request socket"
    told_within(browser, "a worker that would send", "The page failed", ways)
    same(Asked.paths, [], f"{browser.name}: a worker loads nothing")
    browser.messages()
    server.shutdown()


def check_refusals(browser: Browser, files: Files) -> None:
    """A refusal shows the line and the place; what is no database is told as such."""
    begin(browser, files)
    browser.choose("#file", [files.path("faulty.mm")])
    meaning, advice = (words.replace("`", "") for words in FAULTS["E18"])
    place = "Line 2, column 12, in 'x': E18, "
    told_within(browser, "a refusal", "faulty.mm is refused", place, f"{meaning}.", advice)
    lines = browser.run("return document.querySelector('.fault').textContent").split("\n")
    wanted = ["\u2409x $a a\u240c b q $.", "           ^"]
    same(lines, wanted, f"{browser.name}: the line and the caret")
    same(browser.run(NAMES), [], f"{browser.name}: names at a refusal")
    for name, part in (
        ("damaged.mm.gz", "can't be unpacked"),
        ("hol.mm.bz2", "compressed by bzip2"),
        ("report.txt", "is a report of the program"),
        ("picture.mm", "is no text"),
    ):
        browser.run("document.getElementById('answer').replaceChildren()")
        browser.choose("#file", [files.path(name)])
        told_within(browser, name, "This file can't be verified", part)
    if isinstance(browser, Chromium):
        check_changed(browser, files)
    browser.run("document.getElementById('answer').replaceChildren()")
    browser.choose("#file", [files.path("empty.mm")])
    told_within(browser, "an empty file", "nothing to show", "neither axioms nor theorems")
    browser.run("document.getElementById('answer').replaceChildren()")
    browser.run("document.getElementById('only').value = 'nothing'")
    browser.choose("#file", [DEBIAN_DATABASES / "demo0.mm"])
    told_within(browser, "a typecode without axioms", "has no axiom of typecode 'nothing'")
    browser.stays_silent("at refusals")


def check_changed(browser: Browser, files: Files) -> None:
    """A file that was changed since it was chosen isn't read."""
    paths = [files.path("one.mm"), files.path("two.mm")]
    for path in paths:
        path.write_text(OLDER)
    browser.run("document.getElementById('answer').replaceChildren()")
    browser.choose("#file", paths)
    browser.wait("!document.getElementById('pair').hidden")
    for path in paths:
        path.write_text(NEWER)
    browser.run("document.getElementById('compare').click()")
    told_within(browser, "a changed file", "This file can't be verified", "can't be read")


def check_cancel(browser: Browser, files: Files) -> None:
    """What was begun can be cancelled, and then something else is verified."""
    name = "set" if "set" in files.names else "iset"
    for seconds in (0.0, 0.3, 1.0):
        begin(browser, files)
        browser.choose("#file", [DEBIAN_DATABASES / f"{name}.mm"])
        time.sleep(seconds)
        browser.run("document.getElementById('cancel')?.click()")
        told = browser.run("return document.getElementById('told')?.textContent ?? null")
        if told is None:
            continue  # it was shown before
        same(told, "Cancelled.", f"{browser.name}: cancelled after {seconds} s")
        browser.choose("#file", [DEBIAN_DATABASES / "demo0.mm"])
        shown(browser, "a database after one that was cancelled")
        title = browser.run("return document.querySelector('h1').textContent")
        same(title, "demo0.mm", f"{browser.name}: that one")
    browser.stays_silent("when it is cancelled")


def check_hostile(browser: Browser, files: Files) -> None:
    """A database with markup in all its texts, with all options."""
    begin(browser, files)
    browser.run(
        "document.getElementById('only').value = '|-';"
        "for (const id of ['essential', 'open']) document.getElementById(id).checked = true;"
    )
    path = files.path(EVIL_NAME)
    browser.choose("#file", [path])
    shown(browser, EVIL_NAME)
    check_blocks(browser, path, EVERYTHING)
    same(browser.run("return document.title"), EVIL_NAME, f"{browser.name}: the title is text")
    truth = Truth(path, ["--only", "|-", "--open", "--essential"])
    view = Shown(browser, truth)
    for label in truth.theorems:
        view.theorem(label)
    for label in truth.columns:
        view.axiom(label)
    for address in ("#axiom=ax-looks", "#chapter=0.1", "#search=script", "#"):
        browser.run("window.location.hash = arguments[0]", address)
        time.sleep(0.2)
        extra = browser.run(
            "return [...document.querySelectorAll('img, iframe, object, link, base, [onclick],"
            " [onerror], [href^=javascript]')].map((one) => one.outerHTML.slice(0, 80))"
        )
        found = [extra, browser.run("return window.taken ?? null")]
        same(found, [[], None], f"{browser.name} {address}: text is no markup")
    browser.stays_silent("of a hostile database")


def check_pair(browser: Browser, files: Files) -> None:
    """Two files at once are compared."""
    begin(browser, files)
    older, newer = files.path("older.mm"), files.path("newer.mm")
    browser.choose("#file", [newer, older])
    browser.wait("!document.getElementById('pair').hidden")
    labels = browser.run(
        "return [...document.querySelectorAll('#choices label')].map((one) => one.textContent)"
    )
    at = next(at for at, label in enumerate(labels) if "older.mm" in label)
    browser.run("document.querySelectorAll('#choices input')[arguments[0]].click()", at)
    browser.run("document.getElementById('compare').click()")
    shown(browser, "a comparison")
    check_blocks(browser, newer, ALL, older)
    view = browser.show("#difference", "Since older.mm")
    text = " ".join(str(view.get("text")).split())
    for part in ("3new axioms", "renamed was old", "since b now cites c"):
        check(part in text, f"{browser.name}: the difference tells '{part}'", text)
    browser.stays_silent("of a comparison")


def dropped(path: Path) -> list[list[str]]:
    """A file as DROP takes it."""
    return [[path.name, base64.b64encode(path.read_bytes()).decode()]]


def check_drop(browser: Browser, files: Files) -> None:
    """A dropped file and a compressed one; each report of it is saved as the program writes it."""
    hol = DEBIAN_DATABASES / "hol.mm"
    begin(browser, files, "#theorem=ax1")
    browser.run(DROP, dropped(files.path("hol.mm.gz")))
    shown(browser, "hol.mm.gz, dropped")
    begin(browser, files)
    browser.run(DROP, dropped(hol))
    shown(browser, "hol.mm, dropped")
    check_blocks(browser, hol, ALL)
    for name in REPORTS:
        for form in (1, 2):
            browser.run(
                "document.getElementById('report').value = arguments[0];"
                "document.getElementById('form').value = arguments[1];"
                "document.getElementById('save').click();",
                name,
                str(form),
            )
            done = subprocess.run(words_of(hol, name, form, ALL), capture_output=True, check=True)
            called = f"hol.{name}{'.form2' if form == 2 else ''}.txt"
            wanted = [called, len(done.stdout), hashlib.sha256(done.stdout).hexdigest()]
            same(browser.call("savedSum"), wanted, f"{browser.name}: {name}, form {form}, saved")
    same(browser.run(NAMES), [], f"{browser.name}: names where a database is shown")
    browser.run("document.getElementById('again').click()")
    browser.wait("document.documentElement.dataset.state === 'start'")
    state = browser.run("return document.documentElement.dataset.state")
    same(state, "start", f"{browser.name}: another database can be chosen")
    browser.stays_silent("of a dropped file")


def check_again(browser: Browser, files: Files) -> None:
    """A file that is dropped later takes the place of the one before, and options are changed."""
    name = browser.name
    footer = "document.getElementById('made').textContent"
    begin(browser, files)
    browser.run(DROP, dropped(files.path("parts.mm.gz")))
    shown(browser, "hol.mm in several compressed parts")
    theorem = "ax1"
    steps = proofs.metamath_steps(DEBIAN_DATABASES / "hol.mm", [theorem])[theorem]
    same(proofs.shown_steps(browser, theorem), steps, f"{name}: the steps of {theorem}")
    browser.run("document.documentElement.dataset.state = 'another'")
    browser.run(DROP_ON_BODY, dropped(files.path("newer.mm")))
    shown(browser, "a database that is dropped later")
    told = browser.run(f"return {footer}")
    check("from newer.mm" in told, f"{name}: the page is that of the later one", told)
    same(browser.run("return window.location.hash"), "", f"{name}: its overview is shown")
    browser.run("document.getElementById('again').click()")
    for option in ("essential", "open"):
        browser.run("document.getElementById(arguments[0]).click()", option)
    browser.run("document.getElementById('only').value = '|-'")
    browser.run("document.getElementById('same').click()")
    shown(browser, "the same database with other options")
    told = browser.run(f"return {footer}")
    wanted = "with --only |- --essential --open."
    check(wanted in told and told.count("Made by") == 1, f"{name}: its options", told)
    browser.run(DROP_ON_BODY, dropped(files.path("faulty.mm")))
    told_within(browser, "a faulty file after another one", "faulty.mm is refused", "E18")
    browser.stays_silent("of files that are dropped later")


def check_database(browser: Browser, files: Files, name: str) -> Truth | None:
    """A database that is chosen: its blocks. Its page stays open."""
    path = DEBIAN_DATABASES / f"{name}.mm"
    begin(browser, files)
    browser.choose("#file", [path])
    if not shown(browser, path.name):
        return None
    check_blocks(browser, path, ALL)
    return Truth(path)


def measure(kind: type[Browser], files: Files, name: str) -> None:
    """Seconds and memory, from the choice until the first theorem is shown, each time in a new
    browser."""
    path = DEBIAN_DATABASES / f"{name}.mm"
    label = FIRST_SHOWN[name]
    times: list[float] = []
    memories: list[int] = []
    for _ in range(3):
        browser = kind()
        try:
            begin(browser, files, f"#theorem={label}", spies=False)
            with Memory(browser) as memory:
                browser.choose("#file", [path])
                shown(browser, path.name)
                times.append(browser.run(TAKEN) / 1000)
                browser.call("searchReady")
            memories.append(memory.most)
            title = browser.run("return document.querySelector('h1').textContent")
            same(title, label, f"{browser.name}: {label} is shown first")
            browser.stays_silent(f"of {name}.mm")
        finally:
            browser.close()
    what = f"{kind.name}: seconds until {label} of {name}.mm is shown"
    figure(what, min(times), None if kind is WebKit else MOST_SECONDS[name], "s")
    if kind is Chromium:
        figure(f"chromium: bytes of memory for {name}.mm", min(memories), MOST_MEMORY)


def check_little_memory(files: Files) -> None:
    """Where there is too little memory for the module, that is told."""
    browser = Chromium("js-flags=--wasm-max-mem-pages=400")
    try:
        begin(browser, files)
        browser.choose("#file", [DEBIAN_DATABASES / "iset.mm"])
        told_within(browser, "too little memory", "There is too little memory", "iset.mm")
        same(browser.messages(), [], "chromium: messages in the console without memory")
    finally:
        browser.close()

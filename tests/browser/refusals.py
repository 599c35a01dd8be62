"""Where `mmquery page` makes no page, it says why, and nothing else."""

import re
import signal
import subprocess
import time
from pathlib import Path

from tests.browser.making import COMMAND, ENVIRONMENT, run
from tests.browser.truth import PROGRAM
from tests.shared.checks import check, same
from tests.shared.samples import DEBIAN_DATABASES


def check_refusals(folder: Path) -> None:
    """Where there is no page, nothing is on standard output, and one line says why."""
    broken = folder / "broken.mm"
    broken.write_text("$c a $.\nx $a a b $.\n")
    report = folder / "some.report"
    demo = str(DEBIAN_DATABASES / "demo0.mm")
    report.write_bytes(subprocess.run([PROGRAM, demo], stdout=subprocess.PIPE).stdout)
    empty = folder / "empty.mm"
    empty.write_text("")
    cases: list[tuple[list[str], str]] = [
        ([str(broken)], r".*broken\.mm:2:8: refused E18.*"),
        ([str(folder / "nowhere.mm")], r".*nowhere\.mm.*"),
        ([str(folder)], r".*"),
        ([str(report)], r".*a report, where the database is wanted"),
        ([str(empty)], r".*has neither axioms nor theorems"),
        (["--only", "nothing", demo], r".*has no axiom of typecode 'nothing'"),
        (["--watch", "nothing", demo], r".*has no axiom 'nothing' to be watched"),
        (["--against", str(report), demo], r".*a report, where the database is wanted"),
        (["--title"], r".*--title.*"),
        (["--nothing", demo], r".*--nothing.*"),
        ([], r".*"),
        ([demo, demo], r".*"),
    ]
    for words, told in cases:
        done = run(["page", *words])
        line = done.stderr.decode()
        answer = (done.returncode, done.stdout, bool(re.fullmatch(f"mmquery: {told}\n", line)))
        same(answer, (2, b"", True), f"page {' '.join(words)}: {line}")
    with open("/dev/full", "wb") as full:
        done = run(["page", demo], stdout=full)
    told = done.stderr.decode()
    same((done.returncode, told.count("\n")), (2, 1), f"a full disk: {told}")
    piped = run(["page", "-"], input=Path(demo).read_bytes())
    is_named = b"standard input" in piped.stdout
    check(piped.returncode == 0 and is_named, "a page from standard input", piped.stderr)
    again = [run(["page", demo]).stdout for _ in range(2)]
    check(again[0] == again[1] != b"", "the same page each time")
    check_interrupt()


def check_interrupt() -> None:
    """Ctrl-C says one line, at any moment; the status is 130."""
    for seconds in (0.3, 1.5, 4):
        words = [*COMMAND, "page", "--no-cache", str(DEBIAN_DATABASES / "set.mm")]
        process = subprocess.Popen(
            words,
            stdout=subprocess.PIPE,
            stderr=subprocess.PIPE,
            env=ENVIRONMENT,
            preexec_fn=heed_interrupts,
        )
        time.sleep(seconds)
        process.send_signal(signal.SIGINT)
        out, errors = process.communicate()
        answer = (process.returncode, out, errors)
        same(answer, (130, b"", b"mmquery: interrupted\n"), f"Ctrl-C after {seconds} s")


def heed_interrupts() -> None:
    """Heeds interrupts, which may be ignored where this test runs in the background."""
    signal.signal(signal.SIGINT, signal.SIG_DFL)

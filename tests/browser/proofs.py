"""The steps of proofs that a page shows are those that metamath.exe lists."""

import re
from pathlib import Path
from typing import Any

from tests.browser.browsers import Browser
from tests.browser.truth import Truth
from tests.shared.checks import check, same
from tests.shared.metamath import asked

# The steps that are shown, each with the steps that it uses, what it applies, and its formula as
# the database spells it; null until they are there.
STEPS = """
const place = document.querySelector("#proof [aria-busy]");
if (!place || place.getAttribute("aria-busy") !== "false") return null;
for (let more; (more = place.querySelector(".more")); ) more.click();
return Array.from(place.querySelectorAll(".step"), (step) => {
    const formula = step.querySelector(".formula");
    return [
        step.querySelector(".from").lastChild?.textContent ?? "",
        step.querySelector(".label").textContent,
        formula.getAttribute("aria-label") ?? formula.textContent,
    ];
});
"""
LINE = re.compile(r" *(\d+) (?:([\d,]+) )?(\S+) +(?:@\d+: )?\$[aepf] (.*)")

Step = list[str]


def metamath_steps(path: Path, labels: list[str]) -> dict[str, list[Step]]:
    """What metamath.exe lists of each proof: the essential steps. It lists some steps once more
    where they are used again, and these are left out."""
    answers = asked(path, [f"show proof {label} /essential /lemmon /renumber" for label in labels])
    return dict(zip(labels, map(steps_in, answers), strict=True))


def steps_in(text: str) -> list[Step]:
    """The steps of one answer, numbered from 1."""
    steps: list[Step] = []
    numbers: dict[str, int] = {}
    for match in filter(None, map(LINE.match, text.splitlines())):
        number, used, label, formula = match.groups()
        if label.startswith("@"):
            numbers[number] = numbers[label[1:]]
            continue
        own = [str(numbers[each]) for each in used.split(",")] if used else []
        steps.append([", ".join(own), label, formula.rstrip()])
        numbers[number] = len(steps)
    return steps


def shown_steps(browser: Browser, label: str) -> Any:
    """The steps that the page of a theorem shows."""
    browser.run("window.location.hash = `#theorem=${arguments[0]}`", label)
    check(browser.is_at(label), f"{browser.name}: {label} is shown")
    return browser.wait(f"(() => {{ {STEPS} }})()")


def check_steps(browser: Browser, truth: Truth, labels: list[str]) -> None:
    """The steps of some theorems."""
    for label, wanted in metamath_steps(truth.path, labels).items():
        same(shown_steps(browser, label), wanted, f"{browser.name}: the steps of {label}")
    browser.run("document.querySelector('#proof-told button')?.click()")
    every = browser.run(STEPS) or []
    last = [step[1:] for step in every[-1:]]
    same(last, [step[1:] for step in wanted[-1:]], f"{browser.name}: the last of all steps")
    check(len(every) >= len(wanted), f"{browser.name}: all steps of {labels[-1]}", len(every))

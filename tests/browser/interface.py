"""Search, chapters, keyboard, looks and ways back of a page."""

import random
import re
import time
from pathlib import Path
from typing import Any

from tests.browser.browsers import WINDOW, Browser, Chromium, Keys
from tests.browser.scripts import BROKEN_LABELS, CONTRAST, NAMES, TARGETS
from tests.browser.truth import Truth, as_shown, definitions
from tests.shared.checks import check, same

LEAST_CONTRAST = 4.5  # of text, as level AA of WCAG 2 wants it
SMALL_TELEPHONE, TELEPHONE, TABLET = 320, 390, 768  # how wide their screens are, in dots
HEIGHT = 844  # of the telephone's
TALLEST = 8000  # dots of the overview on a telephone
BEST = 3  # a label typed whole is among the first so many
MOST_COMMENTS = 8  # of each three words are searched
FIND = """
const input = document.getElementById("search");
input.focus();
input.value = arguments[0];
input.dispatchEvent(new Event("input"));
const items = Array.from(document.querySelectorAll("#results li[data-label]"));
return [items.map((item) => item.dataset.label), document.getElementById("found").textContent];
"""


def number_in(told: str) -> int:
    """The first number of a text."""
    match = re.search(r"[\d,]+", told)
    return int(match[0].replace(",", "")) if match else -1


def with_all_words(truth: Truth, words: list[str]) -> set[str]:
    """The assertions that have each of the words in label, formula, hypotheses or comment."""
    found = set()
    for label, formula in truth.formulas.items():
        texts = [label, formula, *(other for _, other in truth.hypotheses[label])]
        whole = "\n".join(texts).lower()
        comment = " ".join(truth.comments.get(label, "").split()).lower()
        if all(word in whole or word in comment for word in words):
            found.add(label)
    return found


def check_search(browser: Browser, page: Path, truth: Truth, rng: random.Random, most: int) -> None:
    """Labels, pieces of formulas in both spellings and words of comments find their assertions."""
    browser.open(page)
    name = f"{browser.name} {page.name}"
    check(browser.call("searchReady") is True, f"{name}: the search is ready")
    known = definitions(truth.raw)
    labels = list(truth.formulas)
    for label in rng.sample(labels, min(most, len(labels))):
        check_label_found(browser, name, label)
        check_formula_found(browser, name, truth, known, label, rng)
    check_comments_found(browser, name, truth, rng)
    check_nothing_found(browser, name)
    browser.run(FIND, "")


def check_label_found(browser: Browser, name: str, label: str) -> None:
    """A label that is typed whole is among the best that are found."""
    found, _ = browser.run(FIND, label)
    check(label in found[:BEST], f"{name}: the search for '{label}' finds it", found[:5])


def check_formula_found(
    browser: Browser,
    name: str,
    truth: Truth,
    known: dict[str, str],
    label: str,
    rng: random.Random,
) -> None:
    """Some symbols from the beginning of a formula, eight at the most, find it: as the database
    spells them, at times in capital letters, and as they are shown, without the typecode."""
    symbols = truth.formulas[label].split()
    piece = " ".join(symbols[: rng.randint(2, 8)])
    _, told = browser.run(FIND, piece.upper() if rng.random() < 0.3 else piece)
    least = sum(piece.lower() in formula.lower() for formula in truth.formulas.values())
    check(number_in(told) >= least > 0, f"{name}: '{piece}' finds {least} or more", told)
    shown = as_shown(" ".join(symbols[1 : rng.randint(3, 9)]), known)
    _, told = browser.run(FIND, shown)
    check(number_in(told) > 0, f"{name}: '{shown}' finds something", told)


def check_comments_found(browser: Browser, name: str, truth: Truth, rng: random.Random) -> None:
    """Three words of a comment are found in any order. They are typed without quotes around them:
    what stands between two quotes is a phrase."""
    labels = truth.formulas
    commented = [label for label in labels if len(truth.comments.get(label, "").split()) > 3]
    for label in rng.sample(commented, min(MOST_COMMENTS, len(commented))):
        written = (word for word in truth.comments[label].split() if "<" not in word)
        words = [word for word in (each.lower().strip('"') for each in written) if word]
        some = list(dict.fromkeys(rng.sample(words, min(3, len(words)))))
        _, told = browser.run(FIND, " ".join(some))
        least = len(with_all_words(truth, some))
        check(number_in(told) >= least > 0, f"{name}: {some} finds {least} or more", told)
        _, again = browser.run(FIND, " ".join(reversed(some)))
        same(again, told, f"{name}: {some} in another order")


def check_nothing_found(browser: Browser, name: str) -> None:
    """What isn't there isn't found."""
    found, told = browser.run(FIND, "no such text anywhere 12345")
    same([found, told], [[], "0 found"], f"{name}: the search for what isn't there")


def check_reachable(browser: Browser, page: Path, truth: Truth, typed: str, is_equal: bool) -> None:
    """All that is found can be reached, from the last line of what is offered."""
    browser.open(page)
    browser.call("searchReady")
    _, told = browser.run(FIND, typed)
    browser.press(Keys.UP)
    browser.press(Keys.ENTER)
    heading = f"Search: {typed}"
    check(browser.is_at(heading), f"{browser.name}: all that '{typed}' finds are shown")
    shown = browser.show(browser.run("return window.location.hash"), heading)
    same(len(shown["found"]), number_in(told), f"{browser.name}: all of '{typed}' are there")
    same(number_in(shown["told"]), number_in(told), f"{browser.name}: how many '{typed}' finds")
    wanted = with_all_words(truth, typed.lower().split())
    missing = sorted(wanted - set(shown["found"]))
    same(missing, [], f"{browser.name}: what '{typed}' has to find")
    if is_equal:
        same(set(shown["found"]) - wanted, set(), f"{browser.name}: what '{typed}' may find")


def check_chapters(
    browser: Browser, page: Path, truth: Truth, rng: random.Random, most: int
) -> None:
    """Chapters: what they state, which axioms come in there, and how many theorems rest on each."""
    browser.open(page)
    order = sorted(truth.places, key=truth.places.__getitem__)
    headings = truth.headings
    for at in rng.sample(range(len(headings)), min(most, len(headings))):
        number, title, place = headings[at]
        level = number.count(".")
        later = (end for other, _, end in headings[at + 1 :] if other.count(".") <= level)
        end = next(later, len(truth.raw))
        inside = [label for label in order if place < truth.places[label] < end]
        name = f"{browser.name} {page.name} chapter {number}"
        shown = browser.show(f"#chapter={number}", title)
        same(shown.get("h1"), title, f"{name}: its title")
        same(shown.get("states"), inside, f"{name}: what it states")
        check_chapter_axioms(shown, truth, inside, name)
        lower = [other for other, _, _ in headings if other.startswith(f"{number}.")]
        children = [other for other in lower if other.count(".") == level + 1]
        same(shown["lower"], children, f"{name}: what is in it")
        if inside:
            label = rng.choice(inside)
            kind = "theorem" if label in truth.cited else "axiom"
            view = browser.show(f"#{kind}={label}", label)
            inner = [head for head in headings if head[2] < truth.places[label]][-1][0]
            same(view["chapters"][-1:], [f"#chapter={inner}"], f"{name}: the link of {label}")


def check_chapter_axioms(shown: dict[str, Any], truth: Truth, inside: list[str], name: str) -> None:
    """Which axioms come in among some assertions, and how many theorems of them rest on each."""
    here = set(inside)
    first_user = {axiom: users[0] for axiom, users in truth.users.items() if users}
    coming = {axiom: user for axiom, user in first_user.items() if user in here}
    found = {pair[0]: pair[1] for pair in shown["comingIn"]}
    same(found, coming, f"{name}: what comes in")
    theorems = here.intersection(truth.cited)
    for axiom, users in shown["shares"]:
        wanted = len(theorems.intersection(truth.users[axiom]))
        same(users, wanted, f"{name}: how many rest on {axiom}")
    told = {axiom for axiom, _ in shown["shares"]}
    least = {
        axiom
        for axiom in truth.columns
        if truth.group(axiom) == "axiom" and theorems.intersection(truth.users[axiom])
    }
    check(least <= told, f"{name}: the axioms on which its theorems rest", least - told)


def check_told(browser: Browser, page: Path, truth: Truth) -> None:
    """How many axioms carry theorems, and labels in an address that are no axioms."""
    browser.open(page)
    used = sum(1 for axiom in truth.columns if truth.users[axiom])
    lead = browser.run("return document.getElementById('lead').textContent").replace(",", "")
    wanted = f"on {used} of {len(truth.columns)} axiom"
    check(wanted in lead, f"{browser.name}: on how many axioms theorems rest", lead)
    first, other = truth.columns[:2]
    address = f"#axiom={first}&with={other},nothing,{truth.theorems[0]}"
    browser.run("window.location.hash = arguments[0]", address)
    check(browser.is_at(first), f"{browser.name}: {first} is shown")
    unknown = browser.run("return texts('#unknown code')")
    wanted_labels = ["nothing", truth.theorems[0]]
    same(unknown, wanted_labels, f"{browser.name}: labels of the address that are no axioms")


def check_keyboard(
    browser: Browser, page: Path, truth: Truth, theorem: str, axiom: str, other: str
) -> None:
    """From the search to a chain, its links, ticked axioms and the picture, without a mouse."""
    name = browser.name
    browser.open(page)
    browser.call("searchReady")
    browser.run("document.activeElement.blur()")
    browser.press("/")
    same(browser.focused()[1], "search", f"{name}: / goes to the search")
    browser.press(theorem)
    browser.press(Keys.ENTER)
    check(browser.is_at(theorem), f"{name}: Enter opens what was found")
    same(browser.focused()[0], "H1", f"{name}: the focus is on the heading then")
    asked = f"at.getAttribute('aria-label') === 'Why {axiom}?'"
    check(browser.tab_until(asked), f"{name}: the tabulator comes to a button `why`")
    browser.press(Keys.SPACE)
    state = browser.run("return document.activeElement.getAttribute('aria-expanded')")
    same(state, "true", f"{name}: the space key opens a chain")
    chain = browser.run("return texts('.chain li > a')")
    check(browser.tab_until("at.closest('.chain')"), f"{name}: the tabulator comes to the chain")
    following = f"at.closest('.chain') && at.textContent === '{chain[1]}'"
    check(browser.tab_until(following), f"{name}: and to its second link")
    browser.press(Keys.ENTER)
    check(browser.is_at(chain[1]), f"{name}: Enter follows the chain")
    browser.run("history.back()")
    check(browser.is_at(theorem), f"{name}: back shows the theorem again")
    left = browser.run("return texts('.chain li > a')")
    same(left, chain, f"{name}: and the chain that was open")
    check_axiom_keys(browser, truth, axiom, other)
    check_picture_keys(browser, truth)


def check_axiom_keys(browser: Browser, truth: Truth, axiom: str, other: str) -> None:
    """An axiom is found, another one ticked, and what falls opened, by keys."""
    name = browser.name
    browser.press("/")
    browser.press(axiom)
    browser.press(Keys.DOWN, Keys.DOWN, Keys.ESCAPE, Keys.DOWN)
    chosen = browser.run("return texts('#results [aria-selected=true] .label', document)")
    same(chosen, [axiom], f"{name}: the arrow key chooses one line, also after Escape")
    active = browser.run(
        "const chosen = document.getElementById('search').getAttribute('aria-activedescendant');"
        "return document.getElementById(chosen).dataset.label"
    )
    same(active, axiom, f"{name}: the arrow key names what is chosen")
    browser.press(Keys.ENTER)
    check(browser.is_at(axiom), f"{name}: Enter opens the axiom")
    found = browser.tab_until("at.id === 'ticks-find'")
    check(found, f"{name}: the tabulator comes to the axioms to tick")
    browser.press(other)
    box = f"at.type === 'checkbox' && at.value === '{other}'"
    check(browser.tab_until(box, 80), f"{name}: and to the axiom wanted")
    browser.press(Keys.SPACE)
    fallen = set(truth.users[axiom]) | set(truth.users[other])
    verdict = browser.run("return document.getElementById('verdict').textContent")
    check(f"{len(fallen):,} of" in verdict, f"{name}: the space key ticks an axiom", verdict)
    summary = "at.closest('#fallen') && at.tagName === 'SUMMARY'"
    check(browser.tab_until(summary), f"{name}: the tabulator comes to what falls")
    browser.press(Keys.ENTER)
    is_open = browser.run("return document.getElementById('fallen').open")
    check(is_open, f"{name}: Enter opens what falls")


def check_picture_keys(browser: Browser, truth: Truth) -> None:
    """The picture's cross is moved by keys, and opens a theorem."""
    name = browser.name
    browser.run("window.location.hash = ''")
    check(
        browser.wait("document.querySelector('canvas.picture')"), f"{name}: the overview is shown"
    )
    found = browser.tab_until("at.className === 'picture'")
    check(found, f"{name}: the tabulator comes to the picture")
    browser.press(Keys.DOWN, Keys.DOWN, Keys.RIGHT, "+", "+", Keys.DOWN)
    told = browser.run("return texts('#picture-told a')")
    said = browser.run("return document.getElementById('picture-told').textContent")
    marked = told[1] in truth.marks(told[0])
    check(("doesn't rest on" in said) != marked, f"{name}: the picture tells of a cell", said)
    browser.press(Keys.ENTER)
    check(browser.is_at(told[0]), f"{name}: Enter opens the theorem of the cross")


def check_cells(browser: Browser, page: Path, truth: Truth, rng: random.Random, most: int) -> None:
    """The picture tells of cells what the report says: the mouse points at them."""
    browser.open(page)
    browser.wait("document.querySelector('canvas.picture')?.dataset.drawn")
    for _ in range(most):
        said = browser.run(
            """
            const canvas = document.querySelector("canvas.picture");
            const box = canvas.getBoundingClientRect();
            canvas.dispatchEvent(new PointerEvent("pointermove", {
                clientX: box.left + arguments[0] * box.width,
                clientY: box.top + arguments[1] * box.height,
            }));
            const told = document.getElementById("picture-told").textContent;
            return [told, ...texts("#picture-told a")];
            """,
            rng.uniform(0.2, 1),
            rng.uniform(0.03, 1),
        )
        marked = said[2] in truth.marks(said[1])
        what = f"{browser.name} {page.name}: a cell under the mouse"
        check(("doesn't rest on" in said[0]) != marked, what, said)


def check_looks(browser: Browser, page: Path, views: list[str], folder: Path) -> None:
    """Light and dark, narrow and printed; names and focus for who doesn't see or point."""
    for view in views:
        browser.open(page, view)
        name = f"{browser.name} {page.name}{view}"
        for scheme in ("light", "dark"):
            browser.emulate(scheme)
            worst = browser.run(CONTRAST)
            good = worst["ratio"] >= LEAST_CONTRAST and worst["seen"] > 5
            check(good, f"{name}: contrast in {scheme}", worst)
            check((worst["ground"] < 0.2) == (scheme == "dark"), f"{name}: it is {scheme}", worst)
        browser.emulate("light")
        same(browser.run(NAMES), [], f"{name}: what is missing for who doesn't see")
        same(browser.run(TARGETS), [], f"{name}: controls that are too small")
        if isinstance(browser, Chromium):
            check_tree(browser, name)
        check_focus(browser, name)
        browser.emulate("light", "print")
        hidden = browser.run("return getComputedStyle(document.querySelector('header')).display")
        shown = browser.run("return document.querySelector('#main h1').checkVisibility()")
        same([hidden, shown], ["none", True], f"{name}: printed")
        browser.emulate("light")
    check_narrow(browser, page, views, folder)


def check_narrow(browser: Browser, page: Path, views: list[str], folder: Path) -> None:
    """Views fit into the width of a telephone: in a frame, since no window is that narrow."""
    frame = folder / "frame.html"
    for width in (SMALL_TELEPHONE, TELEPHONE, TABLET):
        for view in views:
            name = f"{browser.name} {page.name}{view} at {width}"
            if browser.name == "chromium":
                browser.size(width, HEIGHT)
                browser.open(page, view)
                document = "document"
            else:
                frame.write_text(
                    f'<!doctype html><iframe src="{page.as_uri()}{view}" width="{width}"'
                    f' height="{HEIGHT}" style="border:0"></iframe>'
                )
                browser.go(frame.as_uri())
                document = "document.querySelector('iframe').contentDocument"
                if browser.wait(f"{document}?.documentElement.dataset.state === 'shown'") is None:
                    check(False, f"{name}: it is shown in a frame")
                    continue
            tall = browser.run(f"return {document}.documentElement.scrollHeight")
            browser.run(
                f"for (const one of {document}.querySelectorAll('#main details')) one.open = true"
            )
            time.sleep(0.2)
            wide = browser.run(f"return {document}.documentElement.scrollWidth")
            check(wide <= width, f"{name}: it fits", wide)
            seen, broken = browser.run(BROKEN_LABELS.replace("DOCUMENT", document))
            check(seen > 0, f"{name}: there are labels", seen)
            same(broken, [], f"{name}: labels that are broken at the end of a line")
            if view == "" and width == TELEPHONE:
                check(tall <= TALLEST, f"{name}: the overview isn't too tall", tall)
    browser.size(*WINDOW)


def check_tree(browser: Chromium, what: str) -> None:
    """Each control has a name in the tree that who doesn't see is told."""
    wanted = "button link textbox searchbox combobox checkbox img region navigation application"
    roles: set[Any] = set()
    for node in browser.names():
        if node.get("ignored"):
            continue
        role = node.get("role", {}).get("value")
        roles.add(role)
        name = node.get("name", {}).get("value", "")
        if role in wanted.split() and not name.strip():
            check(False, f"{what}: a {role} without a name", str(node)[:300])
    for role in ("banner", "main", "contentinfo", "search"):
        check(role in roles, f"{what}: there is a {role}")


def check_spelling(browser: Browser, page: Path, truth: Truth, label: str) -> None:
    """Who doesn't see is told the formula, hypotheses and variables of a statement as the database
    spells them, though other symbols are shown: by a name, and in Chromium's own tree."""
    kind = "theorem" if label in truth.cited else "axiom"
    browser.open(page, f"#{kind}={label}")
    wanted = [*(formula for _, formula in truth.hypotheses[label]), truth.formulas[label]]
    told = browser.run(
        "return Array.from(document.querySelectorAll('.hypotheses .formula, #statement .formula'),"
        " (one) => [one.getAttribute('role'), one.getAttribute('aria-label')])"
    )
    name = f"{browser.name} {page.name} {label}"
    same(told, [["math", formula] for formula in wanted], f"{name}: spellings that are told")
    if isinstance(browser, Chromium):
        nodes = [node for node in browser.names() if not node.get("ignored")]
        values = [[node.get(key, {}).get("value") for key in ("role", "name")] for node in nodes]
        spelled = [value for role, value in values if role == "math"]
        missing = [formula for formula in wanted if formula not in spelled]
        same(missing, [], f"{name}: spellings in the tree")


def check_focus(browser: Browser, what: str) -> None:
    """Each of the first stops of the tabulator shows that it has the focus."""
    browser.run("document.activeElement.blur(); window.scrollTo(0, 0)")
    for _ in range(12):
        browser.press(Keys.TAB)
        ring = browser.run(
            "const at = document.activeElement;"
            # After the last stop the focus is in the browser's own parts.
            "if (at === document.body || !document.hasFocus()) return ['solid', 9, 'elsewhere'];"
            "const style = getComputedStyle(at);"
            "const width = parseFloat(style.outlineWidth);"
            "return [style.outlineStyle, width, at.outerHTML.slice(0, 120)]"
        )
        check(ring[0] != "none" and ring[1] >= 2, f"{what}: the focus is seen", ring)


def check_history(kind: type[Browser], page: Path, labels: list[str]) -> None:
    """Addresses are followed, back and forward; an unknown label and chapter are told.

    In a new browser: where many addresses were opened, it forgets some that no key or click left.
    """
    browser = kind()
    name = browser.name
    browser.open(page, f"#theorem={labels[0]}")
    for label in labels[1:]:
        browser.show(f"#theorem={label}", label)
    for label in reversed(labels[:-1]):
        browser.run("history.back()")
        check(browser.is_at(label), f"{name}: back to {label}")
    for label in labels[1:]:
        browser.run("history.forward()")
        check(browser.is_at(label), f"{name}: forward to {label}")
    for address in ("#theorem=<b>nowhere", "#chapter=99.<b>9", "#difference"):
        browser.run("window.location.hash = arguments[0]", address)
        check(browser.is_at("Not found"), f"{name}: {address} isn't found, and that is told")
        same(
            browser.run("return document.querySelectorAll('#main b').length"),
            0,
            f"{name}: no markup",
        )
        browser.run("window.location.hash = ''")
        browser.wait("document.querySelector('#main h1').textContent !== 'Not found'")
    same(browser.messages(), [], f"{name}: messages in the console after ways back")
    browser.close()


def check_switch(browser: Browser, page: Path, truth: Truth, label: str) -> None:
    """The switch shows the spelling of the database, and back; the page keeps it."""
    name = f"{browser.name} {page.name} {label}"
    formula = truth.formulas[label]
    kind = "theorem" if label in truth.cited else "axiom"
    browser.open(page, f"#{kind}={label}")
    text = "document.querySelector('#statement .formula').textContent"
    shown = browser.run(f"return {text}")
    same(
        browser.run("return document.getElementById('spelling').hidden"), False, f"{name}: a switch"
    )
    browser.run("document.getElementById('spelling').click()")
    written = browser.wait(f"{text} === arguments[0]", formula)
    check(written, f"{name}: as written", browser.run(f"return {text}"))
    browser.open(page, f"#{kind}={label}")
    same(browser.run(f"return {text}"), formula, f"{name}: the switch is kept")
    browser.run("document.getElementById('spelling').click()")
    check(browser.wait(f"{text} === arguments[0]", shown), f"{name}: the symbols again")


def check_distinct_marks(browser: Browser, page: Path, label: str, axiom: str) -> None:
    """The mark of a citation with conditions shows them."""
    browser.open(page, f"#theorem={label}")
    name = f"{browser.name} {page.name} {label}"
    shown = browser.run(
        "const button = Array.from(document.querySelectorAll('.distinct')).find((one) =>"
        " one.getAttribute('aria-label') === `Distinct variables of ${arguments[0]}`);"
        "button.click();"
        "return [button.getAttribute('aria-expanded'),"
        " Array.from(button.parentElement.querySelectorAll('li'), spelled)];",
        axiom,
    )
    view = browser.show(f"#axiom={axiom}", axiom)
    same(shown, ["true", view["groups"]], f"{name}: the mark of {axiom} shows its conditions")

"""Tries the edits of one crate: all in one check, as copies of their functions."""

import os
import shutil
import signal
import subprocess
import tempfile
from collections.abc import Callable, Sequence
from dataclasses import dataclass, field
from pathlib import Path
from typing import TypeVar

from proving import toolchain
from proving.copies import Copy, named_copies, texts_with
from proving.edits import Edit
from proving.functions import Function, can_be_copied, functions_of, owner_of
from proving.laws import RIGHT, LawCopy, Modules, Reach, law_copies
from proving.seeds import seed_of
from proving.tree import Crate
from proving.verdicts import Said, Span, is_part, is_proved, reason, reason_of_laws

T = TypeVar("T")


@dataclass
class Trial:
    """The edits of a crate that is proved, with what the checks took."""

    crate: Crate
    edits: list[Edit]
    # What is called with each line of progress.
    tell: Callable[[str], None] = print
    # Where what the checks say is left, if somebody wants to read it.
    keep: Path | None = None
    checks: int = 0
    seconds: float = 0.0
    # What is wrong with the crate or with a copy, though no edit is in it.
    odd: list[str] = field(default_factory=list)

    def join(self) -> None:
        """Tries what one check can have together: copies of functions, and then copies of laws; and
        at last each edit that has to stand in the function's own place. Leaves the others, and what
        wasn't clearly refused, as unclear."""
        functions = functions_of(self.crate)
        owners: list[tuple[Edit, Function]] = []
        in_place: list[tuple[Edit, Function]] = []
        others: list[Edit] = []
        fits: dict[Function, bool] = {}
        for edit in self.edits:
            if edit.refused or not edit.texts:
                continue
            function = owner_of(functions, edit.change) if edit.change else None
            if function is None:
                edit.unclear = edit.unclear or "it isn't in the body of one function"
                others.append(edit)
                continue
            if function not in fits:
                fits[function] = can_be_copied(self.crate, function)
            (owners if fits[function] else in_place).append((edit, function))
        in_groups(owners, self.try_copies)
        if others:
            modules = Modules(self.crate, functions)
            reached = [(it, reach) for it in others for reach in [modules.reached(it)] if reach]
            in_groups(reached, lambda group: self.try_laws(modules, group))
        for edit, function in in_place:
            self.try_in_place(edit, function)

    def try_copies(self, owners: list[tuple[Edit, Function]]) -> list[list[tuple[Edit, Function]]]:
        """Tries edits in one check. Returns what is still to be tried, in groups, if the check
        didn't come to its end."""
        copies = named_copies(self.crate, owners)
        texts = texts_with(self.crate, copies)
        said = self.check(texts, [copy.symbol for copy in copies])
        if not said.has_ended:
            return self.groups_after(said, owners, stopped_at(said, copies))
        self.see_the_right_ones(said, copies)
        files = {*texts}
        for copy in copies:
            if copy.edit is not None and not copy.edit.unclear:
                symbol = f"{self.crate.name}::{copy.symbol}"
                copy.edit.refused, copy.edit.unclear = reason(said, symbol, copy.span, files)
                copy.edit.way = "joined"
        return []

    def see_the_right_ones(self, said: Said, copies: list[Copy]) -> None:
        """Each function that is no wrong copy has to be proved. Where a right copy isn't, no copy
        of its function says anything."""
        self.see_the_others(said, {copy.symbol for copy in copies if copy.edit})
        for copy in copies:
            verdict = said.verdicts.get(f"{self.crate.name}::{copy.symbol}", "")
            if copy.edit is None and not is_proved(verdict):
                self.odd.append(f"a right copy of {'::'.join(copy.function.path)} isn't proved")
                for other in copies:
                    if other.edit is not None and other.function is copy.function:
                        other.edit.unclear = "a right copy of its function isn't proved"

    def see_the_others(self, said: Said, wrong: set[str]) -> None:
        """Each function has to be proved but for these, which an edit makes wrong."""
        for symbol, verdict in said.verdicts.items():
            if not is_proved(verdict):
                if not any(is_part(symbol, f"{self.crate.name}::{it}") for it in wrong):
                    self.odd.append(
                        f"{symbol} isn't proved, though no edit is in it: {verdict[:120]}"
                    )

    def try_laws(
        self, modules: Modules, reached: list[tuple[Edit, Reach]]
    ) -> list[list[tuple[Edit, Reach]]]:
        """Tries edits of what laws say in one check, as copies of the laws. Returns what is still
        to be tried, as `try_copies` does."""
        copies = law_copies(reached)
        said = self.check(
            modules.texts_with(copies), [it for copy in copies for it in copy.symbols]
        )
        if not said.has_ended:
            return self.groups_after(said, reached, stopped_at(said, copies))
        self.see_the_others(said, {it for copy in copies if copy.edit for it in copy.symbols})
        for copy in copies:
            if copy.edit is None:
                continue
            right = LawCopy(None, copy.reach, RIGHT).symbols
            if not all(
                is_proved(said.verdicts.get(f"{self.crate.name}::{it}", "")) for it in right
            ):
                copy.edit.unclear = "a right copy of its laws isn't proved"
                self.odd.append(f"a right copy of {' or '.join(right)} isn't proved")
                continue
            symbols = [f"{self.crate.name}::{it}" for it in copy.symbols]
            copy.edit.refused, copy.edit.unclear = reason_of_laws(said, symbols, copy.has)
            copy.edit.way = "joined"
        return []

    def groups_after(
        self, said: Said, tried: list[tuple[Edit, T]], stopped: set[Path]
    ) -> list[list[tuple[Edit, T]]]:
        """What is to be tried after a check that stopped: all but the edits at which it stopped,
        or else two halves."""
        why = f"the check ended with status {said.status}: {said.lines[-1][:80]}"
        if said.status == 1 and stopped:
            for edit, _ in tried:
                if edit.path in stopped:
                    edit.unclear = "the check stopped at it"
            left = [it for it in tried if it[0].path not in stopped]
            return [left] if left else []
        if len(tried) == 1:
            tried[0][0].unclear = why
            return []
        self.tell(f"{self.crate.name}: {why}; again in two halves")
        half = len(tried) // 2
        return [tried[:half], tried[half:]]

    def try_in_place(self, edit: Edit, function: Function) -> None:
        """Tries an edit in the place of its function, with what the function calls."""
        assert edit.change is not None
        change = edit.change
        last = change.text[: function.end + change.longer].count(b"\n") + 1
        span = Span(change.file, change.text[: function.start].count(b"\n") + 1, last)
        # What a check calls a method of a trait is told by the check itself, so it is asked for all
        # of the module. At the root, of which there is no name, it is asked for by its own name.
        only = "::".join(function.module) or function.name
        said = self.check({change.file: change.text}, [only])
        symbol = symbol_of(self.crate, function, said)
        if symbol is None:
            edit.unclear = "no line of the check is that of its function"
            return
        edit.refused, edit.unclear = reason(said, symbol, span, {change.file})
        edit.way = "in place"

    def check(self, texts: dict[str, bytes], only: list[str]) -> Said:
        """Checks these functions of the crate, and those that they call, with these texts in the
        place of its own. It begins with what the crate's proof proved, and takes of that what is
        still the same. It is done once more, from nothing, if it came to no end so, or if it was
        killed, most likely for memory."""
        with seed_of(self.crate) as seed:
            said = checked(self.crate, texts, only, seed)
        if said.status == -signal.SIGKILL or seed and not said.has_ended:
            said = checked(self.crate, texts, only)
        self.checks += 1
        self.seconds += said.seconds
        if self.keep:
            name = f"{self.crate.name}-{self.checks}.txt"
            (self.keep / name).write_text(said.text, "utf-8", errors="replace")
        return said


def in_groups(first: list[T], attempt: Callable[[list[T]], list[list[T]]]) -> None:
    """Tries these together, and then in the groups that each attempt leaves."""
    left = [first] if first else []
    while left:
        left += attempt(left.pop())


def stopped_at(said: Said, copies: Sequence[Copy | LawCopy]) -> set[Path]:
    """The edits with an error in their copies."""
    return {
        copy.edit.path
        for message in said.messages
        if ": error" in message.text
        for copy in copies
        if copy.edit is not None and copy.has(message)
    }


def symbol_of(crate: Crate, function: Function, said: Said) -> str | None:
    """The name that a check gives a function in its own place: a method of a trait has words of
    its own in it, which tell type and trait."""
    start = "::".join([crate.name, *function.home, ""])
    if not function.in_trait:
        symbol = "::".join([crate.name, *function.path])
        return symbol if symbol in said.verdicts else None
    found = []
    for symbol in said.verdicts:
        words = symbol.removeprefix(start).split("::")
        if symbol.startswith(start) and words[1:] == [function.name]:
            if function.trait in words[0] and function.fits and function.fits(words[0]):
                found.append(symbol)
    return found[0] if len(found) == 1 else None


def checked(crate: Crate, texts: dict[str, bytes], only: list[str], seed: str = "") -> Said:
    """What a check says of a copy of the crate with these texts. It begins with what is in the
    folder `seed`, if one is given, and changes that."""
    rt = toolchain.rt()
    flags = ["--jobs", "1", *(word for path in only for word in ("--only", path))]
    flags += ["--incremental", seed] if seed else []
    with tempfile.TemporaryDirectory(prefix=f"rt-edit-{os.getpid()}-") as folder:
        for part in rt.rtlib.PARTS:
            if os.path.isdir(f"{crate.folder}/{part}"):
                shutil.copytree(f"{crate.folder}/{part}", f"{folder}/{part}")
        for path, text in texts.items():
            file = Path(folder, path)
            file.parent.mkdir(parents=True, exist_ok=True)
            file.write_bytes(text)
        words = [rt.rtlib.RATTLE, "check", *crate.words(flags, keeps=False)]
        return run([*rt.rtlib.guarded(), *words], folder)


def run(words: list[str], folder: str) -> Said:
    """Runs a command in a folder: what it said, and what it took of the processor, with all that
    it started itself."""
    with subprocess.Popen(
        words,
        cwd=folder,
        stdin=subprocess.DEVNULL,
        stdout=subprocess.PIPE,
        stderr=subprocess.STDOUT,
    ) as ran:
        assert ran.stdout is not None
        text = ran.stdout.read().decode("utf-8", errors="replace")
        _, status, usage = os.wait4(ran.pid, 0)
        ran.returncode = os.waitstatus_to_exitcode(status)
    return Said(ran.returncode, text, usage.ru_utime + usage.ru_stime)

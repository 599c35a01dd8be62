"""Copies of laws, with all that stands between a law and what an edit changes.

An edit of a definition or of a contract changes more than the body of one function, so no copy of
a function has it. Where it changes what laws say, which are functions with an empty body, the edit
stands in copies of the files that it changes, of the laws that state these, and of what their
proofs read between. The copies have names of their own, and nothing else reads them. So what is
refused in them is refused for this edit, and one check tells of many edits.
"""

import re
from collections.abc import Iterable
from dataclasses import dataclass
from pathlib import Path, PurePath

from proving.edits import Edit, change_of
from proving.functions import Function, proof_files
from proving.tree import Crate
from proving.verdicts import Message

# A file by its path below the crate, without its ending: a file of definitions or of proofs, or a
# source file, to which the proof files of its functions belong.
Module = tuple[str, ...]
COMMENT = re.compile(r"//.*")
ONLY_IMPORTS = re.compile(r"\s*(?:(?:ghost )?use [^;]*;\s*)*")
RIGHT = "_right"


@dataclass(frozen=True)
class Reach:
    """What an edit reaches: laws, and the modules that are copied for them."""

    laws: frozenset[Function]
    modules: frozenset[Module]


@dataclass(frozen=True)
class LawCopy:
    """Copies of laws: with the texts of an edit, or as they are, which has to be proved."""

    edit: Edit | None
    reach: Reach
    # What stands behind each name.
    mark: str

    @property
    def symbols(self) -> list[str]:
        """The names of the laws below the crate, as a check prints them."""
        return sorted(f"{law.module[0]}{self.mark}::{law.name}" for law in self.reach.laws)

    def has(self, message: Message) -> bool:
        """Whether a message of a check is about one of the copies."""
        parts = PurePath(message.file).with_suffix("").parts
        for *above, last in self.reach.modules:
            name = (*above, last + self.mark)
            if parts == name or (above == ["src"] and parts[:2] == ("proofs", name[1])):
                return True
        return False


class Modules:
    """The modules of a crate, and which of them read which."""

    def __init__(self, crate: Crate, functions: list[Function]) -> None:
        top = Path(crate.folder)
        self.crate, self.functions = crate, functions
        self.root = f"src/{'main' if crate.is_program else 'lib'}.rt"
        self.texts = {str(path): text for path, text in proof_files(crate)}
        for path in sorted((top / "src").rglob("*.rt")):
            self.texts[str(path.relative_to(top))] = path.read_text("utf-8")
        self.files: dict[Module, list[str]] = {}
        for file in self.texts:
            self.files.setdefault(self.module_of(file), []).append(file)
        self.reads = {module: self.read_by(module, self.texts) for module in self.files}

    def module_of(self, file: str) -> Module:
        """The module that a file belongs to."""
        parts = PurePath(file).with_suffix("").parts
        is_of_function = parts[0] == "proofs" and f"src/{parts[1]}.rt" in self.texts
        return ("src", parts[1]) if is_of_function else parts

    def read_by(self, module: Module, texts: dict[str, str]) -> set[Module]:
        """The modules that a module names in these texts: each by its whole name, as a `use` line
        has to."""
        whole = re.compile(rf"\bRattle\.{self.crate.name}\.([^\s{{}}();,]+)")
        found = set()
        for file in self.files[module]:
            for name in {*whole.findall(texts.get(file, ""))}:
                parts = tuple(name.split("."))
                if parts[0] == "proofs" or parts[:2] == ("specs", "contracts"):
                    found.add(("src", *parts[1 if parts[0] == "proofs" else 2 :][:1]))
                found |= {parts[:length] for length in range(len(parts) + 1)}
        return found & {*self.files}

    def reached(self, edit: Edit) -> Reach | None:
        """What an edit reaches, if all of that can be copied."""
        changed = {self.module_of(file) for file in edit.texts}
        reads = {it: self.reads[it] | self.read_by(it, edit.texts) for it in self.files}
        specs = above(changed, {it: reads[it] for it in reads if it[0] == "specs"})
        laws = {it for it in self.functions if self.states(it, specs) or has_change_of(it, edit)}
        found = {self.module_of(law.file) for law in laws}
        every = above(changed, reads)
        while more := {it for module in found for it in reads[module] & every} - found:
            found |= more
        is_whole = bool(laws) and changed <= found and all(map(self.declared, found))
        if is_whole and all(self.is_of_laws(module) for module in found if module[0] == "src"):
            return Reach(frozenset(laws), frozenset(found))
        return None

    def states(self, law: Function, specs: set[Module]) -> bool:
        """Whether a function names what its file imports from one of these modules."""
        text = self.texts[law.file].encode()[law.start : law.end].decode()
        for module in specs & self.reads[self.module_of(law.file)]:
            line = rf"use Rattle\.{self.crate.name}\.{re.escape('.'.join(module))}\.{{([^}}]*)}}"
            for names in re.findall(line, self.texts[law.file]):
                if any(name.split()[-1].strip("◌") in text for name in names.split(",")):
                    return True
        return False

    def is_of_laws(self, module: Module) -> bool:
        """Whether a source file has nothing but laws."""
        (file,) = (it for it in self.files[module] if it.endswith(".rt"))
        text = self.texts[file].encode()
        for function in sorted(self.functions, key=lambda it: -it.start):
            if function.file == file:
                if text[function.opens : function.end].split() != [b"{}"]:
                    return False
                text = text[: function.start] + text[function.end :]
        return bool(ONLY_IMPORTS.fullmatch(COMMENT.sub("", text.decode())))

    def declared(self, module: Module) -> tuple[str, re.Pattern[str]] | None:
        """The file with the `mod` line of a module, and how to find that line; none of one that
        has modules below it, and of a source file that isn't at the top."""
        has_below = any(it[: len(module)] == module != it for it in self.files)
        if has_below or (module[0] == "src" and len(module) > 2):
            return None
        node = module[:-1] if len(module) > 2 else (module[0], "Lib")
        file = self.root if module[0] == "src" else f"{'/'.join(node)}.antt"
        line = re.compile(rf"(?m)^((?:pub )?mod {re.escape(module[-1])})(;?)$")
        return (file, line) if line.search(self.texts.get(file, "")) else None

    def texts_with(self, copies: Iterable[LawCopy]) -> dict[str, bytes]:
        """The files of the copies, and those that declare them."""
        texts: dict[str, str] = {}
        for copy in copies:
            for module in copy.reach.modules:
                for file in self.files[module]:
                    texts[copied(file, module, copy.mark)] = self.text_of(file, copy)
                found = self.declared(module)
                assert found is not None
                node, line = found
                text = texts.get(node, self.texts[node])
                texts[node] = line.sub(rf"\g<0>\n\g<1>{copy.mark}\g<2>", text)
        return {file: text.encode() for file, text in texts.items()}

    def text_of(self, file: str, copy: LawCopy) -> str:
        """The text of a file's copy, in which each module that is copied has its new name."""
        text: str = (copy.edit.texts if copy.edit else {}).get(file, self.texts[file])
        for module in copy.reach.modules:
            place = r"(?:proofs|specs\.contracts)" if module[0] == "src" else module[0]
            name = r"\.".join([place, *(re.escape(part) for part in module[1:])])
            whole = rf"\bRattle\.{self.crate.name}\.{name}(?![^\s.{{}}();,])"
            text = re.sub(whole, rf"\g<0>{copy.mark}", text)
        return text


def above(first: set[Module], reads: dict[Module, set[Module]]) -> set[Module]:
    """These modules, and those among others that read them, also through others."""
    found = {*first}
    while more := {it for it in {*reads} - found if reads[it] & found}:
        found |= more
    return found


def has_change_of(law: Function, edit: Edit) -> bool:
    """Whether an edit changes the text of a function."""
    if law.file not in edit.texts:
        return False
    change = change_of(edit.crate, law.file, edit.texts[law.file])
    return change.start < law.end and law.start < change.end


def copied(file: str, module: Module, mark: str) -> str:
    """The path of the copy of a module's file."""
    parts = list(PurePath(file).parts)
    name = PurePath(parts[len(module) - 1])
    parts[len(module) - 1] = f"{name.stem}{mark}{name.suffix}"
    return "/".join(parts)


def law_copies(reached: Iterable[tuple[Edit, Reach]]) -> list[LawCopy]:
    """Copies for each edit, and one as they stand of all laws that an edit reaches."""
    copies = [LawCopy(it, reach, f"_wrong_{at}") for at, (it, reach) in enumerate(reached)]
    laws = frozenset(law for copy in copies for law in copy.reach.laws)
    modules = frozenset(module for copy in copies for module in copy.reach.modules)
    return [*copies, LawCopy(None, Reach(laws, modules), RIGHT)]

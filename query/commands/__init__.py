"""The commands. Each module has the list `COMMANDS`; `INDEX` says which command is in which.

To add a command, add its name, module and summary here and the `Command` to the list there.
`python3 -m tables` writes it into the manual page and the completions.

It imports `answers`, `platform`, `texts`, `citations`, `git`, `program`, `reports`, `proofs`,
`formulas`, `definitions`, `spare`, `comparisons`, `gate`, `exports` and `arguments`.
"""

import argparse
import importlib
from collections.abc import Callable
from dataclasses import dataclass

from query.answers.errors import nearest
from query.arguments.context import Context
from query.arguments.options import Parser

TABLE_FORMATS = ("text", "tsv", "csv", "json")


@dataclass(frozen=True)
class Command:
    """A command of `mmquery`.

    `page` is what `--help` shows besides usage, summary and options: what it answers, what each
    column means, an example. `configure` adds its words and options; `--format`, `--no-cache` and
    `--help` are there already. `run` returns the status, 0 or 1, and raises `NoAnswer` for status
    2. `formats` are the words that `--format` takes, the first of them the default; with none there
    is no such option. `lists` is whether it lists labels, so that it takes the filters.
    """

    name: str
    page: str
    configure: Callable[[Parser], None]
    run: Callable[[Context, argparse.Namespace], int]
    formats: tuple[str, ...] = TABLE_FORMATS
    lists: bool = False


# Each command with its module and what it answers, in the order in which they are listed.
INDEX: dict[str, tuple[str, str]] = {
    "verify": ("verify", "whether every proof is valid, or what is wrong"),
    "rests": ("dependence", "on which axioms LABELs rest"),
    "falls": ("dependence", "which theorems rest on LABELs, or on what a header has below it"),
    "cites": ("citations", "what LABELs cite themselves"),
    "cited-by": ("citations", "which theorems cite LABELs"),
    "uncited": ("citations", "which theorems nobody cites"),
    "why": ("chains", "a chain by which LABEL rests on ON, or what all chains lead through"),
    "way-out": ("chains", "the smallest change that frees THEOREM of ON"),
    "frees": ("chains", "what new proofs of THEOREMs free of ON, or which would free most"),
    "spare": ("spare", "theorems that can do without AXIOMs, or with shorter proofs"),
    "repeats": ("repeats", "theorems that say what an earlier statement says"),
    "unneeded": ("unneeded", "hypotheses, $d conditions and symbols that nothing needs"),
    "top": ("ranking", "which axioms are used most, or least, and what is cited most"),
    "sets": ("ranking", "how many theorems rest on each set of axioms"),
    "within": ("ranking", "which theorems rest on no more than the LABELs"),
    "same": ("ranking", "which theorems rest on the same axioms"),
    "compare": (
        "compare",
        "what is new, gone, renamed, and what came to rest on an axiom or no longer does",
    ),
    "review": ("review", "what a change does to the theorems, one line for each, or as a comment"),
    "history": ("history", "how much rested on AXIOMs in each revision, or T, and since when"),
    "gate": ("gate", "whether a pull request keeps the rules that the base's mmdepend.toml sets"),
    "chapters": ("structure", "headers, what below them rests on axioms, and which build on which"),
    "steps": ("steps", "the proof of THEOREM step by step"),
    "proofs": ("proofs", "how long proofs are, how deep theorems stand, and who contributed them"),
    "contributors": ("contributors", "how many theorems each contributor has, and since when"),
    "order": ("structure", "axioms and theorems in one list, in file order"),
    "unfinished": ("structure", "theorems that are left open, and what rests on them"),
    "discouraged": ("structure", "which theorems use one whose new usage is discouraged"),
    "mathboxes": ("structure", "citations of a mathbox from outside it"),
    "comments": ("comments", "labels in comments that no statement has"),
    "obsolete": ("comments", "statements that are to be removed, and from which day on"),
    "definitions": ("definitions", "whether definitions add nothing but names, and if not, why"),
    "equivalents": ("equivalents", "which statements give AX back, with the theorems that say so"),
    "search": ("search", "which formulas have a pattern, by what may stand for its variables"),
    "needs": ("definitions", "the definitions under the symbols of a statement"),
    "drop": ("drop", "whether LABELs or a chapter may be dropped, and what is in the way"),
    "move": ("move", "what goes along where THEOREM is moved, or what may be moved as it is"),
    "graph": ("graphs", "the citations as DOT, GraphML or a list of edges"),
    "picture": ("graphs", "a picture of which theorem rests on which axiom"),
    "page": ("page", "one HTML file that shows the whole database"),
    "set-proof": ("set_proof", "the database with the proof of one theorem for that of another"),
    "extract": ("extract", "a database of LABELs and what they need"),
    "export": ("export", "statements, citations and marks as tables of SQLite"),
    "cache": ("cache", "the results that are kept: show or clear"),
}

# Words that somebody may type who doesn't know the commands, by the command that is meant.
OTHER_NAMES: dict[str, str] = {
    "verify": "check validate",
    "rests": "axioms dependencies depends requires trace trace-back",
    "falls": "affected breaks dependents impact",
    "cites": "references uses",
    "cited-by": "usage used-by users",
    "uncited": "dead orphans unreferenced unused",
    "why": "chain path paths",
    "frees": "reprove",
    "spare": "minimise minimize minimize-with shorten",
    "repeats": "clones duplicate duplicates twins",
    "unneeded": "redundant superfluous",
    "top": "popular rank ranking statistics stats",
    "compare": "changes diff",
    "history": "blame log",
    "gate": "ci lint",
    "chapters": "contents headings outline sections toc",
    "contributors": "authors people who",
    "steps": "proof show show-proof",
    "proofs": "lengths longest size",
    "order": "labels list",
    "unfinished": "incomplete todo",
    "definitions": "conservative soundness",
    "search": "find grep match",
    "drop": "delete remove",
    "comments": "markup verify-markup dangling",
    "obsolete": "deprecated old outdated",
    "graph": "dot",
    "export": "sql sqlite",
    "page": "html site",
}
# By difflib's ratio, at least: more than for other words, since short names are soon alike, as
# `path` and `picture` are not in what they mean.
NEAR_COMMAND = 0.65


def instead_of(word: str) -> str:
    """Which command may be meant by a word that is none, as the end of a sentence."""
    known = {other: name for name, others in OTHER_NAMES.items() for other in others.split()}
    name = known.get(word.lower().replace("_", "-"))
    if name is not None:
        return f"; did you mean {name} ({INDEX[name][1]})?"
    return nearest(word, INDEX, NEAR_COMMAND) or "; `mmquery --help` lists all commands"


def summaries() -> dict[str, str]:
    """The names of all commands and what each answers, in the order in which they are listed."""
    return {name: about for name, (_, about) in INDEX.items()}


def names() -> list[str]:
    """The names of all commands, in the order in which they are listed."""
    return list(INDEX)


def command(name: str) -> Command:
    """The command of this name. KeyError where there is none."""
    module = importlib.import_module(f"query.commands.{INDEX[name][0]}")
    found: list[Command] = module.COMMANDS
    return {each.name: each for each in found}[name]

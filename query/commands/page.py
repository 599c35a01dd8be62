"""`page`: one HTML file that shows a whole database, or one beside an older release of it. The
program for Node makes it."""

import argparse
import os

from query.answers.errors import NoAnswer, shown
from query.arguments.context import Context
from query.arguments.options import Parser, add_choice_of_citations, add_database
from query.commands import Command
from query.platform import progress
from query.platform.executables import wanted
from query.program.handover import handed
from query.program.mmdepend import (
    HOME,
    SCRIPT,
    Program,
    Running,
    allowed_for,
    why_ended,
    without_node,
)
from query.reports.choice import Options
from query.reports.database import Database

PAGE = """
Writes one HTML file to standard output. It loads nothing else and needs no server; a browser of
2023 or later shows it. For each statement it has formula, hypotheses, conditions of distinct
variables, comment, the axioms on which it rests and what cites it; for each axiom what falls
without it; for each chapter what it states and which axioms come in there.

Without --only the axioms are all $a statements. With --watch AXIOM, as often as wanted, each
chapter says first how many of its theorems rest on these. With --against OLD the page shows
besides what is new, gone, renamed and changed since, and which axioms theorems gained and lost,
with the reason. The page is made by Node 18 or later: `node mmdepend.mjs page` does the same.

Example: mmquery page --against v1:set.mm set.mm > set.html
"""


def configure(parser: Parser) -> None:
    """Adds the words and options."""
    add_database(parser)
    parser.value("--only", "T", "the axioms are those of typecode T (else: all)")
    parser.value("--title", "TEXT", "the title (else: the name of the file)")
    parser.value("--against", "OLD", "compare with this database")
    parser.values("--watch", "AXIOM", "an axiom to be shown first")
    add_choice_of_citations(parser)


def page_name(word: str) -> str:
    """How the page calls what a word of the command line names."""
    return "standard input" if word == "-" else os.path.basename(word) or word


def page_words(arguments: argparse.Namespace) -> list[str]:
    """The options for the program."""
    words = [f"--name={page_name(arguments.database)}"]
    words += [f"--{name}" for name in ("essential", "open") if getattr(arguments, name)]
    for name in ("only", "title"):
        value = getattr(arguments, name)
        words += [] if value is None else [f"--{name}={value}"]
    for name in ("limit_time", "limit_memory"):
        value = getattr(arguments, name)
        words += [] if value is None else [f"--{name.replace('_', '-')}={value}"]
    return words + [f"--watch={word}" for word in arguments.watch]


def words_for(program: Program) -> list[str]:
    """The option by which a database is verified by the program that verifies for all other
    answers. Where that is the one for Node, it needs none."""
    return [f"--program={program.path}"] if program.node is None else []


def packer() -> str:
    """The program for Node: beside `mmquery` where it was unpacked, else where it was built.
    NoAnswer where there is none."""
    for path in (os.path.join(HOME, SCRIPT), os.path.join(HOME, "out", "web", SCRIPT)):
        if os.path.exists(path):
            return path
    if os.path.exists(os.path.join(HOME, "web", "build")):
        why = "in this clone `web/build` makes it, and each package has it (docs/INSTALL.md)"
    else:
        why = f"each package has it beside mmquery, in {HOME}; install yours anew"
    raise NoAnswer(f"there is no {SCRIPT}, which makes pages: {shown(why)}")


def made_page(databases: list[Database], words: list[str]) -> bytes:
    """The page that the program makes of the database, beside an older one where there are two.
    NoAnswer where it makes none."""
    with handed([database.source for database in databases]) as (paths, passed):
        first, *others = paths
        line = [packer(), "page", *words, *(f"--against={path}" for path in others), first]
        node = wanted("node", "pages are made by Node 18 or later, and there is no command node")
        size = sum(len(database.source.data) for database in databases)
        allowed = allowed_for(size, True)
        running = Running(node, line, None, True, passed, without_node(), allowed)
        out, errors, status = running.ended()
    exceeded = running.exceeded(status, len(out))
    if exceeded:
        raise NoAnswer(f"{databases[0].name}: not judged: the text needs more than {exceeded}")
    if status == 0:
        return out
    why = why_ended(errors, status)
    for database, path in zip(databases, paths):
        if why.startswith(f"{path}:"):
            raise NoAnswer(database.name + why.removeprefix(path))
    raise NoAnswer(f"{databases[0].name}: {why}")


def run(context: Context, arguments: argparse.Namespace) -> int:
    """Answers."""
    options = Options(only=arguments.only, essential=arguments.essential, open=arguments.open)
    databases = [context.database(arguments.database, options)]
    words = page_words(arguments)
    if arguments.against:
        databases.append(context.database(arguments.against, options))
        words.append(f"--against-name={page_name(arguments.against)}")
    for database in databases:
        database.see_text()
    words += words_for(databases[0].program)
    progress.now(f"verifying {databases[0].name}, and making its page")
    context.out.write(made_page(databases, words))
    return 0


COMMANDS = [Command("page", PAGE, configure, run, ())]

"""`export`: a database as tables, for questions of one's own."""

import argparse
import hashlib

from query.answers.errors import shown
from query.answers.output import Value
from query.arguments.context import Context
from query.arguments.options import Parser, add_choice_of_axioms, add_database, options_of
from query.commands import Command
from query.platform import progress
from query.program.mmdepend import version

PAGE = """
Writes statements, citations and marks as tables of SQLite into FILE. One that `export` wrote before
is replaced, another file isn't. docs/SQL.md describes all columns, with ten queries.

table  its name
rows   how many rows it has

  about       the database and the options
  chapter     the headers: id, number, level, title, and first and last, which are statements
  statement   axioms and theorems: id, label, kind, typecode, formula, line, chapter, mathbox,
              usage_discouraged and proof_discouraged (1 or 0), comment, contributor, and
              contributed, which is the day
  hypothesis  the $e of a statement: statement, position, label, formula
  disjoint    the pairs of its variables that must be distinct: statement, first, second
  proof       theorem, and steps, depth and bytes of its proof
  citation    citing, which is a theorem, and cited, what its proof cites
  mark        theorem, and axiom, one on which it rests

To join, statement.id is what statement, citing, cited, theorem, axiom, and first and last of a
chapter have, and chapter.id is what statement.chapter has. The views citation_label and mark_label
have labels in place of numbers.

  $ mmquery export --sqlite set.db set.mm
  $ sqlite3 set.db "SELECT count(*) FROM statement JOIN mark_label ON theorem = label
                    WHERE contributor = 'NM' AND axiom = 'ax-13'"
"""


def configure(parser: Parser) -> None:
    """The words and options."""
    add_database(parser)
    parser.value("--sqlite", "FILE", "the file to write", required=True)
    add_choice_of_axioms(parser)


def run(context: Context, arguments: argparse.Namespace) -> int:
    """Answers."""
    # SQLite takes up to 140 milliseconds, and the help of all commands has no use for it.
    from query.exports.sqlite import SCHEMA, Content, export

    options = options_of(arguments)
    database = context.database(arguments.database, options)
    data = database.data()
    dependence = database.dependence()
    about = {
        "program": version(),
        "schema": str(SCHEMA),
        "database": database.name,
        "sha256": hashlib.sha256(data).hexdigest(),
        "axioms of typecode": "all" if options.only is None else options.only,
        "axioms that begin with": " ".join(options.axioms),
        "ignore definitions": str(options.ignore_definitions).lower(),
        "essential": str(options.essential).lower(),
        "open": str(options.open).lower(),
    }
    progress.now(f"writing {shown(arguments.sqlite)}")
    counts = export(Content(about, database.text, dependence), arguments.sqlite)
    rows: list[list[Value]] = [[table, count] for table, count in counts]
    context.out.table(["table", "rows"], rows)
    return 0


COMMANDS = [Command("export", PAGE, configure, run)]

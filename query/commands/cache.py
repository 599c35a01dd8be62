"""`cache`: the results that are kept in the user's cache folder."""

import argparse
import os

from query.answers.errors import NoAnswer, reason, shown
from query.arguments.context import Context
from query.arguments.options import Parser
from query.commands import Command
from query.platform import cache, secret

PAGE = """
Results are kept in the folder $XDG_CACHE_HOME/mmquery, else ~/.cache/mmquery, under the sums of
database and program and the options, so that for a second question a database isn't verified again.
All together take at most 1 GB; the ones used longest ago go first. It is always safe to clear
them. Each has a code that is made with the user's secret, $XDG_CONFIG_HOME/mmquery/secret, else
~/.config/mmquery/secret, so nothing that somebody else put there is believed. Nothing is kept or
taken where the folder or the secret lies in a git checkout, is a link, belongs to somebody else or
may be changed by others, where others may read the secret, or where the system doesn't tell to whom
a file belongs; standard error says so.

show     the folder, how many results are in it, and how many bytes they take (the default)
clear    removes them, and the secret

  $ mmquery cache
  $ mmquery cache clear
"""


COLUMNS = ["folder", "results", "bytes"]


def configure(parser: Parser) -> None:
    """The words of `cache`."""
    parser.add_argument("what", nargs="?", choices=("show", "clear"), default="show")


def run(context: Context, arguments: argparse.Namespace) -> int:
    """Answers `cache`."""
    folder = cache.results_folder()
    if folder is None:
        raise NoAnswer("there is no cache folder, since HOME isn't set")
    wrong = secret.wrong_folder(folder)
    if arguments.what == "clear" and wrong is not None:
        raise NoAnswer(f"{shown(folder)}: nothing is removed there, since {wrong}")
    why = cache.why_unusable()
    if why is not None:
        context.tell(f"nothing is kept or taken: {why}")
    try:
        if arguments.what == "clear":
            cache.clear()
            return 0
        files = cache.entries(folder) if wrong is None and os.path.isdir(folder) else []
    except OSError as error:
        raise NoAnswer(f"{shown(folder)}: {reason(error)}") from None
    size = sum(file[1] for file in files)
    context.out.table(COLUMNS, [[shown(folder), len(files), size]])
    return 0


COMMANDS = [Command("cache", PAGE, configure, run)]

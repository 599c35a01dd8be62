"""The command line: finds the command, reads its words and options, runs it, and ends with its
status.

0: answered. 1: the answer to a check is no. 2: no answer, with one line why. 130, 143: ended by a
signal. An option may stand before or after the words, `--` ends the options, and an option that a
command doesn't have is named with other commands that have it, or the nearest one that it has.
"""

import argparse
import gc
import os
from contextlib import suppress
from typing import NoReturn

from query.answers.errors import NoAnswer, reason, shown, tell
from query.answers.output import Output, write_all
from query.arguments.context import Context
from query.arguments.filters import Filters, add_filters, filters_of
from query.arguments.options import Parser, add_limits
from query.commands import Command, command, instead_of, names, summaries
from query.platform import limits, progress, signals
from query.platform.limits import Limits

VERSION = "mmquery 0.1.0\n"
FORMS: dict[int | str | None, str] = {None: "{}", "+": "{}..", "*": "[{}..]", "?": "[{}]"}
"""How a word is written in a usage line, by how many of it are taken."""
MOST_HAVING = 3
"""So many commands are named that have an option which another one doesn't have."""


def usage_line(parser: Parser, name: str) -> str:
    """The usage line of a command: the options that it needs, and its words. `LABEL..` is one or
    several, and what stands in brackets may be left out."""
    parts = [f"mmquery {name} [OPTIONS]"]
    for action in parser.actions:
        called = "|".join(action.choices or ()) or str(action.metavar)
        if action.option_strings and action.required:
            parts.append(f"{action.option_strings[0]} {called}")
        elif not action.option_strings:
            form = "{}" if called.startswith("[") else FORMS[action.nargs]
            parts.append(form.format(called))
    return " ".join(parts)


def parser_of(chosen: Command) -> Parser:
    """The parser of a command, with the options that all have."""
    parser = Parser()
    chosen.configure(parser)
    parser.usage = usage_line(parser, chosen.name)
    if chosen.formats:
        parser.add_argument(
            "--format",
            choices=chosen.formats,
            default=chosen.formats[0],
            help=f"the form of the answer (else: {chosen.formats[0]})",
        )
    if chosen.lists:
        add_filters(parser)
    parser.flag("--no-cache", "keep no result, and use none that was kept")
    add_limits(parser)
    parser.add_argument("-h", "--help", action="store_true", help="show this page")
    return parser


def having(option: str) -> str:
    """Which commands have an option, as the end of a sentence; "" where none has it. All modules of
    commands are read for that."""
    found: list[str] = []
    for name in names():
        with suppress(ImportError):
            if option in parser_of(command(name)).options():
                found.append(f"`{name}`")
    if not found:
        return ""
    more = len(found) > MOST_HAVING
    listed = [*found[:MOST_HAVING], "others"] if more else found
    said = " and ".join(filter(None, (", ".join(listed[:-1]), listed[-1])))
    return f"; {said} {'have' if len(listed) > 1 else 'has'} it"


def page_of(chosen: Command) -> str:
    """The page of a command."""
    parser = parser_of(chosen)
    about = summaries()[chosen.name]
    parser.description = f"{about[0].upper()}{about[1:]}.\n\n{chosen.page.strip()}"
    return parser.format_help()


def help_page() -> str:
    """The page of `mmquery --help`."""
    lines = ["usage: mmquery COMMAND [OPTIONS] DATABASE [LABEL..]", ""]
    lines += ["Answers questions on a Metamath database, which is verified first.", ""]
    lines += [f"  {name:12} {about}" for name, about in summaries().items()]
    lines += [
        "",
        "DATABASE is a file, also one compressed by gzip, bzip2 or xz; - for standard input;",
        "REV:PATH, a file of a revision in git, from the top of the repository of the working",
        "folder, or typed as a file's path, with /, ./ or ../ first; or a report of mmdepend.",
        "`mmquery COMMAND --help` tells what a command answers, with its options and an example.",
        "",
        "Status 0: answered. 1: the answer to a check is no. 2: no answer, with the reason.",
    ]
    return "\n".join(lines) + "\n"


def run(words: list[str]) -> int:
    """Runs the command that the words name. Returns its status; NoAnswer where it has no answer."""
    name = words[0] if words else "--help"
    if name in ("--help", "-h", "help") and len(words) < 2:
        write_all(1, help_page().encode())
        return 0
    if name in ("--version", "-V"):
        write_all(1, VERSION.encode())
        return 0
    if name == "help":
        name, words = words[1], [words[1], "--help"]
    if name not in names():
        where = "; options stand behind the command" if name.startswith("-") else ""
        raise NoAnswer(f"there is no command {shown(name)}{where or instead_of(name)}")
    chosen = command(name)
    before = words[1 : words.index("--")] if "--" in words else words[1:]
    if "--help" in before or "-h" in before:
        write_all(1, page_of(chosen).encode())
        return 0
    parser = parser_of(chosen)
    parser.elsewhere = having
    arguments = parser.read(words[1:])
    see_order(parser, arguments)
    out = Output(getattr(arguments, "format", "text"))
    limits.choose(Limits(arguments.limit_time, arguments.limit_memory))
    remarks: list[str] = []
    progress.begin()
    try:
        filters = filters_of(arguments) if chosen.lists else Filters()
        context = Context(out, not arguments.no_cache, filters, remarks=remarks)
        status = chosen.run(context, arguments)
    except NoAnswer:
        tell_all(remarks)  # they may say what helps
        raise
    finally:
        progress.end()
    out.flush()
    tell_all(remarks)
    return status


def tell_all(remarks: list[str]) -> None:
    """Writes remarks to standard error, a line each."""
    for remark in remarks:
        tell(remark)


def see_order(parser: Parser, arguments: argparse.Namespace) -> None:
    """NoAnswer where the word DATABASE names no file, and a word behind it does."""
    plain = [each for each in parser.actions if not each.option_strings]
    if not plain or plain[0].metavar != "DATABASE":
        return
    word = arguments.database
    if word == "-" or ":" in word or os.path.exists(word):
        return
    for action in plain[1:]:
        given = getattr(arguments, action.dest) or []
        for other in [given] if isinstance(given, str) else given:
            if isinstance(other, str) and os.path.isfile(other):
                raise NoAnswer(
                    f"{shown(word)}: there is no such file; {shown(other)}, which is a file, "
                    f"stands where {action.metavar} is wanted, and DATABASE stands before it"
                )


def hold_descriptors() -> None:
    """Opens standard input, output and error where they are closed, so that no other file gets
    their numbers. What is written to them then fails."""
    for number in range(3):
        try:
            os.fstat(number)
        except OSError:
            os.open(os.devnull, os.O_WRONLY if number == 0 else os.O_RDONLY)


def main(words: list[str]) -> NoReturn:
    """Runs `mmquery` and ends the process."""
    gc.disable()  # a command ends before anything would have to be collected
    status = 2
    try:
        status = ended(words)
    except BaseException:  # there may be no memory to say what failed
        os.write(2, b"mmquery: out of memory\n")
    finally:
        os._exit(status)


def ended(words: list[str]) -> int:
    """Runs a command to its end, whatever that is. Returns the status."""
    try:
        hold_descriptors()
        signals.listen()
        return run(words)
    except NoAnswer as why:
        return no_answer(why.sentence())
    except MemoryError:
        return no_answer("out of memory")
    except OSError as error:
        about = f"{shown(os.fsdecode(error.filename))}: " if error.filename else ""
        return no_answer(about + reason(error))
    except ModuleNotFoundError as error:  # some systems leave out sqlite3, lzma or bz2
        return no_answer(f"this Python lacks the module {error.name}")
    except Exception as error:  # a traceback would end with status 1, which is the answer no
        return no_answer(f"a fault of mmquery itself: {error_line(error)}")


def error_line(error: Exception) -> str:
    """An error that nothing was meant to raise, with the place where it was."""
    # It takes 4 milliseconds, and is for faults of ours alone.
    import traceback

    frame = traceback.extract_tb(error.__traceback__)[-1]
    return f"{type(error).__name__}: {error} ({os.path.basename(frame.filename)}:{frame.lineno})"


def no_answer(why: str) -> int:
    """Says on standard error in one line why there is no answer. Returns status 2."""
    tell(why)
    return 2

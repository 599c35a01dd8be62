"""The command lines of the program for Node, with their help, and the requests of JavaScript."""

import json
import re
import textwrap
from collections.abc import Callable, Iterable, Iterator
from dataclasses import replace

from tables.bits import in_requests, is_number
from tables.options import Option, options_of
from tables.sources import Program
from tables.words import OF_NODE, PAGE, Words, sentence

WIDTH = 125  # of a line of JavaScript
PAGE_COLUMN = 23  # where the help of the command `page` begins what it says of an option
CONST = "/** @type {const} */"


def declared(options: Iterable[Option]) -> Iterator[str]:
    """The options as `parseArgs` of Node takes them."""
    yield f"const OPTIONS = {CONST} ({{"
    for option in options:
        name = json.dumps(option.name) if "-" in option.name else option.name
        fields = f'type: "{"string" if option.value else "boolean"}"'
        fields += ", multiple: true" if option.is_repeated else ""
        fields += f', short: "{option.words[0][1:]}"' if len(option.words) > 1 else ""
        yield f"    {name}: {{ {fields} }},"
    yield "});"


def table(
    name: str, kind: str, options: Iterable[Option], value_of: Callable[[Option], object]
) -> Iterator[str]:
    """A table of what some options have, by their names."""
    yield f"/** @type {{Record<string, {kind}>}} */"
    yield f"const {name} = {{"
    for option in options:
        if value := value_of(option):
            yield f"    {option.name}: {json.dumps(value)},"
    yield "};"


def literal(name: str, text: str) -> Iterator[str]:
    """A text of several lines under a name. A line that is too long is cut, which changes nothing
    in the text."""
    escaped = re.sub(r"([`\\]|\$\{)", r"\\\1", text)
    lines = f"const {name} = `{escaped}`;".split("\n")
    for line in lines:
        while len(line) > WIDTH:
            cut = line.rindex(" ", 0, WIDTH - 1) + 1
            yield f"{line[:cut]}\\"
            line = line[cut:]
        yield line


def help_of(options: Iterable[Option], column: int | None = None) -> Iterator[str]:
    """The lines of a help on options. What is said begins at a column, or behind the longest of
    their names, as in `mmdepend --help`. Names that reach the column have a line of their own."""
    heads = {option: head(option) for option in options}
    at = column or max(map(len, heads.values())) + 2
    for option, named in heads.items():
        start = f"{named:{at}}" if len(named) < at else f"{named}\n{'':{at}}"
        default = f" [default: {option.default}]" if option.default else ""
        listed = "" if option.is_list else ", ".join(option.choices)
        choices = f" [possible values: {listed}]" if listed else ""
        yield f"{start}{option.about}{default}{choices}"


def head(option: Option) -> str:
    """How a help names an option."""
    short = f"{option.words[0]}, " if len(option.words) > 1 else "    "
    return f"  {short}--{option.name}" + (f" <{option.value}>" if option.value else "")


def of_command_line(program: Program) -> Iterator[str]:
    """What web/node/command-line.js knows of the options of `mmdepend`."""
    options = program.options
    yield from declared(options)
    yield from table(
        "WITH_VALUE", "string", options, lambda each: each.value and head(each).strip()
    )
    yield from table("LIMITS", "number[]", options, lambda each: each.limits)
    yield from table("CHOICES", "string[]", options, lambda each: not each.is_list and each.choices)
    yield from table("LISTS", "string[]", options, lambda each: each.is_list and each.choices)
    usage = f"Usage: mmdepend [OPTIONS] [FILE]\n\nArguments:\n  [FILE]  {program.file}\n\nOptions:"
    lines = [program.about, "", usage, *help_of(options), "", program.footer, ""]
    yield from literal("HELP", "\n".join(lines))


def of_page() -> Iterator[str]:
    """What web/node/page-command.js knows of its options: those of `mmquery page`, but that nothing
    is kept, and a few of its own."""
    found = [
        replace(option, about=PAGE.get(option.name, sentence(option.about)))
        for option in options_of("page")
        if option.name != "no-cache"
    ]
    limits = next(at for at, option in enumerate(found) if option.name.startswith("limit"))
    found[limits:limits] = OF_NODE  # before them
    yield from declared(found)
    yield from literal("OPTION_LINES", "\n".join(help_of(found, PAGE_COLUMN)))


def of_requests(options: dict[Option, Words]) -> Iterator[str]:
    """The fields of a request in JavaScript, as the module's types declare them."""
    for option in in_requests(options):
        words = f"/** {options[option].field} */"
        start, more = "    ", "     * "
        yield from textwrap.wrap(words, WIDTH, initial_indent=start, subsequent_indent=more)
        kind = " | ".join(option.choices) if is_number(option) else "string"
        kind += " | null" if option.default is None else ""
        yield f"    {option.name}?: {kind if option.value else 'boolean'};"

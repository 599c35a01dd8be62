"""The manual pages: synopsis, commands and options; and the options as docs/PROGRAM.md has them."""

import re
from collections.abc import Iterator

from query.arguments.filters import add_filters
from query.arguments.options import Parser
from query.commands import summaries
from tables.options import Option, options_of
from tables.words import MMQUERY, Words, sentence

LINK = re.compile(r"\[([^]]*)\]\([^)]*\)")
MARKED = re.compile(r"(?:`([^`]*)`|\*([^*]*)\*)(\S*)")
"""What is typed or written, or what the user puts in place of it; and signs that stand close by."""


def lines_of(text: str) -> Iterator[str]:
    """A text in which words are marked, as lines of a manual page: each sentence begins a line."""
    plain = LINK.sub(r"\1", text)
    end = 0
    for match in MARKED.finditer(plain):
        yield from sentences(plain[end : match.start()])
        kind = "B" if match[1] else "I"
        word = (match[1] or match[2]).replace("-", "\\-")
        word = f'"{word}"' if " " in word else word
        yield f".{kind}R {word} {match[3]}" if match[3] else f".{kind} {word}"
        end = match.end()
    yield from sentences(plain[end:])


def sentences(text: str) -> list[str]:
    """The sentences of a text without marks."""
    plain = text.strip().replace("-", "\\-")
    return [each for each in re.split(r"(?<=\.) ", plain) if each]


def head(option: Option) -> str:
    """The line that names an option."""
    words = [word.replace("-", "\\-") for word in option.words]
    if option.value:
        return f'.BI {words[-1]} " {option.value}"'
    return f".B {words[0]}" if len(words) == 1 else f'.BR {words[0]} ", " {words[1]}'


def synopsis(options: dict[Option, Words]) -> Iterator[str]:
    """The options of `mmdepend` that a call may have."""
    for option in options:
        if len(option.words) == 1:  # help and version stand alone
            name = option.name.replace("-", "\\-")
            yield f".RB [ \\-\\-{name}" + ("" if option.value else " ]")
            if option.value:
                yield f".IR {option.value} ]"


def options_of_mmdepend(options: dict[Option, Words]) -> Iterator[str]:
    """What each option of `mmdepend` does."""
    for option, words in options.items():
        yield ".TP"
        yield head(option)
        yield from lines_of(f"{words.text} {words.more}")


def table(options: dict[Option, Words]) -> Iterator[str]:
    """The options of `mmdepend` as a table of Markdown."""
    yield from ("| Option | What it does |", "|---|---|")
    for option, words in options.items():
        value = f" {option.value}" if option.value else ""
        named = ", ".join(f"`{word}{value}`" for word in option.words)
        told = re.sub(r"\*([^*]*)\*", r"\1", words.text)
        yield "| {} | {} |".format(named, told.replace("|", "\\|"))


def commands() -> Iterator[str]:
    """What each command of `mmquery` answers."""
    for name, about in summaries().items():
        yield ".TP"
        yield ".B " + name.replace("-", "\\-")
        yield f"{sentence(about)}."


def options_of_mmquery() -> Iterator[str]:
    """What the options do that many commands of `mmquery` have."""
    filters = Parser()
    add_filters(filters)
    for option in [*options_of("rests"), Option(("-V", "--version"), "show the version")]:
        if option.name not in ("theorems", "apart"):  # of this command alone
            about = f"list {option.about}" if option.words[0] in filters.options() else option.about
            about = re.sub(rf"\b{option.value}\b", f"*{option.value}*", about)
            yield ".TP"
            yield head(option)
            told = MMQUERY.get(option.name, f"{sentence(about)}.")
            yield from lines_of(told.replace("{value}", str(option.value)))

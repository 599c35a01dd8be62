"""The words and options of commands: how they are read, those that commands share, and which
axioms they choose."""

import argparse
import re
from collections.abc import Callable, Container, Iterable, Iterator
from itertools import islice
from typing import Any, NoReturn

from query.answers.errors import NoAnswer, nearest, shown
from query.reports.choice import Options

Given = tuple[argparse.Action, list[str]]
"""An argument with the words that are given for it."""
NEAR_OPTION = 0.6  # by difflib's ratio, at least
SHARES: dict[int | str | None, str] = {None: "(.)", "+": "(.+)", "*": "(.*)", "?": "(.?)"}
"""How many words an argument takes, as a pattern that has a sign for each."""
GRAPH_FORMS = ("dot", "graphml", "edges")
PICTURES = ("svg", "png", "pdf")
"""Forms that `dot` makes of a graph."""
LIKE_OPTION = re.compile(r"--[A-Za-z]|-[A-Za-z0-9-]+(?:=|\Z)")
"""How a word begins that an option may be meant by: `--under-x`, `-q`, and not `->` or `-u A`."""
BEHIND = "; a formula that looks like an option stands behind --"


class Parser(argparse.ArgumentParser):
    """The words and options of a command. argparse knows them and writes their page; what is given
    is read here, since a label may be `--`, a word that argparse drops in Python 3.11."""

    def __init__(self) -> None:
        layout = argparse.RawDescriptionHelpFormatter
        super().__init__(add_help=False, formatter_class=layout)
        self.actions: list[argparse.Action] = []
        self.apart: list[tuple[str, ...]] = []
        self.takes_formulas = False
        """Whether its words are formulas, of which some begin with `-`."""
        self.elsewhere: Callable[[str], str] = lambda name: ""
        """Which other commands have an option, as the end of a sentence; "" where none has it."""

    def add_argument(self, *names: str, **settings: Any) -> argparse.Action:
        """As in argparse. `group` is one of its groups, under which the page is to have it."""
        self.actions.append(settings.pop("group", super()).add_argument(*names, **settings))
        return self.actions[-1]

    def flag(self, name: str, about: str, **more: Any) -> None:
        """Adds an option without a value."""
        self.add_argument(name, action="store_true", help=about, **more)

    def value(self, name: str, metavar: str, about: str, **more: Any) -> None:
        """Adds an option with a value."""
        self.add_argument(name, metavar=metavar, help=about, **more)

    def number(self, name: str, metavar: str, about: str, default: int) -> None:
        """Adds an option with a number. Its help says which holds where none is given."""
        self.value(name, metavar, f"{about} (else: {default})", type=positive, default=default)

    def values(self, name: str, metavar: str, about: str, **more: Any) -> None:
        """Adds an option that may be given several times, each time with a value."""
        self.value(name, metavar, about, action="append", default=[], **more)

    def exclude(self, *names: str) -> None:
        """Lets only one of these options be given."""
        self.apart.append(names)

    def options(self) -> dict[str, argparse.Action]:
        """The options by their names."""
        return {name: action for action in self.actions for name in action.option_strings}

    def read(self, words: list[str]) -> argparse.Namespace:
        """What the words give: options from anywhere before a `--`, then the others. NoAnswer where
        they aren't what the command takes."""
        given: list[Given] = []
        plain: list[str] = []
        left = iter(words)
        for word in left:
            if word == "--":
                plain += left
            elif self.is_option(word):
                given.append(self.read_option(word, left))
            else:
                plain.append(word)
        for names in self.apart:
            both = [each for each in dict(given) if each.option_strings[0] in names]
            if len(both) > 1:
                refuse(both[1], f"not allowed with argument {both[0].option_strings[0]}")
        found = argparse.Namespace(**{each.dest: each.default for each in self.actions})
        for action, texts in given:
            action(self, found, meant(action, texts))
        for action, texts in self.shared_out(plain, dict(given)):
            action(self, found, meant(action, texts))
        return found

    def is_option(self, word: str) -> bool:
        """Whether a word is read as an option. Where formulas are wanted, one that no option can be
        isn't, as `-> ph`, so that it may stand before a `--`."""
        if self.takes_formulas:
            return LIKE_OPTION.match(word) is not None
        return word.startswith("-") and word != "-"

    def read_option(self, word: str, left: Iterator[str]) -> Given:
        """An option with its value, which is taken from what is left where it follows."""
        name, sign, value = word.partition("=")
        action = self.options().get(name)
        if action is None:
            meant = self.instead_of(name) or (BEHIND if self.takes_formulas else "")
            raise NoAnswer(shown(f"there is no option {name}{meant}"))
        most = 0 if action.nargs == 0 else 1
        values = [value] if sign else list(islice(left, most))
        if len(values) > most:
            refuse(action, f"ignored explicit argument {value!r}")
        if len(values) < most:
            raise NoAnswer(f"the option {name} lacks its value")
        return action, values

    def instead_of(self, name: str) -> str:
        """What may be meant by an option that there isn't, as the end of a sentence: a word that
        stands without an option, another command that has it, or the nearest option, by what is
        behind its dashes."""
        bare = name.lstrip("-")
        for action in self.actions:
            if not action.option_strings and bare.upper() in re.findall(
                r"\w+", str(action.metavar)
            ):
                return f"; {bare.upper()} stands without an option"
        elsewhere = self.elsewhere(name)
        if elsewhere:
            return elsewhere
        known = [each[2:] for each in self.options() if each.startswith("--")]
        return nearest(bare, known, NEAR_OPTION).replace("mean ", "mean --")

    def shared_out(self, plain: list[str], given: Container[argparse.Action]) -> list[Given]:
        """The plain words by what they are given for. NoAnswer where some are missing or too many,
        or where an option is missing that isn't among those given."""
        wanted = [each for each in self.actions if not each.option_strings]
        lacking = [str(each.metavar) for each in wanted if each.nargs in (None, "+")][len(plain) :]
        for name, action in self.options().items():
            if action.required and action not in given:
                lacking.append(name)
        share = re.match("".join(SHARES[each.nargs] for each in wanted), "." * len(plain))
        if share is None or lacking:
            wrong = f"the following arguments are required: {', '.join(lacking)}"
        elif share.end() < len(plain):
            wrong = f"unrecognized arguments: {' '.join(plain[share.end():])}"
            if "--like" in self.options():
                wrong += f"; `--like {plain[share.end()]}` chooses labels"
        else:
            spans = [share.span(group) for group in range(1, len(wanted) + 1)]
            shared = [(each, plain[slice(*span)]) for each, span in zip(wanted, spans)]
            return [(each, texts) for each, texts in shared if texts or each.nargs == "*"]
        raise NoAnswer(f"{shown(wrong)}; {self.format_usage().strip()}")


def form_of_graph(word: str) -> str:
    """The form that a word names. NoAnswer for that of a picture, which another program makes."""
    if word in PICTURES:
        raise NoAnswer(f"no picture is drawn; `--as dot | dot -T{word}` does, with Graphviz")
    return word


def add_form(parser: Parser, about: str, default: str | None = None) -> None:
    """Adds `--as`, the form of a file with a graph."""
    parser.add_argument(
        "--as", dest="form", type=form_of_graph, choices=GRAPH_FORMS, default=default, help=about
    )


def refuse(action: argparse.Action, why: str) -> NoReturn:
    """Raises NoAnswer, for what is given for an argument."""
    raise NoAnswer(shown(str(argparse.ArgumentError(action, why))))


def meant(action: argparse.Action, words: list[str]) -> Any:
    """What the words for an argument mean."""
    try:
        values = [action.type(word) if callable(action.type) else word for word in words]
    except argparse.ArgumentTypeError as error:
        refuse(action, str(error))
    for value in values:
        if action.choices is not None and value not in action.choices:
            known = ", ".join(map(repr, action.choices))
            refuse(action, f"invalid choice: {value!r} (choose from {known})")
    return values[0] if action.nargs in (None, "?") else values


def positive(word: str) -> int:
    """A whole number from 1 to 999999. ArgumentTypeError where the word is none."""
    if not word.isascii() or not word.isdecimal() or not 1 <= len(word) <= 6 or int(word) < 1:
        raise argparse.ArgumentTypeError(f"'{word}' is no number from 1 to 999999")
    return int(word)


def add_database(parser: Parser, name: str = "DATABASE") -> None:
    """Adds the word DATABASE: `arguments.database`, or the name in small letters."""
    parser.add_argument(name.lower(), metavar=name)


def add_choice_of_axioms(parser: Parser) -> None:
    """Adds `--only`, `--all`, `--axioms`, `--ignore-definitions`, `--essential` and `--open`."""
    parser.exclude("--only", "--all")
    add_only(parser, None)
    parser.flag("--all", "the axioms are all $a statements")
    parser.values(
        "--axioms",
        "WORD",
        "only axioms whose label begins with WORD; several: by commas, or more options",
    )
    parser.flag("--ignore-definitions", "no axioms whose label begins with df-")
    add_choice_of_citations(parser)


def add_only(
    parser: Parser,
    default: str | None,
    about: str = "the axioms are those of typecode T (else: |-)",
) -> None:
    """Adds `--only`."""
    parser.value("--only", "T", about, default=default)


def add_open(parser: Parser) -> None:
    """Adds `--open`."""
    parser.flag("--open", "a theorem whose proof is ? counts as an axiom")


def add_choice_of_citations(parser: Parser) -> None:
    """Adds `--essential` and `--open`."""
    parser.flag("--essential", "only the logical part of proofs cites")
    add_open(parser)


def add_limits(parser: Parser) -> None:
    """Adds `--limit-time` and `--limit-memory`."""
    parser.value(
        "--limit-time",
        "SECONDS",
        "of the processor, for verifying a text (else: 10, and 5 for each MB)",
        type=positive,
    )
    parser.value(
        "--limit-memory",
        "MB",
        "for verifying a text (else: 256, and 64 for each MB)",
        type=positive,
    )


def between_commas(words: Iterable[str]) -> list[str]:
    """What the words of an option are that may be given several times, and each time several."""
    return [each for word in words for each in word.split(",") if each]


def options_of(arguments: argparse.Namespace) -> Options:
    """The options among the arguments of a command; those it doesn't take have their default."""
    given = {name: value for name, value in vars(arguments).items() if value not in (None, False)}
    chosen = [name for name in ("only", "all", "essential", "open") if name in given]
    words = [word.removesuffix("*") or word for word in between_commas(given.get("axioms", []))]
    return Options(
        only=given.get("only", None if "all" in given else "|-"),
        essential="essential" in given,
        open="open" in given,
        axioms=tuple(words),
        ignore_definitions="ignore_definitions" in given,
        chosen=f"--{chosen[-1]}" if chosen else None,
    )

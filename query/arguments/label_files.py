"""Labels that a command is given: in files, one or more on a line, and a comment after a `#`; or by
patterns, in which `*` is anything and `?` any character. No label has these signs."""

import argparse
import os
from collections.abc import Iterable, Sequence
from fnmatch import fnmatchcase

from query.answers.errors import NoAnswer, reason, shown
from query.arguments.options import Parser


def add_list(parser: Parser) -> None:
    """Adds `--list FILE`, more labels for `arguments.labels`."""
    parser.values("--list", "FILE", "take more LABELs from FILE: words, and comments after #")


def words_in(path: str) -> list[tuple[int, str]]:
    """The words of a file, each with its line from 1. NoAnswer where it can't be read."""
    try:
        with open(path, "rb") as file:
            lines = file.read().decode("latin-1").split("\n")
    except IsADirectoryError:
        raise NoAnswer(f"{shown(path)}: is a folder") from None
    except OSError as error:
        raise NoAnswer(f"{shown(path)}: {reason(error)}") from None
    return [
        (number, word)
        for number, line in enumerate(lines, 1)
        for word in line.partition("#")[0].split()
    ]


def labels_of(arguments: argparse.Namespace) -> list[str]:
    """The LABELs of a command, those of its lists too. NoAnswer where a list is empty."""
    labels = list(arguments.labels)
    for path in arguments.list:
        words = words_in(os.fspath(path))
        if not words:
            raise NoAnswer(f"{shown(path)}: the list is empty")
        labels += [word for _, word in words]
    return labels


def labels_like(
    words: Sequence[str], known: Iterable[str], name: str, what: str = "label"
) -> list[str]:
    """The labels that words name, each once: a pattern those of the known ones that are like it, in
    their order, and another word itself. NoAnswer where none is like a pattern of the database that
    messages call so; they also say what is known."""
    found: dict[str, None] = {}
    for word in words:
        if "*" not in word and "?" not in word:
            found[word] = None
            continue
        alike = [label for label in known if fnmatchcase(label, word)]
        if not alike:
            raise NoAnswer(f"{name}: has no {what} like '{shown(word)}'")
        found.update(dict.fromkeys(alike))
    return list(found)

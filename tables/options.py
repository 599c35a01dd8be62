"""An option of either program, and those of the commands of `mmquery`."""

from argparse import Action
from dataclasses import dataclass

from query.cli import parser_of
from query.commands import command


@dataclass(frozen=True)
class Option:
    """An option by the words that name it, the long one last. `about` is its line of help, `value`
    what its value is called, if it has one; `choices` or `limits`, the least and the largest
    number, are the values that it may have. Where `is_list`, a value is several of the choices with
    commas between them; where `is_repeated`, the option may be given several times."""

    words: tuple[str, ...]
    about: str
    value: str | None = None
    choices: tuple[str, ...] = ()
    limits: tuple[int, int] | None = None
    default: str | None = None
    is_list: bool = False
    is_repeated: bool = False

    @property
    def name(self) -> str:
        """The long name."""
        return self.words[-1].removeprefix("--")

    def offered(self) -> tuple[str, ...]:
        """What a shell offers for the value: the choices, or some of the numbers."""
        least, most = self.limits or (1, 0)
        powers = (1 << exponent for exponent in range(most.bit_length()))
        return self.choices or tuple(str(power) for power in powers if power >= least)


def option_of(action: Action) -> Option:
    """An option of a parser."""
    value = None if action.nargs == 0 else str(action.metavar or action.dest.upper())
    choices = tuple(str(choice) for choice in action.choices or ())
    is_repeated = isinstance(action.default, list)
    words = tuple(action.option_strings)
    return Option(words, action.help or "", value, choices, is_repeated=is_repeated)


def options_of(name: str) -> list[Option]:
    """The options of a command of `mmquery`."""
    actions = parser_of(command(name)).actions
    return [option_of(action) for action in actions if action.option_strings]


def first_words(name: str) -> list[str]:
    """The words that may come first after a command, where they are fixed."""
    actions = parser_of(command(name)).actions
    choices = [action.choices for action in actions if not action.option_strings]
    return [str(choice) for choice in choices[0] or ()] if choices else []

"""The completions of fish."""

from query.commands import names, summaries
from tables.options import Option, first_words, options_of
from tables.parts import MADE, in_shell
from tables.words import Words, sentence


def names_in_fish(option: Option) -> str:
    """An option's names as `complete` takes them: `-l` for a long one, `-s` for a letter."""
    return " ".join(
        f"-l {word[2:]}" if word.startswith("--") else f"-s {word[1:]}" for word in option.words
    )


def of_mmdepend(options: dict[Option, Words]) -> list[str]:
    """The options of `mmdepend`."""
    return [
        f"complete -c mmdepend {names_in_fish(option)}{value_of(option, words)} -d "
        + in_shell(sentence(words.short))
        for option, words in options.items()
    ]


def value_of(option: Option, words: Words) -> str:
    """Whether a value follows an option of `mmdepend`, and what is offered for it."""
    offered = " ".join(option.offered())
    if words.typed:
        return f' -x -a "{words.typed}"'
    if option.is_list:
        return f" -x -a '(__fish_append , {offered})'"
    return f" -x -a '{offered}'" if offered else " -r -F" if option.value else ""


def of_mmquery() -> list[str]:
    """The whole completion of `mmquery`."""
    lines = [
        f"# {MADE}; change the commands instead.",
        "# Completes the commands and options of mmquery, in fish. Put this file into",
        "# ~/.config/fish/completions.",
        "",
    ]
    for name, about in summaries().items():
        start = f"complete -c mmquery -n __fish_use_subcommand -a {name}"
        lines.append(f"{start} -d {in_shell(about)}")
    for name in names():
        start = f"complete -c mmquery -n '__fish_seen_subcommand_from {name}'"
        for option in options_of(name):
            value = f" -x -a '{' '.join(option.choices)}'" if option.choices else " -r"
            value = value if option.value else ""
            lines.append(f"{start} {names_in_fish(option)}{value} -d {in_shell(option.about)}")
        if first_words(name):
            lines.append(f"{start} -a '{' '.join(first_words(name))}'")
    return lines

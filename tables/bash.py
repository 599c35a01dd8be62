"""The completions of bash."""

from query.commands import names
from tables.options import Option, first_words, options_of
from tables.parts import MADE
from tables.words import Words


def of_mmdepend(options: dict[Option, Words]) -> list[str]:
    """What is offered after each option of `mmdepend`, and the options."""
    lines = [
        f"        --{option.name}) {offer(option, words)};;"
        for option, words in options.items()
        if option.value
    ]
    every = " ".join(word for option in options for word in option.words)
    return [*lines, f"        *) if [[ $word == -* ]]; then words='{every}'; fi ;;"]


def offer(option: Option, words: Words) -> str:
    """How it is said what is offered for the value of an option; where nothing is, it is files."""
    offered = " ".join(option.offered())
    if words.typed:
        return f'typed="{words.typed}" '
    return f"{'list' if option.is_list else 'words'}='{offered}' " if offered else ""


def choices_by_option() -> dict[str, dict[tuple[str, ...], list[str]]]:
    """For each option with a fixed choice of values, the choices with the commands that have
    them."""
    found: dict[str, dict[tuple[str, ...], list[str]]] = {}
    for name in names():
        for option in options_of(name):
            if option.choices:
                by = found.setdefault(option.words[0], {})
                by.setdefault(option.choices, []).append(name)
    return found


def of_mmquery() -> list[str]:
    """The whole completion of `mmquery`."""
    lines = [
        f"# {MADE}; change the commands instead.",
        "# Completes the commands and options of mmquery, in bash. Source this file, or put it",
        "# into ~/.local/share/bash-completion/completions as `mmquery`.",
        "_mmquery() {",
        "    local word=${COMP_WORDS[COMP_CWORD]} before=${COMP_WORDS[COMP_CWORD - 1]} words=",
        '    if [ "$word" = = ]; then word=; elif [ "$before" = = ]; then',
        "        before=${COMP_WORDS[COMP_CWORD - 2]}; fi",
        '    if [ "$COMP_CWORD" -eq 1 ]; then',
        f"        words='{' '.join(names())} --help --version'",
        "    else",
        "        case ${COMP_WORDS[1]}:$before in",
    ]
    for option, by in choices_by_option().items():
        for choices, commands in by.items():
            pattern = " | ".join(f"{name}:{option}" for name in commands)
            lines.append(f"            {pattern}) words='{' '.join(choices)}' ;;")
    for name in names():
        if first_words(name):
            lines.append(f"            {name}:{name}) words='{' '.join(first_words(name))}' ;;")
    lines += ["            *)", "                case ${COMP_WORDS[1]}:$word in"]
    for name in names():
        every = " ".join(word for option in options_of(name) for word in option.words)
        lines.append(f"                    {name}:-*) words='{every}' ;;")
    return lines + [
        "                esac",
        "                ;;",
        "        esac",
        "    fi",
        '    if [ -z "$words" ]; then',
        '        mapfile -t COMPREPLY < <(compgen -f -- "$word")',
        "        compopt -o filenames 2>/dev/null",
        "        return",
        "    fi",
        '    mapfile -t COMPREPLY < <(compgen -W "$words" -- "$word")',
        "}",
        "complete -F _mmquery mmquery ./mmquery",
    ]

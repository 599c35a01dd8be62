"""The completions of zsh."""

from query.commands import names, summaries
from tables.options import Option, first_words, options_of
from tables.parts import MADE, in_shell
from tables.words import Words


def of_mmdepend(options: dict[Option, Words]) -> list[str]:
    """The call that completes the options of `mmdepend`."""
    lines = [f"    {argument(option, words)} \\" for option, words in options.items()]
    return ["_arguments \\", *lines, "    '1:database:_files'"]


def argument(option: Option, words: Words) -> str:
    """An option of `mmdepend` in the form of `_arguments`."""
    if len(option.words) > 1:
        return f"'(- *)'{{{','.join(option.words)}}}" + in_shell(f"[{words.short}]")
    if option.value is None:
        return in_shell(f"--{option.name}[{words.short}]")
    kind = "number from {} to {}".format(*option.limits) if option.limits else words.kind
    return in_shell(f"--{option.name}=[{words.short}]:{kind}:{values_of(option, words)}")


def values_of(option: Option, words: Words) -> str:
    """What is offered for the value of an option of `mmdepend`."""
    offered = " ".join(option.offered())
    if words.typed:
        return "({})".format(words.typed.strip("'").replace("|", "\\|"))
    if option.is_list:
        return f"_sequence compadd - {offered}"
    return f"({offered})" if offered else "_files"


def option_in_zsh(option: Option) -> str:
    """An option of `mmquery` in the form of `_arguments`."""
    about = option.about.replace("[", "(").replace("]", ")").replace(":", "\\:")
    value = f":value:({' '.join(option.choices)})" if option.choices else ":value:_files"
    parts = []
    for word in option.words:
        sign = "=" if option.value and word.startswith("--") else ""
        parts.append(in_shell(f"*{word}{sign}[{about}]{value if option.value else ''}"))
    return " ".join(parts)


def of_mmquery() -> list[str]:
    """The whole completion of `mmquery`."""
    lines = [
        "#compdef mmquery",
        f"# {MADE}; change the commands instead.",
        "# Completes the commands and options of mmquery, in zsh. Put this file into a folder of",
        "# $fpath.",
        "_mmquery() {",
        "    local -a commands",
        "    commands=(",
    ]
    lines += [f"        {in_shell(f'{name}:{about}')}" for name, about in summaries().items()]
    lines += [
        "    )",
        "    if (( CURRENT == 2 )); then",
        "        _describe command commands",
        "        return",
        "    fi",
        "    local name=$words[2]",
        "    shift words",
        "    (( CURRENT-- ))",
        "    case $name in",
    ]
    for name in names():
        lines += [f"        {name})", "            _arguments \\"]
        lines += [f"                {option_in_zsh(option)} \\" for option in options_of(name)]
        if first_words(name):
            lines.append(f"                '1:word:({' '.join(first_words(name))})' \\")
        lines += ["                '*:file:_files'", "            ;;"]
    return lines + ["    esac", "}", '_mmquery "$@"']

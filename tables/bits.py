"""The sections of a report in the library's header and in the modules for Python and JavaScript."""

import json
from collections.abc import Iterator

from tables.options import Option
from tables.words import Words


def of_header(bits: dict[str, int]) -> list[str]:
    """The cases of the enumeration."""
    whole = ", ".join(name for name, bit in bits.items() if bit & bits["all"] and name != "all")
    ordered = sorted(bits, key=bits.__getitem__)
    lines = [f"    MMDEPEND_{name.upper()} = {bits[name]}," for name in ordered]
    lines[ordered.index("all")] += f" /* {whole} */"
    return [*lines[:-1], lines[-1].replace(",", "")]  # C++98 has no comma there


def of_python(bits: dict[str, int]) -> list[str]:
    """The table by which the module for Python knows them, as black lays it out."""
    line = f"PARTS = {json.dumps(bits)}"
    rows = [f'    "{name}": {bit},' for name, bit in bits.items()]
    return [line] if len(line) <= 100 else ["PARTS = {", *rows, "}"]


def of_javascript(bits: dict[str, int], options: dict[Option, Words]) -> Iterator[str]:
    """The table by which the module for JavaScript knows them, and the request without options."""
    yield "/** The sections of a report, each with its bit; `all` are those where none is named. */"
    yield f"const BITS = {{ {', '.join(f'{name}: {bit}' for name, bit in bits.items())} }};"
    yield from ("/**", " * What the program is asked without options.", " * @type {Request}", " */")
    plain = [f"{option.name}: {default_of(option)}" for option in in_requests(options)]
    yield f"const PLAIN = {{ {', '.join(plain)} }};"


def in_requests(options: dict[Option, Words]) -> list[Option]:
    """The options that a request in JavaScript has as fields."""
    return [option for option, words in options.items() if words.field]


def default_of(option: Option) -> str:
    """What a field has where the option isn't given."""
    if option.value is None:
        return "false"
    is_digit = option.default is not None and is_number(option)
    return str(option.default) if is_digit else json.dumps(option.default)


def is_number(option: Option) -> bool:
    """Whether the values are numbers."""
    return bool(option.choices) and all(choice.isdecimal() for choice in option.choices)

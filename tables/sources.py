"""What the crates declare: options and sections of the program, codes of faults, the version.

The sources are read as `rt tidy` lays them out. What has another form is refused, so that nothing
is left out in silence.
"""

import re
from dataclasses import dataclass
from pathlib import Path

from tables.options import Option

TOP = Path(__file__).resolve().parent.parent
CRATES = TOP / "crates"
OPTIONS = CRATES / "mm_line/src/options.rt"
SECTIONS = CRATES / "mm_line/src/sections.rt"
BITS = CRATES / "mm_library/src/request.rt"
NUMBERS = CRATES / "mm_spec/src/codes.rt"
FAULTS = CRATES / "mm_spec/src/lib.rt"
VERSION = CRATES / "mm_version/src/lib.rt"

FUNCTION = re.compile(
    r"^fn (\w+)<'a>\(alloc: Global(.*?)\) -> Arg<'a>$.*?^\{\n(.*?)^\}$", re.M | re.S
)
START = re.compile(r"\s*Arg::new\(alloc, [^()]*\)")
CALL = re.compile(r'\s*\.(\w+)\(((?:"(?:[^"\\]|\\.)*"|\([^()]*\)|[^()"])*)\)', re.S)
SETS = {"long", "action", "value_name", "value_parser", "default_value", "help"}
"""What is read of an argument; `hide_possible_values` says nothing that would matter here."""
RANGE = re.compile(r"clap::value_parser!\(u32\)\.range\((\d+)\.\.(\d+)\)")


class Unreadable(Exception):
    """A source hasn't the form in which it is read, or something lacks its words. It says where."""


def one(pattern: str, text: str) -> str:
    """The group of the only match of a pattern."""
    found: list[str] = re.findall(pattern, text, re.M | re.S)
    if len(found) != 1:
        raise Unreadable(f"{len(found)} places, and not one, have the form {pattern}")
    return found[0]


def literal(text: str) -> str:
    """What a literal of a text stands for."""
    match = re.fullmatch(r'"((?:[^"\\]|\\\n)*)"', text)
    if match is None:
        raise Unreadable(f"{text} is no text, or has signs that aren't read")
    return re.sub(r"\\\n\s*", "", match[1])


def texts(listed: str) -> tuple[str, ...]:
    """The texts that are listed."""
    return tuple(re.findall(r'"([^"]*)"', listed))


@dataclass(frozen=True)
class Builder:
    """A function that makes an argument: the names of what it is given, and what it sets."""

    given: list[str]
    sets: dict[str, str]

    @classmethod
    def of(cls, given: str, body: str) -> "Builder":
        """It by its source."""
        rest = START.sub("", body, count=1)
        sets = {call: value.strip().rstrip(",") for call, value in CALL.findall(rest)}
        if CALL.sub("", rest).strip() or sets.keys() - SETS - {"hide_possible_values"}:
            raise Unreadable(f"an argument that sets what isn't read:\n{body}")
        return cls(re.findall(r"(\w+): ", given), sets)

    def option(self, values: list[str], lists: dict[str, tuple[str, ...]]) -> Option:
        """The option that it makes of these values, where `lists` are the choices by the name that
        the source has for them."""
        if len(values) != len(self.given) or {"long", "action", "help"} - self.sets.keys():
            raise Unreadable(f"an argument of {values} that lacks something: {self.sets}")
        named = dict(zip(self.given, values))
        found = {call: named.get(value, value) for call, value in self.sets.items()}
        taken = found.get("value_parser", "")
        limits = RANGE.fullmatch(taken)
        if taken and not limits and taken not in lists:
            raise Unreadable(f"the choices {taken} aren't read")
        value, default = (
            literal(found[call]) if call in found else None
            for call in ("value_name", "default_value")
        )
        if (found["action"] == "ArgAction::SetTrue") is not (value is None):
            raise Unreadable(f"--{found['long']} has a value without a name, or a name alone")
        about = literal(found["help"])
        if taken == "texts" and not all(name in about for name in lists[taken]):
            raise Unreadable(f"--{found['long']} takes other names than its help says")
        return Option(
            (f"--{literal(found['long'])}",),
            about,
            value,
            lists.get(taken, ()),
            (int(limits[1]), int(limits[2]) - 1) if limits else None,
            default,
            taken == "texts",
        )


@dataclass(frozen=True)
class Program:
    """What `mmdepend` is told by its command line: the options in the order of the help, and what
    the help says besides."""

    about: str
    file: str
    options: list[Option]
    footer: str


def sections_in(text: str) -> tuple[str, ...]:
    """The names that `--report` takes."""
    listed = texts(one(r"vec!\[in alloc;(.*?)\]", text))
    if set(listed) != set(re.findall(r'name == "(\w+)"', text)):
        raise Unreadable(f"{SECTIONS.name}: the names that are known aren't those that are listed")
    return listed


def program_in(text: str, sections: tuple[str, ...]) -> Program:
    """The program, by the source that reads its options."""
    functions = {name: Builder.of(given, body) for name, given, body in FUNCTION.findall(text)}
    lists = {
        f"{name}.as_slice()": texts(listed)
        for name, listed in re.findall(r"^static (\w+): \[&str; \d+\] = \[(.*?)\];$", text, re.M)
    }
    calls = re.findall(r"(\w+)\(alloc(?:, )?(.*?)\),\n", one(r"vec!\[in alloc;\n(.*?)\]\?;", text))
    if {name for name, _ in calls} != set(functions):
        raise Unreadable(f"{OPTIONS.name}: the arguments of the command aren't those that are made")
    *options, (file, _) = calls
    made = [
        functions[name].option(re.findall(r'"[^"]*"|\w+', given), {**lists, "texts": sections})
        for name, given in options
    ]
    made.append(Option(("-h", "--help"), "Print help"))  # clap's own
    made.append(Option(("-V", "--version"), "Print version"))
    footer = one(r'const HELP_FOOTER: &str = "\\\n(.*?)";', text)
    about = one(r'\.about\("([^"]*)"\)', text)
    return Program(about, literal(functions[file].sets["help"]), made, footer)


def program() -> Program:
    """The program as the crates have it."""
    return program_in(OPTIONS.read_text("utf-8"), sections_in(SECTIONS.read_text("utf-8")))


def bits_in(request: str, sections: str) -> dict[str, int]:
    """The names that `--report` takes, each with the bits by which the library knows it."""
    found = {
        name: int(factor or 1)
        for name, factor in re.findall(r"^ +(\w+): bits(?: / (\d+))? % 2 == 1,$", request, re.M)
    }
    is_all = one(r'^ +let (\w+) = has_name\(text, "all"\);$', sections)
    meant = re.findall(rf"^ +(\w+): {is_all} \|\|", sections, re.M)
    names = sections_in(sections)
    if not meant or {*found, "all"} != {*names}:
        raise Unreadable(f"{BITS.name}: the sections aren't those of {SECTIONS.name}")
    found["all"] = sum(found[name] for name in meant)
    return {name: found[name] for name in names}


def bits() -> dict[str, int]:
    """The sections and their bits as the crates have them."""
    return bits_in(BITS.read_text("utf-8"), SECTIONS.read_text("utf-8"))


def codes_in(numbers: str, declared: str) -> list[str]:
    """The codes of faults in their order, by the function that numbers them and their comments."""
    found = {
        name: f"E{int(number):02}" for name, number in re.findall(r"Code::(\w+) => (\d+),", numbers)
    }
    listed = one(r"^pub enum Code \{\n(.*?)^\}$", declared)
    told = re.findall(r"^    /// (E\d\d): (?:.*\n    ///)*.*\n    (\w+),$", listed, re.M)
    if found != {name: code for code, name in told}:
        raise Unreadable(f"{NUMBERS.name}: the numbers aren't those of the comments on the codes")
    return sorted(found.values())


def codes() -> list[str]:
    """The codes of faults as the crates have them."""
    return codes_in(NUMBERS.read_text("utf-8"), FAULTS.read_text("utf-8"))


def version() -> tuple[str, str]:
    """The version, and the logic in which it was proved."""
    told = one(r'^pub const VERSION: &str = "([^"]*)";$', VERSION.read_text("utf-8"))
    match = re.fullmatch(r"(\d+\.\d+\.\d+), proved with rattle logic ([0-9a-f]{16})", told)
    if match is None:
        raise Unreadable(f"{VERSION}: {told}")
    return match[1], match[2]

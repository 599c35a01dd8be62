"""The words on options that no source has. The order of `OPTIONS` is that of the pages."""

from dataclasses import asdict, dataclass

from tables.options import Option
from tables.sources import Program, Unreadable


@dataclass(frozen=True)
class Words:
    """What is said of an option of `mmdepend` besides its line of help.

    `short` is for completions, which say that its value is a `kind`, and offer `typed`, or what the
    source permits, or files. `text` is for the manual page and docs/PROGRAM.md, and `more` follows
    it on the manual page: there a backtick stands around what is typed or written, and `*` around
    what the user puts in place of it. `field` is for callers in JavaScript, whose requests have a
    field of this name; without these words they have none. In braces is what the source says.
    """

    short: str
    text: str
    more: str = ""
    kind: str = ""
    typed: str = ""
    field: str = ""


OPTIONS = {
    "only": Words(
        "report on the axioms of this typecode alone",
        "Report only on the axioms of typecode *{value}*, such as `'|-'`. Chains of citations "
        "still run through all assertions. In the section `citations` list only the cited "
        "assertions of typecode *{value}*, and in the section `statements` only the assertions of "
        "typecode *{value}*.",
        more="A typecode that no axiom has gives a report without columns, and status 0.",
        kind="typecode",
        typed="'|-'",
        field="The typecode of the axioms; without it, of whatever typecode they are.",
    ),
    "report": Words(
        "write these parts of the report",
        "Write these parts of the report, with commas between them: `matrix`, `counts`, `usage`, "
        "`citations` (what each theorem cites in its own proof), `proofs` "
        "([the steps of each proof](REPORT.md#proofs)), `statements` "
        "([what each assertion says](REPORT.md#statements)), or `all` (the default: matrix, counts "
        "and usage). They stand in this order, whatever order they are named in.",
        kind="parts",
        field="Names of sections with commas between them: {others}, or `all`, which is the first "
        "three and the default.",
    ),
    "form": Words(
        "a digit for each column, or for each four",
        "The form of the matrix: `1` (the default), one digit for each column, or `2`, one "
        "hexadecimal digit for each four columns.",
        kind="form",
        field="The form of the matrix: one digit per column, or one hexadecimal digit per four.",
    ),
    "essential": Words(
        "count what the logical part of a proof cites",
        "Count as citations only what the logical part of a proof applies, and not what builds its "
        "formulas.",
        field="Count as citations only what the logical part of a proof applies.",
    ),
    "open": Words(
        "count a theorem whose proof is ? as an axiom",
        "Count a theorem whose proof is `?` (or `( ) ?`) as an axiom, so that the report shows "
        "what rests on it. Without this option such a proof is a fault.",
        field="Count a theorem whose proof is `?` as an axiom.",
    ),
    "against": Words(
        "write what the database has and this one has not",
        "Compare the databases *{value}* and *FILE*, the new one, [in place of a report]"
        "(#two-databases).",
        more="The output has four sections: `new` and `gone`, the assertions that only *FILE* or "
        "only *{value}* has, and `gained` and `lost`, for each theorem the axioms on which it "
        "rests in *FILE* alone or in *{value}* alone. If a database has a fault, the line begins "
        "with `old` or `new`. One of both files can be `-`. The options `--report` and `--form` "
        "change nothing then, unless the report is asked for as well, by `--and-report`.",
        kind="database",
    ),
    "and-report": Words(
        "write the report on the database behind that",
        "With `--against`: where neither database has a fault, write the report on *FILE* behind "
        "the comparison, [as a run on *FILE* alone writes it](#two-databases).",
        more="Both parts have a first and a last line of their own. The options `--report` and "
        "`--form` say what the report has. Without `--against` it is an invalid command line.",
    ),
    "workers": Words(
        "check the proofs by {value} threads",
        "Check the proofs by *{value}* threads, {limits}; the default is {default}. What is "
        "written doesn't depend on it.",
    ),
    "pieces": Words(
        "read the text in {value} pieces",
        "Read the text in *{value}* pieces, {limits}; the default is {default}. What is written "
        "doesn't depend on it.",
    ),
    "help": Words("print the options and the statuses", "Print a short form of this page."),
    "version": Words(
        "print the version",
        "Print the version, and the [logic](INSTALL.md#from-a-clone) in which it was proved.",
    ),
}


MMQUERY = {
    "only": "The axioms are those of typecode *{value}*. Without this and `--all`, they are those "
    "of typecode `|-`: logical axioms and definitions.",
    "essential": "Only the logical part of proofs cites, not what builds its formulas.",
    "under": "List only what stands below the header of the number or title *{value}*, as "
    "`chapters` lists them.",
    "format": "`text` (the default), or `tsv`, `csv`, `json` with the names of the columns. In "
    "`csv` a field that a spreadsheet would take for a formula has a `'` before it, and so has one "
    "that begins with `'`.",
    "limit-time": "Of the processor, for verifying a text. Without this they are 10, and 5 for "
    "each megabyte of the text.",
    "limit-memory": "Megabytes of memory for verifying a text. Without this they are 256, and 64 "
    "for each megabyte of the text. A text that needs more has no answer, and nothing of it is "
    "kept.",
    "help": "Show the page of the command.",
}
"""What the manual page of `mmquery` says of an option, where the line of help isn't enough."""


PAGE = {
    "watch": "An axiom of which each chapter speaks first; several: by commas, or more options",
    "against": "Show what changed since this older database",
    "limit-time": "Of the processor, for this program to verify a text (else: 10, and 5 for each "
    "MB)",
    "help": "Print help",
}
"""What `page` in Node says of an option in place of the line of help of `mmquery page`."""
OF_NODE = [
    Option(("--name",), "How the page calls DATABASE (else: by the name of its file)", "NAME"),
    Option(("--against-name",), "The same for OLD", "NAME"),
    Option(
        ("--program",),
        "Verify by this program, an mmdepend that is built for the system, which takes a third of "
        "the time",
        "PATH",
    ),
]
"""The options that `page` has in Node alone."""


def sentence(words: str) -> str:
    """Words with which a sentence begins."""
    return words[0].upper() + words[1:]


def described(program: Program) -> dict[Option, Words]:
    """The options of the program with their words, in the order of the pages."""
    known = {option.name: option for option in program.options}
    if odd := sorted(known.keys() ^ OPTIONS.keys()):
        raise Unreadable(f"tables/words.py: {', '.join(odd)}: no words, or no such option")
    return {known[name]: filled(words, known[name]) for name, words in OPTIONS.items()}


def filled(words: Words, option: Option) -> Words:
    """The words with what the source says: what the value is called, which one it is where it isn't
    given, the limits between which it is, and the other choices. Unreadable where the pages
    wouldn't name all choices, or the limits."""
    facts = {
        "value": option.value,
        "default": option.default,
        "limits": "{} to {}".format(*option.limits) if option.limits else "",
        "others": ", ".join(f"`{each}`" for each in option.choices if each != option.default),
    }
    found = Words(**{name: text.format(**facts) for name, text in asdict(words).items()})
    default = [f"`{option.default}` (the default"] if option.choices and option.default else []
    for told in (*(f"`{choice}`" for choice in option.choices), facts["limits"], *default):
        if str(told) not in found.text:
            raise Unreadable(f"tables/words.py: the text on {option.name} lacks {told}")
    return found

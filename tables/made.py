"""Which files have what is made, and what they are to have."""

from collections.abc import Iterator

from tables import bash, bits, faults, fish, manual, scripts, sources, zsh
from tables.parts import Edit, part, whole, words
from tables.sources import TOP, Unreadable
from tables.words import described

VERSION = r"(\d+\.\d+\.\d+)"
VERSIONED = (
    *("README.md", "docs/INSTALL.md", "docs/PUBLISHING.md", "docs/ci/github.yml"),
    *("man/mmdepend.1", "man/mmquery.1"),
)
"""What names the version behind the program's name, in names of files too."""


def edits() -> Iterator[tuple[str, Edit]]:
    """What is made, each by the file that has it."""
    program = sources.program()
    options = described(program)
    sections = sources.bits()
    codes = sources.codes()
    yield "completions/mmdepend.bash", part("options", bash.of_mmdepend(options))
    yield "completions/_mmdepend", part("options", zsh.of_mmdepend(options))
    yield "completions/mmdepend.fish", part("options", fish.of_mmdepend(options))
    yield "man/mmdepend.1", part("synopsis", manual.synopsis(options))
    yield "man/mmdepend.1", part("options", manual.options_of_mmdepend(options))
    yield "man/mmquery.1", part("commands", manual.commands())
    yield "man/mmquery.1", part("options", manual.options_of_mmquery())
    yield "library/mmdepend.h", part("sections", bits.of_header(sections))
    yield "python/mmdepend.py", part("sections", bits.of_python(sections))
    yield "web/library.js", part("sections", bits.of_javascript(sections, options))
    yield "web/node/command-line.js", part("options", scripts.of_command_line(program))
    yield "web/node/page-command.js", part("options", scripts.of_page())
    yield "packages/files/index.d.ts", part("request", scripts.of_requests(options))
    yield "docs/PROGRAM.md", part("options", manual.table(options))
    faults.see_words(codes, program.footer)
    yield "python/mmdepend.py", part("faults", faults.of_python())
    yield "docs/FAULTS.md", faults.of_page
    for name in ("query/program/refusals.py", "packages/files/index.d.ts"):
        yield name, words(r"`E00`\s+to\s+`(E\d\d)", codes[-1])
    version, logic = sources.version()
    yield "query/cli.py", words(rf'"mmquery {VERSION}', version)
    for name in VERSIONED:
        yield name, words(rf"\bmmdepend[-_ ]{VERSION}", version)
    yield "docs/PUBLISHING.md", words(rf"\bv{VERSION}", version)
    yield "docs/INSTALL.md", words(r"It has to be `([0-9a-f]{16})", logic)
    yield "completions/mmquery.bash", whole(bash.of_mmquery())
    yield "completions/_mmquery", whole(zsh.of_mmquery())
    yield "completions/mmquery.fish", whole(fish.of_mmquery())


def made() -> dict[str, tuple[str, str]]:
    """The files that have something which is made, each with the text that it has, and with the one
    that it is to have. Unreadable where that can't be told."""
    before: dict[str, str] = {}
    after: dict[str, str] = {}
    for name, edit in edits():
        if name not in before:
            before[name] = after[name] = (TOP / name).read_text("utf-8")
        try:
            after[name] = edit(after[name])
        except Unreadable as why:
            raise Unreadable(f"{name}: {why}") from None
    return {name: (text, after[name]) for name, text in before.items()}

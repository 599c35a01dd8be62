"""`gate`: the check of a pull request."""

import argparse
import os
from collections.abc import Iterator
from dataclasses import replace
from pathlib import Path

from query.answers.errors import NoAnswer, reason, shown
from query.answers.excerpts import SHOWN_FORMULA
from query.arguments.context import Context
from query.arguments.options import Parser, add_database
from query.commands import Command
from query.comparisons.changes import Comparison, side_by_side
from query.comparisons.differences import Taken
from query.gate.branch import branch_of, request_of
from query.gate.config import FILE_NAME, content_of, find_config, load_config
from query.gate.finding import Finding
from query.gate.forms import FORMS, Verdict, as_summary
from query.gate.request import Request, config_in, notes_on, with_brought
from query.gate.rules import Case, judge
from query.gate.weakened import losses, mended
from query.platform import limits
from query.program.refusals import Refused
from query.program.source import Source, is_same_file
from query.program.unpacking import packer_of
from query.reports.choice import Options
from query.reports.database import Database
from query.reports.of_program import COUNTS

FORMATS = tuple(FORMS)
OPTIONS = Options(only=None, open=True)
"""Any axiom may be watched. An open theorem isn't a fault, but breaks a rule."""

PAGE = """
Checks a database as a pull request should be checked. Without OLD, what the base would be after the
merge of HEAD is compared with what it is; the base is the last commit of REV. The base's
mmdepend.toml says which axioms are watched, what is allowed, what is claimed, and which rules are
off. The status is 1 where

  axioms       an axiom is new, changed or gone
  definitions  one that is called df-.. isn't sound, where the file says `definitions = true`; those
               that are sound, and their syntax axioms, are let in then
  watched      a watched axiom is missing, or its label is another one's
  newly        a theorem that was there before newly rests on a watched axiom; one that was renamed
               (a guess: the same statement under another label) was there
  new          a new theorem rests on a watched axiom, or one that took over the label of another
               statement of the base, which has another label now
  claims       a theorem rests on an axiom that mmdepend.toml claims it avoids
  avoids       the same of a comment $( $j usage 'T' avoids 'A'; $), or that comment is gone
  open         a theorem is left open: its proof is ?
  mathboxes    a statement of a section `Mathbox for ..` is cited from outside it, or the section no
               longer has it
  discouraged  a theorem newly cites one whose comment says (New usage is discouraged.), or a
               comment no longer says so, or hides it
  plain        another program would take another text: an include in a comment, an attribute of
               git that changes the file, a name that some systems take for that of the file
  config       the mmdepend.toml that is brought asks less than the base's
  valid        the database is refused, or compressed

unless mmdepend.toml allows it. That a theorem of both says something else, under the label that it
had, breaks no rule: a note names such theorems, and `review` shows both statements. Which
statements came in and went, and which theorems rest on more, is what `mmdepend --against` says,
whose answer is proved. An mmdepend.toml that is brought judges as well. Each line has file, line,
label, reason and rule; the last line says what was compared, without OLD also with the commits, and
if no axiom is watched. What one changed proof does to many theorems is one finding, and at most
1000 are told; --all tells each theorem, and all of them. --format github writes annotations, and
--format log what no server takes for a command.

`newly = "main"` and `new = "main"` leave theorems of mathboxes, as --main of other commands does.
But what the base has in its main part is judged wherever it stands now, and so is what stands where
the base has no mathbox. What comes out of a mathbox counts as new. A header that takes in what
stayed where it was is a finding of the first of these rules.

`new` follows `newly` where the file says nothing of it. Without a key `new` under rules, `newly`
stands for both, so `newly = false` switches `new` off too. Without `new` under allow, what is
allowed by `newly` is allowed of new theorems too. `new = true` and `new = {}` part them.

mmdepend.toml lies at the top of the repository. It counts once the base has it. For instance:

  watch = ["ax-ac2", "ax-reg"]
  definitions = true
  [rules]
  newly = "main"
  new = "main"
  discouraged = false
  [allow]
  axioms = ["ax-mine"]
  watched = ["ax-to-come"]
  newly.ax-ac2 = ["zorn2"]
  new.ax-ac2 = ["zorn3"]
  open = ["mytheorem"]
  [claims]
  "2p2e4" = ["ax-ac2", "ax-reg"]

Under allow stand the labels of findings that are let through, by rules. With --to-allow, lines
behind the findings say what would have to stand there; in JSON the key `allow` of each finding
names the list. `allow.watched` is of axioms that are watched before they are there: it lets a
watched label be missing as long as neither OLD nor NEW has it. Which theorems rest on a
new axiom is told by `review`; the gate tells it of those that are watched.

A job of CI has git fetch the base with its history, asks the second line below, and fails where
the status isn't 0. docs/ci/github.yml is such a job for GitHub, which no pull request can change,
and docs/ci/check-database a script for other servers.

  $ mmquery gate --base origin/main set.mm
  $ mmquery gate --base origin/main --format github --no-cache HEAD:set.mm
"""


def configure(parser: Parser) -> None:
    """Adds the words and options."""
    parser.add_argument("old", metavar="OLD", nargs="?")
    add_database(parser)
    parser.value("--base", "REV", "the base (else mmdepend.toml's: origin/main)")
    parser.flag("--merge-base", "compare with the merge base, and merge nothing")
    parser.value("--config", "FILE", "FILE in place of mmdepend.toml")
    parser.flag("--config-of-new", "judge by the file of NEW, not by the base's")
    parser.value("--summary", "FILE", "adds a summary in Markdown to FILE")
    parser.flag("--all", "tell each theorem, and all findings")
    parser.flag("--to-allow", "say what mmdepend.toml would have to say to let them through")


def between_files(context: Context, arguments: argparse.Namespace) -> Request:
    """The request of two words."""
    words = (arguments.old, arguments.database)
    if arguments.base is not None or arguments.merge_base:
        option = "--base" if arguments.base is not None else "--merge-base"
        raise NoAnswer(f"gate: {option} goes with one database, not with two")
    old, new = (text_of(context.database(word).source) for word in words)
    if words[0] != words[1] and is_same_file(*words):
        raise NoAnswer(f"{old.name} and {new.name} are the same file")
    return with_configs_of_files(Request(old, new, old.name), arguments)


def text_of(source: Source) -> Source:
    """A source that is a database. NoAnswer where it is a report."""
    source.see_text()
    return source


def with_configs_of_files(request: Request, arguments: argparse.Namespace) -> Request:
    """A request with what is asked of two files: by the file `mmdepend.toml` that holds for OLD, or
    by that which the options name."""
    if arguments.config is not None:
        return replace(request, config=load_config(Path(arguments.config)))
    words = (arguments.old, arguments.database)
    before, after = (find_config(Path(each).parent) for each in words)
    of_old, of_new = (None if each is None else content_of(each) for each in (before, after))
    name = FILE_NAME if after is None else os.path.relpath(after)
    if arguments.config_of_new:
        return replace(request, config=config_in(of_new, name))
    config = config_in(of_old, FILE_NAME if before is None else os.path.relpath(before))
    request = replace(request, config=config, before=config)
    return request if after is None or of_old == of_new else with_brought(request, of_new, name)


def with_base(arguments: argparse.Namespace) -> Request:
    """The request of one word: a file in a repository, or `REV:PATH`."""
    branch = replace(
        branch_of(arguments.database),
        base=arguments.base,
        config=arguments.config,
        is_config_of_new=arguments.config_of_new,
        is_merge_base=arguments.merge_base,
    )
    request = request_of(branch, shown(arguments.database))
    for source in (request.old, request.new):
        source.see_text()
    return request


def found_in(
    request: Request, context: Context, tells_all: bool, notes: list[str]
) -> Iterator[Finding]:
    """What breaks the rules. That NEW is refused breaks one too. What was changed and breaks none
    is added to the notes."""
    packer = packer_of(request.new.data)
    if packer is not None:
        reason = f"compressed by {packer}; in git a database is plain text"
        yield Finding("valid", request.new.name, 0, "", "", reason)
        return
    old, new = (Database(each, OPTIONS, context.uses_cache) for each in (request.old, request.new))
    try:
        comparison = side_by_side(old, new)
    except Refused as refused:
        if refused.source is not request.new:
            raise
        yield refusal_of(refused)
        return
    see_share(old, new, comparison.differences.taken)
    notes += notes_on(comparison)
    yield from judged(comparison, request, tells_all)


def see_share(old: Database, new: Database, taken: Taken | None) -> None:
    """NoAnswer where NEW by itself takes more than its share of what two texts of its length get,
    and OLD not more than that of its own: what is compared with NEW later might have no answer,
    whatever it brings. `taken` is what both together took: where that is no more than the share of
    NEW, neither is run again."""
    share, share_before = (limits.chosen().share(len(each.data())) for each in (new, old))
    if taken is not None and taken[0] <= share.seconds_for(0) and taken[1] <= share.bytes_for(0):
        return
    if not is_within(new, share) and is_within(old, share_before):
        raise NoAnswer(
            f"{new.name}: not judged: by itself the text needs more than {share.seconds} seconds of"
            f" the processor or {share.megabytes} MB of memory, a quarter of what two such texts"
            " get, so comparisons with it might have no answer"
        )


def is_within(database: Database, some: limits.Limits) -> bool:
    """Whether a database that was accepted can be verified within some limits."""
    chosen = limits.chosen()
    limits.choose(some)
    try:
        database.said(COUNTS)
        return True
    except NoAnswer:
        return False
    finally:
        limits.choose(chosen)


def judged(comparison: Comparison, request: Request, tells_all: bool) -> Iterator[Finding]:
    """What breaks the rules by the file that judges, and then what breaks them only by the file
    that is brought: it would judge what comes later."""
    brought = request.brought
    if brought is None:
        yield from judge(Case(comparison, request.config, request.findings, tells_all))
        return
    before = mended(request.before, brought, comparison.old)
    is_one = request.before is request.config
    config = before if is_one else mended(request.config, brought, comparison.old)
    known = set()
    beside = (*request.findings, *losses(before, brought))
    for each in judge(Case(comparison, config, beside, tells_all)):
        known.add((each.rule, each.label, each.axiom, each.reason))
        yield each
    for each in judge(Case(comparison, brought, (), tells_all)):
        if (each.rule, each.label, each.axiom, each.reason) not in known:
            yield replace(each, reason=f"{each.reason}; by the file that is brought")


def refusal_of(refused: Refused) -> Finding:
    """The finding that the database is refused."""
    # It takes 15 milliseconds, and most databases have no fault.
    from query.proofs.explained import explanations
    from query.proofs.hints import Hints

    said = f"{refused.said()}; {refused.advice}"
    hint = Hints(refused.source).of(refused)
    if hint is not None:
        said = f"{refused.said()}; {hint.advice or refused.advice}; {' '.join(hint.line)}"
    for why in explanations([refused]):
        if why is not None:
            advice = why.advice() or refused.advice
            said = f"{refused.said()}; {advice}; {why.clause(SHOWN_FORMULA)}"
    return Finding("valid", refused.source.name, refused.line, "", "", said, refused.column)


def add_summary(path: str, text: str) -> None:
    """Adds a text to a file. NoAnswer where that can't be done."""
    try:
        with open(path, "a", encoding="utf-8") as file:
            file.write(text)
    except OSError as error:
        raise NoAnswer(f"{shown(path)}: {reason(error)}") from None


def run(context: Context, arguments: argparse.Namespace) -> int:
    """Answers."""
    if arguments.config is not None and arguments.config_of_new and arguments.old is not None:
        raise NoAnswer("gate: --config-of-new goes with one database where --config is given")
    if arguments.old is not None:
        request = between_files(context, arguments)
    else:
        request = with_base(arguments)
    limits.choose(limits.chosen().or_else(request.config.limits))
    notes: list[str] = []
    found = found_in(request, context, arguments.all, notes)
    verdict = Verdict(request, found, notes, tells_allowing=arguments.to_allow)
    for piece in FORMS[context.out.format](verdict, not arguments.all):
        context.out.text(piece)
        if arguments.all:
            context.out.flush()
    if arguments.summary is not None:
        add_summary(arguments.summary, as_summary(verdict, arguments.summary))
    return 0 if verdict.has_passed else 1


COMMANDS = [Command("gate", PAGE, configure, run, FORMATS)]

"""What a check says of a function: whether it refuses it, and for what reason."""

import re
from collections.abc import Callable
from dataclasses import dataclass

from proving import toolchain

# The last line of a check that came to its end.
ENDS = ("only=", "logic=proved ", "logic=not-proved")
# A message with its place: the file in the crate and the line, counted from 1.
PLACE = re.compile(r"(?:note: |warning: )?(?:\./)?((?:src|specs|proofs)/\S+?):(\d+):\d+:")
# A goal for which the prover found no proof.
OPEN_GOAL = re.compile(r"note: \S+ (?:it is not proved that|`\w+` found no proof)")
# A proof names what isn't there any more, or cites what was refused. That says nothing of what
# the function does: a right body with other names is refused so too.
NAMES = re.compile(r"has no field|is not a field of|is not in scope|has no `|not admitted")
# The prover refuses a function since it calls one that isn't proved.
FOR_ANOTHER = re.compile(r"(?:it calls|it passes|a call of|rests on|depends on|waits? for).*")
NAMED = re.compile(r"`([^`]*::[^`]*)`")
NOT_PROVED = ("not proved", "no proof")
REASON_LENGTH = 200


@dataclass(frozen=True)
class Span:
    """Lines of a file, counted from 1, the last one included."""

    file: str
    first: int
    last: int

    def has(self, file: str, line: int) -> bool:
        """Whether the line is one of these."""
        return self.file == file and self.first <= line <= self.last


@dataclass(frozen=True)
class Message:
    """A line of a check with its place."""

    file: str
    line: int
    text: str


class Said:
    """What a check said, how it ended, and the seconds of processor that it took."""

    def __init__(self, status: int, text: str, seconds: float) -> None:
        self.status, self.text, self.seconds = status, text, seconds
        # A long message goes on in lines that are set in.
        self.lines = re.sub(r"\n {2,}", " ", text).rstrip("\n").split("\n")
        self.messages = [
            Message(found[1], int(found[2]), line)
            for line in self.lines
            for found in [PLACE.match(line)]
            if found
        ]
        self.verdicts = dict(re.findall(r"(?m)^fn (\S+): (.*)", text))

    @property
    def has_ended(self) -> bool:
        """Whether the check came to its end, so that what it says of each function holds. A check
        that was killed, or that had no room on the disk, didn't."""
        is_stale = toolchain.rt().rtlib.STALE.search(self.text)
        return self.status in (0, 1) and self.lines[-1].startswith(ENDS) and not is_stale

    def unread(self, files: set[str]) -> list[Message]:
        """The messages that antt couldn't read a text."""
        return [it for it in self.messages if toolchain.rt().unread(it.text, files)]


def is_part(symbol: str, of: str) -> bool:
    """Whether a symbol is a function's, or that of a closure in it, as `m::fn::f::closure` and
    `m::fn::Type::f::closure`."""
    return symbol == of or symbol.replace("::fn::", "::", 1).startswith(f"{of}::")


def is_proved(verdict: str) -> bool:
    """Whether a verdict says that a function is proved. Of a closure it says `proved where its
    callers give what it asks`."""
    return verdict.startswith("proved")


def own_messages(said: Said, symbol: str, span: Span) -> list[Message]:
    """The messages about a function and its closures: those in its lines and in its own proof
    files."""
    proofs = "/".join(["proofs", *symbol.split("::")[1:], ""])
    return [
        message
        for message in said.messages
        if span.has(message.file, message.line)
        or message.file.replace("/fn/", "/", 1).startswith(proofs)
    ]


def reason(said: Said, symbol: str, span: Span, files: set[str]) -> tuple[str | None, str]:
    """Why the check refuses a function for what it does, or else why it can't be told from this
    check. `files` are those that have another text than in the repository.

    A function is refused if the check came to its end, says of the function that it isn't proved,
    could read it, and a message in its own lines or in its own proof files is an error or an open
    goal. A message that a proof names what isn't there doesn't count.
    """
    if not said.has_ended:
        return None, f"the check ended with status {said.status}: {said.lines[-1][:80]}"
    verdict = said.verdicts.get(symbol, "")
    if not verdict.startswith(NOT_PROVED):
        return None, f"the check says '{verdict[:80]}' of {symbol}"
    above = FOR_ANOTHER.search(verdict)
    if above and not all(is_part(it, symbol) for it in NAMED.findall(above[0]) or [""]):
        return None, f"it isn't proved for the sake of another function: {above[0][:100]}"
    if any(span.has(it.file, it.line) for it in said.unread(files)):
        return None, "antt can't read it"
    return first_reason(own_messages(said, symbol, span))


def first_reason(own: list[Message]) -> tuple[str | None, str]:
    """The first of these messages that says why something is refused, or else why none does."""
    told = [it.text for it in own if ": error" in it.text or OPEN_GOAL.match(it.text)]
    reasons = [text for text in told if not NAMES.search(text)]
    if not reasons:
        names = "its proof names what the edit took away" if told else "no message says why"
        return None, f"the check refuses it, but {names}"
    return reasons[0][:REASON_LENGTH], ""


def reason_of_laws(
    said: Said, symbols: list[str], is_own: Callable[[Message], bool]
) -> tuple[str | None, str]:
    """Why the check refuses one of these laws, or else why it can't be told from this check.
    `is_own` says of a message whether it is about a file of theirs, which nothing else reads.

    A law is refused if the check came to its end, says of the law that it isn't proved, could read
    all of their sources and definitions, and a message in their proofs is an error or an open goal.
    """
    if not said.has_ended:
        return None, f"the check ended with status {said.status}: {said.lines[-1][:80]}"
    verdicts = [said.verdicts.get(symbol, "") for symbol in symbols]
    if not all(verdicts) or not any(it.startswith(NOT_PROVED) for it in verdicts):
        return None, f"the check says '{verdicts[0][:80]}' of {symbols[0]}"
    own = [it for it in said.messages if is_own(it)]
    if any(": error" in it.text and not it.file.startswith("proofs/") for it in own):
        return None, "antt can't read it"
    return first_reason(own)

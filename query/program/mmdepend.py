"""The program `mmdepend`: where it is, and how it is run."""

from __future__ import annotations

import hashlib
import os
import re
import shutil
from collections.abc import Callable, Mapping, Sequence
from dataclasses import dataclass
from functools import cached_property
from typing import TYPE_CHECKING

from query.answers.errors import NoAnswer, reason, shown
from query.platform import limits, signals, system
from query.platform.executables import located
from query.platform.system import PIPE
from query.program.refusals import Refused
from query.program.source import Source

if TYPE_CHECKING:
    from query.platform.clock import Clock

REFUSAL = re.compile(rb"refused ([1-9][0-9]{0,9}):([1-9][0-9]{0,9}) (E[0-9]{2})\n")
MOST_OUTPUT_BYTES = 2_000_000_000
"""Bytes that are read of what the program says. Of set.mm it says 47 million."""
NO_MEMORY = 4
"""The status of a program that lacks memory."""
HOME = os.path.dirname(os.path.dirname(os.path.dirname(os.path.realpath(__file__))))
"""The folder in which the folder `query` lies."""
SCRIPT = "mmdepend.mjs"
"""The program for Node."""


class Running:
    """The program while it runs. A signal that ends the command ends it too. It gets the open files
    `passed`, and the variables `surroundings` in place of ours. Its standard error is ours, or kept
    where that `is_kept`. With `allowed` its seconds and memory are limited."""

    def __init__(
        self,
        path: str,
        words: list[str],
        given: int | None,
        is_kept: bool,
        passed: Sequence[int] = (),
        surroundings: Mapping[str, str] | None = None,
        allowed: Allowed | None = None,
    ) -> None:
        # It takes 6 milliseconds, and an answer that is kept needs no program.
        import subprocess

        self.allowed = allowed
        limit = None if allowed is None else allowed.limiting()
        with signals.held():
            self.errors = system.unnamed() if is_kept else None
            try:
                self.process = subprocess.Popen(
                    [path, *words],
                    stdin=subprocess.DEVNULL if given is None else given,
                    stdout=subprocess.PIPE,
                    stderr=self.errors,
                    pipesize=PIPE,
                    pass_fds=passed,
                    env=surroundings,
                    preexec_fn=limit,
                )
            except OSError as error:
                raise NoAnswer(f"{shown(path)} can't be run: {reason(error)}") from None
            self.number = signals.at_stop(self.process.kill)
        self.clock = None if allowed is None or limit is not None else self.watched(allowed)
        self.taken: tuple[float, int] | None = None
        """Seconds and memory, once it has ended, where the system tells them."""

    def watched(self, allowed: Allowed) -> Clock:
        """Where the system has no limits, the clock that ends the program after the seconds."""
        # It takes 2 milliseconds, and most systems have limits.
        from query.platform.clock import Clock

        return Clock(allowed.seconds, self.process.kill)

    def ended(self) -> tuple[bytes, bytes, int]:
        """What it wrote to standard output and to standard error, and its status, once it has
        ended. It is ended where it writes too much."""
        assert self.process.stdout is not None
        out = bytearray()
        while chunk := signals.read(self.process.stdout.fileno(), PIPE):
            out += chunk
            if len(out) > self.most_output:
                self.process.kill()
                break
        self.process.stdout.close()
        self.taken = system.waited(self.process)
        signals.forget(self.number)
        if self.clock is not None:
            self.clock.stop()
        return out, self.said(), self.process.returncode

    @property
    def most_output(self) -> int:
        """How many bytes are read of what it writes."""
        most = MOST_OUTPUT_BYTES if self.allowed is None else self.allowed.output
        return min(most, MOST_OUTPUT_BYTES)

    def exceeded(self, status: int, said: int) -> str:
        """Which limit ended it, in words; "" where none did. `said` is how many bytes it wrote."""
        if self.allowed is None:
            return ""
        memory = self.allowed.memory
        if said > self.most_output:
            return f"{self.most_output // limits.MEGABYTE} MB for what the program says of it"
        if system.is_out_of_time(status) or (self.clock is not None and self.clock.has_rung):
            return f"{self.allowed.seconds} seconds of the processor (--limit-time)"
        if status == NO_MEMORY:
            return f"{memory // limits.MEGABYTE} MB of memory (--limit-memory), or than there are"
        return ""

    def said(self) -> bytes:
        """What it wrote to standard error, where that is kept."""
        if self.errors is None:
            return b""
        with open(self.errors, "rb") as file:
            file.seek(0)
            return file.read()

    def stop(self) -> None:
        """Ends it where it still runs."""
        if self.process.returncode is None:
            self.process.kill()
            self.ended()


@dataclass(frozen=True)
class Allowed:
    """What a run of the program may take: seconds of the processor, and bytes of memory. Node sets
    aside more than it uses, and limits the memory of its module by itself. `output` is how many
    bytes are read of what it writes."""

    seconds: int
    memory: int
    is_node: bool
    output: int

    def limiting(self) -> Callable[[], None] | None:
        """What limits a process before the program begins in it."""
        return system.limiting(self.seconds, None if self.is_node else self.memory)


def allowed_for(size: int, is_node: bool, output: int | None = None) -> Allowed:
    """What a run over so many bytes may take, and how many bytes are read of it at the most."""
    chosen = limits.chosen()
    memory = chosen.bytes_for(size)
    most = memory if output is None else min(memory, output)
    return Allowed(chosen.seconds_for(size), memory, is_node, most)


@dataclass(frozen=True)
class Program:
    """The program at a path, or the one for Node, which the command `node` runs."""

    path: str
    node: str | None = None

    @cached_property
    def _file(self) -> bytes:
        with open(self.path, "rb") as file:
            return file.read()

    def running(
        self,
        words: list[str],
        given: int | None,
        is_kept: bool,
        size: int | None = None,
        passed: Sequence[int] = (),
        output: int | None = None,
    ) -> Running:
        """The program while it runs with these words, and an open file as standard input; None for
        an empty one. It gets the open files `passed` besides. Where it reads so many bytes, by
        these it is limited, and no more is read of what it writes than `output`."""
        allowed = None if size is None else allowed_for(size, self.node is not None, output)
        if self.node is None:
            return Running(self.path, words, given, is_kept, passed, None, allowed)
        line = [self.path, *words]
        return Running(self.node, line, given, is_kept, passed, without_node(), allowed)

    def prepare(self) -> None:
        """Has the program built where it is a script that does so, as in a clone. What that says
        goes to standard error. NoAnswer where it can't be run."""
        if self.node is not None or self._file.startswith(b"\x7fELF"):
            return
        running = self.running(["--version"], None, False)
        if running.ended()[2] != 0:
            raise NoAnswer(f"{shown(self.path)} can't be run")

    @cached_property
    def sum(self) -> str:
        """What tells this program from others, in hexadecimal: the sum of its file, and where that
        is a script that of the program which it builds."""
        total = hashlib.blake2b(self._file, digest_size=16)
        built = os.path.join(os.path.dirname(self.path), "crates/mmdepend/out/mmdepend")
        if not self._file.startswith(b"\x7fELF") and os.path.exists(built):
            with open(built, "rb") as file:
                total.update(file.read())
        return total.hexdigest()


def without_node() -> dict[str, str]:
    """The variables of the environment, but for those by which Node would be told to do more."""
    return {name: value for name, value in os.environ.items() if not name.startswith("NODE_")}


def found() -> Program:
    """The program of the variable MMDEPEND, or the one beside the folder `query`; where the system
    has no native one, that for Node beside it. NoAnswer where there is none."""
    word = os.environ.get("MMDEPEND") or os.path.join(HOME, "mmdepend")
    path = shutil.which(word)
    if path is not None:
        return Program(os.path.abspath(path))
    script = os.path.join(HOME, SCRIPT)
    node = located("node")
    if os.environ.get("MMDEPEND") or node is None or not os.path.exists(script):
        raise NoAnswer(f"there is no program {shown(word)}; the variable MMDEPEND may name it")
    return Program(script, node)


def version() -> str:
    """What the program says of its version. NoAnswer where it can't be run."""
    program = found()
    out, _, status = program.running(["--version"], None, False).ended()
    if status != 0:
        raise NoAnswer(f"{shown(program.path)} can't be run")
    return out.decode("latin-1").strip()


def ready() -> Program:
    """What `found` finds, built first where it is a script that builds the program."""
    program = found()
    program.prepare()
    return program


def report(program: Program, source: Source, words: list[str], output: int | None = None) -> bytes:
    """The report that the program writes over a source with these options. Refused where it refuses
    the source, NoAnswer where it has no answer, or one of more bytes than `output`."""
    running = over(program, source, words, output)
    try:
        return judged_report(source, running)
    finally:
        running.stop()


def over(program: Program, source: Source, words: list[str], output: int | None = None) -> Running:
    """The program running over a source."""
    descriptor = source.opened()
    try:
        return program.running(words, descriptor, True, len(source.data), output=output)
    finally:
        os.close(descriptor)


def judged_report(source: Source, running: Running) -> bytes:
    """The report of a running program."""
    return judged(running, source.name, {b"": source})


def judged_differences(old: Source, new: Source, running: Running) -> bytes:
    """What a running program says of two sources. Refused where it refuses one of them."""
    return judged(running, f"{old.name} and {new.name}", {b"old ": old, b"new ": new})


def judged(running: Running, name: str, sources: Mapping[bytes, Source]) -> bytes:
    """What a running program writes where it accepts the sources. `sources` has each by the word
    that stands before its refusal."""
    out, errors, status = running.ended()
    exceeded = running.exceeded(status, len(out))
    if exceeded:
        raise NoAnswer(f"{name}: not judged: the text needs more than {exceeded}")
    if status == 0:
        return out
    for word, source in sources.items():
        refusal = REFUSAL.fullmatch(out, len(word)) if out.startswith(word) else None
        if status == 1 and refusal:
            raise Refused(source, int(refusal[1]), int(refusal[2]), refusal[3].decode())
    raise NoAnswer(f"{name}: {why_ended(errors, status)}")


def why_ended(errors: bytes, status: int) -> str:
    """Why a program gave no answer: the signal, or what it said last on standard error."""
    if status < 0:
        return f"the program was ended by signal {-status}"
    said = errors.decode("utf-8", "replace").strip().splitlines()
    return (said or [f"the program ended with status {status}"])[-1].removeprefix("mmdepend: ")

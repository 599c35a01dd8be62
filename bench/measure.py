"""What the benchmarks share: the built program, its time and its peak memory."""
import argparse
import os
import sys
import tempfile
import time
from collections.abc import Callable

ROOT = os.path.dirname(os.path.dirname(os.path.abspath(__file__)))
PROGRAM = os.path.join(ROOT, "crates", "mmdepend", "out", "mmdepend")

# What a run took: its seconds, those of the processor, its peak memory in bytes, and its status.
Ran = tuple[float, float, int, int]
# Makes a text of a size: its bytes, and how many theorems and steps it has.
Make = Callable[[int], tuple[bytes, int, int]]


def words(description: str | None) -> argparse.ArgumentParser:
    """The words that every benchmark takes."""
    parser = argparse.ArgumentParser(description=description)
    parser.add_argument(
        "--program", default=PROGRAM, help="the built program (default: that of this repository)"
    )
    parser.add_argument(
        "--runs",
        type=int,
        default=3,
        help="runs of each text; the fastest counts (default %(default)s)",
    )
    parser.add_argument(
        "--write", metavar="FILE", help="write the smaller text to FILE, and run nothing"
    )
    return parser


def run(program: str, path: str) -> Ran:
    """Runs the program on a file: its seconds, those of the processor, its peak memory in bytes,
    and its status.
    """
    return run_words([program, path])


def run_words(words: list[str]) -> Ran:
    """Runs a program with these words, its path first: its seconds, those of the processor, its
    peak memory, its status.
    """
    with open(os.devnull, "wb") as nowhere:
        begun = time.monotonic()
        child = os.posix_spawn(
            words[0],
            words,
            os.environ,
            file_actions=[(os.POSIX_SPAWN_DUP2, nowhere.fileno(), 1)],
        )
        _, status, usage = os.wait4(child, 0)
        busy = usage.ru_utime + usage.ru_stime
        return (
            time.monotonic() - begun,
            busy,
            usage.ru_maxrss * 1024,
            os.waitstatus_to_exitcode(status),
        )


def made(make: Make, size: int, path: str) -> tuple[int, int, int]:
    """Writes a text to a file, and tells its size, theorems and steps. A process of its own makes
    it: what this process holds would count as the program's memory.
    """
    with tempfile.NamedTemporaryFile("r") as told:
        child = os.fork()
        if child == 0:
            text, theorems, steps = make(size)
            with open(path, "wb") as file:
                file.write(text)
            with open(told.name, "w") as file:
                file.write(f"{len(text)} {theorems} {steps}")
            os._exit(0)
        _, status = os.waitpid(child, 0)
        if status != 0:
            sys.exit("the text could not be made")
        length, theorems, steps = map(int, told.read().split())
        return length, theorems, steps


def figures(name: str, make: Make, size: int, words: argparse.Namespace) -> tuple[float, float]:
    """Makes a text, runs the program on it some times, and prints the least seconds and the
    greatest memory. The processor's seconds say more than the others on a machine that has other
    work.
    """
    with tempfile.NamedTemporaryFile(suffix=".mm") as file:
        length, theorems, steps = made(make, size, file.name)
        found = [run(words.program, file.name) for _ in range(words.runs)]
    for *_, status in found:
        if status != 0:
            sys.exit(f"{name}: the program ended with status {status}")
    seconds = min(it[0] for it in found)
    busy = min(it[1] for it in found)
    peak = max(it[2] for it in found)
    said = (
        f"{name}: {length / 1e6:.1f} MB of text, {theorems} theorems, {steps} steps:"
        f" {seconds:.2f} s ({busy:.2f} s of processor), "
    )
    said += f"{peak / 1e6:.0f} MB of peak memory, {peak / length:.1f} bytes for each byte of text"
    if steps > 1000000:
        said += f", {steps / seconds / 1e6:.2f} million steps a second"
    print(said, flush=True)
    return seconds, busy


def compare(name: str, make: Make, size: int, words: argparse.Namespace) -> None:
    """The figures of a text and of one of twice the size, and the ratio of the two times."""
    once, twice = (figures(name, make, size * factor, words) for factor in (1, 2))
    ratios = [after / before for before, after in zip(once, twice)]
    print(
        (
            f"{name}: twice the size takes {ratios[0]:.2f} times the time ({ratios[1]:.2f} of the"
            " processor's)"
        ),
        flush=True,
    )


def machine() -> None:
    """The machine, for the record."""
    print(f"{os.cpu_count()} cores", flush=True)


def check_program(path: str) -> None:
    if not os.access(path, os.X_OK):
        sys.exit(f"there is no program at {path}: run ./mmdepend once, which builds it")

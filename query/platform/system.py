"""What some systems lack, with what is done there instead.

No other module of `mmquery` calls what isn't in Python on every system. `query.tests.test_systems`
takes away each of these, and finds the calls of others by their names.
"""

from __future__ import annotations

import errno
import os
import select
import signal
import stat
import sys
from collections.abc import Callable, Sequence
from contextlib import suppress
from types import FrameType
from typing import TYPE_CHECKING

if TYPE_CHECKING:
    import subprocess

BINARY = getattr(os, "O_BINARY", 0)
"""Without it Windows changes the ends of lines."""
READING = os.O_RDONLY | BINARY
"""For `os.open`: a file that is read. It stays with this process, as all that Python opens."""
MAKING = os.O_WRONLY | os.O_CREAT | os.O_EXCL | BINARY
"""For `os.open`: a file that isn't there yet, and is written."""

BYTES_OF_UNIT = 1 if sys.platform == "darwin" else 1024
"""How the system counts the most memory of a process."""

PIPE = 1 << 20
"""Bytes that wait in a pipe."""
GRACE = 5
"""Seconds after its limit at which a process is killed that wasn't ended by the limit."""

STOPPING: tuple[signal.Signals, ...] = tuple(
    getattr(signal, name) for name in ("SIGINT", "SIGTERM", "SIGHUP") if hasattr(signal, name)
)
"""The signals that end a command. Windows has no SIGHUP."""


def unnamed() -> int:
    """A descriptor of an empty file that has no name, so that nobody else can open it.

    It is in memory, and where the system has no such files in the folder for temporary ones. There
    it may have a name for a moment: who calls this holds signals back.
    """
    if hasattr(os, "memfd_create"):
        return os.memfd_create("mmquery", os.MFD_CLOEXEC)
    # It takes 5 milliseconds, and Linux needs no such file.
    from tempfile import TemporaryFile

    with TemporaryFile(prefix="mmquery-") as file:
        return os.dup(file.fileno())


def descriptor_path(descriptor: int) -> str | None:
    """By which name another program opens a file of ours that it is given; None where by none."""
    name = f"/dev/fd/{descriptor}"
    return name if os.name == "posix" and os.path.exists(name) else None


def opened(path: str | os.PathLike[str]) -> int:
    """A file to be read that is no link. OSError where it can't be opened, or is a link. A pipe is
    opened at once, whoever writes to it."""
    flags = READING | getattr(os, "O_NONBLOCK", 0)
    if hasattr(os, "O_NOFOLLOW"):
        return os.open(path, flags | os.O_NOFOLLOW)
    before = os.lstat(path)
    if stat.S_ISLNK(before.st_mode):
        raise OSError(errno.ELOOP, os.strerror(errno.ELOOP))
    descriptor = os.open(path, flags)
    if not os.path.samestat(before, os.fstat(descriptor)):
        os.close(descriptor)
        raise OSError(errno.ELOOP, os.strerror(errno.ELOOP))
    return descriptor


def user() -> int | None:
    """The number of the user; None where files don't tell whose they are."""
    return os.geteuid() if hasattr(os, "geteuid") else None


def link(path: str, other: str) -> None:
    """Gives a file a second name. OSError where that can't be, and where there is such a name."""
    if not hasattr(os, "link"):
        raise OSError(errno.ENOTSUP, os.strerror(errno.ENOTSUP))
    os.link(path, other)


def note_use(descriptor: int) -> None:
    """Gives a file the time of now, where that can be done."""
    if os.utime in os.supports_fd:
        os.utime(descriptor)


def limiting(seconds: int, memory: int | None) -> Callable[[], None] | None:
    """What limits the seconds of the processor and the bytes of memory of the process that does it,
    before another program begins in it; None where there are no such limits, as on Windows. A limit
    that is lower already stays."""
    with suppress(ImportError):
        # Windows has no such module.
        import resource

        def limit() -> None:
            lower(resource.RLIMIT_CPU, seconds, seconds + GRACE)
            if memory is not None:
                lower(resource.RLIMIT_AS, memory, memory)

        return limit
    return None


def limiting_own(memory: int) -> Callable[[], None] | None:
    """The same for the memory that a process has for itself: files that it reads as if they were
    memory don't count, as packs of git, which may be very long."""
    with suppress(ImportError):
        # See limiting.
        import resource

        return lambda: lower(resource.RLIMIT_DATA, memory, memory)
    return None


def lower(what: int, soft: int, hard: int) -> None:
    """Lowers a limit of this process."""
    # See limiting.
    import resource

    most = resource.getrlimit(what)[1]
    within = (hard,) if most == resource.RLIM_INFINITY else (hard, most)
    # macOS refuses some limits of memory.
    with suppress(ValueError, OSError):
        resource.setrlimit(what, (min(soft, *within), min(within)))


def waited(process: subprocess.Popen[bytes]) -> tuple[float, int] | None:
    """Waits until a process has ended. Returns the seconds of the processor that it took and its
    most memory in bytes, but no less than this process had when it began; None where the system
    doesn't say so."""
    # It may have been waited for already, where it was killed, also meanwhile.
    with suppress(ImportError, ChildProcessError):
        # See limiting. `os.wait4` takes its result from there.
        import resource

        usage: resource.struct_rusage
        _, status, usage = os.wait4(process.pid, 0)
        process.returncode = os.waitstatus_to_exitcode(status)
        return usage.ru_utime + usage.ru_stime, usage.ru_maxrss * BYTES_OF_UNIT
    process.wait()
    return None


def is_out_of_time(status: int) -> bool:
    """Whether a process ended because of its limit of seconds, by its status as Python has it."""
    return hasattr(signal, "SIGXCPU") and status == -signal.SIGXCPU


def processors() -> int:
    """How many processors this process may use."""
    if hasattr(os, "sched_getaffinity"):
        return len(os.sched_getaffinity(0))
    return os.cpu_count() or 1


def memory() -> tuple[int | None, int | None]:
    """How many kilobytes of memory this process takes, and how many are free; None where the system
    doesn't say so."""
    return number_in("/proc/self/status", "VmRSS"), number_in("/proc/meminfo", "MemAvailable")


def number_in(path: str, name: str) -> int | None:
    """A number in a file of the system, by its name; None where there is none."""
    with suppress(OSError), open(path, encoding="ascii", errors="replace") as file:
        for line in file:
            words = line.split()
            if words[:1] == [f"{name}:"] and len(words) > 1 and words[1].isdecimal():
                return int(words[1])
    return None


def can_fork() -> bool:
    """Whether a process can make a copy of itself."""
    return hasattr(os, "fork")


def can_wait() -> bool:
    """Whether a process can wait for a pipe for some time."""
    return hasattr(select, "poll")


def fork() -> int:
    """Makes a copy of this process. Returns its number, and 0 in the copy."""
    return os.fork()


def widen(pipe: int, size: int) -> None:
    """Lets a pipe hold so many bytes, where that can be; a smaller one will do."""
    with suppress(ImportError, AttributeError, OSError):
        # Windows has no such module.
        import fcntl

        fcntl.fcntl(pipe, fcntl.F_SETPIPE_SZ, size)


def waking() -> int | None:
    """Makes a pipe to which each signal that Python answers writes a byte, and returns the end that
    is read; None where the system can't wait for several pipes at once, as Windows."""
    if not hasattr(select, "poll"):
        return None
    reading, writing = os.pipe()
    os.set_blocking(writing, False)
    signal.set_wakeup_fd(writing, warn_on_full_buffer=False)
    return reading


def first_of(*pipes: int, waits: bool = True) -> list[int]:
    """Waits until one of some pipes has something to read, or has ended. Returns which do; without
    waiting perhaps none."""
    poll = select.poll()
    for pipe in pipes:
        poll.register(pipe, select.POLLIN)
    return [pipe for pipe, _ in poll.poll(None if waits else 0)]


def has_more(pipe: int, seconds: int) -> bool:
    """Whether a pipe has something to read, or has ended, within so many seconds."""
    poll = select.poll()
    poll.register(pipe, select.POLLIN)
    return bool(poll.poll(1000 * seconds))


def let_in(signals: Sequence[int]) -> None:
    """Lets signals in that were held back when this process began."""
    if hasattr(signal, "pthread_sigmask"):
        signal.pthread_sigmask(signal.SIG_UNBLOCK, signals)


def after(seconds: int, action: Callable[[int, FrameType | None], None]) -> None:
    """Has something done once after so many seconds; never, where there is no such clock."""
    if hasattr(signal, "setitimer"):
        signal.signal(signal.SIGALRM, action)
        signal.setitimer(signal.ITIMER_REAL, seconds)


def not_after() -> None:
    """Takes back what was to be done then."""
    if hasattr(signal, "setitimer"):
        signal.setitimer(signal.ITIMER_REAL, 0)

"""Runs mmquery in a Python that lacks what not every system has.

usage: python3 -ISB lacking.py NAME,NAME.. WORD..

NAME is a call or a constant, such as `os.fork`; a module, such as `fcntl`; or `/dev/fd`, where no
open file has a name then. -S keeps modules of others from loading what looks at the system before.
"""

import importlib
import os
import sys
from pathlib import Path

TOP = Path(__file__).resolve().parent.parent.parent
OPEN_FILES = "/dev/fd"
NAMES = {
    "os": (
        *("fork", "forkpty", "memfd_create", "MFD_CLOEXEC", "geteuid", "getuid", "getegid"),
        *("getgid", "getgroups", "getpgid", "getpgrp", "getsid", "setsid", "setpgid", "killpg"),
        *("sched_getaffinity", "sched_setaffinity", "sched_yield", "sysconf", "confstr"),
        *("fchmod", "fchown", "chown", "lchown", "mkfifo", "mknod", "link", "openpty", "pipe2"),
        *("pread", "preadv", "pwrite", "pwritev", "readv", "writev", "sendfile", "splice"),
        *("copy_file_range", "posix_fallocate", "posix_fadvise", "eventfd", "pidfd_open"),
        *("O_CLOEXEC", "O_NOFOLLOW", "O_NONBLOCK", "O_DIRECTORY", "O_TMPFILE", "O_PATH"),
        *("statvfs", "fstatvfs", "sync", "uname", "nice", "getloadavg", "ctermid", "ttyname"),
        *("getxattr", "setxattr", "fdatasync", "chroot", "getpriority", "setpriority"),
    ),
    "signal": (
        *("setitimer", "getitimer", "ITIMER_REAL", "alarm", "SIGALRM", "SIGHUP", "SIGPIPE"),
        *("SIGUSR1", "SIGUSR2", "SIGCHLD", "pthread_sigmask", "pthread_kill", "SIG_BLOCK"),
        *("SIG_UNBLOCK", "SIG_SETMASK", "sigwait", "sigpending", "siginterrupt"),
    ),
    "fcntl": ("F_SETPIPE_SZ",),
    "select": ("poll", "epoll", "kqueue", "devpoll"),
}
"""What Python has on Linux alone, on some systems, or not on Windows. What the standard library
itself calls on Linux to start a program is left."""
MODULES = ("fcntl", "resource", "pwd", "grp", "termios", "tty", "pty", "syslog", "readline")
SETS = ("supports_fd", "supports_dir_fd", "supports_follow_symlinks", "supports_effective_ids")
"""What calls of `os` can do besides, which is nothing then."""
ALL = (
    *(f"{module}.{name}" for module, names in NAMES.items() for name in names),
    *(f"os.{name}" for name in SETS),
    *(*MODULES, OPEN_FILES),
)


def take_away(name: str) -> None:
    """Takes away what a name says."""
    module, dot, attribute = name.partition(".")
    if name == OPEN_FILES:
        is_there = os.path.exists
        os.path.exists = lambda path: not str(path).startswith(OPEN_FILES) and is_there(path)
    elif not dot:
        sys.modules[module] = None  # type: ignore[assignment]
    elif attribute in SETS:
        setattr(os, attribute, set())
    else:
        vars(importlib.import_module(module)).pop(attribute, None)


def main(names: str, words: list[str]) -> None:
    """Runs mmquery without what the names say."""
    for name in names.split(","):
        take_away(name)
    sys.path.insert(0, str(TOP))
    # It is to find what was taken away missing.
    from query.cli import main as run

    run(words)


if __name__ == "__main__":
    main(sys.argv[1], sys.argv[2:])

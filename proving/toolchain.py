"""The scripts of the toolchain as modules. Whatever they do is called, and nothing of them is
written here again.

What the scripts have differs from machine to machine, with one logic: on some, `rt ci` keeps what
it proved and tried. `keeping.py` stands in for that on the others. What is asked of the one or the
other is asked here.
"""

import functools
import importlib.machinery
import importlib.util
import os
import re
import shutil
import subprocess
import sys
import tempfile
from collections.abc import Callable, Iterable
from pathlib import Path
from types import ModuleType
from typing import Any

from proving import keeping

# The folders for temporary files of a run, which have its number in their names.
TEMPORARY = re.compile(r"rt-(?:copy|edit)-(\d+)-.*")


def _loaded(name: str) -> ModuleType:
    """A script of the toolchain. `rt doc` tells a page that stands above the folder of these."""
    told = subprocess.run(["rt", "doc"], stdout=subprocess.PIPE, text=True, check=True)
    path = Path(told.stdout.strip()).parent / "bin" / name
    sys.dont_write_bytecode = True
    loader = importlib.machinery.SourceFileLoader(name.replace("-", "_"), str(path))
    spec = importlib.util.spec_from_loader(loader.name, loader)
    assert spec is not None
    module = importlib.util.module_from_spec(spec)
    loader.exec_module(module)
    return module


@functools.cache
def rt() -> ModuleType:
    """The command `rt`."""
    return _loaded("rt")


@functools.cache
def sources() -> ModuleType:
    """What `rt plant` reads functions with."""
    return _loaded("rt-plant-bodies")


def keeps() -> bool:
    """Whether `rt ci` keeps what it proved."""
    return hasattr(rt(), "Kept")


def refused() -> str:
    """The kind of the result that an edit was refused."""
    return str(rt().REFUSED) if keeps() else keeping.REFUSED


def copied_crates(top: str, to: str) -> list[Any]:
    """Copies the crates of a repository, and returns them, the lowest first."""
    if keeps():
        rt().copy_crates(top, to)
    else:
        keeping.copy_crates(top, to)
    # `rt` wants the crates at the top of a repository.
    os.mkdir(f"{to}/.git")
    rt().Crate.allowed = rt().handles_of(to)
    if keeps():
        return list(rt().crates_of(to))
    rt().rtlib.Crate = rt().Crate
    return sorted(rt().rtlib.crates_below(to), key=lambda crate: len(crate.below()))


def kept(crates: list[Any]) -> Any:
    """What is kept of these crates."""
    return rt().Kept(crates) if keeps() else keeping.Kept(rt().KIT)


def sweep() -> None:
    """Removes what runs left that were killed."""
    if keeps():
        rt().sweep()
        return
    for path in Path(tempfile.gettempdir()).iterdir():
        found = TEMPORARY.fullmatch(path.name)
        if found and not os.path.exists(f"/proc/{found[1]}"):
            shutil.rmtree(path, ignore_errors=True)


def where_disk_lasts(call: Callable[[Any], int], given: Any) -> int:
    """Makes a call with the folder for temporary files on a disk that lasts, if the toolchain
    knows one."""
    return int(rt().where_disk_lasts(call, given)) if keeps() else call(given)


def tried_alone(crate: Any, paths: Iterable[str]) -> list[tuple[str, str]]:
    """Tries edits of a crate one by one, with a toolchain that keeps nothing. Returns for each of
    what kind the result is, and what is said of it."""
    tried = rt().must_fail_all(crate, [*paths], ["--jobs", "1"])
    return [(keeping.REFUSED if is_refused else "", said) for is_refused, said in tried]

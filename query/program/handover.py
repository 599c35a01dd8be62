"""How another program gets several texts at once: each by a name that it can open."""

from __future__ import annotations

import os
from collections.abc import Iterator, Sequence
from contextlib import ExitStack, contextmanager

from query.platform import system, temporary
from query.program.source import Source


@contextmanager
def handed(sources: Sequence[Source]) -> Iterator[tuple[list[str], list[int]]]:
    """Names by which another program opens the sources, and the open files that it has to get for
    that. Where open files have no names, these are names of copies in a folder of ours."""
    with ExitStack() as opened:
        descriptors = []
        for source in sources:
            descriptors.append(source.opened())
            opened.callback(os.close, descriptors[-1])
        names = [name for each in descriptors if (name := system.descriptor_path(each))]
        if len(names) == len(sources):
            yield names, descriptors
            return
        folder = opened.enter_context(temporary.folder())
        copies = [folder / f"{number}.mm" for number in range(len(sources))]
        for source, copy in zip(sources, copies):
            copy.write_bytes(source.data)
        yield [str(copy) for copy in copies], []

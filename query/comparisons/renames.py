"""Which label an assertion has in another text: its own, or that under which it was renamed."""

from __future__ import annotations

from query.comparisons.changes import Comparison, Side
from query.comparisons.differences import compared
from query.platform import cache, progress
from query.program.source import Source
from query.reports.choice import Options
from query.reports.database import Database, result_key

FORM = 1
"""Counts the forms in which labels are kept, and the ways in which they are found."""
OTHER, NONE = "other", ""


class Renames:
    """Finds such labels. What is found is kept where results may be."""

    def __init__(self, options: Options, uses_cache: bool) -> None:
        self.options = options
        self.uses_cache = uses_cache

    def label_in(self, one: Source, other: Source, label: str, is_older: bool) -> str | None:
        """The label of an assertion of the first text in the second one, also where it says
        something else there; None where there is none. Both texts are sound. `is_older` is whether
        the first one is the older one."""
        sources = (one, other) if is_older else (other, one)
        # The whole comparison isn't kept: it is as long as the report on a text.
        old, new = (Database(each, self.options, False) for each in sources)
        words = (old.sum, new.sum, new.program.sum, self.options.open)
        key = result_key("label in", FORM, *words, label, is_older)
        kept = cache.load(key) if self.uses_cache else None
        if kept is None:
            progress.now(f"comparing {old.name} and {new.name}")
            both = Comparison(Side(old), Side(new), compared(old, new))
            found = (both.to_new if is_older else both.to_old).get(label, NONE)
            kept = {OTHER: found.encode()}
            if self.uses_cache:
                cache.store(key, kept)
        return kept[OTHER].decode() or None

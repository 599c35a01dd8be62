"""What of a database is asked for: which axioms, and what counts as one and as a citation."""

from dataclasses import dataclass


@dataclass(frozen=True)
class Options:
    """What of a database is asked for.

    `only` is the typecode of the axioms, None for all of them. `axioms` are beginnings of labels:
    where there are any, only axioms whose label begins with one of them. `ignore_definitions`
    leaves out the axioms whose label begins with `df-`. `essential` and `open` are the program's
    options.
    """

    only: str | None = "|-"
    essential: bool = False
    open: bool = False
    axioms: tuple[str, ...] = ()
    ignore_definitions: bool = False
    chosen: str | None = None  # the last option that a report doesn't take, as it was written

    def has_axiom(self, label: str) -> bool:
        """Whether an axiom of the typecode is chosen by its label."""
        if self.ignore_definitions and label.startswith("df-"):
            return False
        return not self.axioms or label.startswith(self.axioms)

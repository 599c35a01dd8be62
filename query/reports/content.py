"""What is known of a database, whether the program tells it or reports say it."""

from dataclasses import dataclass, field

from query.citations.graph import Lists
from query.citations.marks import Marks


@dataclass
class ReportContent:
    """What the program or reports say.

    `theorems` are the labels of rows and `columns` those of axioms with marks, in file order.
    Where there are no marks or no citations, `marks` or `cites` is None. `others` are the labels
    of axioms that aren't columns and are cited. In `cites` a node is the number of a theorem, or
    of an axiom of `columns` and `others`, in this order, after the theorems. Of a database,
    `typecodes` has that of each column, and `statements` the lines of the section.
    """

    theorems: list[str] = field(default_factory=list)
    columns: list[str] = field(default_factory=list)
    others: list[str] = field(default_factory=list)
    marks: Marks | None = None
    cites: Lists | None = None
    axioms: int = 0  # how many the heads say, the most of them
    typecodes: list[str] = field(default_factory=list)
    statements: bytes = b""

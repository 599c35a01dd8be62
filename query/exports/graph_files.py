"""A part of a graph as a file for another program: the forms of `--as`."""

from collections.abc import Iterable, Mapping, Sequence
from dataclasses import dataclass, field
from typing import NamedTuple

from query.citations.subgraphs import Part

FIGURE = (
    "  graph [rankdir=TB, ranksep=0.5, nodesep=0.25, splines=true, concentrate=true];",
    '  node [shape=plain, fontname="Helvetica", fontsize=11];',
    '  edge [color="#555555", arrowsize=0.6];',
)
"""The look of landmarks."""


@dataclass(frozen=True)
class Look:
    """How a figure looks: `head` are lines at its beginning, and `chapters` has a line under the
    label of each node."""

    head: Sequence[str] = ()
    chapters: Mapping[int, str] = field(default_factory=dict)


class Kinds(NamedTuple):
    """What the form `graphml` calls the nodes that may have arrows, and those that have none."""

    theorem: str = "theorem"
    axiom: str = "axiom"


def lines_of(
    part: Part,
    form: str,
    name: str,
    downwards: bool,
    looks: Look = Look(),
    kinds: Kinds = Kinds(),
) -> Iterable[str]:
    """The lines of a form. `downwards` is whether the last theorem comes first, where the form lets
    it."""
    if form == "edges":
        return edges(part)
    if form == "dot":
        return dot(part, name, downwards, looks)
    return graphml(part, downwards, kinds)


def edges(part: Part) -> Iterable[str]:
    """The lines of the form `edges`."""
    labels = part.graph.labels
    for node in part.theorems(False):
        for cited in part.arrows[node]:
            yield f"{labels[node]} {labels[cited]}"


def dot(part: Part, name: str, downwards: bool, looks: Look) -> Iterable[str]:
    """The lines of the form `dot`. A theorem without an arrow has a line of its own."""
    graph, labels = part.graph, part.graph.labels
    yield 'digraph "%s" {' % "".join("_" if sign in '"\\\n\r' else sign for sign in name)
    yield from looks.head
    for node, chapter in looks.chapters.items():
        yield f'  "{labels[node]}" [label="{labels[node]}\\n{chapter}"];'
    shown_axioms: set[int] = set()
    cited_at_all = {cited for arrows in part.arrows.values() for cited in arrows}
    for node in part.theorems(downwards):
        for cited in part.arrows[node]:
            if not graph.is_theorem(cited) and cited not in shown_axioms:
                shown_axioms.add(cited)
                yield f'  "{labels[cited]}" [shape=box];'
            dashed = " [style=dashed]" if (node, cited) in part.chains else ""
            yield f'  "{labels[node]}" -> "{labels[cited]}"{dashed};'
        if not part.arrows[node] and node not in cited_at_all:
            yield f'  "{labels[node]}";'
    yield "}"


def graphml(part: Part, downwards: bool, kinds: Kinds) -> Iterable[str]:
    """The lines of the form `graphml`. Labels have no sign that means something in XML."""
    graph, labels = part.graph, part.graph.labels
    yield '<?xml version="1.0" encoding="UTF-8"?>'
    yield '<graphml xmlns="http://graphml.graphdrawing.org/xmlns">'
    yield '<key id="kind" for="node" attr.name="kind" attr.type="string"/>'
    yield '<graph edgedefault="directed">'
    shown_axioms: set[int] = set()
    for node in part.theorems(downwards):
        yield f'<node id="{labels[node]}"><data key="kind">{kinds.theorem}</data></node>'
        for cited in part.arrows[node]:
            if not graph.is_theorem(cited) and cited not in shown_axioms:
                shown_axioms.add(cited)
                yield f'<node id="{labels[cited]}"><data key="kind">{kinds.axiom}</data></node>'
            yield f'<edge source="{labels[node]}" target="{labels[cited]}"/>'
    yield "</graph>"
    yield "</graphml>"

"""Drawings of mappings: trees as DOT text for Graphviz or as SVG for notebooks, and tables as HTML."""
from __future__ import annotations

from dataclasses import dataclass
from typing import Dict, List, Tuple

from ._shown import table
from .kernel import Kernel
from .queries import Mapping, Place

#: The largest number of mappings that are drawn as SVG, or listed in a table.
MOST_SHOWN = 256

# the size of a box in SVG, and the gaps between two boxes
_WIDTH, _HEIGHT, _GAP, _DROP = 104, 66, 12, 30


@dataclass(frozen=True)
class Tree:
    """A tree of mappings, each below the one from which it was mapped.

    `str` returns DOT text. A notebook shows the tree as SVG, which has at most the first 256 mappings.
    """

    name: str
    mappings: Tuple[Mapping, ...]
    #: Mappings of other spaces, drawn with dashed lines.
    beside: Tuple[Mapping, ...] = ()

    def __str__(self) -> str:
        nodes = [*(_node(mapping, ", style=dashed") for mapping in self.beside), *map(_node, self.mappings)]
        edges = [f"    {_name(mapping.parent)} -> {_name(mapping.place)};" for mapping in self.mappings if mapping.parent]
        return "\n".join([f"digraph {self.name} {{", "    node [shape=box];", *nodes, *edges, "}"]) + "\n"

    def svg(self) -> str:
        """Returns the tree as SVG. Each box has the attributes `data-space` and `data-page`."""
        everything, aside = (*self.beside, *self.mappings), {mapping.place for mapping in self.beside}
        shown = {mapping.place: mapping for mapping in everything[:MOST_SHOWN]}
        spots = _spots(shown)
        edges = [_edge(spots[it.parent], spots[place]) for place, it in shown.items() if it.parent in spots]
        boxes = [_box(it, spots[place], place in aside) for place, it in shown.items()]
        left = len(everything) - len(shown)
        width = max((column for column, _ in spots.values()), default=0) + 1
        height = (max((row for _, row in spots.values()), default=0) + 1) * (_HEIGHT + _DROP)
        more = [f'<text x="4" y="{height + 12}">and {left:,} more</text>'] if left else []
        size = f'width="{int(width * (_WIDTH + _GAP))}" height="{height + 20}"'
        return f'<svg xmlns="http://www.w3.org/2000/svg" {size} font-family="sans-serif" font-size="12">{"".join(edges + boxes + more)}</svg>'

    def _repr_svg_(self) -> str:
        return self.svg()


@dataclass(frozen=True)
class Table:
    """The mappings of a space, which a notebook shows as an HTML table with at most the first 256 mappings."""

    space: int
    mappings: Tuple[Mapping, ...]

    def _repr_html_(self) -> str:
        shown = self.mappings[:MOST_SHOWN]
        rows: List[Tuple[object, ...]] = [(it.place.page, it.frame, it.rights, _parent_text(it)) for it in shown]
        if len(shown) < len(self.mappings):
            rows.append((f"and {len(self.mappings) - len(shown):,} more", "", "", ""))
        return table(f"space {self.space}", ("page", "frame", "rights", "parent"), rows)


def _parent_text(mapping: Mapping) -> str:
    return f"space {mapping.parent.space} page {mapping.parent.page}" if mapping.parent else "none"


def _name(place: Place) -> str:
    return f'"{place.space}:{place.page}"'


def _lines(mapping: Mapping) -> List[str]:
    """Returns the lines of text in the box of a mapping."""
    place = mapping.place
    return [f"space {place.space}", f"page {place.page}", f"frame {mapping.frame}", str(mapping.rights)]


def _node(mapping: Mapping, mark: str = "") -> str:
    """Returns the DOT node of a mapping."""
    label = "\\n".join(_lines(mapping))
    return f'    {_name(mapping.place)} [label="{label}"{mark}];'


def _spots(shown: Dict[Place, Mapping]) -> Dict[Place, Tuple[float, int]]:
    """Returns the column and row of each mapping: leaves side by side, and each parent above the middle of its children."""
    children: Dict[Place, List[Place]] = {place: [] for place in shown}
    for place, mapping in shown.items():
        if mapping.parent in children:
            children[mapping.parent].append(place)
    rows = {place: 0 for place, mapping in shown.items() if mapping.parent not in shown}
    order = list(reversed(rows))
    walked: List[Place] = []
    while order:
        place = order.pop()
        walked.append(place)
        rows.update((child, rows[place] + 1) for child in children[place])
        order += reversed(children[place])
    columns: Dict[Place, float] = {}
    leaves = [place for place in walked if not children[place]]
    columns.update((place, float(column)) for column, place in enumerate(leaves))
    for place in reversed(walked):
        if children[place]:
            columns[place] = (columns[children[place][0]] + columns[children[place][-1]]) / 2
    return {place: (columns[place], rows[place]) for place in walked}


def _corner(spot: Tuple[float, int]) -> Tuple[int, int]:
    """Returns the upper left corner of the box at this column and row."""
    return int(spot[0] * (_WIDTH + _GAP)) + 2, spot[1] * (_HEIGHT + _DROP) + 2


def _edge(parent: Tuple[float, int], child: Tuple[float, int]) -> str:
    (x1, y1), (x2, y2) = _corner(parent), _corner(child)
    return f'<line x1="{x1 + _WIDTH // 2}" y1="{y1 + _HEIGHT}" x2="{x2 + _WIDTH // 2}" y2="{y2}" stroke="#666"/>'


def _box(mapping: Mapping, spot: Tuple[float, int], is_beside: bool) -> str:
    x, y = _corner(spot)
    dashes = ' stroke-dasharray="4 3"' if is_beside else ""
    frame = f'<rect x="{x}" y="{y}" width="{_WIDTH}" height="{_HEIGHT}" fill="#fff" stroke="#333"{dashes}/>'
    texts = [f'<text x="{x + 6}" y="{y + 15 * line}">{text}</text>' for line, text in enumerate(_lines(mapping), 1)]
    return f'<g data-space="{mapping.place.space}" data-page="{mapping.place.page}">{frame}{"".join(texts)}</g>'


def frame(kernel: Kernel, number: int) -> Tree:
    """Returns the mapping tree of a frame: all its mappings in every space, each below its parent. The root is sigma0's boot page, or
    the page to which that was granted. Raises ValueError if there is no such frame."""
    if not 0 <= number < kernel.frames:
        raise ValueError(f"there is no frame {number}: the machine has {kernel.frames} frames, numbered from 0")
    everything = (mapping for space in kernel.spaces() for mapping in kernel.mappings(space))
    return Tree(f"frame_{number}", tuple(mapping for mapping in everything if mapping.frame == number))


def _mappings(kernel: Kernel, number: int) -> Tuple[Mapping, ...]:
    """Returns the mappings of a space. Raises ValueError if there is no such space."""
    if number not in kernel.spaces():
        raise ValueError(f"there is no space {number}, but {', '.join(map(str, kernel.spaces()))}")
    return tuple(kernel.mappings(number))


def space(kernel: Kernel, number: int) -> Tree:
    """Returns the mappings of a space, with the pages of other spaces from which they were mapped; these have dashed lines. Raises
    ValueError if there is no such space."""
    shown = _mappings(kernel, number)
    parents: Dict[Place, Mapping] = {}
    for mapping in shown:
        parent = mapping.parent
        if parent and parent.space != number:
            there = kernel.mapping(parent.space, parent.page)
            if there:
                parents[parent] = there
    return Tree(f"space_{number}", shown, tuple(parents[place] for place in sorted(parents)))


def pages(kernel: Kernel, number: int) -> Table:
    """Returns the mappings of a space as a table. Raises ValueError if there is no such space."""
    return Table(number, _mappings(kernel, number))

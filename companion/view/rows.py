"""The rows that a page holds: around all that can be clicked, while there is room."""
from __future__ import annotations

from dataclasses import dataclass, field
from typing import Iterable, Sequence

from .data import Page, PageEdge

ROWS = 45000            # in the page at most
CALLS = 24              # innermost calls that a stack tells
SPOTS = 1200            # points over the whole run with some rows around each
EDGES_WITH_ROWS = 400   # the last Edges, whose rows a click shows


@dataclass
class RowWindow:
    """Rows of a hart that follow each other: the numbers of their codes, the ends of their texts,
    and the nodes of their calls, as [offset, node] at each change."""
    hart: int
    first: int
    codes: list[int] = field(default_factory=list)
    tails: list[str] = field(default_factory=list)
    calls: list[list[int]] = field(default_factory=list)


class PageRows:
    """windows  what the page holds of rows
    nodes    what it holds of calls: {(the node outside, the place of the call; below 0 the number
             of calls that are left out): its number}"""

    def __init__(self, page: Page) -> None:
        self.page = page
        self.rows = page.rows
        self.calls = page.calls
        self.wanted: set[int] = set()
        self.windows: list[RowWindow] = []
        self.nodes: dict[tuple[int, int], int] = {}
        self.top_known = {0: 0}

    def around(self, row: int, back: int, ahead: int) -> None:
        """Wants a row, and some before and behind it of its hart."""
        rows = self.rows
        if not row or len(self.wanted) >= ROWS:
            return
        hart = rows.hart[row]
        count = rows.count_of(row)
        for near in range(max(rows.harts[hart].counts[0], count - back), count + ahead + 1):
            found = rows.row_of(hart, near)
            if found and len(self.wanted) < ROWS:
                self.wanted.add(found)

    def want(self, start: int, ways: Iterable[int], looked_at: Iterable[int],
             edges: Sequence[PageEdge], race_rows: Iterable[int]) -> None:
        """What is likeliest looked at comes first."""
        rows = self.rows
        self.around(start, 60, 5)
        for row in ways:
            self.around(row, 0, 0)
        for row in looked_at:
            self.around(row, 60, 60)
        for row in rows.last.values():
            self.around(row, 800, 0)
        for interval in rows.log.intervals[-2000:]:
            self.around(rows.row_of(interval.hart, interval.start), 0, 20)
        for edge in edges[:-EDGES_WITH_ROWS - 1:-1]:
            self.around(edge.row, 12, 12)
            self.around(edge.source_row, 12, 12)
        for row in race_rows:
            self.around(row, 12, 12)
        for hart, last in rows.last.items():
            first = rows.harts[hart].counts[0]
            end = rows.count_of(last)
            spots = max(1, SPOTS // len(rows.last))
            for i in range(spots):
                self.around(rows.row_of(hart, first + (end - first) * i // spots), 10, 10)

    def read(self) -> None:
        self.page.places.fetch({self.rows.code_of(row).pc for row in self.wanted})
        by_hart: dict[int, list[int]] = {}
        for row in sorted(self.wanted):
            by_hart.setdefault(self.rows.hart[row], []).append(row)
        for hart, rows in sorted(by_hart.items()):
            self.read_hart(hart, rows)

    def read_hart(self, hart: int, rows: Sequence[int]) -> None:
        window = RowWindow(hart, 0)
        before = -1
        expected = -1
        for row in rows:
            count = self.rows.count_of(row)
            node = self.calls.node_of(row)
            if count != expected:
                window = RowWindow(hart, count)
                before = -1
                self.windows.append(window)
            window.tails.append(" | ".join(self.rows.told(row)))
            window.codes.append(self.page.code(self.rows.code[row]))
            if node != before:
                window.calls.append([count - window.first, self.node(node)])
                before = node
            expected = count + 1

    def node(self, node: int) -> int:
        """The page's number of a node of the calls, with those around it."""
        if node in self.top_known:
            return self.top_known[node]
        tree = self.calls.tree
        at = node
        path: list[int] = []
        while at and len(path) < CALLS:
            path.append(tree.call_pc[at])
            at = tree.parent[at]
        top = self.cut_node(at) if at else 0
        for pc in reversed(path):
            top = self.add_node(top, self.page.place(pc))
        self.top_known[node] = top
        return top

    def cut_node(self, node: int) -> int:
        """The page's number of a node whose calls are left out, but for the outermost one."""
        tree = self.calls.tree
        top = self.add_node(0, self.page.place(tree.outermost[node]))
        return self.add_node(top, 1 - tree.depth[node]) if tree.depth[node] > 1 else top

    def add_node(self, outer: int, place: int) -> int:
        return self.nodes.setdefault((outer, place), len(self.nodes) + 1)

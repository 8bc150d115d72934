"""The chain of values as boxes: the ways from the end back to the rows of the first suspects.

Each row of the search has one row that needed it, so the ways form a tree. Rows that follow each
other without a fork, of one hart and line, are one box; a store that a load got, and the way to an
address, begin a new one."""
from __future__ import annotations

from typing import Any, Iterable, Mapping, NamedTuple, Sequence

from ..recording.cut import told_in
from ..why.history import History
from .data import Page

FIRST_BOXES = 5  # of a long way without a fork
LAST_BOXES = 2  # between them a box says how many rows are left out


class SuspectWay(NamedTuple):
    """A suspect that the history leads to: the row there, the guilty row, and the suspect's
    kind."""
    row: int
    guilty: int
    kind: str


class Box:
    """rows   those that it represents, from the end backwards
    how    how its first row was needed; next: the boxes behind it"""
    __slots__ = ("rows", "how", "next", "skipped")

    def __init__(self, row: int, how: str) -> None:
        self.rows = [row]
        self.how = how
        self.skipped = 0
        self.next: list[Box] = []


class ChainWays:
    """The tree of rows: of each row those that it needed, and how each of these was needed."""

    def __init__(self, page: Page, search: History, goals: Sequence[int]) -> None:
        self.page = page
        self.goals = set(goals)
        self.needed: dict[int, list[int]] = {}
        self.how: dict[int, str] = {}
        for goal in goals:
            before = 0
            for row, how in search.path(goal):
                behind = self.needed.setdefault(before, [])
                if row not in behind:
                    behind.append(row)
                self.how[row] = how
                before = row

    def place_key(self, row: int) -> tuple[object, ...]:
        entry = self.page.place_list[self.page.place_of_row(row)]
        return self.page.rows.hart[row], entry[0], entry[1]

    def follows(self, row: int, following: int) -> bool:
        """Whether a row stands in the same box as the one that needed it."""
        how = self.how[following]
        return ((how == "value" or how == self.how[row] == "address")
                and self.place_key(row) == self.place_key(following))

    def box(self, row: int) -> Box:
        """The box that begins with a row, with all boxes behind it."""
        first = box = Box(row, self.how[row])
        while True:
            row = box.rows[-1]
            behind = self.needed.get(box.rows[-1], [])
            if len(behind) == 1 and row not in self.goals:
                if self.follows(row, behind[0]):
                    box.rows.append(behind[0])
                else:
                    box.next = [Box(behind[0], self.how[behind[0]])]
                    box = box.next[0]
            else:
                box.next = [self.box(following) for following in behind]
                return self.shortened(first)

    def shortened(self, first: Box) -> Box:
        """A way whose middle is one box, if it has many before its end, its fork or a goal."""
        way = [first]
        while len(way[-1].next) == 1 and way[-1].rows[-1] not in self.goals:
            way.append(way[-1].next[0])
        if len(way) > FIRST_BOXES + LAST_BOXES + 1:
            cut = way[FIRST_BOXES:-LAST_BOXES]
            gap = Box(cut[0].rows[0], "value")
            gap.skipped = sum(len(box.rows) for box in cut)
            gap.next = [way[-LAST_BOXES]]
            way[FIRST_BOXES - 1].next = [gap]
        return first


class Boxes:
    """The nodes and links of the page. A fork's first way continues in its column, each other takes
    a new one."""

    def __init__(self, page: Page, suspects: Mapping[int, Sequence[tuple[int, SuspectWay]]],
                 origins: Mapping[int, str]) -> None:
        """Both are by rows: suspects with their ranks, and origins in words."""
        self.page = page
        self.suspects = suspects
        self.origins = origins
        self.nodes: list[dict[str, Any]] = []
        self.links: list[list[Any]] = []
        self.columns = 1

    def add(self, box: Box, column: int, depth: int) -> int:
        """Adds a box and all behind it; gives its number."""
        row = box.rows[-1]
        at = self.put(column, depth,
                      **({"skipped": box.skipped} if box.skipped else self.row(row, len(box.rows))))
        places = iter(range(len(box.next) + 9))
        for following in box.next:
            self.links.append([at, self.add(following, self.column(column, next(places)),
                                            depth + 1), following.how])
        if box.skipped:
            return at
        for rank, (_, guilty, kind) in self.suspects.get(row, ()):
            if guilty == row:
                self.nodes[at]["rank"] = self.nodes[at]["rank"] or rank
            else:
                # The guilty row isn't of the history: only what it did is known
                self.links.append([at, self.put(self.column(column, next(places)), depth + 1, rank,
                                                **self.row(guilty, 1)), kind])
        if row in self.origins:
            load = self.page.rows.access(row)
            loaded = f"{load.address:08x}={load.value:08x}"
            self.links.append([at, self.put(self.column(column, next(places)), depth + 1,
                                            said=self.origins[row], told=loaded), "before"])
        return at

    def put(self, column: int, depth: int, rank: int = 0, **more: Any) -> int:
        """Adds a node; gives its number."""
        self.nodes.append({"column": column, "depth": depth, "rank": rank, **more})
        return len(self.nodes) - 1

    def column(self, column: int, place: int) -> int:
        """The column of the way at a place of a fork."""
        self.columns += place > 0
        return self.columns - 1 if place else column

    def told(self, row: int) -> str:
        return told_in(self.page.rows.text(row))[-1]

    def row(self, row: int, rows: int) -> dict[str, Any]:
        return {"place": self.page.place_of_row(row), "rows": rows,
                "at": self.page.point(row), "told": self.told(row)}


def chain_boxes(page: Page, history: History, suspects: Iterable[SuspectWay],
                origins: Mapping[int, str]) -> dict[str, Any]:
    """{nodes, links} as the page's script reads them. `suspects` come likeliest first; `origins` is
    {row of a load that no row stored: where its word came from}."""
    by_row: dict[int, list[tuple[int, SuspectWay]]] = {}
    for rank, way in enumerate(suspects, 1):
        by_row.setdefault(way.row, []).append((rank, way))
    ways = ChainWays(page, history, list(by_row) + list(origins) or [history.start])
    boxes = Boxes(page, by_row, origins)
    boxes.add(ways.box(history.start), 0, 0)
    return {"nodes": boxes.nodes, "links": boxes.links}

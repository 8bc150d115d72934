"""What a page shows of a log as a whole: places, intervals, Edges, the functions along each hart,
and a short order of turns."""
from __future__ import annotations

from typing import Any, Iterator, NamedTuple, Optional, Union

from ..call.text import clean
from ..recording.log import NO_END, Log
from ..recording.places import Places
from ..recording.rows import Rows
from ..recording.story import Story, Teller
from ..recording.trace import Trace

# In the page at most: a half of them evenly over all rows, the other half at the end
EDGES = 6000
EDGE_STEPS = 1500       # the even half takes its Edges from so many equal parts of the rows
SEGMENTS = 2500         # switches of each hart in the page at most
STRIP_SPOTS = 24000     # rows whose function is asked for, of all harts together
SOURCE_LENGTH = 90      # letters of a line: the panel has room for these


class PageEdge(NamedTuple):
    """An Edge with the rows of both its accesses, 0 of one that was dropped, and 1 if it is of the
    even half."""
    hart: int
    at: int
    source: int
    source_at: int
    row: int
    source_row: int
    is_even: int


class Page:
    """Places and codes have numbers, so that each name stands in the page once."""

    def __init__(self, trace: Trace, places: Places, log: Log) -> None:
        self.rows = trace.rows
        self.calls = trace.calls
        self.places = places
        self.log = log
        self.place_known: dict[int, int] = {}
        self.place_list: list[list[Union[str, list[str]]]] = []
        self.code_known: dict[int, int] = {}
        self.code_list: list[tuple[int, str, int]] = []         # address, text and place of each

    def place(self, pc: int) -> int:
        """The number of [function, file:line, text of the line, [function, file:line] it is inlined
        in..]."""
        found = self.place_known.get(pc)
        if found is None:
            entry: list[Union[str, list[str]]] = ["", f"{pc:08x}", ""]
            frames = self.places.frames(pc)
            if frames:
                entry = [frames[0].function, self.places.line(pc),
                         self.places.source(pc)[:SOURCE_LENGTH]]
                entry += [[frame.function, f"{frame.file}:{frame.line}"] for frame in frames[1:]]
            found = self.place_known[pc] = len(self.place_list)
            self.place_list.append(entry)
        return found

    def around(self, place: int) -> tuple[int, list[str]]:
        """The line of source at a place, the one before and the one behind, if the source is there;
        and the number of the first."""
        frame = self.places.innermost(list(self.place_known)[place])
        lines = self.places.sources.lines(frame.path) if frame.line else []
        first = max(1, frame.line - 1)
        some = lines[first - 1:frame.line + 1] if frame.line <= len(lines) else []
        return first, [clean(text.expandtabs(4).rstrip())[:SOURCE_LENGTH] for text in some]

    def code(self, at: int) -> int:
        """The number of an instruction."""
        found = self.code_known.get(at)
        if found is None:
            instruction = self.rows.codes[at]
            found = self.code_known[at] = len(self.code_list)
            self.code_list.append((instruction.pc, instruction.text, self.place(instruction.pc)))
        return found

    def point(self, row: int) -> list[int]:
        """The hart, the count and the row."""
        return [self.rows.hart[row], self.rows.count_of(row), row]

    def place_of_row(self, row: int) -> int:
        return self.place(self.rows.code_of(row).pc)

    def intervals(self) -> list[list[Any]]:
        """Of each interval the hart, number, counts, reason and value of its end, its first row and
        the one behind its last."""
        row_of = self.rows.row_of
        found = []
        for each in self.log.intervals:
            first = row_of(each.hart, each.start)
            last = row_of(each.hart, max(each.start, each.end - 1))
            reason = "no end" if each.reason == NO_END else each.reason
            found.append([each.hart, each.number, each.start, each.end, reason, f"{each.value:08x}",
                          first, (last or first) + 1])
        return found

    def segments(self) -> Iterator[tuple[list[int], list[int], int]]:
        """Of each hart the counts and the rows at which it continues after another hart, and 1 if
        some are left out."""
        for number in range(self.log.harts):
            hart = self.rows.harts.get(number)
            step = max(1, -(-len(hart.begins) // SEGMENTS)) if hart else 1
            yield ((list(hart.counts[::step]), list(hart.begins[::step]), int(step > 1)) if hart
                   else ([], [], 0))

    def edges(self) -> list[PageEdge]:
        counts, from_counts, harts, sources = self.log.edges
        total = len(counts)
        row_of = self.rows.row_of
        rows = [row_of(harts[i], counts[i]) for i in range(total)]
        even = self.even_edges(rows)
        kept = even | set(range(max(0, total - EDGES + len(even)), total))
        return [PageEdge(harts[i], counts[i], sources[i], from_counts[i], rows[i],
                         row_of(sources[i], from_counts[i]), int(i in even)) for i in sorted(kept)]

    def even_edges(self, rows: list[int]) -> set[int]:
        """The places of Edges that are spread evenly over the rows: of each part at most two, to
        different harts."""
        if len(rows) <= EDGES // 2:
            return set(range(len(rows)))
        most = EDGES // 2 // EDGE_STEPS
        harts = self.log.edges.harts
        found = set()
        taken: dict[int, dict[int, int]] = {}
        for i, row in enumerate(rows):
            key = row * EDGE_STEPS // (self.rows.size + 1)
            used = taken.setdefault(key, {})
            if sum(used.values()) < most and used.get(harts[i], 0) < max(1, most // 2):
                used[harts[i]] = used.get(harts[i], 0) + 1
                found.add(i)
        return found

    def strips(self) -> tuple[list[list[Any]], list[list[Any]]]:
        """Of each hart its number, the count behind its last, and its functions as [first count,
        the function's number]..; and of each function its name and its share in percent."""
        spots = list(self.strip_spots())
        found: list[list[Any]] = []
        numbers: dict[str, int] = {}
        shares: dict[str, int] = {}
        self.places.fetch({self.rows.code_of(row).pc for _, _, rows in spots
                           for _, row in rows if row})
        for hart, end, rows in spots:
            runs: list[list[int]] = []
            for count, row in rows:
                name = self.places.function(self.rows.code_of(row).pc) if row else "?"
                shares[name] = shares.get(name, 0) + 1
                number = numbers.setdefault(name, len(numbers))
                if not runs or runs[-1][1] != number:
                    runs.append([count, number])
            found.append([hart, end, runs])
        total = sum(shares.values()) or 1
        return found, [[name, round(100 * shares[name] / total, 1)] for name in numbers]

    def strip_spots(self) -> Iterator[tuple[int, int, list[tuple[int, int]]]]:
        """Of each hart the count behind its last, and for each of so many equal parts of it the
        first count and a row in the middle."""
        rows = self.rows
        most = max(200, min(3000, STRIP_SPOTS // max(1, len(rows.last))))
        for hart, last_row in sorted(rows.last.items()):
            first = rows.harts[hart].counts[0]
            last = rows.count_of(last_row)
            spots = min(most, last - first + 1)
            size = (last - first + 1) / spots
            yield (hart, last + 1,
                   [(int(first + i * size), rows.row_of(hart, int(first + (i + 0.5) * size)))
                    for i in range(spots)])


def story_data(story: Optional[Story], teller: Teller, log: Log,
               rows: Rows) -> Optional[dict[str, Any]]:
    """The order in words; of each piece its hart, its turns, its first count and the one behind its
    last, each with its row; of each switch its lines. Nothing without BOOK."""
    if story is None:
        return None
    behind: dict[int, int] = {}
    pieces = []
    for at, (hart, turns) in enumerate(story.pieces):
        stopped = story.switches[at].stopped if at < len(story.switches) else None
        is_last = all(piece.hart != hart for piece in story.pieces[at + 1:])
        begin = behind.get(hart, 0)
        end = stopped.ic + 1 if stopped else begin
        if is_last and hart in log.ends:
            end = log.ends[hart].count
        pieces.append([hart, turns, begin, rows.row_of(hart, begin), end,
                       rows.row_of(hart, max(begin, end - 1))])
        behind[hart] = end
    return {"left": story.left, "order": story.order(),
            "pieces": pieces, "switches": [[line.strip() for line in teller.lines(at, each)]
                                           for at, each in enumerate(story.switches, 1)]}

"""The races of a log as the program lists them, in groups: by the two places and the word.

A group is judged in two ways, which are guesses from the code and no more. It is *fenced* if both
accesses stand beside a fence. It is *ordered by fences* if each of its pairs lies after a fenced
store and before a fenced load of its word."""
from __future__ import annotations

import bisect
from array import array
from functools import lru_cache, partial
from typing import NamedTuple, Optional, Sequence, Tuple

from ..call import streams
from ..call.program import Output
from . import fences
from .chunks import check_program
from .elf import Elf
from .log import At
from .members import Members
from .places import Places

TOO_MANY = 20                       # the program's status if there are more than it was asked for
STEPS = (2000, 20000, 200000, 1000000)
FENCED = "fenced"
ORDERED = "ordered by fences"
FIRST_PAIRS = 8                     # so many pairs of each group are kept with their rows


class RacingAccess:
    """One access of a pair: hart, count, address of its code, and its row as text."""
    __slots__ = ("hart", "count", "pc", "row")

    def __init__(self, row: str) -> None:
        words = row.split(" ", 3)
        self.hart = int(words[0])
        self.count = int(words[1])
        self.pc = int(words[2], 16)
        self.row = row

    @property
    def stores(self) -> bool:
        return " | store " in self.row

    @property
    def loads(self) -> bool:
        return " | load " in self.row

    def verb(self) -> str:
        """What it does. A row of a system call doesn't tell which words it reads or writes."""
        if self.loads:
            return "updates" if self.stores else "loads"
        return "stores" if self.stores else "makes a system call"

    def at(self) -> At:
        return At(self.hart, self.count)


# Of a race, in the order of the joint replay
AccessPair = Tuple[RacingAccess, RacingAccess]


class Way(NamedTuple):
    """Of two harts the counts of fenced stores of one, ascending; and of each the least count at
    which the other hart loads the word behind it or behind a later one."""
    counts: list[int]
    least: list[int]


class Columns(NamedTuple):
    """An entry for each pair: the two accesses, the group's number, and whether a fenced store
    comes first and a fenced load second."""
    harts: array[int]
    counts: array[int]
    other_harts: array[int]
    other_counts: array[int]
    groups: array[int]
    hands_over: array[int]


class RaceGroup:
    """number   among the groups, as they come
    word     the address of the word; places: the functions and lines of the two accesses, sorted
    fenced, ordered     whether all pairs are so
    pairs    how many; first: some of them"""

    def __init__(self, number: int, word: int, places: list[str], fenced: bool) -> None:
        self.number = number
        self.word = word
        self.places = places
        self.fenced = fenced
        self.pairs = 0
        self.ordered = False
        self.first: list[AccessPair] = []

    @property
    def kind(self) -> str:
        if self.fenced:
            return FENCED
        return ORDERED if self.ordered else ""


class Races:
    """groups   in the order in which the program lists their first pairs
    total    how many pairs there are
    over     whether there are more than were asked for: then there are no groups"""

    def __init__(self, named: Elf, places: Places) -> None:
        self.named = named
        self.places = places
        self.members = Members(named)
        self.by_key: dict[tuple[int, str, str, bool], RaceGroup] = {}
        self.place_of = lru_cache(maxsize=None)(places.where)
        self.is_fenced = lru_cache(maxsize=None)(partial(fences.is_fenced, named.word))
        self.pairs = Columns(array("B"), array("Q"), array("B"), array("Q"), array("I"), array("B"))
        self.total = 0
        self.over = False
        self.groups: list[RaceGroup] = []

    def read(self, harts: int, log_name: str, elf_name: str, most: int) -> Races:
        """Asks for at most so many pairs, and first for fewer, since a longer list takes the
        program longer. One hart alone has none."""
        if harts == 1:
            check_program(log_name, elf_name)
            return self
        with streams.working("races are looked for"):
            for step in [step for step in STEPS if step < most] + [most]:
                self.over = not self.read_list(log_name, elf_name, step)
                if not self.over:
                    break
        self.groups = list(self.by_key.values())
        self.find_ordered()
        return self

    def read_list(self, log_name: str, elf_name: str, most: int) -> bool:
        """Reads the list unless it is longer than `most`. Of each race there are three lines."""
        with Output("races", log_name, elf_name, str(most), accept=(0, TOO_MANY)) as lines:
            rows: list[str] = []
            head: Optional[Sequence[str]] = None
            for line in lines:
                text = line[:-1].decode("ascii", "replace")
                if text.startswith("race "):
                    head = text.split(" ")
                    rows = []
                elif head:
                    rows.append(text)
                    if len(rows) == 2:
                        self.add(RacingAccess(rows[0]), RacingAccess(rows[1]), int(head[5], 16))
                        head = None
        return lines.status == 0

    def add(self, one: RacingAccess, other: RacingAccess, word: int) -> None:
        names = sorted((self.place_of(one.pc), self.place_of(other.pc)))
        fenced = self.is_fenced(one.pc) and self.is_fenced(other.pc)
        key = word, names[0], names[1], fenced
        group = self.by_key.get(key)
        if group is None:
            group = self.by_key[key] = RaceGroup(len(self.by_key), word, names, fenced)
        group.pairs += 1
        if len(group.first) < FIRST_PAIRS:
            group.first.append((one, other))
        hands_over = fenced and one.stores and other.loads
        for column, value in zip(self.pairs, (one.hart, one.count, other.hart,
                                              other.count, group.number, hands_over)):
            column.append(value)
        self.total += 1

    def unordered(self) -> set[frozenset[At]]:
        """The pairs that no fences order either."""
        return {frozenset((At(hart, count), At(other, other_count)))
                for hart, count, other, other_count, number, _ in zip(*self.pairs)
                if not self.groups[number].kind}

    def find_ordered(self) -> None:
        """Sets `ordered` of each group that fences may order."""
        ways = self.fenced_ways()
        open_pairs = {group.number: 0 for group in self.groups if not group.fenced}
        for hart, count, other, other_count, number, _ in zip(*self.pairs):
            if number in open_pairs and not leads(ways.get((hart, other)), count, other_count):
                open_pairs[number] += 1
        for number, left in open_pairs.items():
            self.groups[number].ordered = left == 0

    def fenced_ways(self) -> dict[tuple[int, int], Way]:
        """{(hart, other hart): the way from one to the other over fences}"""
        found: dict[tuple[int, int], list[tuple[int, int]]] = {}
        for hart, count, other, other_count, _, hands_over in zip(*self.pairs):
            if hands_over:
                found.setdefault((hart, other), []).append((count, other_count))
        ways = {}
        for key, pairs in found.items():
            pairs.sort()
            least: list[int] = []
            for _, other_count in reversed(pairs):
                least.append(min(least[-1], other_count) if least else other_count)
            ways[key] = Way([count for count, _ in pairs], least[::-1])
        return ways


def leads(way: Optional[Way], count: int, other_count: int) -> bool:
    """Whether a fenced store at `count` or later is loaded by the other hart at `other_count` or
    before."""
    if not way:
        return False
    at = bisect.bisect_left(way.counts, count)
    return at < len(way.counts) and way.least[at] <= other_count

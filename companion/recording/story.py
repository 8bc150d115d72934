"""A short order of turns as a story: the switches between harts, each with who stops where, who
continues where, and what that does to a word that the one that stopped had loaded."""
from __future__ import annotations

import re
from typing import Any, Iterator, Mapping, NamedTuple, Optional, Sequence, Tuple

from ..call.text import counted
from .answers import place_of
from .book import check_book, read_book
from .elf import Elf
from .log import Log
from .places import Frame, Places
from .row import Row, parse_row
from .turn_ends import turn_lines
from .turns import Pieces, again_at, pieces_of, shown

MOST_TOLD = 40              # switches
MOST_ROWS = 2600000         # of a log, and turns of BOOK, among which they are looked for
MOST_AUDITED = 500000000    # instructions of the run, which audit does again: some ten seconds
STORY_HEAD = "SWITCHES between harts, in the order of BOOK"
MOST_INLINED = 1            # lines into which a row is inlined are told
STORE = re.compile(rb"^.*\| store (\w{8})=.*\n", re.M)
LOAD = re.compile(rb"\| load (\w{8})=")
Clash = Tuple[Row, Row]     # a store to a word, and the load of it by the hart that had stopped


class Switch(NamedTuple):
    """hart     that stops, and the other that continues
    stopped  the row with which the last turn of the hart ended that stops
    next     the row with which the first turn of the other ends
    clash    what the others do to a word that the hart had loaded, until it continues"""
    hart: int
    other: int
    stopped: Optional[Row]
    next: Optional[Row]
    clash: Optional[Clash]


class Story(NamedTuple):
    """all     how many switches the order has
    pieces  of a short order, and its switches
    left    why they aren't told, or nothing"""
    all: int
    pieces: Pieces
    switches: list[Switch]
    left: str = ""

    def order(self) -> str:
        return shown(self.pieces)


def lines_by_piece(log: Log, elf_name: str, pieces: Pieces, most: int) -> list[list[bytes]]:
    """Of each of the first so many pieces the lines with which its turns ended."""
    lines: dict[int, Iterator[bytes]] = {}
    for hart in {piece.hart for piece in pieces}:
        lines[hart] = iter(turn_lines(log, elf_name, hart,
                                      sum(piece.turns for piece in pieces if piece.hart == hart)))
    return [[next(lines[piece.hart]) for _ in range(piece.turns)] for piece in pieces[:most]]


def switches_of(pieces: Pieces, lines: Sequence[Sequence[bytes]]) -> list[Switch]:
    """The switches between the pieces that have lines."""
    found = []
    for at in range(len(lines) - 1):
        hart = pieces[at].hart
        again = again_at(pieces, at)
        between = b"".join(line for piece in lines[at + 1:again if again >= 0 else len(lines)]
                           for line in piece)
        done = [line for piece, each in zip(lines[:at + 1], pieces) if each.hart == hart
                for line in piece]
        found.append(Switch(hart, pieces[at + 1].hart, parse_row(done[-1]),
                            parse_row(lines[at + 1][0]), clash_of(done, between)))
    return found


def clash_of(before: Sequence[bytes], between: bytes) -> Optional[Clash]:
    """The first store to the word that was loaded last, of those to which there is one."""
    stored: dict[int, bytes] = {}
    for found in STORE.finditer(between):
        stored.setdefault(int(found[1], 16) & ~3, found[0])
    for line in reversed(before) if stored else ():
        load = LOAD.search(line)
        store = parse_row(stored.get(int(load[1], 16) & ~3, b"")) if load else None
        row = parse_row(line) if store else None
        if store and row:
            return store, row
    return None


def asked_story(given: Mapping[str, str], log: Log, elf_name: str) -> Optional[Story]:
    """That of the BOOK that a call names, if it does."""
    return (read_story(log, elf_name, given["--book"], given.get("--input", ""))
            if "--book" in given else None)


def read_story(log: Log, elf_name: str, book: str, input_name: str) -> Story:
    """The story of LOG's BOOK, which is refused if it isn't. Only a short order's is told."""
    switches, turns = read_book(book, MOST_TOLD)
    if switches > MOST_TOLD:
        return Story(switches, (), [], f"{counted(switches, 'switch')} are too many to tell: "
                     "zelkuma shrink finds an order with fewer")
    if (max(log.rows(), len(turns)) > MOST_ROWS
            or sum(end.count for end in log.ends.values()) > MOST_AUDITED):
        return Story(switches, (), [],
                     f"{counted(switches, 'switch')}: the run is too long to look for their rows")
    check_book(log.shown, elf_name, book, [f"--input={input_name}"] if input_name else [])
    pieces = pieces_of(turns)
    return Story(switches, pieces,
                 switches_of(pieces, lines_by_piece(log, elf_name, pieces, len(pieces))))


def frame_text(frame: Frame) -> str:
    return f"{frame.function} {frame.file}:{frame.line}"


class Teller:
    """Tells switches in words."""

    def __init__(self, elf: Elf, places: Places) -> None:
        self.elf = elf
        self.places = places

    def where(self, row: Optional[Row]) -> str:
        return self.places.where(row.pc) if row else "a place that isn't known"

    def in_lines(self, row: Optional[Row]) -> str:
        """The place of a row, and the line into which it is inlined."""
        return self.where(row) + "".join(f" (in {place})" for place in self.inlined(row))

    def inlined(self, row: Optional[Row]) -> list[str]:
        frames = self.places.frames(row.pc)[1:1 + MOST_INLINED] if row else []
        return [frame_text(frame) for frame in frames]

    def with_source(self, row: Optional[Row]) -> str:
        text = self.places.source(row.pc) if row else ""
        return self.in_lines(row) + (f"   {text}" if text else "")

    def word(self, row: Row) -> str:
        address = row.store.address if row.store else 0
        return self.elf.data_name(address) or f"{address:08x}"

    def lines(self, number: int, switch: Switch) -> list[str]:
        said = [f"{number:>3}. hart {switch.hart} stops after {self.with_source(switch.stopped)}",
                f"     hart {switch.other} continues at {self.with_source(switch.next)}"]
        if switch.clash:
            store, load = switch.clash
            said.append(f"     hart {store.hart} stores to {self.word(store)} in "
                        f"{self.where(store)}, which hart {load.hart} loaded in {self.where(load)}")
        return said

    def story(self, story: Story) -> list[str]:
        if story.left:
            return [story.left]
        return [story.order()] + [line for at, switch in enumerate(story.switches, 1)
                                  for line in self.lines(at, switch)]

    def answer(self, switch: Switch) -> dict[str, Any]:
        store, load = switch.clash or (None, None)
        return {"hart": switch.hart, "other": switch.other, "stopped": self.point(switch.stopped),
                "next": self.point(switch.next), "store": self.point(store),
                "load": self.point(load)}

    def story_answer(self, story: Optional[Story]) -> Optional[dict[str, Any]]:
        """The order for other programs, if a BOOK was given."""
        if story is None:
            return None
        return {"all": story.all, "order": story.order(),
                "switches": [self.answer(switch) for switch in story.switches]}

    def point(self, row: Optional[Row]) -> Optional[dict[str, Any]]:
        if row is None:
            return None
        return {"hart": row.hart, "count": row.ic, "place": place_of(self.places, row.pc),
                "inlined": self.inlined(row)}

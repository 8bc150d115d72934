"""The blocks that live at the end, and which of them no pointer reaches: by the words of memory as
`joint` tells them at its end."""
from __future__ import annotations

from typing import Dict, Iterator, List, NamedTuple, Set, Tuple

from ..call.program import Output
from .heap import Heap
from .state import CheckedHart, Thing

WORD = b"word "
MOST_CALLERS = 4            # places of which a group has the same


class Leak(NamedTuple):
    """Blocks that were taken in the same place: how many, their bytes, and how many of them no
    pointer reaches."""
    callers: Tuple[int, ...]
    blocks: int
    size: int
    unreached: int


def last_words(log_name: str, elf_name: str) -> Iterator[Tuple[int, int]]:
    """The words of memory at the end of a log: address and value."""
    with Output("joint", log_name, elf_name) as out:
        for line in out:
            if line.startswith(WORD):
                yield int(line[5:13], 16), int(line[14:22], 16)


class Leaks:
    """A pointer is each word whose value is in a block: one that is a number by chance makes a
    block reached, and never lost."""

    def __init__(self, heap: Heap, harts: List[CheckedHart],
                 words: Iterator[Tuple[int, int]]) -> None:
        self.heap = heap
        # {block's begin: the blocks to which its words lead}
        self.inside: Dict[int, List[Thing]] = {}
        self.roots: List[Thing] = []
        # Below a stack's pointer are frames that have ended
        unused = [(hart.lowest, hart.sp) for hart in harts]
        for address, value in words:
            block = heap.holding(value)
            if block is not None and not any(low <= address < sp for low, sp in unused):
                holder = heap.holding(address)
                (self.inside.setdefault(holder.begin, []) if holder else self.roots).append(block)
        values = (hart.value(register) for hart in harts for register in range(32))
        self.roots += [block for block in (heap.holding(value or 0) for value in values) if block]

    def reached(self) -> Set[int]:
        """The begins of blocks that a pointer outside of blocks leads to, or one in a block that is
        reached."""
        work = list(self.roots)
        seen = set()
        while work:
            block = work.pop()
            if block.begin not in seen:
                seen.add(block.begin)
                work += self.inside.get(block.begin, [])
        return seen

    def groups(self) -> List[Leak]:
        """Most bytes that no pointer reaches first."""
        seen = self.reached()
        found: Dict[Tuple[int, ...], Leak] = {}
        for begin, block in self.heap.live.items():
            callers = block.taken.pcs[:MOST_CALLERS] if block.taken else ()
            old = found.get(callers, Leak(callers, 0, 0, 0))
            found[callers] = Leak(callers, old.blocks + 1, old.size + block.size,
                                  old.unreached + (begin not in seen))
        return sorted(found.values(), key=lambda one: (-one.unreached, -one.size))


def leaks_of(heap: Heap, harts: List[CheckedHart], log_name: str, elf_name: str) -> List[Leak]:
    return Leaks(heap, harts, last_words(log_name, elf_name)).groups()

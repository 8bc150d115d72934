"""Which branch decided that a row was reached, by the code and by the way that the run went.

A row depends on the nearest branch before it, in its function or in those that called it, from
whose other side the function can end without coming to the row's place. The code is read from the
ELF file as far as it can be reached."""
from __future__ import annotations

from typing import Callable, Iterator, Mapping, Optional

from ..recording.elf import Elf
from ..recording.instruction import BRANCH, JUMP, Instruction
from ..recording.rows import LOADS
from ..recording.trace import Trace

MOST_PLACES = 4000          # so many places are looked at for a way round
MOST_ROWS = 2000            # so many rows are looked at for a branch
MOST_STEPS = 24             # rows of a value that are looked at for the load that it came from
BESIDE = 32                 # how near the words of an object are
MOST_WRITERS = 20           # stores to a word before one: older ones are of other uses of it
WRITERS_CALLS = 2           # calls over each: a setter, and who calls it


class Control:
    """entered  {hart: the first row of the loop that it never left}: what decided of it stands
    before it"""

    def __init__(self, trace: Trace, elf: Elf, entered: Optional[Mapping[int, int]] = None) -> None:
        self.trace = trace
        self.elf = elf
        self.entered = entered or {}
        self.rows, self.writers, self.calls = trace
        self.code: dict[int, Optional[Instruction]] = {ins.pc: ins for ins in trace.rows.codes}
        self.ways: dict[tuple[int, int], bool] = {}
        paired = self.calls.paired
        jumps = self.calls.jumps
        # By rows
        self.call_of = {jumps[back]: jumps[call] for call, back in zip(paired.calls, paired.backs)}

    def before(self, row: int) -> int:
        """The branch that decided that a row was reached, or 0."""
        rows = self.rows
        hart = self.rows.hart[row]
        # A loop that waits for other harts hasn't its reason in what this one did.
        first = self.entered.get(hart, row) if len(rows.last) == 1 else row
        place = rows.code_of(row).pc
        after = min(row, first)
        n = after - 1
        for _ in range(MOST_ROWS):
            if n <= 0:
                break
            if rows.hart[n] == hart:
                ins = rows.code_of(n)
                if ins.kind == BRANCH and self.is_decided(ins, rows.code_of(after).pc, place):
                    return n
                if ins.call:
                    place = ins.pc              # the row's function was called here
                after = n = self.call_of.get(n, n)  # what a call did is passed
            n -= 1
        return 0

    def is_decided(self, branch: Instruction, went: int, place: int) -> bool:
        """Whether a branch that went to one place could have ended without coming to another."""
        other = other_side(branch, went)
        return other is not None and self.can_avoid(other, place)

    def can_avoid(self, start: int, place: int) -> bool:
        """Whether a function can end from `start` on without coming to `place`."""
        key = start, place
        if key not in self.ways:
            self.ways[key] = any(at != place and not following
                                 for at, following in self.places_from(start, place))
        return self.ways[key]

    def can_reach(self, start: int, place: int) -> bool:
        """Whether a function can come from `start` to `place`."""
        return any(at == place for at, _ in self.places_from(start, place))

    def places_from(self, start: int, end: int) -> Iterator[tuple[int, list[int]]]:
        """The places of a function from `start` on, each with those that can come next: none behind
        `end`."""
        seen = {start}
        todo = [start]
        while todo and len(seen) < MOST_PLACES:
            at = todo.pop()
            following = [] if at == end else self.following(at)
            yield at, following
            todo += [other for other in following if other not in seen]
            seen.update(following)

    def following(self, pc: int) -> list[int]:
        """The places that can come next in the same function: none at its end."""
        ins = self.instruction(pc)
        if ins is None or ins.ret or ins.kind == JUMP and not ins.call and not ins.leads:
            return []
        if ins.kind == BRANCH:
            return [pc + 4, ins.leads]
        return [ins.leads] if ins.kind == JUMP and not ins.call else [pc + 4]

    def instruction(self, pc: int) -> Optional[Instruction]:
        if pc not in self.code:
            word = self.elf.word(pc) if pc % 4 == 0 and self.elf.is_code(pc) else None
            self.code[pc] = None if word is None else Instruction(-1, b"%08x %08x ?" % (pc, word))
        return self.code[pc]

    def kept(self, load: int, store: int, place: int = 0) -> int:
        """The latest branch between a store and the load that got it which went past a place, or
        else the store's own, or 0. Had it gone the other way, the word would have been stored
        again."""
        if self.rows.hart[store] != self.rows.hart[load]:
            return 0
        return self.passed(store, load, place or self.rows.code_of(store).pc, self.is_past)

    def spared(self, load: int, store: int) -> int:
        """The latest branch between a store and the load that got it which went past what stored
        the word before, and compared a value of the same object. Or 0."""
        rows = self.rows
        after = load
        if rows.hart[store] != rows.hart[load]:
            return 0
        places = self.storing_places(store)
        word = rows.access(load).address
        for n in range(load - 1, max(store, load - MOST_ROWS), -1):
            if rows.hart[n] == rows.hart[load]:
                if rows.code_of(n).kind == BRANCH and self.is_beside(n, word):
                    went = rows.code_of(after).pc
                    if any(self.is_past(n, went, place) for place in places):
                        return n
                after = n
        return 0

    def storing_places(self, store: int) -> set[int]:
        """The places that stored a store's word up to it, and those of the innermost calls over
        them."""
        found: set[int] = set()
        for _ in range(MOST_WRITERS):
            if store:
                found.update([self.rows.code_of(store).pc]
                             + self.calls.above(store, WRITERS_CALLS).calls)
                store = self.writers.word[store]
        return found

    def is_beside(self, branch: int, word: int) -> bool:
        """Whether a branch compared a value from a place near a word."""
        for row in (self.writers.first[branch], self.writers.second[branch]):
            load = load_behind(self.trace, row)
            if load and abs(self.rows.access(load).address - word) <= BESIDE:
                return True
        return False

    def left(self, store: int) -> int:
        """The latest branch of a store's hart from which it could have come to the store again, and
        can't since. Or 0."""
        return self.passed(store, self.rows.last[self.rows.hart[store]],
                           self.rows.code_of(store).pc, self.is_left)

    def passed(self, store: int, end: int, place: int,
               has_passed: Callable[[int, int, int], bool]) -> int:
        rows = self.rows
        hart = self.rows.hart[store]
        after = end = min(end, max(store, self.entered.get(hart, end)))
        for n in range(end - 1, max(store, end - MOST_ROWS), -1):
            if rows.hart[n] == hart:
                if rows.code_of(n).kind == BRANCH and has_passed(n, rows.code_of(after).pc, place):
                    return n
                after = n
        return 0

    def is_left(self, n: int, went: int, place: int) -> bool:
        other = other_side(self.rows.code_of(n), went)
        return (other is not None and self.can_reach(other, place)
                and not self.can_reach(went, place))

    def is_past(self, n: int, went: int, place: int) -> bool:
        """Whether a branch could have gone on to a place that its way doesn't come to. A way back
        is a loop's."""
        branch = self.rows.code_of(n)
        other = other_side(branch, went)
        return (other is not None and other > branch.pc and not self.can_avoid(other, place)
                and self.can_avoid(went, place))


def load_behind(trace: Trace, row: int) -> int:
    """The nearest load that a row's value came from, or 0."""
    todo = [row]
    seen = {0}
    for n in todo:
        if n in seen:
            continue
        seen.add(n)
        if trace.rows.flags[n] & LOADS:
            return n
        if len(seen) > MOST_STEPS:
            break
        todo += [trace.writers.first[n], trace.writers.second[n]]
    return 0


def other_side(branch: Instruction, went: int) -> Optional[int]:
    """The address to which a branch would have gone else; None if both of its sides are one
    place."""
    passed = branch.pc + 4
    if branch.leads == passed:
        return None
    return passed if went == branch.leads else branch.leads

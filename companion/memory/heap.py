"""The blocks that allocators give, and what is wrong with what is given back."""
from __future__ import annotations

import bisect
import re
from typing import Dict, List, Mapping, NamedTuple, Optional, Sequence

from ..call.errors import MISSING, REFUSED, CompanionError
from ..call.options import whole
from ..call.text import clean, counted
from ..recording.cut import count_of, pc_of
from ..recording.dwarf import PARAMETER, POINTER
from ..recording.instruction import A0, RA
from .findings import NO_BLOCK, TWICE, Finding, Findings
from .operation import FULL
from .program import CheckedProgram
from .state import (
    BESIDE, BLOCK, FREED, FRAME, GLOBAL, GOOD, NULL, UNDEFINED, UNWRITTEN, Awaited, Event,
    CheckedHart, TaggedMemory, Thing)

TAKES = "takes"
CLEARS = "takes cleared"
RESIZES = "resizes"
GIVES_BACK = "gives back"
STORES = "stores"
# Of C's functions and of newlib's forms with a structure before: what they do, and which argument
# is the size (or the first of two factors), or the block.
ALLOCATORS = {
    "malloc": (TAKES, 0), "calloc": (CLEARS, 0), "realloc": (RESIZES, 0), "reallocf": (RESIZES, 0),
    "reallocarray": (RESIZES, 0),
    "free": (GIVES_BACK, 0), "cfree": (GIVES_BACK, 0), "memalign": (TAKES, 1),
    "aligned_alloc": (TAKES, 1), "valloc": (TAKES, 0),
    "pvalloc": (TAKES, 0), "posix_memalign": (STORES, 2), "_malloc_r": (TAKES, 1),
    "_calloc_r": (CLEARS, 1), "_realloc_r": (RESIZES, 1),
    "_free_r": (GIVES_BACK, 1), "_memalign_r": (TAKES, 2)}
# Bytes beside a block that are the allocator's own, if they are no other block's
BEFORE = 4
BEHIND = 16
MOST_GONE = 4096            # blocks that were given back and are remembered by address
# Blocks that were given back, of other sizes, in which the same byte can have been
MOST_OVER = 8
MOST_ARGUMENTS = 8
OPTION = re.compile(r"([\w.$]+)(?::(=?)([0-9]+))?")


class Hook(NamedTuple):
    """A function that takes or gives back: what it does, the number of the argument, and the size
    if that is always the same. `is_standard`: it is C's own."""
    name: str
    does: str
    argument: int
    size: Optional[int] = None
    is_standard: bool = True


def hooks_of(program: CheckedProgram, takes: Sequence[str],
             gives: Sequence[str]) -> Dict[int, Hook]:
    """{first address: hook} of C's functions and of those that --alloc and --free name."""
    found = {}
    for name, (does, argument) in ALLOCATORS.items():
        at = program.function_named(name)
        if at:
            found[at] = Hook(name, does, argument)
    for word in takes:
        found.update([named_hook(program, "--alloc", word, TAKES)])
    for word in gives:
        found.update([named_hook(program, "--free", word, GIVES_BACK)])
    return found


def named_hook(program: CheckedProgram, option: str, word: str, does: str) -> tuple[int, Hook]:
    told = OPTION.fullmatch(word)
    form = "FN, FN:N or FN:=BYTES" if option == "--alloc" else "FN or FN:N"
    if not told or told[2] and option == "--free":
        raise CompanionError(f"{option}: {clean(word)!r} has to be {form}", REFUSED)
    at = program.function_named(told[1])
    times = program.inlined[told[1]]
    if not at:
        inlined = f": it was inlined in {counted(times, 'place')}, where nothing tells what it gave"
        said = f"{option}: the program has no function {clean(told[1])}"
        raise CompanionError(said + (inlined + " (gcc -fno-inline)" if times else ""), MISSING)
    if told[2]:
        return at, Hook(told[1], does, 0, whole(told[3], 1, FULL, option), False)
    argument = whole(told[3] or "1", 1, MOST_ARGUMENTS, option) - 1
    size = None if told[3] or option == "--free" else size_of_result(program, at)
    return at, Hook(told[1], does, argument, size, False)


def size_of_result(program: CheckedProgram, at: int) -> Optional[int]:
    """The size of what a function without parameters gives a pointer to, or None."""
    entry = program.entries.get(at)
    if entry is None or any(each.tag == PARAMETER for each in entry.below):
        return None
    result = program.types.entry(program.dwarf.type_of(entry))
    size = (program.types.size(program.dwarf.type_of(result))
            if result is not None and result.tag == POINTER else 0)
    return size or None


class Heap:
    """live    {address: block}, and begins: their addresses in order
    gone    {address: the last block there that was given back}
    failed  calls that gave 0, with the size, and how much was live"""

    def __init__(self, program: CheckedProgram, memory: TaggedMemory, findings: Findings,
                 hooks: Mapping[int, Hook], is_whole: bool) -> None:
        self.program = program
        self.memory = memory
        self.findings = findings
        self.hooks = hooks
        self.is_whole = is_whole
        self.live: Dict[int, Thing] = {}
        self.begins: List[int] = []
        self.gone: Dict[int, Thing] = {}
        self.gone_begins: List[int] = []
        self.failed: Optional[tuple[Event, int, int, int]] = None

    def holding(self, address: int) -> Optional[Thing]:
        """The live block that an address is in."""
        at = bisect.bisect_right(self.begins, address) - 1
        found = self.live[self.begins[at]] if at >= 0 else None
        return found if found and address < found.end else None

    def near(self, address: int) -> Optional[Thing]:
        """The block that an address is in, was in, or is beside."""
        at = bisect.bisect_right(self.begins, address) - 1
        before = self.live[self.begins[at]] if at >= 0 else None
        if before and address < before.end + BEHIND:
            return before
        at_gone = bisect.bisect_right(self.gone_begins, address)
        was = next((one for one in (self.gone[begin] for begin
                                    in self.gone_begins[max(0, at_gone - MOST_OVER):at_gone][::-1])
                    if address < one.end), None)
        if was is None and at + 1 < len(self.begins) and self.begins[at + 1] - address <= BEFORE:
            return self.live[self.begins[at + 1]]
        return was or before

    # Calls of allocators' functions: their own rows aren't looked at.

    def call(self, hart: CheckedHart, hook: Hook, row: bytes) -> None:
        """A function begins with this row."""
        back = hart.value(RA) or (hart.returns[-1] if hart.returns else 0)
        pcs = hart.callers(pc_of(row))[1:]
        if not hart.returns or hart.returns[-1] != back:        # it was jumped to
            pcs = (back - 4, *pcs)
        when = Event(hart.number, count_of(row), pcs)
        arguments = [hart.value(A0 + at) for at in range(MOST_ARGUMENTS)] + [None] * 3
        first, second, third = arguments[hook.argument:hook.argument + 3]
        old = None
        size = first
        slot = b""
        does = hook.does
        if hook.does in (GIVES_BACK, RESIZES) and first:
            old = self.given(hart, first, hook, when)
        if hook.does == RESIZES:
            size = product(second, third) if hook.name == "reallocarray" else second
            does = CLEARS if old is None and first != 0 else does       # what it copies isn't known
        elif hook.does == CLEARS:
            size = product(first, second)
        elif hook.does == STORES:
            slot = b"store %08x=" % (hart.value(A0) or 0)
        hart.awaited = Awaited(does, hook.name, b"%08x" % back, hook.size or size, old, when, slot)

    def given(self, hart: CheckedHart, address: int, hook: Hook, when: Event) -> Optional[Thing]:
        """The live block that is given back or resized, or None: then something is wrong, or it
        isn't known."""
        block = self.live.get(address)
        if block is not None:
            if hook.does == GIVES_BACK:
                self.release(block, when)
            return block
        tag = hart.tags[A0 + hook.argument]
        was = self.gone.get(address)
        if tag is not None and tag.kind == BLOCK and tag.gone and tag.begin == address:
            was = tag
        inside = self.holding(address)
        verb = "given to realloc" if hook.does == RESIZES else "given back"
        if was is not None:
            self.tell(TWICE, f"{address:08x} is {verb} again: a block of {was.size} bytes",
                      when, was)
        elif inside is not None:
            self.tell(NO_BLOCK, f"{address:08x} is {verb}: it is {address - inside.begin} bytes "
                      f"into a block of {inside.size} bytes", when, inside)
        elif tag is not None and tag.kind in (GLOBAL, FRAME):
            self.tell(NO_BLOCK, f"{address:08x} is {verb}: it is in {tag.name}", when, tag)
        elif address >= self.memory.size:
            self.tell(NO_BLOCK,
                      f"{address:08x} is {verb}: memory ends at {self.memory.size:08x}", when, None)
        else:
            self.findings.unknown["blocks given back that no row of the log took"] += 1
        return None

    def tell(self, kind: str, text: str, when: Event, thing: Optional[Thing]) -> None:
        self.findings.add((kind, when.pcs[:1], thing.taken if thing else None),
                          Finding(kind, text, when, thing))

    def returned(self, hart: CheckedHart, row: Optional[bytes], stored: Optional[bytes]) -> None:
        """The function has returned: `row` wrote a0, and `stored` what posix_memalign gives."""
        awaited = hart.awaited
        assert awaited
        hart.awaited = None
        hart.after_call(row)
        result = hart.value(A0)
        if awaited.does == GIVES_BACK or result is None:
            return
        if awaited.does == STORES:
            if result == 0 and stored is not None:
                self.take(int(stored[-8:], 16), awaited)
            return
        old = awaited.old
        if result == 0:
            if old is not None and awaited.size == 0:
                self.release(old, awaited.when)
            if awaited.size or old is None:
                hart.tags[A0] = self.fail(awaited)
        elif old is not None and old.begin == result:
            self.resize(old, awaited)
            hart.tags[A0] = old
        else:
            hart.tags[A0] = self.take(result, awaited)
            if old is not None and hart.tags[A0] is not None:
                self.move(old, result, awaited)

    def fail(self, awaited: Awaited) -> Thing:
        """The tag of a 0 that an allocator gave."""
        if self.failed is None:
            held = sum(block.size for block in self.live.values())
            self.failed = awaited.when, awaited.size or 0, len(self.live), held
        found = Thing(FULL, 0, NULL, awaited.name, awaited.when)
        found.begin = found.end = 0
        return found

    def take(self, begin: int, awaited: Awaited) -> Optional[Thing]:
        """A block is there now. Of one whose size isn't known nothing is said but that it is gone
        once it is given back."""
        if begin >= self.memory.size:
            return None
        if awaited.size is None:
            self.findings.unknown["blocks of a size that no row of the log tells"] += 1
            return None
        end = min(begin + awaited.size, self.memory.size)
        if begin in self.live:
            self.live[begin].is_again = True
            self.release(self.live[begin], awaited.when)
        block = self.live[begin] = Thing(begin, end, BLOCK, awaited.name, awaited.when)
        bisect.insort(self.begins, begin)
        self.forget(begin)
        self.memory.fill(begin, end, GOOD if awaited.does == CLEARS else UNWRITTEN)
        self.memory.forget_tags(begin, end)
        if awaited.name in ALLOCATORS:
            self.beside(begin - BEFORE, begin)
            self.beside(end, end + BEHIND)
        return block

    def beside(self, begin: int, end: int) -> None:
        """What is beside a block is no one's, if all rows are known and nothing else is known of
        it. It has to be in the object that the whole heap is in, or in none."""
        states = self.memory.states
        arena = self.program.object_at(end if end - begin == BEFORE else begin - 1)
        for at in range(begin, min(end, self.memory.size)) if self.is_whole else ():
            if (states[at] == GOOD and self.holding(at) is None
                    and self.program.object_at(at) == arena):
                states[at] = BESIDE

    def release(self, block: Thing, when: Event) -> None:
        begin = block.begin
        end = block.end
        block.end_life(when)
        self.live.pop(begin, None)
        at = bisect.bisect_left(self.begins, begin)
        if at < len(self.begins) and self.begins[at] == begin:
            del self.begins[at]
        self.forget(begin)
        self.gone[begin] = block
        bisect.insort(self.gone_begins, begin)
        if len(self.gone) > MOST_GONE:
            self.forget(next(iter(self.gone)))
        self.memory.fill(begin, end, FREED)

    def forget(self, begin: int) -> None:
        """The block that was given back there isn't remembered by its address any longer."""
        if self.gone.pop(begin, None) is not None:
            del self.gone_begins[bisect.bisect_left(self.gone_begins, begin)]

    def resize(self, block: Thing, awaited: Awaited) -> None:
        """A block stays at its place, and is longer or shorter now."""
        if awaited.size is None:
            return
        was = block.end
        end = min(block.begin + awaited.size, self.memory.size)
        block.high = block.end = end
        if end > was:
            self.memory.fill(was, end, UNWRITTEN)
            self.memory.forget_tags(was + 3 & ~3, end)
        elif self.is_whole:
            self.memory.fill(end, was, BESIDE)
        self.beside(end, end + BEHIND)

    def move(self, old: Thing, begin: int, awaited: Awaited) -> None:
        """What a block held is in another one now."""
        memory = self.memory
        size = min(old.size, awaited.size or 0, memory.size - begin)
        states = bytes(UNWRITTEN if state in UNDEFINED else GOOD
                       for state in memory.states[old.begin:old.begin + size])
        memory.states[begin:begin + size] = states
        if begin % 4 == 0 and old.begin % 4 == 0:
            words = size // 4
            memory.tags[begin >> 2:(begin >> 2) + words] = (
                memory.tags[old.begin >> 2:(old.begin >> 2) + words])
        self.release(old, awaited.when)


def product(one: Optional[int], other: Optional[int]) -> Optional[int]:
    return None if one is None or other is None else one * other

"""What the checks keep along the rows: what pointers were made for, the state of each byte, the
registers of each hart."""
from __future__ import annotations

from dataclasses import dataclass
from typing import Callable, Dict, List, NamedTuple, Optional, Tuple, Union

from ..recording.cut import count_of
from ..recording.instruction import A0
from .operation import CALLER_SAVED, FULL

# Of a byte. What is PARTLY or wholly COPIED are bits that nobody wrote, stored elsewhere.
GOOD, UNWRITTEN, SAVED, BESIDE, FREED, ENDED, PARTLY, COPIED = range(8)
UNDEFINED = frozenset((UNWRITTEN, PARTLY, COPIED))
FORBIDDEN = frozenset((SAVED, BESIDE, FREED, ENDED))
BLOCK = "block"
GLOBAL = "global"
MEMBER = "member"
FRAME = "frame"
NULL = "null"
NUMBER = "number"
ZEROS = {size: bytes(size) for size in (1, 2, 4, 8)}      # states of bytes of which all are GOOD
MOST_CALLERS = 12           # places of a call stack that are kept of an event
DEEPEST_SEARCH = 200        # calls that a return may leave at once, as longjmp does

# Of a word, beside what a pointer leads to: code that a block was made of
CODE = 4

# Of a row; True if what looks at the next one has changed
Act = Callable[[bytes], Optional[bool]]
# Of Python: when an action itself has to be asked, and what it does else
Text = Tuple[str, str]


def nothing(_: bytes) -> None:
    """Of an instruction that changes nothing that is kept."""


@dataclass(frozen=True)
class Event:
    """hart and count of a row, and the places of it and of the calls over it."""
    hart: int
    count: int
    pcs: Tuple[int, ...]


class Thing:
    """What a pointer may point into: from `low` up to `high`; nothing is left of it once it is
    gone.

    kind     of the six above; a `NUMBER` is the difference of two pointers, and may point anywhere
             once it is added to one
    begin, end      as they are, without what is before an object whose end may have been meant
    taken, gone     when it was taken and given back
    is_again whether it is gone since an allocator gave its memory out again
    is_part  whether it is a part of an object; owner: the function in whose frame it is, by its
             first address"""
    __slots__ = ("low", "high", "kind", "name", "begin", "end", "taken", "gone", "is_again",
                 "is_part", "owner")

    def __init__(self, low: int, high: int, kind: str, name: str = "",
                 taken: Optional[Event] = None) -> None:
        self.low = self.begin = low
        self.high = self.end = high
        self.kind = kind
        self.name = name
        self.taken = taken
        self.is_part = False
        self.is_again = False
        self.gone: Optional[Event] = None
        self.owner = 0

    @property
    def size(self) -> int:
        return self.end - self.begin

    def end_life(self, when: Event) -> None:
        self.gone = when
        self.low = FULL
        self.high = 0

    def holds(self, address: int, size: int) -> bool:
        return self.low <= address and address + size <= self.high

    def has_ended(self, _hart: CheckedHart, _pc: int) -> bool:
        """Whether nothing is left of it when a place is executed."""
        return self.gone is not None


class Scoped(Thing):
    """A variable of a block that its function can leave: each access asks for it, since none is in
    low..high.

    scope    the addresses of the block, and function: those of the function
    hart     whose frame it is in; depth: how many calls were under way there"""
    __slots__ = "scope", "function", "hart", "depth"

    def __init__(self, thing: Thing, scope: Tuple[int, int],
                 function: Tuple[int, int], hart: CheckedHart) -> None:
        super().__init__(FULL, 0, FRAME, thing.name)
        self.begin = thing.begin
        self.end = thing.end
        self.owner = thing.owner
        self.scope = scope
        self.function = function
        self.hart = hart.number
        self.depth = len(hart.returns)

    def holds(self, address: int, size: int) -> bool:
        return self.gone is None and self.begin <= address and address + size <= self.end

    def has_ended(self, hart: CheckedHart, pc: int) -> bool:
        """(The place of another hart's function isn't known, nor after calls that weren't followed:
        then nothing is said.)"""
        if self.gone is not None or hart.number != self.hart:
            return self.gone is not None
        at = pc
        if len(hart.returns) != self.depth:
            at = hart.returns[self.depth] - 4 if len(hart.returns) > self.depth else 0
        return self.function[0] <= at < self.function[1] and not self.scope[0] <= at < self.scope[1]


DIFFERENCE = Thing(0, FULL + 1, NUMBER)


class ValueOrigin(NamedTuple):
    """The origin of bits that nobody wrote: in words, the block, and the place of the load."""
    text: str
    thing: Optional[Thing]
    pc: int


class Undefined(NamedTuple):
    """The bits of a register that nobody wrote; of no `origin` are those of a library's own frame,
    whose matter they are."""
    bits: int
    origin: Optional[ValueOrigin]


class AskedMemory:
    """Memory that a function asks for on its stack while it runs: sp behind it, its bytes, and the
    thing once there is a pointer."""
    __slots__ = "sp", "size", "thing"

    def __init__(self, sp: int, size: int) -> None:
        self.sp = sp
        self.size = size
        self.thing: Optional[Thing] = None


class CheckedHart:
    """tags      of each register what its value points into, or None
    rows      of each register the row that wrote it last, or its value, or None
    indexed   of each register the row or the value of the structure's pointer to which an index was
              added
    undefined {register: its bits that nobody wrote}
    texts     {action: what it does with most rows, for blocks.py}: `place` is the address that a
              row accesses. That the row wrote its register isn't said
    returns   the addresses to which the calls that are under way return
    places    things of frames to which pointers were made, outermost first
    sp        the stack pointer, None if it isn't known; top, lowest: of its stack; limit: it may
              grow down to this for certain
    is_own    whether what is known of its stack is true (not after a change of stacks); is_away: it
              is on another one
    asking    the row of the sum that becomes the size of memory on its stack; asked: that memory
    awaited   what an allocator's function that is under way will give"""

    def __init__(self, number: int, registers: Tuple[int, ...]) -> None:
        self.number = number
        self.tags: List[Optional[Thing]] = [None] * 32
        self.rows: List[Union[bytes, int, None]] = [0, *registers[1:]] if registers else [None] * 32
        self.indexed: List[Union[bytes, int, None]] = [None] * 32
        self.undefined: Dict[int, Undefined] = {}
        self.texts: Dict[Act, Text] = {}
        self.returns: List[int] = []
        self.places: List[Thing] = []
        self.sp = registers[2] if registers else 0
        self.top = self.lowest = self.sp
        self.lowest_at: Optional[Event] = None
        self.limit = 0
        self.is_own = True
        self.has_met = False
        self.is_away = False
        self.asking = b""
        self.asked: Optional[AskedMemory] = None
        self.awaited: Optional[Awaited] = None

    def value(self, register: int) -> Optional[int]:
        """What a register holds, or None if no row tells."""
        row = self.rows[register] if register else 0
        return value_of(row) if isinstance(row, bytes) else row

    def callers(self, pc: int) -> Tuple[int, ...]:
        """A place and those of the calls over it."""
        return (pc, *(at - 4 for at in self.returns[:-MOST_CALLERS - 1:-1]))

    def event(self, row: bytes, pc: int) -> Event:
        return Event(self.number, count_of(row), self.callers(pc))

    def after_call(self, row: Optional[bytes]) -> None:
        """A function whose rows weren't looked at has returned; `row` is what wrote a0."""
        for register in CALLER_SAVED:
            self.tags[register] = self.rows[register] = None
            self.undefined.pop(register, None)
        self.rows[A0] = row

    def return_to(self, address: int) -> bool:
        """Takes the call that a return ends off; false if it fits none."""
        returns = self.returns
        for depth in range(len(returns) - 1, max(-1, len(returns) - DEEPEST_SEARCH), -1):
            if returns[depth] == address:
                del returns[depth:]
                return True
        return not returns


class Awaited(NamedTuple):
    """A call of an allocator's function that is under way.

    does      what it does (heap.py); name: the function's
    back      the address to which it returns, as rows have it
    size      what was asked for, None if that isn't known; old: the block that is resized
    slot      of posix_memalign: what a row that stores its result has"""
    does: str
    name: str
    back: bytes
    size: Optional[int]
    old: Optional[Thing]
    when: Event
    slot: bytes = b""


class TaggedMemory:
    """states  of each byte
    tags    of each word what the pointer in it points into
    bits, origins  {address of a byte that is PARTLY or COPIED: its bits that nobody wrote; their
                   origin}
    saved   {address: the register that was saved there, the place that saved it, and the row}"""

    def __init__(self, size: int) -> None:
        self.size = size
        self.states = bytearray(size + 8)
        self.tags: List[Optional[Thing]] = [None] * (size // 4 + 2)
        self.bits: Dict[int, int] = {}
        self.origins: Dict[int, Optional[ValueOrigin]] = {}
        self.saved: Dict[int, Tuple[int, int, bytes]] = {}

    def fill(self, begin: int, end: int, state: int) -> None:
        """Gives bytes a state. (As many are replaced as are given, whatever a row says.)"""
        end = min(end, self.size)
        if 0 <= begin < end:
            self.states[begin:end] = bytes((state,)) * (end - begin)

    def undefined_bits(self, address: int, size: int) -> int:
        """Those of some bytes that nobody wrote."""
        found = 0
        for at, state in enumerate(self.states[address:address + size]):
            if state in UNDEFINED:
                found |= (self.bits.get(address + at, 255) if state == PARTLY else 255) << 8 * at
        return found

    def forget_tags(self, begin: int, end: int) -> None:
        """The words with a byte from an address up to another point into nothing that is known."""
        first = begin >> 2
        last = min(end + 3, self.size) >> 2
        if first < last:
            self.tags[first:last] = [None] * (last - first)


def value_of(row: bytes) -> int:
    """What a row wrote into its register."""
    at = row.index(b"=", row.index(b"| ")) + 1
    return int(row[at:at + 8], 16)

"""The errors of heap blocks that `memory` tells, by a plain list of the blocks that malloc and its
like gave, and what of their bytes nobody wrote.

A block begins when the allocator returns and ends when `free` or `realloc` begins with its address.
Rows below an allocator's call are the allocator's own. Whether a value can be undefined is told
from above: whatever is computed from a byte that nobody wrote is."""
from __future__ import annotations

import random
import re
from typing import Any, Dict, Iterator, List, NamedTuple, Optional, Set, Tuple

from .asking import Asked
from .machine import A0, READ, REGISTER, Frame, Machine, Row

SIZES = {"malloc": 0, "calloc": 0, "realloc": 1}
GIVES_BACK = ("free", "realloc")
BEHIND = 16
SP = 2
MOST_ROWS = 300000
OVERFLOW = "heap-buffer-overflow"
FREED = "heap-use-after-free"
TWICE = "double-free"
NO_BLOCK = "invalid-free"
AGAIN = "whose memory was given out again"
UNDEFINED = "use-of-uninitialized-value"
DISTANCE = re.compile(r"(load|store) of (\d+), "
                      r"(\d+) bytes (after|before|into|before the end of) a block of (\d+) bytes")


class Block(NamedTuple):
    """Its bytes, of which the first `kept` were written at once, and from which row on up to which
    it is live; `taken` and `given` are the hart and count of the calls."""
    begin: int
    size: int
    kept: int
    since: int
    until: int
    taken: Tuple[int, int]
    given: Optional[Tuple[int, int]]

    def has(self, address: int) -> bool:
        return self.begin <= address < self.begin + self.size

    def is_live(self, row: int) -> bool:
        return self.since <= row < self.until


class Allocator:
    """The outermost calls of malloc and its like, and the blocks by them."""

    def __init__(self, asked: Asked) -> None:
        self.machine = asked.machine
        entries = {each.address: each.name for name in {*SIZES, *GIVES_BACK}
                   for each in asked.program.symbols if each.name == name and each.kind == "FUNC"}
        self.calls = [(frame, entries[frame.target]) for frame in self.machine.all
                      if frame.target in entries and not self.is_inside(frame.parent, entries)]
        self.entries = entries
        self.blocks: List[Block] = []
        # {block's number: the row that ends it, and the call}
        ends: Dict[int, Tuple[int, Tuple[int, int]]] = {}
        live: Dict[int, int] = {}                               # {address: number}
        for row, is_end, (frame, name) in sorted(self.moments(), key=lambda each: each[:2]):
            self.move(row, is_end, frame, name, live, ends)
        self.blocks = [each._replace(until=ends[at][0], given=ends[at][1]) if at in ends else each
                       for at, each in enumerate(self.blocks)]

    @staticmethod
    def is_inside(frame: Optional[Frame], entries: Dict[int, str]) -> bool:
        while frame:
            if frame.target in entries:
                return True
            frame = frame.parent
        return False

    def moments(self) -> Iterator[Tuple[int, bool, Tuple[Frame, str]]]:
        """(row, whether a call ends there, the call)"""
        for frame, name in self.calls:
            yield frame.row, False, (frame, name)
            if frame.end is not None:
                yield self.machine.at.get((frame.hart, frame.end), 1 << 60), True, (frame, name)

    def move(self, row: int, is_end: bool, frame: Frame, name: str, live: Dict[int, int],
             ends: Dict[int, Tuple[int, Tuple[int, int]]]) -> None:
        arguments = frame.registers[A0:A0 + 2]
        at = (frame.hart, frame.count)
        if not is_end:
            if name == "free" and arguments[0] in live:
                ends[live.pop(arguments[0])] = row, at
        elif name in SIZES and frame.result[0]:
            size = arguments[0] * arguments[1] if name == "calloc" else arguments[SIZES[name]]
            kept = size if name == "calloc" else 0
            if name == "realloc" and arguments[0] in live:
                old = live.pop(arguments[0])
                ends[old] = (row, at)
                kept = min(size, self.blocks[old].size)
            live[frame.result[0]] = len(self.blocks)
            self.blocks.append(Block(frame.result[0], size, kept, row, 1 << 60, at, None))

    def is_own(self, row: Row) -> bool:
        """Whether a row is the allocator's."""
        return row.code.pc in self.entries or self.is_inside(self.machine.frames[row.number],
                                                             self.entries)

    def given_again(self, block: Block, row: Row) -> Optional[Block]:
        """The first block that was taken at the place of one while that was live."""
        return next((each for each in self.blocks if each.begin == block.begin
                     and block.since < each.since < min(block.until, row.number)), None)

    def of(self, told: Optional[Dict[str, Any]]) -> Optional[Block]:
        """The block that was taken by a call."""
        at = (told["hart"], told["count"]) if told else None
        return next((each for each in self.blocks if each.taken == at), None)


def ask_memory(asked: Asked, _draw: random.Random) -> None:
    rows = asked.machine.rows
    if not rows or len(rows) > MOST_ROWS or not asked.recorded.is_whole:
        return
    told = asked.json("memory")
    if told is None:
        return
    allocator = Allocator(asked)
    undefined = Undefined(allocator)
    for finding in told["findings"]:
        ask_finding(asked, finding, allocator, undefined)
    ask_missing(asked, told["findings"], allocator)


def ask_finding(asked: Asked, told: Dict[str, Any], allocator: Allocator,
                undefined: Undefined) -> None:
    machine = asked.machine
    row = machine.rows[machine.at[told["hart"], told["count"]]]
    block = allocator.of(told["taken"])
    what = (told["kind"], told["text"], row.text)
    if told["kind"] in (OVERFLOW, FREED):
        asked.same("memory: taken", [], (what, block is not None), (what, True))
        if not block:
            return
        access = row.load or row.store
        asked.same("memory: an access", [],
                   (what, access is not None and not allocator.is_own(row)), (what, True))
        is_freed = block.until <= row.number
        again = allocator.given_again(block, row) if told["text"].endswith(AGAIN) else None
        asked.same(f"memory: {told['kind']}", [], (what, is_freed or again is not None),
                   (what, told["kind"] == FREED))
        if is_freed or again:
            given = told["given_back"]
            asked.same("memory: given back", [], (what, given and (given["hart"], given["count"])),
                       (what, again.taken if again else block.given))
        if access:
            ask_distance(asked, what, row, block)
    elif told["kind"] in (TWICE, NO_BLOCK):
        address = machine_value(machine, row)
        asked.same(f"memory: {told['kind']}", [],
                   (what, any(each.begin == address and each.is_live(row.number)
                              for each in allocator.blocks)), (what, False))
        if told["kind"] == TWICE:
            was = any(each.begin == address and each.until <= row.number
                      for each in allocator.blocks)
            asked.same("memory: given back before", [], (what, was), (what, True))
    elif told["kind"] == UNDEFINED:
        asked.same("memory: undefined", [], (what, row.number in undefined.rows), (what, True))


def machine_value(machine: Machine, row: Row) -> int:
    """a0 at a function's first row."""
    frame = next(each for each in machine.all if each.row == row.number)
    return frame.registers[A0]


def ask_distance(asked: Asked, what: Tuple[str, str, str], row: Row, block: Block) -> None:
    said = DISTANCE.match(what[1])
    access = row.store if said and said[1] == "store" else row.load or row.store
    if not said or not access:
        return
    number = int(said[3])
    how = said[4]
    end = block.begin + block.size
    place = {"after": end + number, "before": block.begin - number, "into": block.begin + number,
             "before the end of": end - number}[how]
    asked.same("memory: size of the block", [], (what, int(said[5])), (what, block.size))
    asked.same("memory: size of the access", [], (what, int(said[2])), (what, row.code.width))
    asked.same("memory: distance", [], (what, f"{place:08x}"), (what, f"{access.address:08x}"))


def ask_missing(asked: Asked, told: List[Dict[str, Any]], allocator: Allocator) -> None:
    """By its address alone an access is wrong if its byte was given back and isn't taken again, or
    is behind a block and no block's. Then its function has to be told, with whichever block its
    pointer is for."""
    found = {(each["calls"][0]["function"], each["hart"])
             for each in told if each["kind"] in (FREED, OVERFLOW) and each["calls"]}
    seen: Set[Tuple[int, int]] = set()
    for row in asked.machine.rows:
        what = what_is_wrong(row, allocator) if (row.code.pc, row.hart) not in seen else ""
        if what and not allocator.is_own(row):
            seen.add((row.code.pc, row.hart))
            pcs = [row.code.pc, *asked.machine.chain(asked.machine.frames[row.number])]
            functions = {place.function for pc in pcs for place in asked.program.places(pc)}
            is_told = any((function, row.hart) in found for function in functions)
            asked.same(f"memory: access {what}", [], (row.text, is_told), (row.text, True))


def what_is_wrong(row: Row, allocator: Allocator) -> str:
    """What an access is to, by its address alone, or nothing."""
    access = row.load or row.store
    known = [each for each in allocator.blocks if each.since <= row.number] if access else []
    if not access or not known:
        return ""
    holding = [each for each in known if each.has(access.address)]
    if holding:
        return "" if any(each.is_live(row.number) for each in holding) else "to what was given back"
    ends = [each.begin + each.size for each in known if each.is_live(row.number)]
    return "behind a block" if any(end <= access.address < end + BEHIND for end in ends) else ""


class Undefined:
    """rows   those that use a value, in a branch, an address, a jump, or a call of the system or of
    an allocator. The value can come
              from a byte of a block or a frame that nobody wrote."""

    def __init__(self, allocator: Allocator) -> None:
        self.allocator = allocator
        machine = allocator.machine
        self.rows: Set[int] = set()
        self.bytes: Set[int] = set()
        self.registers: Dict[int, Set[str]] = {hart: set() for hart in machine.head.first}
        self.values = {hart: list(values) for hart, (_, values) in machine.head.first.items()}
        begun = {each.since: each for each in allocator.blocks}
        reads = {call.row.number: call for call in machine.calls if call.kind == READ}
        for row in machine.rows:
            block = begun.get(row.number)
            # (what was moved is as the allocator's own rows tell it)
            if block:
                self.bytes.update(range(block.begin + block.kept, block.begin + block.size))
            self.take(row)
            if row.number in reads:
                call = reads[row.number]
                self.bytes.difference_update(range(call.address, call.address + call.size))

    def take(self, row: Row) -> None:
        mine = self.registers[row.hart]
        values = self.values[row.hart]
        named = set(re.findall(r"\b([a-z]+\d*)\b",
                               row.code.text.partition(" ")[2])) & REGISTER.keys()
        written = {row.register} if row.register and not row.code.name.startswith("b") else set()
        sources = self.sources(row, named)
        is_bad = bool(sources & mine)
        if (is_bad and self.is_use(row) or row.code.name == "ecall"
                and {f"a{i}" for i in range(8)} & mine or row.code.pc in self.allocator.entries):
            self.rows.add(row.number)
        if row.code.name == "ecall":            # what it writes out is a use, too
            self.rows.add(row.number)
        if row.store:
            touched = set(range(row.store.address, row.store.address + row.code.width))
            stored = row.code.text.partition(" ")[2].split(
                ",")[0 if not row.code.name.startswith(("sc", "amo")) else 1]
            (self.bytes.update if stored in mine or row.code.name.startswith("amo") and is_bad
             else self.bytes.difference_update)(touched)
        if row.load:
            is_bad = bool(self.bytes.intersection(range(row.load.address,
                                                        row.load.address + row.code.width)))
        for name in written:
            (mine.add if is_bad else mine.discard)(name)
            if name == "sp" and row.result < values[SP]:
                self.bytes.update(range(max(row.result, values[SP] - (1 << 16)), values[SP]))
            values[REGISTER[name]] = row.result

    @staticmethod
    def sources(row: Row, named: Set[str]) -> Set[str]:
        """The registers that a row reads, at least."""
        operands = row.code.text.partition(" ")[2].split(",")
        if row.code.name.startswith(("s", "b")) and row.code.name not in (
                "sub", "sll", "slt", "sltu", "srl", "sra", "slli", "slti", "sltiu", "srli", "srai"):
            return named
        return set(re.findall(r"\b([a-z]+\d*)\b", ",".join(operands[1:]))) & REGISTER.keys()

    @staticmethod
    def is_use(row: Row) -> bool:
        return (bool(row.load or row.store or row.fault) or row.code.name.startswith("b")
                or row.code.name == "jalr")

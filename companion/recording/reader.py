"""Fills the columns of rows, writers and calls from chunks of text: most at once for all rows of a
chunk, and row by row only what depends on the rows before."""
from __future__ import annotations

import re
import sys
from array import array
from binascii import unhexlify
from itertools import compress
from operator import itemgetter, ne
from typing import Dict, Iterable, Iterator, Mapping, NamedTuple, Optional, Sequence

from .calls import Calls
from .chunks import occurrences
from .instruction import A0, A1, A7, AMO, CALL, JUMP, LOAD, STORE, Instruction
from .log import FAILED, LONGEST_CALL, READ_CALL
from .memory import words_of
from .rows import FAULTS, KEEPS, LOADS, OFFSET, STORES, FaultRow, ReadCall, Rows
from .writers import Writers

# What a row does beside LOADS and STORES: it writes a register; it is a call, a return or a jump to
# a function; it is a system call; it stores only if it succeeds.
WRITES = 1
GOES = 2
ASKS = 16
TRIES = 32
NO_REGISTER = 32            # in place of the register of what writes none
WORD = ~OFFSET
SPECIAL = re.compile(rb"[\x10-\x3f]")
FAULT = b" | fault "
KEY = 17  # letters of an address and a word
ZERO = b"0" * 8  # the value of what writes no register
NOTHING = 0, -1             # in place of the row that stored a word last, and its value
NEVER = sys.maxsize         # in place of the row of the next `read` call


def of_shapes(bits: int) -> bytes:
    """What `translate` needs to leave these bits of shapes."""
    return bytes(shape & bits for shape in range(256))


WENT = of_shapes(GOES)
ACCESSED = of_shapes(LOADS | STORES)
TOUCHED = of_shapes(LOADS | STORES | TRIES)
NO_ACCESS = bytes(shape for shape in range(256) if not ACCESSED[shape])
BOTH = LOADS | STORES
# A row tells its value so many letters before its end, which is the same for all rows of a shape.
BEHIND = {0: 0, LOADS: 25, STORES: 26, BOTH: 51}    # letters behind a value
RESULTS = [slice(-8 - behind, -behind or None) if shape & WRITES else None
           for shape in range(64) for behind in [BEHIND[shape & BOTH]]]


class HartState:
    """What is known of a hart while its rows are read: of each register the row that wrote it, and
    what it held before the first row; the count of its next row."""
    __slots__ = ("number", "writers", "values", "count")

    def __init__(self, number: int, registers: Sequence[int]) -> None:
        self.number = number
        self.count = -1
        self.writers = [0] * 33
        self.values = [0, *registers[1:]]


class ChunkTurn(NamedTuple):
    """Rows of a hart that follow each other in a chunk, as places in it; the count of the first;
    the letters before their addresses."""
    hart: HartState
    begin: int
    end: int
    first: int
    letters: int


class Codes(Dict[bytes, int]):
    """{address and word: the number of the instruction}, and of each number its shape and the
    registers that it writes and reads."""

    def __init__(self, rows: Rows, calls: Calls) -> None:
        super().__init__()
        self.codes = rows.codes
        self.entries = calls.entries
        self.shapes: list[int] = []
        self.registers: list[tuple[int, int, int]] = []

    def of(self, lines: Sequence[bytes], turns: Sequence[ChunkTurn]) -> list[int]:
        found: list[int] = []
        for _, begin, end, _, letters in turns:
            keys = list(map(itemgetter(slice(letters, letters + KEY)), lines[begin:end]))
            try:
                found += map(self.__getitem__, keys)
            except KeyError:
                del found[begin:]
                for key, line in zip(keys, lines[begin:end]):
                    if key not in self:
                        self.add(key, line[letters:])
                found += map(self.__getitem__, keys)
        return found

    def add(self, key: bytes, row: bytes) -> None:
        ins = Instruction(len(self.codes), row.partition(b" | ")[0])
        self.codes.append(ins)
        shape = WRITES if ins.rd and (ins.kind != CALL or ins.name == "ecall") else 0
        if ins.kind == JUMP and (ins.call or ins.ret or not ins.leads
                                 or self.entries.are_led_to(ins.pc, ins.leads)):
            shape |= GOES
        elif ins.kind == AMO:
            shape |= {"sc": STORES | TRIES, "lr": LOADS}.get(ins.name.partition(".")[0], BOTH)
        else:
            shape |= {LOAD: LOADS, STORE: STORES, CALL: ASKS}.get(ins.kind, 0)
        self.shapes.append(shape)
        # A jump reads no second register. For a call and a return it is a0, which has an argument
        # or a result.
        self.registers.append((ins.rd or NO_REGISTER, ins.rs1, A0 if shape & GOES else ins.rs2))
        self[key] = ins.at


class Reader:
    """start   the number of the chunk's first row
    latest  of the address of a word the row that stored it last, and its value
    partly  of a word whose latest bytes a `read` call brought in part, of each byte the row that
            stored it, or 0
    filled  how many of the `read` calls have been followed"""

    def __init__(self, rows: Rows, writers: Writers, calls: Calls) -> None:
        self.rows = rows
        self.writers = writers
        self.calls = calls
        self.codes = Codes(rows, calls)
        first = rows.log.first_intervals()
        self.harts = {i: HartState(i, first[i].registers if i in first else (0,) * 32)
                      for i in range(rows.log.harts)}
        self.numbers = {b"%-2d" % hart: hart for hart in self.harts}
        self.hart: Optional[HartState] = None       # whose row was read last
        self.latest: dict[int, tuple[int, int]] = {}
        self.partly: dict[int, tuple[int, ...]] = {}
        self.filled = 0
        self.start = 0

    def begin_behind(self, registers: Mapping[int, Sequence[int]]) -> None:
        """Of each hart the registers before its first row, if rows of it were passed by."""
        for hart, values in registers.items():
            self.harts[hart].values = list(values)

    def read(self, text: bytes) -> None:
        rows = self.rows
        self.start = len(self.rows.code)
        lines = text[1:].split(b"\n")
        harts = self.harts_of(lines)
        turns = self.turns(lines, harts)
        codes = self.codes.of(lines, turns)
        shapes = bytearray(map(self.codes.shapes.__getitem__, codes))
        alone = self.alone(text, lines, shapes)
        here = range(self.start, self.start + len(codes))
        rows.hart.frombytes(harts)
        rows.code.fromlist(codes)
        cuts = map(RESULTS.__getitem__, shapes)
        rows.values.extend(numbers([line[cut] if cut else ZERO for line, cut in zip(lines, cuts)]))
        rows.flags.frombytes(shapes.translate(ACCESSED))
        self.writers.word.frombytes(bytes(self.writers.word.itemsize * len(codes)))
        self.link(turns, codes, alone)
        for place in occurrences(shapes.translate(WENT), bytes([GOES])):
            self.go(self.start + place)
        self.access(lines, shapes, here)

    def finish(self) -> None:
        """All rows are read."""
        rows = self.rows
        rows.harts = {number: hart for number, hart in rows.harts.items() if hart.last}
        rows.last = {number: hart.last for number, hart in rows.harts.items()}
        rows.final = {number: [self.value(self.harts[number], register) for register in range(32)]
                      for number in rows.last}
        rows.size = len(rows.code) - 1
        self.writers.count_pairs()

    def harts_of(self, lines: Sequence[bytes]) -> bytes:
        """The hart of each row."""
        if len(self.numbers) == 1:
            return bytes(self.harts) * len(lines)
        return bytes(map(self.numbers.__getitem__, [line[:2] for line in lines]))

    def turns(self, lines: Sequence[bytes], harts: bytes) -> list[ChunkTurn]:
        """The turns of a chunk. A turn is cut where its counts get a digit more."""
        changes = (compress(range(1, len(harts)), map(ne, harts, harts[1:])) if len(self.harts) > 1
                   else ())
        begins = [0, *changes, len(harts)]
        found = []
        for begin, end in zip(begins, begins[1:]):
            hart = self.harts[harts[begin]]
            while begin < end:
                head = b"%d %d " % (hart.number, hart.count)
                size = min(end - begin, 10 ** len(str(hart.count)) - hart.count)
                if not lines[begin + size - 1].startswith(b"%d %d " % (hart.number,
                                                                       hart.count + size - 1)):
                    # Rows before it are left out
                    hart.count = int(lines[begin].split(b" ", 2)[1])
                    size = 1
                    head = b"%d %d " % (hart.number, hart.count)
                found.append(ChunkTurn(hart, begin, begin + size, hart.count, len(head)))
                begin = begin + size
                hart.count = hart.count + size
        return found

    def alone(self, text: bytes, lines: Sequence[bytes],
              shapes: bytearray) -> dict[int, list[bytes]]:
        """{place: what the row tells} of faults and system calls. Shapes are corrected: of these if
        they write no register, and of store-conditionals that failed."""
        found: dict[int, list[bytes]] = {}
        at = text.rfind(FAULT)
        while at >= 0:
            place = text.count(b"\n", 0, at) - 1
            shapes[place] = 0
            found[place] = lines[place].split(FAULT)[1].split(b" ")
            at = text.rfind(FAULT, 0, at)
        for place in [each.start() for each in SPECIAL.finditer(shapes)]:
            if shapes[place] & TRIES:
                shapes[place] &= ~0 if b"| store " in lines[place] else ~STORES
                continue
            found[place] = []
            if b"|" not in lines[place]:
                shapes[place] &= ~WRITES
                self.rows.silent.add(self.start + place)
        return dict(sorted(found.items()))

    def link(self, turns: Sequence[ChunkTurn], codes: Sequence[int],
             alone: dict[int, list[bytes]]) -> None:
        """Finds of each row the rows that wrote its registers."""
        stops = iter([*alone, len(codes)])
        place = next(stops)
        for turn in turns:
            hart = turn.hart
            at = turn.begin
            kept = self.rows.harts[turn.hart.number]
            if hart is not self.hart:
                self.hart = hart
                kept.begin(self.start + at, turn.first)
            while place < turn.end:
                self.link_rows(hart, codes[at:place], self.start + at)
                self.link_alone(hart, self.start + place, alone[place])
                at = place + 1
                place = next(stops)
            self.link_rows(hart, codes[at:turn.end], self.start + at)
            kept.last = self.start + turn.end - 1

    def link_rows(self, hart: HartState, codes: Sequence[int], n: int) -> None:
        """The one loop over all rows."""
        firsts: list[int] = []
        seconds: list[int] = []
        writers = hart.writers
        for register, first, second in map(self.codes.registers.__getitem__, codes):
            firsts.append(writers[first])
            seconds.append(writers[second])
            writers[register] = n
            n += 1
        self.writers.first.fromlist(firsts)
        self.writers.second.fromlist(seconds)

    def link_alone(self, hart: HartState, n: int, fault: list[bytes]) -> None:
        """A row that faulted, or else a system call."""
        rows = self.rows
        wrote = self.writers
        ins = self.rows.code_of(n)
        if not fault:
            wrote.first.append(hart.writers[ins.rs1])
            wrote.second.append(hart.writers[ins.rs2])
            if n not in rows.silent:
                if rows.values[n] < FAILED and self.value(hart, A7) == READ_CALL:
                    size = min(rows.values[n], LONGEST_CALL)
                    rows.reads.append(ReadCall(n, hart.number, self.value(hart, A1), size))
                hart.writers[A0] = n
            return
        name = fault[0].decode()
        before = n - 1 if rows.hart[n - 1] == hart.number else rows.harts[hart.number].last
        # Else its address is what the jump took
        is_here = name not in ("FetchOutside", "Illegal") or not before
        wrote.first.append(hart.writers[ins.rs1] if is_here else wrote.first[before])
        wrote.second.append(0)
        rows.flags[n] = FAULTS
        rows.fault = FaultRow(n, hart.number, name, int(fault[1], 16), ins)

    def value(self, hart: HartState, register: int) -> int:
        """What a register holds, by the row that wrote it."""
        return (self.rows.values[hart.writers[register]] if hart.writers[register]
                else hart.values[register])

    def go(self, n: int) -> None:
        """A call, a return, or a jump to a function."""
        values = self.rows.values
        wrote = self.writers
        hart = self.harts[self.rows.hart[n]]
        writer = wrote.second[n]
        wrote.second[n] = 0
        a0 = values[writer] if writer else hart.values[A0]
        base = wrote.first[n]
        self.calls.go(n, writer, a0,
                      values[base] if base else hart.values[self.rows.code_of(n).rs1])

    def access(self, lines: Sequence[bytes], shapes: bytearray, here: Sequence[int]) -> None:
        """Fills the columns of accesses, and tells each who stored its word."""
        rows = self.rows
        kinds = shapes.translate(TOUCHED, NO_ACCESS)
        mine = list(compress(lines, shapes.translate(ACCESSED)))
        which = array("I", compress(here, shapes.translate(ACCESSED)))
        both = [n for n, kind in zip(which, kinds) if kind == BOTH] if BOTH in kinds else []
        stored = (numbers(line[-8:] for line, kind in zip(mine, kinds) if kind == BOTH) if both
                  else array("I"))
        rows.updates.extend(both)
        rows.stored.extend(stored)
        last = [line[-17:] for line in mine]
        if both:
            last = [line[-43:-26] if kind == BOTH else line[-17:]
                    for line, kind in zip(mine, kinds)]
        told = numbers(last)
        rows.accesses.extend(which)
        rows.addresses.extend(told[::2])
        rows.words.extend(told[1::2])
        self.follow(which, kinds, told, iter(stored))

    def follow(self, which: Iterable[int], kinds: bytes, told: Sequence[int],
               stored: Iterator[int]) -> None:
        latest = self.latest
        flags = self.rows.flags
        second = self.writers.second
        words = self.writers.word
        partly = self.partly
        fill = self.follow_calls(0)
        for n, kind, address, value in zip(which, kinds, told[::2], told[1::2]):
            if n > fill:
                fill = self.follow_calls(n)
            word = address & WORD
            flag = address & OFFSET
            writer, held = latest.get(word, NOTHING)
            if kind & LOADS:
                if held != value:
                    if held >= 0:               # changed by a row that the log lost
                        partly.pop(word, None)
                    writer = 0
                    held = value
                    latest[word] = writer, held
                if not writer and word in partly:
                    self.writers.partly[n] = partly[word]
                if kind == BOTH:
                    value = next(stored)
            if kind > STORES and held == value and (kind == BOTH or not flags[second[n]] & LOADS):
                # Of an atomic, but for a value that another word gave a store-conditional
                flag |= KEEPS
            words[n] = writer
            if flag:
                flags[n] |= flag
            if kind != LOADS:
                if partly and word in partly:
                    self.writers.store_over(n, partly.pop(word))
                latest[word] = n, value

    def follow_calls(self, before: int) -> int:
        """What `read` calls before a row brought no row stored. Gives the row of the next call."""
        reads = self.rows.reads
        while self.filled < len(reads) and reads[self.filled].row < before:
            call = reads[self.filled]
            self.filled += 1
            end = call.address + call.size
            for word in words_of(call.address, call.size):
                writer, _ = self.latest.pop(word, NOTHING)
                lanes = self.partly.pop(word, None)
                if word < call.address or end < word + 4:
                    lanes = lanes or self.writers.lanes_of(writer)
                    kept = tuple(0 if call.address <= word + i < end else lanes[i]
                                 for i in range(4))
                    if any(kept):
                        self.partly[word] = kept
        return reads[self.filled].row if self.filled < len(reads) else NEVER


def numbers(told: Iterable[bytes]) -> array[int]:
    """Numbers of eight digits."""
    found = array("I")
    found.frombytes(unhexlify(b"".join(told).replace(b"=", b"")))
    if sys.byteorder == "little":
        found.byteswap()
    return found

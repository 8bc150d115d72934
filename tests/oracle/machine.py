"""Reads the rows of a log one by one: registers, memory, calls. Nothing is skipped, and nothing is
clever."""
from __future__ import annotations

import re
import struct
import subprocess
from dataclasses import dataclass, field
from typing import Dict, Iterator, List, NamedTuple, Optional, Set, Tuple

NAMES = ("zero ra sp gp tp t0 t1 t2 s0 s1 a0 a1 a2 a3 a4 a5 a6 a7 s2 s3 s4 s5 s6 s7 s8 s9 s10 s11 "
         "t3 t4 t5 t6").split()
REGISTER = {name: number for number, name in enumerate(NAMES)}
RA = 1
A0 = 10
A1 = 11
A7 = 17
LINKS = ("ra", "t0")
RETURNS = ("jalr zero,0(ra)", "jalr zero,0(t0)")
READ = 63
WRITE = 64
LONGEST_CALL = 4096
FAILED = 1 << 31
RESTORES = "__riscv_restore_"
WIDTHS = {"b": 1, "h": 2, "w": 4}
HEADER = 1
END = 6
SIZES = {1: 146, 2: 10, 3: 2, 4: 2, 5: 19, 6: 15}
REASONS = {1: "length", 2: "call", 3: "exit", 4: "group", 5: "stopped", 6: "guard", 7: "limit",
           17: "Illegal", 18: "Breakpoint", 19: "FetchOutside", 20: "TargetMisaligned",
           21: "LoadOutside", 22: "LoadMisaligned", 23: "StoreOutside",
           24: "StoreMisaligned", 25: "StoreReadOnly"}


class Code(NamedTuple):
    """An instruction, by its text. `width` is of a load or a store."""
    pc: int
    text: str
    name: str
    width: int
    is_call: bool
    is_return: bool
    is_jump: bool


class Access(NamedTuple):
    """The first byte's address, and the whole aligned word."""
    address: int
    value: int


class Row(NamedTuple):
    """A row: its number in the order of `joint`, and its hart's count before it."""
    number: int
    hart: int
    ic: int
    code: Code
    register: str
    result: int
    load: Optional[Access]
    store: Optional[Access]
    fault: str
    text: str


class Frame:
    """A call that a hart is in. `parent` is the one over it; `back` is the address to which it
    returns, None if nothing tells it.

    end     the hart's count when it returned, or None; result: what a0 and a1 were then
    left    the count and the row behind it when it was over: it returned, or a call over it did"""
    __slots__ = ("parent", "source", "target", "back", "is_tail", "is_hidden", "hart", "count",
                 "row", "registers", "end", "left", "result")

    def __init__(self, parent: Optional[Frame], source: Optional[Row], row: Row,
                 back: Optional[int], is_tail: bool, registers: Tuple[int, ...]) -> None:
        self.parent = parent
        self.source = source
        self.target = row.code.pc
        self.back = back
        self.is_tail = is_tail
        self.hart = row.hart
        self.count = row.ic
        self.row = row.number
        self.registers = registers
        self.is_hidden = False
        self.end: Optional[int] = None
        self.left: Optional[Tuple[int, int]] = None
        self.result: Tuple[int, int] = 0, 0


class SystemCall(NamedTuple):
    """A read or a write that gave so many bytes, and the frame that it is in."""
    row: Row
    kind: int
    stream: int
    address: int
    size: int
    frame: Optional[Frame]
    data: List[Optional[int]]


@dataclass(frozen=True)
class Ended:
    count: int
    reason: str
    value: int


class Head(NamedTuple):
    """What a log file says beside its rows. `late`: the harts whose first interval has an End here,
    but no Header: its rows are lost, and were done beside others that are here. `called`: the harts
    and counts of the Ends by a system call, in the log's order."""
    harts: int
    dropped: int
    late: Set[int]
    first: Dict[int, Tuple[int, List[int]]]     # {hart: its first Header's count, its registers}
    ends: Dict[int, Ended]
    called: List[Tuple[int, int]]


def read_head(name: str) -> Head:
    """By docs/FORMAT.md."""
    with open(name, "rb") as file:
        data = file.read()
    version, harts = struct.unpack_from("<II", data, 8)
    if version == 1:
        dropped, = struct.unpack_from("<Q", data, 80)
        records = data[92:-32]
    else:
        dropped, = struct.unpack_from("<Q", data, 92)
        pieces = []
        end = len(data)
        while end > 136:
            size, = struct.unpack_from("<I", data, end - 36)
            pieces.append(data[end - 48 - size:end - 48])
            end -= 48 + size
        records = b"".join(reversed(pieces))
    first: Dict[int, Tuple[int, List[int]]] = {}
    late: Set[int] = set()
    called = []
    ends = {}
    at = 0
    while at < len(records):
        tag = records[at]
        hart = records[at + 1]
        if tag == HEADER and hart not in first:
            count, _, *registers = struct.unpack_from("<QI31I", records, at + 10)
            first[hart] = count, [0, *registers]
        elif tag == END:
            count, reason, value = struct.unpack_from("<QBI", records, at + 2)
            ends[hart] = Ended(count, REASONS[reason], value)
            called += [(hart, count)] if REASONS[reason] == "call" else []
            if hart not in first:
                late.add(hart)
        at += SIZES[tag]
    return Head(harts, dropped, late, first, ends, called)


class Image:
    """What ELF's segments give memory."""

    def __init__(self, name: str) -> None:
        with open(name, "rb") as file:
            data = file.read()
        first, = struct.unpack_from("<I", data, 28)
        count, = struct.unpack_from("<H", data, 44)
        self.segments: List[Tuple[int, int, bool, bytes]] = []      # address, end, writable, bytes
        for i in range(count):
            kind, at, address, _, in_file, in_memory, flags, _ = struct.unpack_from("<8I", data,
                                                                                    first + 32 * i)
            if kind == 1:
                self.segments.append((address, address + in_memory, bool(flags & 2),
                                      data[at:at + in_file].ljust(in_memory, b"\0")))

    def byte(self, address: int) -> int:
        return next((body[address - begin]
                     for begin, end, _, body in self.segments if begin <= address < end), 0)

    def word(self, address: int) -> int:
        return int.from_bytes(bytes(self.byte(address + i) for i in range(4)), "little")

    def is_read_only(self, address: int) -> bool:
        return any(begin <= address < end and not writable
                   for begin, end, writable, _ in self.segments)

    def text(self, address: int, most: int) -> str:
        """The text at an address that no run can change, or nothing."""
        if not self.is_read_only(address):
            return ""
        _, end, _, body = next(each for each in self.segments if each[0] <= address < each[1])
        found = body[address - end + len(body):][:most].partition(b"\0")[0]
        return found.decode("ascii") if found and all(32 <= byte < 127 for byte in found) else ""


class Memory:
    """Words, by their addresses: None is unknown."""

    def __init__(self, image: Image, is_whole: bool) -> None:
        self.image = image
        self.is_whole = is_whole
        self.words: Dict[int, Optional[int]] = {}

    def word(self, address: int) -> Optional[int]:
        if address in self.words:
            return self.words[address]
        return (self.image.word(address) if self.is_whole or self.image.is_read_only(address)
                else None)

    def byte(self, address: int) -> Optional[int]:
        word = self.word(address & ~3)
        return None if word is None else word >> 8 * (address & 3) & 255

    def bytes(self, address: int, size: int) -> List[Optional[int]]:
        return [self.byte(address + i) for i in range(size)]

    def fill(self, address: int, size: int) -> None:
        for word in range(address & ~3, address + size, 4):
            self.words[word] = None


class Functions(NamedTuple):
    """The first addresses of functions and their ends, by their symbols."""
    ends: Dict[int, int]
    names: Dict[int, Set[str]]

    def is_entry(self, pc: int, target: int) -> bool:
        """Whether a jump from pc comes from outside to a function's first row."""
        return target in self.ends and not target <= pc < self.ends[target]

    def is_restore(self, target: int) -> bool:
        return any(name.startswith(RESTORES) for name in self.names[target])


@dataclass
class Hart:
    registers: List[int]
    frame: Optional[Frame] = None
    jump: Optional[Row] = None                  # whose target is its next row
    ra: int = 0                                 # at that jump
    rows: int = 0


@dataclass
class Machine:
    """All rows of a log.

    frames  of each row the call that it is in, before the row; all: every call, in the order in
            which they began
    givers  of each load the rows that had stored its bytes (-1: none did; -2: a `read` call)"""
    program: str
    log: str
    elf: str
    functions: Functions
    rows: List[Row] = field(default_factory=list)
    frames: List[Optional[Frame]] = field(default_factory=list)
    all: List[Frame] = field(default_factory=list)
    calls: List[SystemCall] = field(default_factory=list)
    at: Dict[Tuple[int, int], int] = field(default_factory=dict)

    def __post_init__(self) -> None:
        self.head = read_head(self.log)
        self.image = Image(self.elf)
        self.memory = Memory(self.image, not self.head.dropped)
        self.codes: Dict[str, Code] = {}
        self.harts = {hart: Hart(list(registers))
                      for hart, (_, registers) in self.head.first.items()}
        self.told: Dict[int, int] = {}          # the words that `joint` itself tells at the end
        late = set(self.head.late)
        self.begun = 0                          # the row at which each hart has begun
        for line in lines_of(self.program, "joint", self.log, self.elf):
            if line[0].isdigit():
                row = self.row(line)
                self.begun = row.number if late else self.begun
                late.discard(row.hart)
                self.take(row)
            elif line.startswith("word "):
                address, _, value = line[5:].partition("=")
                self.told[int(address, 16)] = int(value, 16)

    def row(self, line: str) -> Row:
        head, *told = line.split(" | ")
        hart, count, key = head.split(" ", 2)
        code = self.codes.get(key)
        if code is None:
            code = self.codes[key] = code_of(key)
        register = ""
        result = 0
        fault = ""
        load = store = None
        for part in told:
            if part.startswith("load "):
                load = Access(int(part[5:13], 16), int(part[14:], 16))
            elif part.startswith("store "):
                store = Access(int(part[6:14], 16), int(part[15:], 16))
            elif part.startswith("fault "):
                fault = part[6:]
            else:
                register, _, value = part.partition("=")
                result = int(value, 16)
        return Row(len(self.rows), int(hart), int(count), code, register, result, load, store,
                   fault, line)

    def take(self, row: Row) -> None:
        hart = self.harts[row.hart]
        self.arrive(hart, row)
        self.rows.append(row)
        self.frames.append(hart.frame)
        self.at[row.hart, row.ic] = row.number
        if row.code.name == "ecall" and not row.fault:
            self.system_call(hart, row)
        for access in (row.load, row.store):
            if access:
                self.memory.words[access.address & ~3] = access.value
        hart.jump = row
        hart.ra = hart.registers[RA]
        hart.rows += 1
        if row.register:
            hart.registers[REGISTER[row.register]] = row.result

    def arrive(self, hart: Hart, row: Row) -> None:
        """What the hart's row before this one led to."""
        jump = hart.jump
        if jump is None:
            # It may be in the middle of it, if the log lost its beginning
            if row.code.pc in self.functions.ends:
                self.call(hart, None, row, None, True)
        elif jump.code.is_call:
            self.call(hart, jump, row, jump.code.pc + 4, False)
        elif jump.code.is_return:
            self.come_back(hart, row)
        elif jump.code.is_jump and self.functions.is_entry(jump.code.pc, row.code.pc):
            is_restore = self.functions.is_restore(row.code.pc)
            back = None if is_restore else hart.ra
            if hart.frame and hart.frame.source:
                back = hart.frame.back
            self.call(hart, jump, row, back, True)
            if hart.frame:
                hart.frame.is_hidden = is_restore

    def call(self, hart: Hart, source: Optional[Row], row: Row,
             back: Optional[int], is_tail: bool) -> None:
        hart.frame = Frame(hart.frame, source, row, back, is_tail, tuple(hart.registers))
        self.all.append(hart.frame)

    def come_back(self, hart: Hart, row: Row) -> None:
        found = hart.frame
        while found and found.back != row.code.pc:
            found = found.parent
        if not found:
            return
        while found.is_tail and found.parent and found.parent.back == row.code.pc:
            found = found.parent
        while hart.frame is not found.parent:
            frame = hart.frame
            assert frame
            frame.left = (row.ic, row.number)
            hart.frame = frame.parent
            if frame.back == row.code.pc and (frame is found or frame.is_tail):
                frame.end = row.ic
                frame.result = (hart.registers[A0], hart.registers[A1])

    def system_call(self, hart: Hart, row: Row) -> None:
        kind, stream, address = (hart.registers[number] for number in (A7, A0, A1))
        size = min(row.result, LONGEST_CALL) if row.register == "a0" and row.result < FAILED else 0
        if kind == WRITE and row.register and row.result < FAILED:
            self.calls.append(SystemCall(row, kind, stream, address, size, hart.frame,
                                         self.memory.bytes(address, size)))
        elif kind == READ and size:
            self.calls.append(SystemCall(row, kind, stream, address, size, hart.frame, []))
            self.memory.fill(address, size)

    def chain(self, frame: Optional[Frame]) -> Iterator[int]:
        """The addresses of the calls that a frame is in, innermost first."""
        while frame:
            if frame.source and not frame.is_hidden:
                yield frame.source.code.pc
            is_tail = frame.is_tail and not frame.is_hidden
            frame = frame.parent
            while is_tail and frame and frame.is_tail:
                frame = frame.parent

    def caller(self, row: int) -> Optional[int]:
        return next(self.chain(self.frames[row]), None)


def code_of(key: str) -> Code:
    words = key.split(" ", 2)
    text = words[2] if len(words) > 2 else ""
    name, _, operands = text.partition(" ")
    is_jal = name in ("jal", "jalr")
    is_call = is_jal and operands.split(",")[0] in LINKS
    is_return = text in RETURNS
    letter = {"lbu": "b", "lhu": "h"}.get(name) or (name[1:] if re.fullmatch("[ls][bhw]", name)
                                                    else "w")
    return Code(int(words[0], 16), text, name, WIDTHS[letter], is_call, is_return,
                is_jal and not is_call and not is_return)


def lines_of(program: str, *words: str) -> Iterator[str]:
    with subprocess.Popen([program, *words], stdout=subprocess.PIPE,
                          stderr=subprocess.DEVNULL, text=True) as process:
        assert process.stdout
        for line in process.stdout:
            yield line.rstrip("\n")

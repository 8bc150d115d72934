"""The core files of `export`: of each hart the registers, and what is known of memory, at drawn
rows and at the end. It is read by the format of ELF, byte by byte."""
from __future__ import annotations

import os
import random
import struct
from typing import Dict, Iterator, List, NamedTuple, Optional, Sequence, Tuple

from .asking import Asked
from .machine import READ, REGISTER, Machine, Memory

ROWS = 3
LOWEST = 4096
PAGE = 1 << 12
NOTE = 4
LOADED = 1
STATUS = 1
REGISTERS_AT = 72           # in Linux's state of a thread of 32 bits


class Core(NamedTuple):
    """{hart: its pc and x1 to x31}; {address of a page: {byte's place in it: value}}; and the first
    hart."""
    registers: Dict[int, List[int]]
    words: Dict[int, bytes]
    first: int


def read_core(name: str) -> Core:
    with open(name, "rb") as file:
        data = file.read()
    begin, = struct.unpack_from("<I", data, 28)
    count, = struct.unpack_from("<H", data, 44)
    registers: Dict[int, List[int]] = {}
    words: Dict[int, bytes] = {}
    for number in range(count):
        kind, at, address, _, size, _, _, _ = struct.unpack_from("<8I", data, begin + 32 * number)
        if kind == NOTE:
            registers = states_in(data[at:at + size])
        elif kind == LOADED:
            words[address] = data[at:at + size]
    return Core(registers, words, next(iter(registers), -1))


def states_in(notes: bytes) -> Dict[int, List[int]]:
    found: Dict[int, List[int]] = {}
    at = 0
    while at < len(notes):
        name, size, kind = struct.unpack_from("<III", notes, at)
        body = at + 12 + (name + 3 & ~3)
        if kind == STATUS and notes[at + 12:at + 16] == b"CORE":
            thread, = struct.unpack_from("<I", notes, body + 24)
            found[thread - 1] = list(struct.unpack_from("<32I", notes, body + REGISTERS_AT))
        at = body + (size + 3 & ~3)
    return found


def along(machine: Machine,
          numbers: Sequence[int]) -> Iterator[Tuple[int, Dict[int, List[int]], Memory]]:
    """Before each of these rows, in order: the registers of all harts, and memory. The number
    behind the last row is the end."""
    registers = {hart: list(values) for hart, (_, values) in machine.head.first.items()}
    memory = Memory(machine.image, not machine.head.dropped)
    wanted = set(numbers)
    fills = {call.row.number: call for call in machine.calls if call.kind == READ and call.size}
    for row in machine.rows:
        if row.number in wanted:
            yield row.number, registers, memory
        fill = fills.get(row.number)
        if fill:
            memory.fill(fill.address, fill.size)
        for access in (row.load, row.store):
            if access:
                memory.words[access.address & ~3] = access.value
        if row.register:
            registers[row.hart][REGISTER[row.register]] = row.result
    if len(machine.rows) in wanted:
        yield len(machine.rows), registers, memory


def pc_of(machine: Machine, hart: int, number: int) -> Optional[int]:
    """The address of a hart's next row. It has none at the end: then that behind its last row,
    unless this was a jump or ended the hart."""
    following = next((row for row in machine.rows[number:] if row.hart == hart), None)
    if following:
        return following.code.pc
    last = next((row for row in reversed(machine.rows) if row.hart == hart), None)
    is_plain = (last and last.register and not last.code.is_call and not last.code.is_return
                and not last.code.is_jump and last.code.name != "ecall")
    return last.code.pc + 4 if last and is_plain else None


def ask_core(asked: Asked, draw: random.Random) -> None:
    machine = asked.machine
    if not machine.rows:
        return
    numbers = draw.sample(range(len(machine.rows)), min(ROWS, len(machine.rows)))
    numbers += [call.row.number + 1
                for call in machine.calls if call.kind == READ and call.size][:1]
    faults = {row.hart: row for row in machine.rows if row.fault}
    for number, registers, memory in along(machine, [*numbers, len(machine.rows)]):
        row = machine.rows[number] if number < len(machine.rows) else None
        words = ["--row", f"{row.hart}:{row.ic}"] if row else []
        core = saved(asked, words)
        if core is None:
            continue
        known = set(machine.head.first) if asked.recorded.is_whole else set(core.registers)
        asked.same("core: harts", words, sorted(core.registers), sorted(known))
        if row:
            asked.same("core: first", words, core.first, row.hart)
        for hart, values in core.registers.items():
            pc = (faults[hart].code.pc if row is None and hart in faults
                  else pc_of(machine, hart, number))
            if pc is not None:
                asked.same("core: pc", words, (hart, f"{values[0]:08x}"), (hart, f"{pc:08x}"))
            for register in range(1, 32):
                asked.same("core: registers", words, (hart, register, values[register]),
                           (hart, register, registers[hart][register]))
        ask_memory(asked, words, core, memory, draw)


def saved(asked: Asked, words: Sequence[str]) -> Optional[Core]:
    name = asked.recorded.log + ".core"
    done = asked.run("export", asked.recorded.log, asked.recorded.elf, "--core", name,
                     *words, *asked.names())
    if done.returncode:
        asked.differs("core: no answer", ["export", "--core", *words],
                      f"status {done.returncode}: {done.stderr}", "an answer")
        return None
    core = read_core(name)
    os.remove(name)
    return core


def ask_memory(asked: Asked, words: Sequence[str], core: Core, memory: Memory,
               draw: random.Random) -> None:
    """Each word that a row has touched, and some others; and that what the core has is known."""
    addresses = [word for word in memory.words if word >= LOWEST]
    addresses += [draw.randrange(LOWEST, 1 << 20) & ~3 for _ in range(200)]
    addresses += [begin + draw.randrange(0, end - begin) & ~3 for begin, end, _, _
                  in memory.image.segments for _ in range(50) if end - begin > 4]
    for address in addresses:
        value = memory.word(address)
        told = next((int.from_bytes(body[address - begin:address - begin + 4], "little")
                     for begin, body in core.words.items() if begin <= address < begin + len(body)),
                    None)
        asked.same("core: memory", words, (f"{address:08x}", told), (f"{address:08x}", value))

"""C expressions at a line: gdb compiles them, and what they are is told of any pass, as their types
write it."""
from __future__ import annotations

import re
from dataclasses import dataclass, field
from itertools import islice
from typing import Any, Dict, List, NamedTuple, Optional, Sequence

from ..call.errors import MISSING, REFUSED, CompanionError
from ..call.text import clean
from ..recording.elf import Elf
from ..recording.followed import FollowedMemory
from ..recording.instruction import NAMES
from .bytecode import Code, Unknown, evaluate
from .debugger import told_by_gdb
from .reading import Asked
from .registers import Registers
from .types import Leaf, Type, bounded_type, leaves, value_text
from .window import CountWindow

LINE = re.compile(r"[\w./+@-]+:\d{1,7}")
MISTAKES = re.compile(r"No symbol|no member|syntax error|No type|No struct|No union|No "
                      r"enum|Invalid|Attempt to|ncast|Argument to|not scalar|no component|Can't "
                      r"do|is a function")
# So that a value fits a line of a terminal, and its names beside it
LONGEST_TEXT = 60
MOST_PARTS = 12
MOST_EXPRESSIONS = 32       # a screen for one time
LOWEST = 4096               # no address below is mapped
PC = len(NAMES)             # gdb's number of the program counter


@dataclass(frozen=True)
class Expression:
    """text      as it was given
    codes     {address: its bytecode there}
    is_whole  whether that gives the value's address; is_text: whether it is or leads to letters
    error     why gdb has no bytecode for it, or nothing"""
    text: str
    codes: Dict[int, Code] = field(default_factory=dict)
    type: Type = field(default_factory=dict)
    is_whole: bool = False
    is_text: bool = False
    error: str = ""

    @classmethod
    def of(cls, text: str, said: Dict[str, Any]) -> Expression:
        if "error" in said:
            error = clean(said["error"])
            if MISTAKES.search(error):
                raise CompanionError(f"{clean(text)}: {error}", REFUSED)
            return cls(text, error="optimized out" if "optimized out" in error else error)
        codes: Dict[int, Code] = {int(place): [(each[0], each[1], each[2]) for each in code]
                                  for place, code in said["codes"].items()}
        return cls(text, codes, bounded_type(said["type"]), said["whole"], said["text"])

    def operations(self) -> List[tuple[int, str, int]]:
        return [each for code in self.codes.values() for each in code]

    def has_memory(self) -> bool:
        return self.is_whole or self.is_text or any(name.startswith("ref")
                                                    for _, name, _ in self.operations())


class Compiled(NamedTuple):
    """The addresses at which a line begins, and expressions there."""
    places: List[int]
    expressions: List[Expression]


def compiled(elf: Elf, line: str, texts: Sequence[str]) -> Compiled:
    """CompanionError if there is no such line, or an expression is none of C or of the program's
    names."""
    if not LINE.fullmatch(line):
        raise CompanionError(f"a line has to be FILE:LINE, not {line!r}", REFUSED)
    if not 1 <= len(texts) <= MOST_EXPRESSIONS:
        raise CompanionError(f"from 1 to {MOST_EXPRESSIONS} expressions can be asked of", REFUSED)
    unclean = next((text for text in texts if not text.strip() or not text.isprintable()), None)
    if unclean is not None:
        raise CompanionError(f"{unclean!r} is no expression", REFUSED)
    return compiled_by_gdb(elf, line, texts)


def compiled_by_gdb(elf: Elf, line: str, texts: Optional[Sequence[str]] = None) -> Compiled:
    """Without texts the variables of the line's function."""
    answer = told_by_gdb(elf, line=line, expressions=texts)
    if not answer.get("places"):
        raise CompanionError(f"{line} has no code: {clean(answer.get('error', 'gdb knows none'))}",
                             MISSING)
    return Compiled(answer["places"], [Expression.of(*each) for each in
                                       zip(answer["texts"], answer["expressions"])])


@dataclass(frozen=True)
class Pass:
    """A row at which a line begins: its hart, its count, its address, and its place in the latest
    chunk."""
    hart: bytes
    count: int
    pc: int
    place: int


class Values:
    """What expressions are at passes, which are asked of in the rows' order."""

    def __init__(self, asked: Asked, expressions: Sequence[Expression]) -> None:
        self.asked = asked
        self.memory = FollowedMemory(asked.log, asked.elf, asked.is_whole)
        self.follows = any(each.has_memory() for each in expressions)
        # Of the rows before the latest chunk the last values are enough
        self.window = CountWindow(0)
        numbers = {number for each in expressions
                   for _, name, number in each.operations() if name == "reg"}
        self.registers = Registers(asked.log, self.window,
                                   [NAMES[number] for number in sorted(numbers) if number < PC])
        self.now = Pass(b"", 0, 0, 0)

    def take(self, text: bytes) -> None:
        self.window.add(text)
        while self.window.surplus():
            self.registers.forget(self.window.texts[0])
            self.window.drop()
        if self.follows:
            self.memory.take(text)

    def go_to(self, one: Pass) -> None:
        self.now = one
        if self.follows:
            self.memory.go_to(one.place)

    def register(self, number: int) -> int:
        if number == PC or not number:
            return self.now.pc if number else 0
        if number > PC:
            raise Unknown("a register that harts haven't got")
        found = self.registers.value(self.now.hart, NAMES[number].encode(),
                                     self.window.begins[-1] + self.now.place)
        if found is None:
            raise Unknown(f"no row tells {NAMES[number]}")
        return found

    def read(self, address: int, size: int) -> bytes:
        if address < LOWEST or address + size > self.asked.log.memory:
            raise Unknown(f"no memory at {address:08x}")
        known = bytes(byte for byte in self.memory.memory.read(address, size) if byte is not None)
        if len(known) < size:
            raise Unknown(f"no row before tells {address:08x}")
        return known

    def read_number(self, address: int, size: int) -> int:
        return int.from_bytes(self.read(address, size), "little")

    def number(self, of: Expression) -> int:
        """What its code gives. Unknown if that can't be told."""
        if of.error:
            raise Unknown(of.error)
        return evaluate(of.codes[self.now.pc], self.register, self.read_number)

    def text(self, of: Expression) -> str:
        if of.error:
            return f"<{of.error}>"
        try:
            number = self.number(of)
            size = int(of.type["size"])
            address = number & 0xffffffff
            if not of.is_whole:
                said = value_text(Leaf("", 0, of.type),
                                  (number & (1 << 8 * size) - 1).to_bytes(size, "little"),
                                  self.asked.name_of)
                return f"{said} {self.letters(address, LONGEST_TEXT)}" if of.is_text else said
            return self.letters(address, size) if of.is_text else self.parts(of.type, address)
        except Unknown as error:
            return f"<{error}>"

    def parts(self, of: Type, address: int) -> str:
        """The first parts of a value in memory. One that isn't known is told as such."""
        found = list(islice(leaves(of, 0, of["size"]), MOST_PARTS + 1))
        size = int(of["size"])
        if not LOWEST <= address <= self.asked.log.memory - size:
            raise Unknown(f"no memory at {address:08x}")
        told = [value_text(leaf, self.memory.memory.read(address + leaf.at, leaf.size),
                           self.asked.name_of) for leaf in found[:MOST_PARTS]]
        if len(found) == 1 and not found[0].path:
            return told[0]
        said = [f"{leaf.path.lstrip('.')} = {value}" for leaf, value in zip(found, told)]
        return "{" + ", ".join(said) + (", .." if len(found) > MOST_PARTS else "") + "}"

    def letters(self, address: int, most: int) -> str:
        """A text in quotes, up to its zero."""
        found = bytearray()
        try:
            while (len(found) < min(most, LONGEST_TEXT)
                   and (byte := self.read(address + len(found), 1)[0])):
                found.append(byte)
        except Unknown:
            if not found:
                return "<unknown text>"
        return repr(bytes(found))[1:]

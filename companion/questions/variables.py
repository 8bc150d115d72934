"""What NAME is: a variable or a part of it as DWARF tells it, else a symbol, else an address with a
length."""
from __future__ import annotations

import difflib
import os
import re
from typing import NamedTuple, Optional

from ..call.errors import BAD_ELF, MISSING, REFUSED, CompanionError
from ..call.text import clean, counted
from ..recording.dwarf import FUNCTION as IN_FUNCTION
from ..recording.dwarf import LOCATION, PARAMETER, VARIABLE, Dwarf
from ..recording.elf import FUNCTION, Elf, Symbol
from .debugger import ask_gdb
from .types import Type, bounded_type, words_type

ADDRESS = re.compile(r"(?:0x([0-9a-f]{1,8})|([0-9a-f]{8}))(?::(\d{1,7}))?", re.I)
OFFSET = re.compile(r"(.+)\+(\d{1,7})(?::(\d{1,7}))?")
# A variable and its parts. gdb's own commands, functions and `$` have no place in it.
PART = re.compile(r"(?:'[\w./\-]+'::)?[\w.]+(?:::\w+)*(?:\.\w+|\[\d+\])*")
WORD = 4
NEAR = 5
AN_ADDRESS = 3              # DWARF's operation for one
# Of a variable: each word of it that is followed takes 250 bytes of memory
MOST_BYTES = 1 << 22


class Variable(NamedTuple):
    """Bytes of memory that have a name."""
    name: str
    address: int
    type: Type

    @property
    def size(self) -> int:
        return int(self.type["size"])

    @property
    def end(self) -> int:
        return self.address + self.size

    def what(self) -> str:
        kind = f"{self.type['name']}, " if self.type["name"] else ""
        place = f"{counted(self.size, 'byte')} at {self.address:08x}"
        return place if self.name == f"{self.address:08x}" else f"{self.name} ({kind}{place})"


def variable_of(elf: Elf, name: str) -> Variable:
    """The variable of a name; CompanionError with near names if there is none."""
    found = symbol_of(elf, name)
    if found is None and (told := ADDRESS.fullmatch(name)):
        address = int(told[1] or told[2], 16)
        return Variable(f"{address:08x}", address, words_type(length(int(told[3] or WORD))))
    if found is None and (told := OFFSET.fullmatch(name)) and (base := symbol_of(elf, told[1])):
        return Variable(name, base.address + int(told[2]), words_type(length(int(told[3] or WORD))))
    if found and found.kind == FUNCTION:
        raise CompanionError(f"{clean(name)} is a function: `calls` tells of it", REFUSED)
    if elf.symbols and PART.fullmatch(name):
        answer = ask_gdb(elf, variable=name)
        if answer and "address" in answer:
            variable = Variable(name, answer["address"], bounded_type(answer["type"]))
            if is_in_symbol(elf, variable):
                return variable
            if found is None:
                raise CompanionError(f"what DWARF says of {clean(name)} can't be: "
                                     f"{counted(variable.size, 'byte')} at {variable.address:08x}",
                                     BAD_ELF)
    if found is None:
        raise CompanionError(not_found(elf, name, elf.objects) + of_functions(elf, name), MISSING)
    return Variable(name, found.address, words_type(length(found.size or WORD)))


def is_in_symbol(elf: Elf, variable: Variable) -> bool:
    """Whether what DWARF says of a variable can be: it has bytes, and a symbol has all of them if
    one has the first."""
    ends = [item.address + item.size
            for item in elf.objects if item.address <= variable.address < item.address + item.size]
    return 1 <= variable.size <= MOST_BYTES and (not ends or variable.end <= max(ends))


def length(size: int) -> int:
    if not 1 <= size <= MOST_BYTES:
        raise CompanionError(f"so many bytes can't be asked of: 1 to {MOST_BYTES}", REFUSED)
    return size


def symbol_of(elf: Elf, name: str) -> Optional[Symbol]:
    """The symbol of a name: of an object, if there is one."""
    found = sorted((item for item in elf.symbols if item.name == name),
                   key=lambda item: item.kind % FUNCTION)
    return found[-1] if found else None


def of_functions(elf: Elf, name: str) -> str:
    """That functions have a variable of a name: how a static one is asked of, and that others have
    no place of their own."""
    base = re.split(r"[.\[+:]", name, maxsplit=1)[0]
    dwarf = Dwarf(elf)
    statics: set[str] = set()
    others: set[str] = set()
    left = [(top, "") for top in dwarf.tops]
    while left:
        entry, function = left.pop()
        if entry.tag in (VARIABLE, PARAMETER) and function and dwarf.name_of(entry) == base:
            (statics if entry.block(LOCATION)[:1] == bytes([AN_ADDRESS]) else others).add(function)
        if entry.tag == IN_FUNCTION:
            function = dwarf.name_of(entry)
        left += [(each, function) for each in entry.below]
    said = ["a function has it: "
            f"{', '.join(f'{each}::{name}' for each in sorted(statics)[:NEAR])}"] if statics else []
    if others and not statics:
        said.append(f"it is local in {', '.join(sorted(others)[:NEAR])}, and has no fixed place: "
                    "gdb shows it (`zelkuma gdb`)")
    return "".join(f"; {clean(each)}" for each in said)


def not_found(elf: Elf, name: str, among: list[Symbol]) -> str:
    """That a name isn't there, and which names are near, or else the first that are there."""
    if not elf.symbols:
        return (f"{clean(name)} isn't there: {os.path.basename(elf.name)} is stripped; "
                "--names ELF has names")
    names = sorted({item.name for item in among})
    near = difflib.get_close_matches(re.split(r"[.\[+:]", name, maxsplit=1)[0], names, NEAR, 0.6)
    said = f"; near it: {', '.join(near)}" if near else ""
    own = [each for each in names if not each.startswith("_")]
    if own and not near:
        said = f"; it has {', '.join(own[:NEAR])}" + " .." * (len(own) > NEAR)
    return f"{os.path.basename(elf.name)} has no {clean(name)}{said}"

"""What FUNCTION is: the addresses at which it begins, its parameters, and its inlined calls."""
from __future__ import annotations

from dataclasses import dataclass
from typing import Any, NamedTuple, Optional

from ..call.errors import MISSING, CompanionError
from ..recording.elf import FUNCTION, Elf
from .debugger import ask_gdb
from .types import Type
from .variables import ADDRESS, PART, not_found

ARGUMENTS = [f"a{i}" for i in range(8)]     # the registers of arguments, in their order
# Bytes: larger arguments are passed by their address
WORD = 4
PAIR = 8
PLAIN: Type = {"kind": "bytes", "name": "", "size": 4}


class Parameter(NamedTuple):
    """A parameter, and the registers that hold it at the function's first row; none if it isn't in
    registers."""
    name: str
    registers: list[str]
    type: Type


@dataclass(frozen=True)
class Begin:
    """A place where a function begins. `size` is that of its code, and `depth` how many functions
    an inlined call is in. `result` is None if it gives nothing."""
    address: int
    size: int
    inlined: bool
    parameters: list[Parameter]
    result: Optional[Type]
    depth: int = 0


class Function(NamedTuple):
    name: str
    begins: list[Begin]

    def title(self) -> str:
        """Its name, and its parameters if they are known."""
        own = [begin for begin in self.begins if not begin.inlined]
        if not own or own[0].parameters and not own[0].parameters[0].type["name"]:
            return self.name
        parameters = (f"{each.type['name']} {each.name}" for each in own[0].parameters)
        return f"{self.name}({', '.join(parameters)})"


def function_of(elf: Elf, name: str) -> Function:
    """The function of a name or of its first address; CompanionError with near names if there is
    none."""
    own = [item for item in elf.functions
           if item.kind == FUNCTION and item.name.split(".")[0] == name.split(".")[0] and name]
    sizes = {item.address: item.size for item in own}
    said = ask_gdb(elf, function=name) if elf.symbols and PART.fullmatch(name) else None
    told = [begin_of(each, sizes) for each in (said or {}).get("begins", [])]
    # Linkers make code shorter than DWARF says: what follows a function of assembly then seems to
    # be in it.
    told = [each for each in told if each.inlined or not sizes or each.address in sizes]
    known = {each.address for each in told}
    told += [Begin(address, size, False, plain_parameters(), PLAIN)
             for address, size in sizes.items() if address not in known]
    if not told and (found := ADDRESS.fullmatch(name)):
        told.append(Begin(int(found[1] or found[2], 16), 0, False, plain_parameters(), PLAIN))
    if not told:
        raise CompanionError(not_found(elf, name, [item for item in elf.functions
                                                   if item.kind == FUNCTION]), MISSING)
    return Function(name, told)


def plain_parameters() -> list[Parameter]:
    return [Parameter(register, [register], PLAIN) for register in ARGUMENTS]


def begin_of(said: dict[str, Any], sizes: dict[int, int]) -> Begin:
    if said["inlined"]:
        return Begin(said["address"], 0, True, [], None, said["depth"])
    result = said["result"] if said["result"]["name"] != "void" else None
    return Begin(said["address"], sizes.get(said["address"], 0), False,
                 parameters_of(said["parameters"], result), result)


def parameters_of(said: list[dict[str, Any]], result: Optional[Type]) -> list[Parameter]:
    """Parameters with their registers: those that DWARF names, or else the calling convention's."""
    found = []
    named = any(each["register"] for each in said)
    left = ARGUMENTS[1:] if result and result["size"] > PAIR else list(ARGUMENTS)
    for each in said:
        count = 2 if WORD < each["type"]["size"] <= PAIR else 1
        taken = left[:count]
        left = left[count:]
        if named:                               # what has no register was optimised out
            taken = [register for register in each["register"].split() if register in ARGUMENTS]
        found.append(Parameter(each["name"], taken if len(taken) == count else [], each["type"]))
    return found

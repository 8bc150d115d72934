"""Runs inside of gdb: answers what $ZELKUMA_ASKED asks of the program's names, as one line of JSON
after its mark.

It reads what the ELF file says, and nothing else: no process is started."""
from __future__ import annotations

import importlib
import json
import os
import re
from typing import Any, Iterator, Optional

gdb: Any = importlib.import_module("gdb")     # only there inside of gdb
# Of a type: a forged one can be endless
MOST_PARTS = 4000
DEEPEST = 12
# Sources whose functions have no parameters for DWARF, whatever they take
ASSEMBLY = ".s", ".sx", ".asm"
PLAIN = {gdb.TYPE_CODE_INT: "int", gdb.TYPE_CODE_CHAR: "int", gdb.TYPE_CODE_BOOL: "bool",
         gdb.TYPE_CODE_FLT: "float", gdb.TYPE_CODE_PTR: "pointer", gdb.TYPE_CODE_REF: "pointer"}
# Agent bytecode has no values of these
WHOLE = gdb.TYPE_CODE_STRUCT, gdb.TYPE_CODE_UNION, gdb.TYPE_CODE_ARRAY, gdb.TYPE_CODE_FLT
# Names that can be those of variables: no tag, part or type behind a point, an arrow or `$`; and
# literals, in which there are none.
NAMES = re.compile(r"(?<!struct )(?<!union )(?<!enum "
                   r")(?<![\w.>$])[A-Za-z_]\w*|\"(?:\\.|[^\"])*\"|'(?:\\.|[^'])*'")
LETTER = re.compile(r"'(?:\\.|[^'\\])'")
OPERATION = re.compile(r"^ +(\d+) +(\w+)(?: (-?\d+))?$", re.M)
TYPE_NAME = re.compile(r"[\w \t*&:<>,()\[\]]+")        # gdb evaluates nothing of such a text
# What of a type's text stands before a name, if one had this type
BEFORE_NAME = re.compile(r"[^(\[]*(?:\(\*+)*")
ADDRESS_OF = re.compile(r"&[\s(]*([A-Za-z_]\w*)(?![\w\s]*[.\[]|\s*->)")
EMPTY = "zelkuma_"
PLAIN_NAME = re.compile(r"[A-Za-z_][A-Za-z0-9_]{0,60}")
MOST_LOCALS = 12            # of a line, so many as a table has columns


class GdbTypes:
    """Tells types. What is too deep or too much is told as bytes."""

    def __init__(self) -> None:
        self.parts = 0

    def told(self, found: Any, depth: int = 0) -> dict[str, Any]:
        plain = found.strip_typedefs()
        said = {"kind": "bytes", "name": str(found.unqualified()), "size": int(plain.sizeof)}
        self.parts += 1
        if depth > DEEPEST or self.parts > MOST_PARTS:
            return said
        if plain.code in PLAIN:
            said.update(kind=PLAIN[plain.code],
                        signed=plain.code == gdb.TYPE_CODE_INT and is_signed(plain))
        elif plain.code == gdb.TYPE_CODE_ENUM:
            names = {str(field.enumval): field.name for field in plain.fields()[:MOST_PARTS]}
            said.update(kind="enum", names=names,
                        signed=any(value.startswith("-") for value in names))
        elif plain.code == gdb.TYPE_CODE_ARRAY:
            low, high = plain.range()
            said.update(kind="array", count=max(0, high - low + 1), first=low,
                        of=self.told(plain.target(), depth + 1))
        elif plain.code in (gdb.TYPE_CODE_STRUCT, gdb.TYPE_CODE_UNION):
            said.update(kind="fields", fields=[self.field(field, depth) for field in plain.fields()
                                               if hasattr(field, "bitpos")])
        return said

    def field(self, field: Any, depth: int) -> dict[str, Any]:
        said = {"name": field.name or "", "at": field.bitpos // 8,
                "type": self.told(field.type, depth + 1)}
        if field.bitsize:
            said.update(bit=field.bitpos % 8, bits=field.bitsize)
        return said


def is_signed(plain: Any) -> bool:
    return bool(plain.is_signed) if hasattr(plain, "is_signed") else "unsigned" not in str(plain)


def variable(name: str) -> dict[str, Any]:
    """The address and the type of a variable or a part of it."""
    place = gdb.parse_and_eval(f"&({name})")
    if not place.type.target().sizeof:          # of a symbol without DWARF, or of a declaration
        raise ValueError("its size isn't known")
    return {"address": int(place) & 0xffffffff, "type": GdbTypes().told(place.type.target())}


def gdb_function(block: Any) -> Any:
    """The innermost function that a block belongs to, inlined or not: its block."""
    while block is not None and block.function is None:
        block = block.superblock
    return block


def depth_of(block: Any) -> int:
    """How many functions a function's block is in: 0 unless it is inlined."""
    over = gdb_function(block.superblock)
    return 0 if over is None else 1 + depth_of(over)


def registers_at(address: int) -> dict[str, str]:
    """{parameter or variable: the registers that hold it} at an address, as far as gdb says so."""
    found: dict[str, str] = {}
    text = gdb.execute(f"info scope *{address:#x}", to_string=True)
    for name, said in re.findall(r"^Symbol (\S+) is (.*?)(?=^Symbol |\Z)", text, re.M | re.S):
        for low, high, place in re.findall(r"Range (\w+)-(\w+): (a variable in .*)", said):
            # An empty range is what holds before the first row, which may change it at once.
            if int(low, 16) <= address < int(high, 16) or int(low, 16) == address:
                found.setdefault(name, registers_in(place))
        if said.startswith("a variable in "):
            found.setdefault(name, registers_in(said.partition("\n")[0]))
    return found


def registers_in(place: str) -> str:
    """Those of a value's pieces, the lowest bytes first."""
    return " ".join(re.findall(r"a variable in \$(\w+)", place))


def function(name: str) -> dict[str, Any]:
    """Each place where a function begins, and of its own code the parameters and the result's
    type."""
    point = gdb.Breakpoint(name, internal=True)
    begins: list[dict[str, Any]] = []
    for location in point.locations:
        block = block_of(location.address, name)
        if block is None or block.function.symtab.filename.lower().endswith(ASSEMBLY):
            continue
        if depth_of(block):
            begins.append({"address": location.address, "inlined": True, "depth": depth_of(block)})
        else:
            begins.append(own_code(block.function, int(block.function.value().address), name))
    point.delete()
    return {"begins": begins}


def block_of(address: int, name: str) -> Any:
    """The block of a function at an address, where what it begins with can be inlined; without one
    of this name the innermost."""
    found = innermost = gdb_function(gdb.block_for_pc(address))
    while found is not None and found.function.name != name.rpartition("::")[2]:
        found = gdb_function(found.superblock)
    return innermost if found is None else found


def own_code(symbol: Any, address: int, name: str) -> dict[str, Any]:
    held = registers_at(address)
    parameters = []
    for each in block_of(address, name) or ():
        if each.is_argument:
            parameters.append({"name": each.name, "register": held.get(each.name, ""),
                               "type": GdbTypes().told(each.type)})
    return {"address": address, "inlined": False, "parameters": parameters,
            "result": GdbTypes().told(symbol.type.target())}


def line(spec: str, expressions: Optional[list[str]]) -> dict[str, Any]:
    """The addresses at which a line begins, where gdb would stop, and what each expression is
    there; without expressions, what each variable of the function is."""
    point = gdb.Breakpoint(spec, internal=True)
    found = sorted(location.address for location in point.locations)
    point.delete()
    if not found:
        return {"places": []}
    texts = locals_at(found[0]) if expressions is None else expressions
    return {"places": found, "texts": texts,
            "expressions": [compiled_expression(spec, found, each) for each in texts]}


def locals_at(place: int) -> list[str]:
    """The parameters and variables of the function that a place is in. An ELF file can call one
    anything, and gdb would do what a name says in its next line."""
    found: dict[str, None] = {}
    block = gdb.block_for_pc(place)
    while block is not None and not (block.is_static or block.is_global):
        names = [symbol.name for symbol in block if symbol.is_variable or symbol.is_argument]
        found.update((name, None) for name in names if PLAIN_NAME.fullmatch(name))
        block = None if block.function else block.superblock
    return list(found)[:MOST_LOCALS]


def compiled_expression(spec: str, places: list[int], expression: str) -> dict[str, Any]:
    """The type of an expression, and its bytecode at each place. The value of what is `whole` isn't
    given, but its address."""
    try:
        check_functions(places[0], expression)
        found = type_at(places[0], expression)
        plain = found.strip_typedefs()
        if plain.code == gdb.TYPE_CODE_FUNC:
            raise ValueError("it is a function, and not a value")
        is_whole = plain.code in WHOLE
        codes = dict(bytecode(spec, f"&({expression})" if is_whole else expression))
        letters = (plain.target().strip_typedefs()
                   if plain.code in (gdb.TYPE_CODE_PTR, gdb.TYPE_CODE_ARRAY) else None)
        return {"type": GdbTypes().told(found), "whole": is_whole,
                "codes": {str(place): codes[place] for place in places}, "text": letters is not None
                and letters.code in (gdb.TYPE_CODE_INT, gdb.TYPE_CODE_CHAR) and letters.sizeof == 1}
    except (gdb.error, RuntimeError, ValueError, KeyError) as error:
        return {"error": str(error)}


def check_functions(place: int, expression: str) -> None:
    """Refuses the address of a function, for which gdb compiles 0."""
    here = variables_at(place)
    for name in ADDRESS_OF.findall(expression):
        if name not in here and gdb.parse_and_eval(name).type.code == gdb.TYPE_CODE_FUNC:
            raise ValueError(f"gdb doesn't compile &{name}")


def bytecode(spec: str, expression: str) -> Iterator[tuple[int, list[tuple[int, str, int]]]]:
    """Of each place of a line its code: place in the code, operation and operand. No process is
    needed for it."""
    # Gdb compiles numbers alone
    plain = LETTER.sub(lambda letter: str(int(gdb.parse_and_eval(letter[0]))), expression)
    for said in gdb.execute(f"maint agent-eval -at {spec}, {plain}",
                            to_string=True).split("Scope: ")[1:]:
        place, _, lines = said.partition("\n")
        yield int(place, 16), [(int(at), name, int(operand or 0))
                               for at, name, operand in OPERATION.findall(lines)]


def type_at(place: int, expression: str) -> Any:
    """The type of an expression at a place. There is no frame, so each variable stands there as an
    empty one of its type."""
    here = variables_at(place)

    def empty(name: Any) -> str:
        if name[0] not in here:
            return str(name[0])
        kind = here[name[0]].type.strip_typedefs().unqualified()
        gdb.set_convenience_variable(EMPTY + name[0], gdb.Value(bytes(kind.sizeof), kind))
        return f"${EMPTY}{name[0]}"

    said = gdb.execute(f"whatis {NAMES.sub(empty, expression)}",
                       to_string=True).strip().partition(" = ")[2]
    if not TYPE_NAME.fullmatch(said):           # an ELF file can call a type anything
        raise ValueError(f"its type is {said}")
    # Gdb tells a type as text alone
    return gdb.parse_and_eval(f"({gdb_pointer_to(said)}) 0").type.target()


def gdb_pointer_to(said: str) -> str:
    """The text of a pointer to a type: C writes its star in the place of a name, as in `int
    (*)[4]`."""
    at = BEFORE_NAME.match(said).end()          # type: ignore[union-attr]
    return said[:at] + ("(*)" if said[at:at + 1] in ("[", "(") else "*") + said[at:]


def variables_at(place: int) -> dict[str, Any]:
    """{name: symbol} of the variables that are seen at a place, but for global ones."""
    found: dict[str, Any] = {}
    block = gdb.block_for_pc(place)
    while block is not None and not block.is_global:
        for symbol in block:
            if symbol.is_variable or symbol.is_argument:
                found.setdefault(symbol.name, symbol)
        block = block.superblock
    return found


def answer(asked: dict[str, Any]) -> dict[str, Any]:
    if "variable" in asked:
        return variable(asked["variable"])
    return (line(asked["line"], asked["expressions"]) if "line" in asked
            else function(asked["function"]))


def main() -> None:
    asked = json.loads(os.environ["ZELKUMA_ASKED"])
    gdb.execute("set language c" if asked.get("c") else "set language auto")
    try:
        said = answer(asked)
    except (gdb.error, RuntimeError, ValueError, AttributeError) as error:
        said = {"error": str(error)}
    print(asked["mark"] + json.dumps(said), flush=True)


main()

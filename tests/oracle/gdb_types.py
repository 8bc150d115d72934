"""Runs inside of gdb: tells the types of the symbols that $ASKED names, in the file $ANSWER."""
import importlib
import json
import os
import re
from typing import Any, Dict, List, Tuple

gdb: Any = importlib.import_module("gdb")     # only there inside of gdb
MOST_LEAVES = 400           # of a variable
MOST_COVERED = 64           # bytes


def kind_of(found: Any) -> Dict[str, Any]:
    plain = found.strip_typedefs()
    said = {"kind": "other", "name": str(found.unqualified()),
            "size": int(plain.sizeof), "signed": False}
    if plain.code in (gdb.TYPE_CODE_INT, gdb.TYPE_CODE_CHAR):
        said.update(kind="int",
                    signed="unsigned" not in str(plain) and str(plain.unqualified()) != "char")
    elif plain.code == gdb.TYPE_CODE_PTR:
        said["kind"] = "pointer"
    elif plain.code == gdb.TYPE_CODE_VOID:
        said["kind"] = "void"
    return said


def leaves(found: Any, path: str, at: int, told: List[Any]) -> None:
    """Each part of a type that has no parts: its path, its place, its type. A field of bits has the
    type None."""
    plain = found.strip_typedefs()
    if len(told) >= MOST_LEAVES:
        return
    if plain.code == gdb.TYPE_CODE_ARRAY:
        low, high = plain.range()
        for i in range(low, high + 1):
            leaves(plain.target(), f"{path}[{i}]",
                   at + (i - low) * int(plain.target().sizeof), told)
    elif plain.code in (gdb.TYPE_CODE_STRUCT, gdb.TYPE_CODE_UNION):
        for field in plain.fields():
            if field.bitsize:
                told.append([f"{path}.{field.name}", at + field.bitpos // 8, None])
            else:
                leaves(field.type, f"{path}.{field.name}" if field.name else path,
                       at + field.bitpos // 8, told)
    else:
        told.append([path, at, kind_of(found)])


def variable(name: str) -> Dict[str, Any]:
    place = gdb.parse_and_eval(f"&({name})")
    if not place.type.target().sizeof:
        raise ValueError("there is no debug information of it")
    told: List[Any] = []
    leaves(place.type.target(), "", 0, told)
    return {"address": int(place), "size": int(place.type.target().sizeof), "leaves": told,
            "name": str(place.type.target())}


def registers_at(address: int) -> Dict[str, str]:
    """{parameter: its register} at an address. An empty range there says where it was before the
    first row."""
    found: Dict[str, str] = {}
    name = ""
    for line in gdb.execute(f"info scope *{address:#x}", to_string=True).splitlines():
        begin = re.match(r"Symbol (\S+) is (?:a variable in \$(\w+))?", line)
        if begin:
            name = begin[1]
            if begin[2]:
                found.setdefault(name, begin[2])
        place = re.search(r"Range (\w+)-(\w+): a variable in \$(\w+)", line)
        if place and (int(place[1], 16) <= address < int(place[2], 16)
                      or int(place[1], 16) == address):
            found.setdefault(name, place[3])
    return found


def block_of(name: str, address: int) -> Any:
    """The block of a function. What is inlined at its first row has a block of its own. Assembly
    from which the linker took code is longer in DWARF than it is, and covers the first rows of what
    comes behind it."""
    for at in range(address, address + MOST_COVERED, 4):
        block = gdb.block_for_pc(at)
        while block is not None and (block.function is None
                                     or block.function.name != name.split(".")[0]):
            block = block.superblock
        if block is not None and int(block.start) == address:
            return block
    return None


def function(name: str, address: int) -> Dict[str, Any]:
    block = block_of(name, address)
    if block is None or block.function.symtab.filename.endswith((".S", ".s")):
        # (assembly has no types, whatever DWARF leaves out of it)
        return {}
    held = registers_at(address)
    parameters = [[each.name, kind_of(each.type), held.get(each.name, "")]
                  for each in block if each.is_argument]
    inlined = [int(place) for place in inlined_places(block.function.name) if place != address]
    return {"parameters": parameters,
            "result": kind_of(block.function.type.target()), "inlined": inlined}


def inlined_places(name: str) -> List[int]:
    point = gdb.Breakpoint(name, internal=True)
    places = [int(each.address) for each in point.locations]
    point.delete()
    return places


def tell(what: Any, *words: Any) -> Tuple[bool, Any]:
    try:
        return True, what(*words)
    except (gdb.error, RuntimeError, ValueError, AttributeError):
        return False, None


def main() -> None:
    with open(os.environ["ASKED"], encoding="utf-8") as file:
        asked = json.load(file)
    answer: Dict[str, Dict[str, Any]] = {"variables": {}, "functions": {}}
    for name, address, kind in asked:
        if kind == "OBJECT":
            is_told, said = tell(variable, name)
            if is_told and said["address"] == address:
                answer["variables"][name] = said
        elif kind == "FUNC":
            is_told, said = tell(function, name, address)
            if is_told and said:
                answer["functions"][name] = said
    with open(os.environ["ANSWER"], "w", encoding="utf-8") as file:
        json.dump(answer, file)


main()

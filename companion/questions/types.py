"""The values of a variable as its type writes them. A type is what inside_gdb tells, or words if no
type is known."""
from __future__ import annotations

import struct
from typing import Any, Callable, Dict, Iterator, NamedTuple, Optional

from ..recording.memory import Bytes

Type = Dict[str, Any]
TOLD_IN_HEX = 1 << 16       # numbers from here on are told in hexadecimal too
FLOATS = {4: "<f", 8: "<d"}


class Leaf(NamedTuple):
    """A part of a variable that has no parts: its name behind the variable's, its place and its
    type. `bits` is 0 unless it is a field of bits, which begins at `bit`."""
    path: str
    at: int
    type: Type
    bit: int = 0
    bits: int = 0

    @property
    def size(self) -> int:
        return (self.bit + self.bits + 7) // 8 if self.bits else int(self.type["size"])


def words_type(size: int) -> Type:
    """The type of bytes of which nothing is known: words, if it is more than one."""
    return {"kind": "words" if size > 4 else "bytes", "name": "", "size": size}


def bounded_type(of: Type) -> Type:
    """A type whose parts lie within it, whatever an ELF file says: one of which they don't is told
    as bytes."""
    size = of["size"]
    if of["kind"] == "array":
        part = bounded_type(of["of"])
        return {**of, "of": part} if 0 <= of["count"] * part["size"] <= size else words_type(size)
    if of["kind"] == "fields":
        fields: list[Dict[str, Any]] = [{**field, "type": bounded_type(field["type"])}
                                        for field in of["fields"]]
        return {**of, "fields": fields} if all(field["at"] >= 0 and end_of_parts(field) <= size
                                               for field in fields) else words_type(size)
    return of


def end_of_parts(field: Dict[str, Any]) -> int:
    size = (field["bit"] + field["bits"] + 7) // 8 if "bits" in field else field["type"]["size"]
    return int(field["at"] + size)


def leaves(of: Type, first: int, end: int, path: str = "", at: int = 0) -> Iterator[Leaf]:
    """The parts of a type, put at a place, that have a byte of those from `first` up to `end`."""
    if of["kind"] == "array" and of["of"]["size"]:
        size = of["of"]["size"]
        for i in range(max(0, (first - at) // size), min(of["count"], -((at - end) // size))):
            yield from leaves(of["of"], first, end, f"{path}[{i + of['first']}]", at + i * size)
    elif of["kind"] == "words":
        for place in range(at + ((first - at) & ~3), end, 4):
            yield Leaf(f"{path}+{place}" if place else path, place,
                       words_type(min(4, at + of["size"] - place)))
    elif of["kind"] == "fields":
        for field in of["fields"]:
            name = f"{path}.{field['name']}" if field["name"] else path
            if "bits" in field:
                leaf = Leaf(name, at + field["at"], field["type"], field["bit"], field["bits"])
                if leaf.at < end and first < leaf.at + leaf.size:
                    yield leaf
            elif at + field["at"] < end and first < at + field["at"] + field["type"]["size"]:
                yield from leaves(field["type"], first, end, name, at + field["at"])
    elif at < end and first < at + of["size"]:
        yield Leaf(path, at, of)


def value_text(leaf: Leaf, data: Bytes, name_of: Callable[[int], str]) -> str:
    """A value as its type writes it. `name_of` names addresses."""
    known: Optional[bytes] = bytes(byte for byte in data if byte is not None)
    if not known or len(known) < len(data):
        return "unknown"
    kind = leaf.type["kind"]
    number = int.from_bytes(known, "little")
    if kind == "float" and len(known) in FLOATS:
        return f"{struct.unpack(FLOATS[len(known)], known)[0]:g}"
    if kind == "pointer":
        return f"{number:08x}" + (f" <{name_of(number)}>" if name_of(number) else "")
    if kind in ("int", "enum", "bool"):
        return number_text(leaf, number, 8 * len(known))
    return f"{number:0{2 * len(known)}x}" if len(known) <= 4 else known.hex(" ")


def signed(of: Type, number: int, width: int) -> int:
    """The number that so many bits are by a type."""
    return number - (1 << width) if of.get("signed") and number >> width - 1 else number


def number_text(leaf: Leaf, number: int, width: int) -> str:
    if leaf.bits:
        width = leaf.bits
        number = number >> leaf.bit & (1 << leaf.bits) - 1
    plain = number
    number = signed(leaf.type, number, width)
    if leaf.type["kind"] == "enum":
        named = leaf.type["names"].get(str(number))
        return f"{named} ({number})" if named else str(number)
    if leaf.type["kind"] == "bool":
        return {0: "false", 1: "true"}.get(number, str(number))
    if width == 8 and "char" in leaf.type["name"] and 32 <= plain < 127:
        return f"{number} {chr(plain)!r}"
    return f"{number} ({plain:08x})" if abs(number) >= TOLD_IN_HEX else str(number)


def python_value(of: Type, data: bytes, begin: int = 0) -> Any:
    """The value of a type as one of Python: a number, bytes of letters, a list or a dict. It begins
    at a place of the data."""
    if of["kind"] == "array":
        part = of["of"]
        if part["size"] == 1 and "char" in part["name"]:
            return data[begin:begin + of["size"]]
        return [python_value(part, data, begin + i * part["size"])
                for i in range(of["count"] if part["size"] else 0)]
    if of["kind"] == "fields":
        return {field["name"]: field_value(field, data, begin + field["at"])
                for field in of["fields"]}
    data = data[begin:begin + of["size"]]
    if of["kind"] == "float" and len(data) in FLOATS:
        return struct.unpack(FLOATS[len(data)], data)[0]
    number = int.from_bytes(data, "little", signed=bool(of.get("signed")))
    return number if of["kind"] != "words" else data


def field_value(field: Dict[str, Any], data: bytes, begin: int) -> Any:
    if "bits" not in field:
        return python_value(field["type"], data, begin)
    number = int.from_bytes(data[begin:begin + 8],
                            "little") >> field["bit"] & (1 << field["bits"]) - 1
    return signed(field["type"], number, field["bits"])

"""What other tools say of a program: nm its symbols, addr2line its lines, gdb its types."""
from __future__ import annotations

import json
import os
import shutil
import subprocess
import tempfile
from typing import Any, Dict, Iterable, List, NamedTuple, Optional

from .machine import Functions

NM = "riscv64-unknown-elf-nm"
ADDR2LINE = "riscv64-unknown-elf-addr2line"
GDB = "gdb-multiarch"
INSIDE = os.path.join(os.path.dirname(os.path.abspath(__file__)), "gdb_types.py")


class Symbol(NamedTuple):
    name: str
    address: int
    kind: str           # FUNC, OBJECT or NOTYPE
    size: int


class Place(NamedTuple):
    function: str
    path: str
    line: int

    @property
    def file(self) -> str:
        return os.path.basename(self.path)

    def text(self) -> str:
        return f"{self.function} {self.file}:{self.line}" if self.line else self.function


def symbols_of(elf: str) -> List[Symbol]:
    said = subprocess.run([NM, "-f", "sysv", elf], stdout=subprocess.PIPE,
                          stderr=subprocess.DEVNULL, text=True, check=False).stdout
    found = []
    for line in said.splitlines():
        parts = [part.strip() for part in line.split("|")]
        if (len(parts) == 7 and parts[1] and parts[0] != "Name" and not parts[0].startswith("$")
                and parts[6] != "*ABS*"):
            found.append(Symbol(parts[0], int(parts[1], 16), parts[3], int(parts[4] or "0", 16)))
    return sorted(found, key=lambda each: (each.address, each.name))


class Program:
    """`elf` is the file with names. Without gdb it has no types."""

    def __init__(self, elf: str, has_gdb: bool) -> None:
        self.elf = elf
        self.symbols = symbols_of(elf)
        self.kept: Dict[int, List[Place]] = {}
        self.types: Dict[str, Any] = (types_of(elf, self.symbols) if has_gdb and self.symbols
                                      else {"variables": {}, "functions": {}})

    def functions(self) -> Functions:
        found = [each for each in self.symbols if each.kind == "FUNC"]
        starts = sorted({each.address for each in found})
        ends = {}
        names = {}
        for at, start in enumerate(starts):
            size = max(each.size for each in found if each.address == start)
            following = starts[at + 1] if at + 1 < len(starts) else 1 << 32
            ends[start] = start + size if size else following
            names[start] = {each.name for each in found if each.address == start}
        return Functions(ends, names)

    def fetch(self, pcs: Iterable[int]) -> None:
        wanted = sorted(set(pcs) - set(self.kept))
        if not wanted:
            return
        asked = "".join(f"{pc:x}\n" for pc in wanted)
        said = subprocess.run([ADDR2LINE, "-a", "-f", "-i", "-e", self.elf], input=asked,
                              stdout=subprocess.PIPE, text=True,
                              stderr=subprocess.DEVNULL, check=False).stdout
        frames: List[Place] = []
        lines = iter(said.splitlines())
        for line in lines:
            if line.startswith("0x"):
                frames = self.kept[int(line, 16)] = []
                continue
            path, _, number = next(lines).split(" (")[0].rpartition(":")
            if line != "??" or path != "??":
                frames.append(Place(line, "" if path == "??" else path,
                                    int(number) if number.isdigit() else 0))
        for pc in wanted:
            self.kept[pc] = self.kept.get(pc) or self.by_symbol(pc)

    def by_symbol(self, pc: int) -> List[Place]:
        """If no line is known: the function whose bytes hold the address, or the label before
        it."""
        before = [each for each in self.symbols if each.address <= pc and each.kind != "OBJECT"]
        if (not before or not before[-1].size and before[-1].kind == "FUNC"
                or pc < before[-1].address + before[-1].size):
            return [Place(before[-1].name, "", 0)] if before else []
        return []

    def places(self, pc: int) -> List[Place]:
        """Innermost first."""
        self.fetch([pc])
        return self.kept[pc]

    def chain(self, pcs: Iterable[int], most: int) -> List[str]:
        """The places of a row and of the calls over it: so many at most."""
        found: List[str] = []
        for pc in pcs:
            found += [place.text() for place in self.places(pc)] or [f"{pc:08x}"]
            if len(found) >= most:
                break
        return found[:most]

    def name_of(self, address: int) -> str:
        """The object or the function that an address is in, with the offset."""
        return self.inside(address, "FUNC") or self.inside(address, "OBJECT")

    def inside(self, address: int, kind: str) -> str:
        found = [each for each in self.symbols if each.kind == kind
                 and each.address <= address < each.address + max(each.size, 1)]
        if not found:
            return ""
        return found[-1].name + (f"+{address - found[-1].address}" if address > found[-1].address
                                 else "")

    def function(self, name: str) -> List[Symbol]:
        """The functions of a name, and what the compiler made of it (NAME.part.0)."""
        return [each
                for each in self.symbols if each.kind == "FUNC" and each.name.split(".")[0] == name]


def types_of(elf: str, symbols: List[Symbol]) -> Dict[str, Any]:
    """What gdb says of variables and functions."""
    if not shutil.which(GDB):
        return {"variables": {}, "functions": {}}
    with tempfile.TemporaryDirectory() as folder:
        asked = os.path.join(folder, "asked")
        answer = os.path.join(folder, "answer")
        with open(asked, "w", encoding="utf-8") as file:
            json.dump([[each.name, each.address, each.kind] for each in symbols], file)
        subprocess.run([GDB, "-batch", "-nx", "-ex", "set language c", "-ex", f"file {elf}", "-x",
                        INSIDE], check=False, env={**os.environ, "ASKED": asked, "ANSWER": answer},
                       stdout=subprocess.DEVNULL, stderr=subprocess.DEVNULL)
        with open(answer, encoding="utf-8") as file:
            found: Dict[str, Any] = json.load(file)
    return found


def number_text(kind: Dict[str, Any], data: List[Optional[int]], program: Program) -> Optional[str]:
    """A value as docs/COMMANDS.md shows it; None if this doesn't know such types."""
    if any(byte is None for byte in data):
        return "unknown"
    number = int.from_bytes(bytes(byte or 0 for byte in data), "little")
    if kind["kind"] == "bytes":
        return (f"{number:0{2 * len(data)}x}" if len(data) <= 4
                else bytes(byte or 0 for byte in data).hex(" "))
    if kind["kind"] == "pointer":
        name = program.name_of(number)
        return f"{number:08x}" + (f" <{name}>" if name else "")
    if kind["kind"] != "int":
        return None
    signed = (number - (1 << 8 * len(data)) if kind["signed"] and number >> 8 * len(data) - 1
              else number)
    if len(data) == 1 and "char" in kind["name"] and 32 <= number < 127:
        return f"{signed} {chr(number)!r}"
    return f"{signed} ({number:08x})" if abs(signed) >= 1 << 16 else str(signed)

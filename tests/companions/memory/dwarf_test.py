"""What debug information says of types, beside gdb's own answers, and of files that are forged."""
import random
import re
import shutil
import subprocess
import unittest.mock

import case
import common

from companion.memory import facts
from companion.memory.parts import Parts
from companion.memory.program import CheckedProgram
from companion.recording import dwarf
from companion.recording.dwarf import (ARRAY, BASE, BYTE_SIZE, MEMBER, OFFSET, POINTER, STRUCT,
                                       SUBRANGE, TYPE, UPPER, Dwarf, Entry, Unit)
from companion.recording.elf import Elf
from companion.recording.instruction import NAMES as NAMES_OF_REGISTERS
from companion.recording.locations import locations
from companion.recording.members import Members
from companion.recording.types import Types

GDB = "gdb-multiarch"
NAMES = "heap", "filters", "table", "prices"


def questions(program):
    """(expression for gdb, what the program's types say) of each global object whose name is its
    own."""
    names = [each.name for each in program.sized]
    for each in program.sized:
        kind = program.objects.get(each.address)
        if kind is None or names.count(each.name) > 1 or "." in each.name:
            continue
        yield f"sizeof({each.name})", program.types.size(kind)
        for path, begin, end in program.types.arrays(kind):
            yield f"(unsigned)&{each.name}{path}", each.address + begin
            yield f"sizeof({each.name}{path})", end - begin


class DwarfTest(case.Case):
    def test_sizes_and_places_are_gdbs(self):
        if not shutil.which(GDB):
            self.skipTest(f"{GDB} isn't installed")
        asked = 0
        for elf in ([self.elf(name) for name in NAMES]
                    + [each.elf for each in list(common.crashes().values())[:40:3]]):
            wanted = list(questions(CheckedProgram(Elf(elf))))
            words = [word for expression, _ in wanted for word in ("-ex", f"print/d {expression}")]
            said = subprocess.run([GDB, "-batch", "-nx", *words, elf], stdout=subprocess.PIPE,
                                  stderr=subprocess.STDOUT, check=False).stdout.decode()
            told = [int(value) for value in re.findall(r"^\$\d+ = (\d+)$", said, re.M)]
            self.assertEqual(told, [value for _, value in wanted], elf)
            asked += len(told)
        self.assertGreater(asked, 100)

    def test_registers_of_variables_are_gdbs(self):
        if not shutil.which(GDB):
            self.skipTest(f"{GDB} isn't installed")
        asked = 0
        for elf in [each.elf for each in list(common.crashes().values())[:40:6]]:
            program = CheckedProgram(Elf(elf))
            for first, entry in program.entries.items():
                said = subprocess.run([GDB, "-batch", "-nx", "-ex", f"info scope *{first:#x}", elf],
                                      stdout=subprocess.PIPE,
                                      stderr=subprocess.STDOUT, check=False).stdout.decode()
                told = dict(re.findall(r"Symbol (\w+) is multi-location:\n(.*?)^, length",
                                       said, re.M | re.S))
                for each in (each for each in entry.below if program.dwarf.name_of(each) in told):
                    ranges = re.findall(r"Range 0x(\w+)-0x(\w+): a variable in \$(\w+)",
                                        told[program.dwarf.name_of(each)])
                    self.assertEqual(
                        [(f"{one.low:x}", f"{one.high:x}", NAMES_OF_REGISTERS[one.register])
                         for one in locations(program.dwarf, each)],
                        [(low, high, "s0" if name == "fp" else name) for low, high, name in ranges],
                        elf)
                    asked += len(ranges)
        self.assertGreater(asked, 60)

    def test_forged_lists_of_locations(self):
        """Any bytes are a list that ends, and a list that many variables share is read so often at
        most."""
        draw = random.Random(7)
        entry = Entry(1, dwarf.VARIABLE, {dwarf.LOCATION: 1}, Unit("", ""))
        found = self.types_of().dwarf
        for size in list(range(40)) + [100000]:
            found.parts = {".debug_loclists": bytes(draw.choice((0, 4, 6, 7, 8, 9, 1, 0x5a, 255))
                                                    for _ in range(size))}
            self.assertLessEqual(len(list(locations(found, entry))), 1000)
        program = CheckedProgram(Elf(self.elf("heap")))
        first = next(iter(program.entries))
        program.left_locations = 3
        for each in program.entries.values():
            each.below += [Entry(1, dwarf.VARIABLE, {dwarf.LOCATION: 12, TYPE:
                                                     self.pointer_in(program)}, each.unit)] * 9
        self.assertLess(sum(map(len, program.pointers_in_registers(first).values())), 9)

    def pointer_in(self, program):
        return next(at for at, each in program.dwarf.entries.items()
                    if each.tag == POINTER and program.types.pointed(at))

    def test_damaged_files(self):
        """Each byte of the debug information can be another: the rest is read, or nothing."""
        data = common.content(self.elf("table"))
        draw = random.Random(7)
        parts = [data.index(part) for name, part in dwarf.sections_of(data).items()
                 if name in (".debug_info", ".debug_abbrev")]
        for _ in range(60):
            forged = bytearray(data)
            for _ in range(20):
                forged[draw.choice(parts) + draw.randrange(400)] = draw.randrange(256)
            program = CheckedProgram(Elf(common.written(common.path("forged.elf"), bytes(forged))))
            for each in program.sized:
                kind = program.objects.get(each.address)
                self.assertLessEqual(len(program.types.pointers_in(kind)), 1 << 16)
                program.types.structures_at(kind, each.address, each.address + 8, "")
            parts_of = Parts(facts.RegisterFacts(program))
            for symbol in program.elf.functions:
                program.parameters(symbol.address)
                parts_of.place(symbol.address, -16)

    def types_of(self, *entries):
        """Types of entries that are made here: (place, tag, what is told, the entries below)."""
        found = Dwarf.__new__(Dwarf)
        found.entries = {}
        for at, tag, told, below in entries:
            found.entries[at] = Entry(at, tag, told, Unit("", ""))
            found.entries[at].below = [Entry(0, part, also, Unit("", "")) for part, also in below]
        return Types(found)

    def test_types_that_hold_themselves(self):
        """An array of itself, a structure in itself, and structures that double at each level."""
        doubled = [(at, STRUCT, {BYTE_SIZE: 1 << 20},
                    [(MEMBER, {OFFSET: 64 * part, TYPE: at + 1}) for part in range(2)])
                   for at in range(100, 3000)]
        types = self.types_of((1, ARRAY, {TYPE: 1}, [(SUBRANGE, {UPPER: 3})]),
                              (2, STRUCT, {BYTE_SIZE: 8}, [(MEMBER, {TYPE: 2})]),
                              (3, 0x16, {TYPE: 3}, []), *doubled, (60, POINTER, {TYPE: 60}, []))
        for kind in (1, 2, 3, 100, 60):
            self.assertLess(types.size(kind), 1 << 26)
            self.assertLessEqual(len(types.arrays(kind)), 1 << 20)
            self.assertLessEqual(len(types.pointers_in(kind)), 1 << 16)
            types.pointee_at(kind, 0)
            types.structures_at(kind, 0, 4, "")

    def test_many_members(self):
        """Each is read once, however often one is asked for; and of a structure of many structures
        of many pointers some are listed."""
        many = 3000
        types = self.types_of(
            *[(at, STRUCT, {BYTE_SIZE: 4 * many}, [(MEMBER, {OFFSET: 4 * part, TYPE: at + 1})
                                                   for part in range(many)]) for at in (1, 2)],
            (3, POINTER, {TYPE: 4}, []), (4, BASE, {BYTE_SIZE: 4}, []))
        with unittest.mock.patch.object(
                types.dwarf, "name_of",
                wraps=types.dwarf.name_of) as named, unittest.mock.patch.object(
                types, "is_aligned", return_value=True) as led:
            for offset in range(0, 4 * many, 8):
                self.assertEqual(types.member_at(2, offset + 1)[0], offset)
            self.assertEqual(len(types.pointers_in(1)), 1 << 16)
        self.assertLessEqual(named.call_count, 2 * many)
        self.assertLessEqual(led.call_count, many)

    def test_a_file_is_read_once(self):
        elf = Elf(self.elf("heap"))
        self.assertIs(Members(elf).types.dwarf, CheckedProgram(elf).dwarf)

    def test_an_analysis_that_takes_too_long_is_left(self):
        """Then nothing is known of the function."""
        elf = Elf(self.elf("heap"))
        main = next(symbol.address for symbol in elf.functions if symbol.name == "main")
        for steps, known in ((200, True), (0, False)):
            with unittest.mock.patch.object(facts, "STEPS_EACH", steps):
                self.assertEqual(
                    facts.RegisterFacts(CheckedProgram(elf)).at(main, elf.word(main)).known, known)

"""The package zelkuma: states beside the rows, and that it finds an installed program."""
import os
import shutil
import subprocess
import sys

import case
import common

from companion import Recording
from companion.call.errors import CompanionError
from companion.questions import debugger
from companion.questions.types import python_value

NAMES = ("zero ra sp gp tp t0 t1 t2 s0 s1 a0 a1 a2 a3 a4 a5 a6 a7 s2 s3 s4 s5 s6 s7 s8 s9 s10 s11 "
         "t3 t4 t5 t6".split())
INT = {"kind": "int", "name": "int", "size": 4, "signed": True}
CHAR = {"kind": "int", "name": "char", "size": 1, "signed": False}


class Copied(bytes):
    """Bytes that count how many of them are copied."""
    copied = 0

    def __getitem__(self, at):
        found = super().__getitem__(at)
        self.copied += len(found) if isinstance(at, slice) else 0
        return found


class LibraryTest(case.Case):
    def test_states_are_what_the_rows_before_wrote(self):
        log = self.record("filters", "--seed", "10", "--harts", "4")
        elf = self.elf("filters")
        wrote = {}
        asked = {}
        for line in common.output("joint", log, elf).decode().split("\n"):
            words = line.split(" ")
            if words[0].isdigit():
                hart = wrote.setdefault(int(words[0]), {})
                if int(words[1]) in (300, 440):
                    asked[int(words[0]), int(words[1])] = int(words[2], 16), dict(hart)
                told = line.split(" | ")[1:2]
                if told and told[0].partition("=")[0] in NAMES:
                    hart[told[0].partition("=")[0]] = int(told[0].partition("=")[2], 16)
        self.assertGreater(len(asked), 4)
        with Recording(log, elf) as run:
            states = {place: run.at(*place) for place in asked}
            for place, (pc, registers) in asked.items():        # each state stays what it was
                self.assertEqual(states[place].registers["pc"], pc)
                self.assertEqual({name: states[place].registers[name] for name in registers},
                                 registers)
            self.assertEqual((run.fault.hart, run.fault.count, run.fault.name),
                             (2, 444, "LoadOutside"))
            self.assertRaises(CompanionError, run.at, 7, 0)
            self.assertRaises(CompanionError, run.at, 0, 1 << 30)

    def test_words_at_a_store(self):
        log = self.record("heap", "--seed", "1")
        elf = self.elf("heap")
        with Recording(log, elf) as run:
            stored = run.history("00011b60", last=4)[0]
            before = run.at(stored.hart, stored.at)
            after = run.at(stored.hart, stored.at + 1)
            self.assertEqual((before.word(0x11b60), after.word(0x11b60)),
                             (int(stored.old, 16), int(stored.new, 16)))
            self.assertEqual(sum(row.store is not None and row.store.address & ~3 == 0x11b60
                                 for row in run.rows()), 9)

    def test_variables_have_values_of_python(self):
        if not debugger.gdb_path():
            self.skipTest("no gdb is installed")
        log = self.record("heap", "--seed", "1")
        elf = self.elf("heap")
        with Recording(log, elf) as run:
            stored = run.history("orders[3]", last=1)[0]
            self.assertEqual(run.at(stored.hart, stored.at + 1).variable("orders[3]"), 0x11864)
            self.assertEqual(run.at(stored.hart, stored.at + 1).variable("orders")[3], 0x11864)
            self.assertRaises(CompanionError, run.at(0, 5).variable, "nothing")

    def test_types_as_values(self):
        pair = {"kind": "fields", "name": "", "size": 12, "fields": [
            {"name": "a", "at": 0, "type": INT},
            {"name": "b", "at": 4, "type": INT, "bit": 1, "bits": 3},
            {"name": "c", "at": 8,
             "type": {"kind": "array", "name": "", "size": 4, "count": 4, "first": 0, "of": CHAR}}]}
        self.assertEqual(python_value(pair, b"\xfe\xff\xff\xff\x0e\0\0\0abc\0"),
                         {"a": -2, "b": -1, "c": b"abc\0"})
        self.assertEqual(python_value({"kind": "array", "name": "", "size": 24, "count": 2,
                                       "first": 0, "of": pair}, b"\xfe\xff\xff\xff\x0e\0\0\0abc\0"
                                      + b"\1\0\0\0\0\0\0\0xyz\0"),
                         [{"a": -2, "b": -1, "c": b"abc\0"}, {"a": 1, "b": 0, "c": b"xyz\0"}])
        self.assertEqual(python_value({"kind": "array", "name": "", "size": 8, "count": 2,
                                       "first": 0, "of": INT}, b"\1\0\0\0\2\0\0\0"), [1, 2])

    def test_an_array_is_copied_once(self):
        """Not what is left of it for each of its parts."""
        data = Copied(4000)
        numbers = {"kind": "array", "name": "", "size": 4000, "count": 1000, "first": 0, "of": INT}
        self.assertEqual(python_value(numbers, data), [0] * 1000)
        self.assertEqual(data.copied, 4000)

    def test_an_installed_program_is_found(self):
        """By the package of the installation, and by a copy elsewhere if the command zelkuma is
        there."""
        prefix = common.path("prefix")
        subprocess.run([os.path.join(common.TOP, "zelkuma"), "install", prefix],
                       stdout=subprocess.DEVNULL, check=True)
        script = ("from zelkuma.call import program; print(program.path()); "
                  "from zelkuma import Recording")
        clean = {name: value for name, value in os.environ.items() if name != "ZELKUMA_PROGRAM"}
        wanted = os.path.realpath(os.path.join(prefix, "lib", "zelkuma", "zelkuma"))
        copied = common.path("packages")
        shutil.copytree(common.COMPANION, os.path.join(copied, "zelkuma"))
        for folder, path in ((os.path.join(prefix, "lib", "zelkuma", "python"), "/usr/bin"),
                             (copied, os.path.join(prefix, "bin"))):
            done = subprocess.run([sys.executable, "-c", script],
                                  env={**clean, "PYTHONPATH": folder, "PATH": path}, check=False,
                                  stdout=subprocess.PIPE, stderr=subprocess.PIPE, cwd="/")
            self.assertEqual(os.path.realpath(done.stdout.decode().strip()), wanted, done.stderr)

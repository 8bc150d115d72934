"""The names of places in data, against gdb's."""
import os
import shutil
import subprocess
import unittest

import case
import common
from common import TOP, path
from companion.questions.types import leaves
from companion.questions.variables import variable_of
from companion.recording.elf import Elf
from companion.recording.members import Members


def told_by_gdb(elf, name):
    """{address: the part of a variable that begins there}, of those that gdb tells. The letters of
    a text and the parts of a union have no names of their own here; nor have fields of bits."""
    found = variable_of(elf, name)
    return {found.address + leaf.at: name + leaf.path for leaf in leaves(found.type, 0, found.size)
            if not leaf.bits and leaf.size > 1 and ".last" not in leaf.path}


class MembersTest(case.Case):
    def setUp(self):
        if not shutil.which("gdb-multiarch"):
            raise unittest.SkipTest("gdb-multiarch isn't installed")

    def check_names(self, elf, names):
        members = Members(elf)
        for name in names:
            told = told_by_gdb(elf, name)
            self.assertEqual({address: members.name(address) for address in told}, told)
            self.assertTrue(told or name == "text", name)

    def test_all_shapes(self):
        if not shutil.which("riscv64-unknown-elf-gcc"):
            self.skipTest("riscv64-unknown-elf-gcc isn't installed")
        source = os.path.join(TOP, "tests", "companions", "lib", "programs", "members.c")
        subprocess.run(["bash", "-c", ". examples/lib/with_names.sh && build_with_names \"$@\"",
                        "-", path("members.elf"), source], cwd=TOP, check=True)
        elf = Elf(path("members.elf"))
        self.check_names(elf, ["shapes", "alone", "grid", "count", "text"])
        members = Members(elf)
        begin = variable_of(elf, "alone").address
        self.assertEqual([members.name(begin + at) for at in (1, 6, 22, 32, 34, 36)],
                         ["alone.kind+1", "alone.corners[0].y", "alone.name+2", "alone.last",
                          "alone.last+2", "alone+36"])
        kept = next(item for item in elf.objects if item.name.startswith("kept"))
        self.assertEqual(members.name(kept.address + 4), f"{kept.name}[1].x")

    def test_programs(self):
        for name, variables in (("hang_kitchen", ["tools", "cooks"]),
                                ("hang_width", ["sender", "receiver", "line"])):
            self.check_names(Elf(common.crashes()[name].elf), variables)

    def test_without_debug_information(self):
        elf = Elf(self.elf("wild_store"))
        self.assertEqual(Members(elf).name(0x11b00), elf.data_name(0x11b00))
        plain = Elf(self.names("wild_store"))
        held = next(item for item in plain.objects if item.size > 4)
        plain.data = plain.data[:52]            # no section is there any more
        self.assertEqual(Members(plain).name(held.address + 4), plain.data_name(held.address + 4))

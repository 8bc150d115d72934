"""zelkuma gdb --run: the real gdb, the place that is asked for, and questions from inside of it."""
import re
import subprocess
import sys

import case
import common

from companion.questions import debugger

SMALL = ("--sets", "1", "--ways", "1", "--line", "1", "--interval", "200")


class RunTest(case.Case):
    def setUp(self):
        if not debugger.gdb_path():
            self.skipTest("no gdb is installed")

    def talk(self, log, elf, commands, *options):
        """gdb's answers, one after another."""
        lines = [line for at, command in enumerate(commands)
                 for line in (f"echo \\n@@{at}\\n", command)]
        done = subprocess.run(
            [sys.executable, common.COMPANION, "gdb", "--run", *options, log, elf],
            stdout=subprocess.PIPE,
            input="".join(line + "\n" for line in ["set width 0", "set pagination off", *lines])
            .encode(), stderr=subprocess.STDOUT, check=False)
        text = done.stdout.decode("utf-8", "replace").replace("(gdb) ", "")
        return re.split(r"^@@\d+\n", text, flags=re.M)

    def row(self, log, elf, hart, count):
        """The words of a row of joint."""
        return next(line for line in common.output("joint", log, elf).decode().split("\n")
                    if line.startswith(f"{hart} {count} ")).split(" ")

    def test_to_places_and_back_to_the_beginning(self):
        log = self.record("heap", "--seed", "1")
        elf = self.elf("heap")
        said = self.talk(log, elf,
                         ["print/x $pc", "monitor goto 0:33817", "print/x $pc", "break *0x100d0",
                          "run", "print/x $pc", "monitor where", "starti", "monitor goto 0:63052",
                          "monitor goto 1:5", "monitor goto 0:70000", "monitor goto x",
                          "monitor history 00011b60", "monitor nothing"])
        # Begins at the fault
        self.assertIn(f"0x{self.row(log, elf, 0, 63052)[2].lstrip('0')}\n", said[1])
        self.assertIn("at 0:33817\n", said[2])
        self.assertIn(f"0x{self.row(log, elf, 0, 33817)[2].lstrip('0')}\n", said[3])
        self.assertIn("Breakpoint 1, ", said[5])
        self.assertIn("0x100d0\n", said[6])
        first = next(line for line in common.output("joint", log, elf).decode().split("\n")
                     if " 000100d0 " in line)
        self.assertIn(" ".join(first.split(" ")[:3]) + " ready", said[7])
        self.assertIn("Program stopped", said[8])
        self.assertIn("at 0:63052\n", said[9])
        self.assertIn("hart 1 has no rows here; harts are 0", said[10])
        self.assertIn("hart 0 has counts 0 to 63052 here, not 70000", said[11])
        self.assertIn("has to be HART:COUNT", said[12])
        self.assertIn(self.says("history", log, elf, "00011b60"), said[13])
        self.assertIn("monitor goto HART:COUNT", said[14])

    def test_another_hart(self):
        """Before its row a hart has the registers that its rows before wrote."""
        log = self.record("filters", "--seed", "10", "--harts", "4")
        elf = self.elf("filters")
        said = self.talk(log, elf, ["thread", "print/x $pc", "print/x $a7"], "--at", "2:440")
        self.assertIn("Current thread is 3", said[1])
        self.assertIn(f"0x{self.row(log, elf, 2, 440)[2].lstrip('0')}\n", said[2])
        self.assertIn("0x11450\n", said[3])     # the row of 436 loaded it

    def test_how_far_back_it_leads_is_said(self):
        log = self.record("wild_store", "--seed", "1", *SMALL)
        elf = self.elf("wild_store")
        said = "".join(self.talk(log, elf, ["monitor goto 0:1", "print *(int *) 0x11500",
                                            "reverse-continue"], "--rows", "500"))
        found = re.search(r"the last ([\d,]+) rows are loaded, hart 0 from count ([\d,]+); "
                          r"--rows N loads more", said)
        rows, first = (int(told.replace(",", "")) for told in found.groups())
        self.assertEqual(first + rows, 22675)
        self.assertIn(f"hart 0 has counts {first} to 22675 here, not 1", said)
        self.assertIn("00011500 isn't known here: no row that is loaded tells it; "
                      "--rows N loads more", said)
        self.assertIn("the rows that are loaded begin here; --rows N loads more", said)

    def test_refusals(self):
        log = self.record("heap", "--seed", "1")
        elf = self.elf("heap")
        self.refuses(2, "gdb", "--run", "--at", "5", log, elf)
        status, _, err = common.companion("gdb", "--run", log, elf,
                                          environment={"ZELKUMA_GDB": "/nowhere/gdb"})
        self.assertEqual((status, err),
                         (1, "zelkuma: no gdb is here; Debian has it in gdb-multiarch\n"))

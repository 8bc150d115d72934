"""Beside the rows that companions speak of stands, at a terminal, the command that opens gdb
there."""
import os
import re
import shlex
import subprocess
import sys

import case
import common

TERMINAL = os.path.join(common.TOP, "tests", "script", "terminal.py")


def at_terminal(*words):
    """The lines that a companion shows at a terminal."""
    done = subprocess.run([sys.executable, TERMINAL, sys.executable, common.COMPANION, *words],
                          stdout=subprocess.PIPE, check=True)
    return re.sub(r"\\e\[\w+|\\r", "", done.stdout.decode()).split("\n")


class ReadyTest(case.Case):
    def commands(self, *words):
        """[(the place that a command begins at, the lines before it)], of a call that prints none
        elsewhere."""
        self.assertNotIn("zelkuma gdb", self.says(*words))
        lines = at_terminal(*words)
        found = []
        for at, line in enumerate(lines):
            if line.strip().startswith("zelkuma gdb"):
                told = shlex.split(line)
                self.assertEqual(told[:4], ["zelkuma", "gdb", "--run", "--at"])
                self.assertEqual(told[5:], self.files)
                found.append((told[4], lines[:at]))
        return found

    def opens_rows(self, many, *words):
        """That a call prints so many commands, each behind the row that it begins at."""
        found = self.commands(*words)
        self.assertEqual(len(found), many)
        for place, before in found:
            self.assertIn(place.replace(":", " ") + " ", "\n".join(before[-3:]))

    def test_races(self):
        self.files = [self.record("tills", "--seed", "1", "--harts", "2"), self.elf("tills")]
        groups = (self.says("race", *self.files).count("pair on ")
                  + self.says("race", *self.files).count("pairs on "))
        self.assertGreater(groups, 1)
        self.opens_rows(groups, "race", *self.files)

    def test_writes(self):
        self.files = [self.record("word_count", "--seed", "1"), self.elf("word_count")]
        self.opens_rows(self.says("output", *self.files).count(" to the output, in "),
                        "output", *self.files)

    def test_suspects_stores_and_calls(self):
        self.files = [self.record("heap", "--seed", "1"), self.elf("heap")]
        self.assertGreater(len(self.commands("why", *self.files)), 1)
        for words in (("history", *self.files, "00011b60"), ("calls", *self.files, "put_text")):
            (place, before), = self.commands(*words)
            self.assertRegex(before[-1], rf"^ +{place} ")

    def test_switches_of_the_short_run(self):
        elf = self.elf("filters")
        self.files = [common.path("ready.log"), elf]
        whole = common.record("whole", elf, "--seed", "10", "--harts", "4")
        found = self.commands("shrink", whole, elf, common.path("whole.book"),
                              self.files[0], common.path("ready.turns"))
        self.assertTrue(found)
        with_rows = common.output("joint", *self.files).decode()
        for place, before in found:
            stopped = next(line for line in reversed(before) if " stops after " in line)
            self.assertIn(f"hart {place.split(':')[0]} stops after", stopped)
            self.assertIn("\n" + place.replace(":", " ") + " ", "\n" + with_rows)

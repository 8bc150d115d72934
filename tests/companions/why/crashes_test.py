"""The crashing programs of tests/crashes: is the guilty line among the first three suspects of
`why`?

The shares are printed, and stand in docs/WHY.md. It fails if one falls under what stands there.
CRASHES_GROUP can name one of the groups."""
import filecmp
import os
import re
import subprocess
import unittest
from concurrent.futures import ThreadPoolExecutor
from typing import NamedTuple

from common import (CRASHES, PROGRAM, TOOLS, companion, crashes, lacks_compiler, path,
                    present_tools)

FIRST = 3
LARGE = 100
PICOLIBC = "/usr/lib/picolibc/riscv64-unknown-elf"
# How many programs of each share have their line in the first three.
LEAST = {"known, small": 7, "kept, small": 6, "known": 15, "opened": 32, "added": 15,
         "kept": 8, "fresh": 17}
AT_ONCE = 3


def rank_of(line, text):
    """The first suspect that tells of a line, or 0. A deadlock's sentence comes before all."""
    if re.search(r"^  Deadlock: .*" + re.escape(line) + r"(?!\d)", text, re.M):
        return 1
    part = re.search(r"^SUSPECTS.*?\n(.*?)^[A-Z]", text, re.S | re.M)
    for suspect in re.split(r"^  (?=\d+\. )", part.group(1) if part else "", flags=re.M)[1:]:
        if re.search(re.escape(line) + r"(?!\d)", suspect):
            return int(suspect.split(".")[0])
    return 0


def share_of(program):
    return program.group if program.lines >= LARGE else program.group + ", small"


class Tried(NamedTuple):
    """How a program's recording ended, how `why` did, and the guilty line's place among the
    suspects, or 0."""
    ends: int
    status: int
    err: str
    place: int


def tried(program):
    log = path(program.name + ".log")
    done = subprocess.run([PROGRAM, "record", "--format", "2"] + program.options
                          + [program.elf, log, path(program.name + ".book")],
                          stdout=subprocess.PIPE, stderr=subprocess.PIPE, check=False)
    wrong = ["--output", program.wrong] if program.wrong else []
    status, text, err = companion("why", log, program.elf, "--more", *wrong)
    return Tried(done.returncode, status, err, rank_of(program.guilty, text))


class WhyCrashes(unittest.TestCase):
    def test_kept_files(self):
        """The ELF files that are kept are what the sources give, if the compiler is the one that
        built them."""
        if lacks_compiler() or not os.path.isdir(PICOLIBC):
            self.skipTest(lacks_compiler() or "picolibc isn't installed")
        subprocess.run([os.path.join(CRASHES, "build.sh"), path("crashes")], check=True)
        names = sorted(os.listdir(path("crashes")))
        other = [name
                 for name in names if not filecmp.cmp(os.path.join(CRASHES, name),
                                                      os.path.join(path("crashes"), name), False)]
        self.assertTrue(names)
        self.assertEqual(other, [])

    def test_shares(self):
        """Each program ends as it should and is explained, and no share falls under what stands in
        docs/WHY.md."""
        if not present_tools():
            self.skipTest("none of %s is there" % ", ".join(TOOLS))
        group = os.environ.get("CRASHES_GROUP")
        programs = [one for one in crashes().values() if group in (None, one.group)]
        found = {}
        with ThreadPoolExecutor(AT_ONCE) as pool:
            for one, (ends, status, err, place) in zip(programs, pool.map(tried, programs)):
                print("        %-13s %-20s %s" % (share_of(one), one.name, "suspect %d" % place
                                                  if place else "not among the suspects"),
                      flush=True)
                with self.subTest(one.name):
                    self.assertEqual((str(ends), status), (one.ends, 0), err)
                share = found.setdefault(share_of(one), [0, 0])
                share[0] += 0 < place <= FIRST
                share[1] += 1
        for key, (good, whole) in sorted(found.items()):
            print("        %s programs: "
                  "%d of %d guilty lines in the first three" % (key, good, whole))
            with self.subTest(key):
                self.assertGreaterEqual(good, LEAST[key])

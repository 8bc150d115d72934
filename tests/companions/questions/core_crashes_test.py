"""zelkuma export --core: of crashing programs gdb shows the same calls of each hart as over the
bridge, with no server running.

A few programs are tried; with $ZELKUMA_ALL each of tests/crashes whose run ends in a fault."""
import os
import re
import shutil
import signal
import subprocess
import sys
import time

import case
import common
from recordings import DATA, T0, T1, addi, branch_unless_equal, elf_of, load, lui, store

GDB = "gdb-multiarch"
READELF = "eu-readelf"
SOME = ("use_after_free", "stack_overflow", "jump_plugin", "race_list", "race_ticket",
        "libc_tree", "null_handler")
FAULT = "10"


def stores(rounds):
    """A program that stores to 512 words again and again."""
    return [lui(9, rounds << 12), lui(8, DATA), addi(T0, 8, 2044), store(8, 8),
            load(T1, 8), addi(8, 8, 4), branch_unless_equal(8, T0, -12), addi(9, 9, -1 & 0xfff),
            branch_unless_equal(9, 0, -28)]


class CoreOfCrashes(case.Case):
    def calls(self, *words):
        """What gdb tells of the calls of each thread, in the threads' order."""
        done = subprocess.run([GDB, "-nx", "-q", "-batch", "-iex", "set remotetimeout 300", *words],
                              stdout=subprocess.PIPE, stderr=subprocess.DEVNULL, check=False)
        pieces = re.split(r"^Thread \d+ \((?:Thread|LWP) (\d+)[^\n]*\n",
                          done.stdout.decode("utf-8", "replace"), flags=re.M)
        return {int(thread): re.findall(r"^#\d+ .*", text, re.M)
                for thread, text in zip(pieces[1::2], pieces[2::2])}

    def test_calls_are_those_of_the_bridge(self):
        if not shutil.which(GDB):
            self.skipTest(f"{GDB} isn't installed")
        names = ([crash.name for crash in common.crashes().values() if crash.ends == FAULT]
                 if os.environ.get("ZELKUMA_ALL") else SOME)
        for name in names:
            with self.subTest(name):
                log, elf = common.crash(name)
                file = common.path("crash.core")
                status, _, err = common.companion("export", log, elf, "--core", file)
                self.assertEqual(status, 0, err)
                found = self.calls("-ex", "thread apply all bt -30", elf, file)
                bridge = (f"target remote | {sys.executable} {common.COMPANION} gdb --end "
                          f"{log} {elf}")
                its = self.calls("-ex", bridge, "-ex", "thread apply all bt -30", elf)
                self.assertGreater(sum(map(len, found.values())), 0)
                self.assertEqual(found, its)

    def test_elfutils_read_it(self):
        if not shutil.which(READELF):
            self.skipTest(f"{READELF} isn't installed")
        log, elf = common.crash("race_list")
        file = common.path("read.core")
        common.companion("export", log, elf, "--core", file)
        said = subprocess.run([READELF, "-hln", file], stdout=subprocess.PIPE,
                              stderr=subprocess.STDOUT, check=False)
        self.assertEqual(said.returncode, 0, said.stdout)
        text = said.stdout.decode()
        self.assertIn("CORE (Core file)", text)
        self.assertEqual(text.count("PRSTATUS"), 3)
        self.assertNotIn("rror", text)

    def test_int_leaves_nothing(self):
        """While the rows are read, there is no file."""
        elf = common.written(common.path("long.elf"), elf_of(stores(400)))
        log = common.record("long", elf, "--log-size", "16777216", "--limit", "3000000")
        for stop, status in ((signal.SIGINT, 130), (signal.SIGTERM, 143)):
            file = common.path(f"stopped{status}.core")
            process = subprocess.Popen([sys.executable, common.COMPANION, "export", log, elf,
                                        "--core", file],
                                       stdout=subprocess.PIPE, stderr=subprocess.PIPE)
            while process.poll() is None and not is_reading(process.pid):
                time.sleep(0.01)
            process.send_signal(stop)
            said, _ = process.communicate()
            self.assertEqual((process.returncode, said, os.path.exists(file)), (status, b"", False))


def is_reading(process):
    """Whether a call has started `joint`."""
    try:
        with open(f"/proc/{process}/task/{process}/children", encoding="ascii") as file:
            return any(b"\0joint\0" in common.content(f"/proc/{child}/cmdline")
                       for child in file.read().split())
    except OSError:
        return False

"""The rows in chunks of text: what a search finds in them is what the lines of `joint` say one by
one."""
import random
import re

import case
import common

from companion.recording import chunks
from companion.call.errors import CompanionError
from companion.recording.log import read_log

TURNS = ("--seed", "1", "--harts", "4", "--limit", "3000", "--interval", "700")


class ChunksTest(case.Case):
    def setUp(self):
        self.addCleanup(setattr, chunks, "CHUNK", chunks.CHUNK)
        chunks.CHUNK = 1000                     # so rows are cut everywhere
        self.log = self.record("counter", *TURNS)
        self.of = self.elf("counter")
        self.rows = re.findall(rb"^\d.*", common.output("joint", self.log, self.of), re.M)

    def found(self, pattern):
        return [row for text in chunks.chunks(self.log, self.of)
                for _, row in chunks.rows_with(text, pattern)]

    def test_they_have_all_rows_and_nothing_else(self):
        texts = list(chunks.chunks(self.log, self.of))
        self.assertEqual(b"".join(texts), b"\n" + b"\n".join(self.rows))
        self.assertGreater(len(texts), 500)
        self.assertEqual({text[:1] for text in texts}, {b"\n"})

    def test_rows_that_touch_words(self):
        accesses = [(row, kind, int(address, 16)) for row in self.rows
                    for kind, address in re.findall(rb"\| (load|store) (\w{8})=", row)]
        places = {address for _, _, address in accesses}
        self.assertGreater(len(places), 10)
        for first in sorted(places):
            for size in (1, 2, 40, 5000):
                words = range(first & ~3, (first + size + 3) & ~3)
                for kinds in ((b"load",), (b"store",), ()):
                    expected = [row for row, kind, address in accesses
                                if address in words and kind in (kinds or (b"load", b"store"))]
                    self.assertEqual(self.found(chunks.touching(first, first + size, *kinds)),
                                     list(dict.fromkeys(expected)))

    def test_rows_of_a_hart(self):
        log = read_log(self.log)
        for hart in range(4):
            mine = [row for row in self.rows if row.startswith(b"%d " % hart)]
            for first, end in ((0, 1), (699, 701), (5, 1402), (2999, 9999), (0, 9999),
                               (4000, 5000), (3, 3)):
                found = b"".join(chunks.rows_between(log, self.of, hart, first, end))
                self.assertEqual(found, b"".join(b"\n" + row for row in mine[first:end]),
                                 (hart, first, end))
            for most in (1, 10, 1500):
                self.assertEqual(chunks.last_rows(log, self.of, most)[hart],
                                 b"".join(b"\n" + row for row in mine[-most:]))

    def test_the_fault_is_among_the_last_rows(self):
        log = self.record("wild_store", "--seed", "1")
        elf = self.elf("wild_store")
        last = chunks.last_rows(read_log(log), elf, 3)[0]
        self.assertEqual(last.count(b"\n"), 3)
        self.assertRegex(last, rb" \| fault LoadOutside \w{8}\Z")

    def test_patterns_of_numbers(self):
        draw = random.Random(1)
        for _ in range(500):
            low = draw.choice((draw.randrange(1 << 32), draw.randrange(1 << 17)))
            high = min(low + draw.choice((0, 1, 3, 15, 99, 4095, 1 << 20)), (1 << 32) - 1)
            pattern = re.compile(chunks.hexadecimal(low, high))
            for value in (low - 1, low, high, high + 1, draw.randrange(1 << 32),
                          draw.randint(low, high)):
                if 0 <= value < 1 << 32:
                    self.assertEqual(bool(pattern.fullmatch(b"%08x" % value)),
                                     low <= value <= high, (low, high, value))

    def test_a_replay_that_ends_badly_is_refused(self):
        """The rows before it come, and then the program's own line."""
        log = read_log(self.log)
        with self.assertRaises(CompanionError):
            list(chunks.chunks(log.name, self.elf("sort")))

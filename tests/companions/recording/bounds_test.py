"""What companions read is bounded by rows, whatever a log says: logs that nobody recorded, made
field by field."""
import os
import sys
from contextlib import closing

import case
import common
from recordings import A0, A1, A2, A7, ECALL, T0, addi, load, lui

sys.path.insert(0, os.path.join(common.TOP, "tests", "hostile"))
import forge

from companion.why import analysis
from companion.recording import recent
from companion.why.analysis import analysed
from companion.recording.log import At
from companion.recording.recent import LogFile
from companion.recording.trace import read_trace

CODE = 0x10054                  # the first address of a forged program
FOREVER = 0x6f                  # jal zero,0
MOST = 20000                    # rows that are read here


def saved(name, elf, data):
    """The names of a log and of its program."""
    names = common.path(name + ".log"), common.path(name + ".elf")
    for file_name, content in zip(names, (data, elf)):
        common.written(file_name, content)
    return names


def forever(intervals, length, harts=1):
    """A log of harts that jump to themselves, in so many intervals of such a length."""
    elf = forge.program(FOREVER)
    records = []
    for at in range(intervals):
        for hart in range(harts):
            stack = ((2, 0x100000 - 0x10000 * hart), (10, hart), (11, harts))
            records.append(forge.header(hart, at, at * length, CODE, stack))
            last = at == intervals - 1
            records.append(forge.end(hart, (at + 1) * length,
                                     forge.LIMIT if last else forge.LENGTH))
    settings = {"harts": harts, "interval": length, "limit": intervals * length}
    make = (forge.log if harts <= 8
            else lambda *given, **more: forge.log2(*given, later=(2, 0, 0), **more))
    return elf, make(elf, b"".join(records), **settings)


def asking(number, result):
    """A log of a call whose result nobody gave, and of a fault behind it."""
    words = [addi(A7, 0, number), addi(A0, 0, 1), lui(A1, 0x20000), addi(A2, 0, 4),
             ECALL, load(T0, 0)]
    elf = forge.program(*words)
    registers = {2: 0x100000, 11: 1}
    after = {**registers, A7: number, A0: result, A1: 0x20000, A2: 4}
    records = [forge.header(0, 0, 0, CODE, registers.items()), forge.end(0, 5, forge.CALL, result),
               forge.header(0, 1, 5, CODE + 20, after.items()), forge.end(0, 5, 21, 0)]
    return elf, forge.log(elf, b"".join(records))


class BoundsTest(case.Case):
    def setUp(self):
        for module in (recent, analysis):
            for name, rows in (("FIRST_ROWS", MOST), ("MORE_ROWS", MOST)):
                self.addCleanup(setattr, module, name, getattr(module, name))
                setattr(module, name, rows)

    def test_many_rows_in_few_bytes(self):
        """Of both versions, and however many intervals a block of records has."""
        for intervals, length, harts in ((200, 10000, 1), (40, 10000, 8), (20, 10000, 16),
                                         (3, 300000, 1), (3, 100000, 4)):
            log, elf = saved("forever", *forever(intervals, length, harts))
            self.assertLess(os.path.getsize(log), recent.LARGEST_SMALL)
            with closing(LogFile(log)) as source:
                end = source.end(MOST)
                self.assertLessEqual(end.rows(), max(2 * MOST, MOST + length * harts))
                self.assertEqual((source.whole().rows(), end.ends),
                                 (intervals * length * harts, source.whole().ends))
                rows = read_trace(end, elf, most=2 * MOST).rows
                self.assertLessEqual(rows.size, 2 * MOST)
                self.assertEqual(rows.passed + rows.size, end.rows())
            with analysed(log, elf) as crash:
                self.assertLessEqual(crash.rows.size, 2 * MOST)
                self.assertGreater(crash.log.unread, 0)

    def test_a_row_far_back_is_read_with_those_before_it(self):
        log, elf = saved("back", *forever(200, 10000))
        with analysed(log, elf, {"--row": "0:500123"}) as crash:
            self.assertEqual(crash.rows.text(crash.start)[:9], "0 500123 ")
            self.assertLessEqual(crash.rows.size, 2 * MOST)
            self.assertGreaterEqual(crash.rows.row_of(0, 500123), MOST)
        with closing(LogFile(log)) as source:
            for at in (At(0, 2000001), At(1, 0)):
                self.assertRaisesRegex(recent.CompanionError,
                                       f"the log holds no row {at.hart}:{at.count}",
                                       source.end, MOST, at)

    def test_a_call_moves_no_more_than_it_can(self):
        log, elf = saved("write", *asking(64, 0x7fffffff))
        said = self.says("output", log, elf)
        self.assertIn("  0. 4096 bytes to the output", said.replace(",", ""))
        self.assertIn("OUTPUT: 1 write, 4,096 bytes", said)
        self.assertIn("Asked of byte 4095 of write 0",
                      self.says("why", log, elf, "--output", "0:4095"))
        self.refuses(14, "why", log, elf, "--output", "0:4096")
        log, elf = saved("read", *asking(63, 0x7fffffff))
        for word in ("output", "why", "view", "bucket", "race"):
            self.assertEqual(common.companion(word, log, elf)[::2], (0, ""), word)

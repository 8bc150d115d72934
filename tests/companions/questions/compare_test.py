"""zelkuma compare: the first row that isn't the same, beside a plain reading of the rows; waits are
no difference."""
import json
import re
import unittest

import case
import common
from recordings import A0, T0, T1, T2, addi, atomic, branch_unless_equal, load, store

from companion.questions import compare
from companion.questions.waiting import Loops
from companion.questions.ways import Lane


def pcs(log, elf):
    """{hart: the addresses of its rows}"""
    found = {}
    for hart, count, address, *_ in common.rows(log, elf):
        found.setdefault(int(hart), []).append((address, int(count)))
    return found


class CompareTest(case.Case):
    def test_a_log_is_as_itself(self):
        log = self.record("filters", "--seed", "10", "--harts", "4")
        elf = self.elf("filters")
        said = self.says("compare", log, log, elf)
        self.assertTrue(said.startswith("COMPARE: 0 harts of 4 went another way\nENDS\n"), said)

    def test_two_inputs(self):
        logs = []
        for at, text in enumerate((b"some words\nof a text\n", b"some words\nof  a text\n")):
            given = common.written(common.path(f"compared{at}.input"), text)
            logs.append(common.record(f"compared{at}", self.elf("word_count"), "--seed",
                                      "1", "--input", given))
        good, bad = (pcs(log, self.elf("word_count"))[0] for log in logs)
        first = next(at for at, (one, other) in enumerate(zip(good, bad)) if one[0] != other[0])
        said = json.loads(self.says("compare", *logs, self.elf("word_count"), "--json"))
        parted = said["parted"][0]
        self.assertEqual([point["count"] for point in parted["same"]],
                         [good[first - 1][1], bad[first - 1][1]])
        self.assertEqual([point["place"]["address"] for point in parted["other"]],
                         [good[first][0], bad[first][0]])
        loads = [point["row"].rpartition("=")[2] for point in parted["loads"]]
        self.assertNotEqual(*loads)             # the words of the text that aren't the same
        for log, giver, point in zip(logs, parted["givers"], parted["loads"]):
            rows = [" ".join(row) for row in common.rows(log, self.elf("word_count"))]
            calls = [row for row in rows[:rows.index(point["row"])] if " ecall | " in row]
            self.assertEqual(giver, calls[-1])  # the `read` call that brought the text
        said = self.says("compare", *logs, self.elf("word_count"))
        self.assertEqual(
            len(re.findall(r"\n +stored by 0:16 in .*: a read call, byte 14 of the input\n",
                           said)), 2)

    def test_who_had_stored_what_was_loaded(self):
        """Of a fault, and of two locks that are taken in two orders."""
        for name, seeds, words, harts in (("filters", "9 10", ("--harts", "4"), [2, 3, 0, 1]),
                                          ("two_locks", "1 8",
                                           ("--harts", "2", "--limit", "20000"), [0, 1])):
            elf = self.elf(name)
            logs = [self.record(name, "--seed", seed, *words) for seed in seeds.split()]
            said = json.loads(self.says("compare", *logs, elf, "--json"))
            self.assertEqual([each["hart"] for each in said["parted"]], harts)
            for each in said["parted"]:
                for log, loaded, giver in zip(logs, each["loads"], each["givers"]):
                    word = re.search(r"load 0*(\w+)=", loaded["row"])[1]
                    before = common.output("joint", log,
                                           elf).decode().partition(loaded["row"])[0].split("\n")
                    self.assertEqual(giver, ([""] + [line for line in before
                                                     if f"store 000{word}=" in line])[-1])

    def test_refusals(self):
        log = self.record("filters", "--seed", "10", "--harts", "4")
        elf = self.elf("filters")
        short = self.record("filters", "--seed", "10", "--harts", "4", "--log-size", "16384",
                            "--interval", "200", "--sets", "1", "--ways", "1", "--line", "1")
        if "dropped 0" not in common.output("check", short).decode():
            self.assertIn("has lost its beginning", self.refuses_here(14, compare, log, short, elf))
        self.refuses_here(2, compare, log, elf)
        other = self.record("heap", "--seed", "1")
        self.assertIn("program differs", self.refuses(8, "compare", log, other, elf))


S0 = 8
LOAD, LEAVE, AGAIN, STORE_IT, COUNT, SWAP, SWAP_2, LEAVE_2, ADD, OUT, OTHER = range(0x10000,
                                                                                    0x10000 + 44, 4)
WORDS = {LOAD: load(T0, S0), LEAVE: branch_unless_equal(T0, 0, 8),
         AGAIN: branch_unless_equal(T0, T1, -8), STORE_IT: store(T0, S0), COUNT: addi(T2, T2, 1),
         SWAP: atomic(1, T0, S0, T1), SWAP_2: atomic(1, T0, S0, T1),
         LEAVE_2: branch_unless_equal(T0, 0, 8), ADD: atomic(0, T0, S0, T1),
         OUT: addi(A0, 0, 1), OTHER: addi(A0, 0, 2)}


class Code:
    """A program of these words."""

    def word(self, address):
        return WORDS[address]


def ways(good, bad, size, stopped=False):
    """How a hart parts whose rows are at these addresses and come so many at a time: whether, at
    which counts, and whether it waits."""
    lane = Lane(0, Loops(Code()))           # type: ignore[arg-type]
    for begin in range(0, max(len(good), len(bad)), size):
        for way, pcs in ((lane.good, good), (lane.bad, bad)):
            way.add(b"".join(b"\n0 %d %08x x" % (begin + at, pc)
                             for at, pc in enumerate(pcs[begin:begin + size])))
            lane.advance()
    lane.good.ended = lane.bad.ended = True
    lane.bad.stopped = stopped
    lane.advance()
    return lane.parted, lane.good.first, lane.bad.first, lane.waits


class WaysTest(unittest.TestCase):
    def both(self, good, bad, **more):
        """It, which is the same however the rows come, and the other way round."""
        found = {ways(good, bad, size, **more) for size in (1, 2, 3, 7, 1000)}
        self.assertEqual(len(found), 1, found)
        if not more:
            self.assertEqual({ways(bad, good, size) for size in (1, 3, 1000)},
                             {(one[0], one[2], one[1], False) for one in found})
        return found.pop()

    def test_a_hart_that_waited_longer_went_no_other_way(self):
        spin = [LOAD, AGAIN]
        lock = [SWAP, LEAVE]
        for begin, wait, end in (([OTHER, *spin], spin, [OUT]),
                                 ([SWAP, LEAVE], [*spin, *spin, *lock], [OUT]),
                                 (lock, lock, [OUT, STORE_IT])):
            for rounds in (1, 2, 40):
                for other in (0, 1, 3):
                    good = begin + wait * other + end
                    bad = begin + wait * rounds + end
                    self.assertEqual(self.both(good, bad), (False, len(good), len(bad), False))

    def test_a_copy_of_the_lock_behind_it(self):
        """A compiler puts the first try before the loop. What is loaded for the branch is loaded
        again; else it is a difference."""
        self.assertEqual(self.both([SWAP, LEAVE, OUT], [SWAP, LEAVE, *[LOAD, AGAIN] * 9, SWAP_2,
                                                        LEAVE_2, OUT]), (False, 3, 23, False))
        self.assertEqual(self.both([SWAP, LEAVE, OUT], [SWAP, LEAVE, LOAD, AGAIN, OUT]),
                         (True, 2, 2, False))

    def test_other_loops_are_a_difference(self):
        for loop in ([LOAD, STORE_IT, AGAIN], [LOAD, COUNT, AGAIN], [OUT, AGAIN], [ADD, AGAIN]):
            self.assertEqual(self.both(loop + [OTHER], loop * 3 + [OTHER]),
                             (True, len(loop), len(loop), False))

    def test_a_difference_behind_a_wait(self):
        begin = [COUNT, LOAD, AGAIN]
        wait = [LOAD, AGAIN]
        self.assertEqual(self.both(begin + [OUT, LEAVE, OUT],
                                   begin + wait * 5 + [OUT, LEAVE, OTHER]), (True, 5, 15, False))

    def test_a_wait_up_to_the_limit(self):
        begin = [COUNT, LOAD, AGAIN]
        wait = [LOAD, AGAIN]
        for loads in 0, 1:
            self.assertEqual(self.both(begin + [OUT], begin + wait * 50 + [LOAD] * loads,
                                       stopped=True), (True, 3, 103, True))

    def test_one_that_ends_sooner(self):
        self.assertEqual(self.both([OUT, OTHER], [OUT]), (True, 1, 1, False))
        self.assertEqual(self.both([OUT], [OUT]), (False, 1, 1, False))

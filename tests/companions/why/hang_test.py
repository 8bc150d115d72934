"""What `why` says of harts that came to their limit: its loop, since when, and what never happened,
against the rows."""
import collections
import re

import case
import common
from recordings import (A0, DATA, EXIT, T0, T1, T2, addi, atomic, branch_unless_equal, elf_of,
                        load, lui, store)

from companion.why import analysis
from companion.why.analysis import analysed
from companion.why.hang import hang_lines

S0 = 8
S1 = 9
S2 = 18
SWAP = 1
LR = 2
SC = 3
HANGS = "hang_width", "hang_wakeup", "hang", "lock_left_held"


def slli(to, base, bits):
    return bits << 20 | base << 15 | 1 << 12 | to << 7 | 0x13


def add(to, one, other, is_less=0):
    return is_less << 30 | other << 20 | one << 15 | to << 7 | 0x33


def sub(to, one, other):
    return add(to, one, other, 1)


def rows_of(log, elf):
    """{hart: [(count, address)] of its rows}"""
    found = {}
    for hart, count, address, *_ in common.rows(log, elf):
        found.setdefault(int(hart), []).append((int(count), int(address, 16)))
    return found


class HangTest(case.Case):
    def hang(self, name, *options):
        log, elf = self.crash(name)
        text = self.says("why", log, elf, *options)
        return text[text.index("\nHANG"):text.index("\nCALLS")]

    def test_a_counter_of_another_width(self):
        said = self.hang("hang_width")
        self.assertIn("hart 0 goes round since count 51,660: 8,340 rows, 14 rounds\n", said)
        first = said[said.index("never went the other way"):].split("\n")[1:6]
        self.assertIn("hang_width.c:92   while (receiver.stored != sender.next) {", first[0])
        self.assertIn("00010500 ffb792e3 bne a5,s11,000104e4, 99 times, last at count 59,972",
                      first[1])
        self.assertIn("a5 is 00000000, from sender.next", first[2])
        self.assertIn("stored last in prepare hang_width.c:43 (hart 0 at count 51,474)", first[2])
        self.assertIn("s11 is 00000100, from receiver.stored, "
                      "stored last in receive hang_width.c:69 (hart 0 at count 51,647)", first[3])
        stopped = said[said.index("never again:"):].split("\n")
        self.assertEqual(stopped[1].strip(), "256 times, last at count 51,647: "
                         "receive hang_width.c:69   receiver.stored++;")
        self.assertRegex(said,
                         r"still change:\n(.*\n)* +00019608 \(line_is_full\), now 0000000[01], in")

    def test_a_word_that_two_harts_change_has_one_value_now(self):
        count = [load(T1, S0), addi(T1, T1, 1), store(T1, S0), branch_unless_equal(S0, 0, -12)]
        elf = common.written(common.path("both.elf"), elf_of([lui(S0, DATA), *count]))
        log = common.record("both", elf, "--seed", "3", "--harts", "2", "--limit", "4000")
        told = re.findall(r"^ +00020000, now (\w+), in ", self.says("why", log, elf), re.M)
        last = [row[-1] for row in common.rows(log, elf) if row[-1].startswith("00020000=")][-1]
        self.assertEqual(told, [last[9:]] * 2)

    def test_a_line_that_stopped_is_told_with_its_last_row(self):
        """A line can store, and run again without it."""
        told = re.compile(r"^ +([\d,]+) times, last at count ([\d,]+): \w+ (\S+) ", re.M)
        for name in ("hang_width", "hang"):     # of one hart
            log, elf = self.crash(name)
            with analysed(log, elf) as facts:
                pcs = [facts.pc_of(n) for n in range(1, facts.rows.size + 1)]
                facts.places.fetch(pcs)
                lines = list(map(facts.places.line, pcs))
                for times, count, place in told.findall(self.hang(name, "--more")):
                    mine = [n for n, line in enumerate(lines, 1) if line == place]
                    self.assertIn(int(count.replace(",", "")),
                                  map(facts.rows.count_of, mine), place)
                    runs = collections.Counter(pcs[n - 1] for n in mine)
                    self.assertIn(int(times.replace(",", "")), runs.values(), place)
                    often = [n for n in mine if runs[pcs[n - 1]] >= 3]
                    self.assertEqual(int(count.replace(",", "")),
                                     facts.rows.count_of(often[-1]), place)

    def test_two_harts_that_wait(self):
        said = self.hang("hang_wakeup")
        self.assertEqual(len(re.findall(r"hart [01] goes round", said)), 2)
        self.assertIn("from giver.rung, stored last in sleep_until_rung hang_wakeup.c:34 (hart 0",
                      said)
        self.assertIn(", over 00000001 of ring hang_wakeup.c:27 (hart 1", said)
        self.assertIn("the other value is 0", said)
        self.assertIn("It stores nothing.", said)

    def test_who_holds_the_locks(self):
        log = self.record("two_locks", "--seed", "8", "--harts", "2", "--limit", "20000")
        said = self.says("why", log, self.elf("two_locks"))
        self.assertIn("a5 is 00000001, from 000112f0, stored in 0001018c (hart 1 at count 107); "
                      "later in 0001028c (hart 0 at", said)
        self.assertIn("a5 is 00000001, from 000112f8, stored in 0001025c (hart 0 at count 92); "
                      "later in 000101bc (hart 1 at", said)

    def test_a_spinners_own_exchange_gives_no_value(self):
        """A hart took the lock before the log's first row; since then the other one puts 1 in the
        place of 1."""
        elf = self.crash("lock_left_held")[1]
        log = common.record("held", elf, "--seed", "1", "--harts", "2", "--limit", "800000",
                            "--log-size", "16384", "--interval", "2000")
        said = self.says("why", log, elf)
        self.assertRegex(said, r"a5 is 00000001, from lock, stored before the log; "
                         r"in acquire .* an atomic stored it as it was\n")
        self.assertNotIn("stored last in", said)
        self.assertNotIn("stored it in acquire", said)

    def test_nor_is_a_pair_of_load_reserved_and_store_conditional(self):
        """Of a lock that is exchanged by two instructions: the hart that took it stored it last."""
        elf = common.path("exchange.elf")
        with open(elf, "wb") as file:
            file.write(elf_of([lui(S0, DATA), addi(T1, 0, 1), atomic(LR, T0, S0),
                               atomic(SC, T2, S0, T1), branch_unless_equal(T2, 0, -8),
                               branch_unless_equal(T0, 0, -12), 0x6f]))
        log = common.record("exchange", elf, "--seed", "3", "--harts", "2", "--limit", "2000")
        said = self.says("why", log, elf)
        self.assertIn("t0 is 00000001, from 00020000, stored in 00010080 (hart 1 at count 3); "
                      "later in 00010080 (hart", said)

    def flags(self, options, *rows):
        """HANG and FROM BEFORE of a hart that loads the first word until it isn't 0, after some
        other rows."""
        elf = common.written(common.path("flags.elf"), elf_of(
                                 [lui(S0, DATA), *rows, load(T1, S0), branch_unless_equal(T1, 0, 8),
                                  branch_unless_equal(S0, 0, -8), *EXIT], b"\0"))
        log = common.record("flags", elf, "--seed", "1", "--interval", "2000", "--limit", "30000")
        return self.says("why", log, elf, *options)

    def test_what_stands_before_the_rows_is_not_denied(self):
        """The word was stored before the rows that are read, whether the log's end holds that store
        or not."""
        store_it = store(0, S0)
        self.assertIn("t1 is 00000000, from 00020000, stored last in", self.flags((), store_it))
        for rows in ("1000", "14000"):
            said = self.flags(("--rows", rows), store_it)
            self.assertIn("t1 is 00000000, from 00020000, zero from the start, "
                          "or stored before the rows that were read", said)
            self.assertNotIn("never stored", said)
            self.assertRegex(said, r"\nOnly the last [\d,]+ rows of the log were read: ")

    def bounded(self, log, elf, first=1000, more=5000):
        """HANG, if so few rows are read."""
        before = analysis.FIRST_ROWS, analysis.MORE_ROWS
        analysis.FIRST_ROWS = first
        analysis.MORE_ROWS = more
        try:
            with analysed(log, elf) as facts:
                said = hang_lines(facts, False)
        finally:
            analysis.FIRST_ROWS, analysis.MORE_ROWS = before
        self.assertLess(facts.rows.size, 20000)
        return "\n".join(said)

    def test_what_stored_before_the_rows_is_looked_for(self):
        """The word's lowest byte was stored before another one of it. In between, an atomic stored
        what was there. A store-conditional stores 0, and puts 0 into its register as well."""
        names = common.path("flags.log"), common.path("flags.elf")
        conditional = [addi(T0, 0, 5), store(T0, S0), atomic(LR, T1, S0), atomic(SC, T2, S0, 0)]
        for rows, count in (([store(0, S0)], 1), ([store(0, S0), store(T1, S0, 1, 0)], 1),
                            ([store(T1, S0), store(0, S0), atomic(SWAP, 0, S0, 0)], 2),
                            (conditional, 4)):
            self.flags((), *rows)
            self.assertIn("t1 is 00000000, from 00020000, stored before the rows that were read, "
                          f"by hart 0 at count {count} in ", self.bounded(*names))
        self.flags(())
        said = self.bounded(*names)
        self.assertIn("zero from the start, or stored before the rows", said)
        self.assertIn("      s0 is 00020000\n", said)      # which no row that was read wrote

    def test_a_deadlock_from_before_the_rows(self):
        """Who holds the locks is the same, however few rows are read."""
        words = ("--seed", "8", "--harts", "2", "--limit", "60000", "--interval", "2000")
        log = self.record("two_locks", *words)
        elf = self.elf("two_locks")
        found = [re.findall(r"waits for (\w+) of (hart \d \(\w+\))", text)
                 for text in (self.says("why", log, elf), self.bounded(log, elf))]
        self.assertEqual(found[0],
                         [("000112f0", "hart 1 (0001018c)"), ("000112f8", "hart 0 (0001025c)")])
        self.assertEqual(found[0], found[1])

    def test_an_atomic_that_stores_what_was_there_is_a_store(self):
        said = self.flags((), atomic(SWAP, 0, S0, 0))
        self.assertIn("t1 is 00000000, from 00020000, zero from the start; "
                      "in 00010078 (hart 0 at count 1) an atomic stored it", said)
        self.assertNotIn("never stored", said)
        self.assertIn("t1 is 00000000, from 00020000, zero from the start: never stored",
                      self.flags(()))

    def test_a_deadlock_is_one_sentence(self):
        self.assertTrue(self.hang("hang_accounts").startswith(
            "\nHANG\n  Deadlock: "
            "hart 0 (close_month hang_accounts.c:73) waits for accounts[0].lock of hart 1 "
            "(acquire_both hang_accounts.c:44), "
            "hart 1 (acquire_both hang_accounts.c:45) waits for accounts[1].lock of hart 0 "
            "(close_month hang_accounts.c:71).\n"))
        said = self.hang("hang_kitchen").split("\n")[2]
        self.assertEqual(re.findall(r"hart (\d) \(take hang_kitchen.c:38\) waits for tools\S* of "
                                    r"hart (\d) ", said),
                         [(str(hart), str((hart + 1) % 5)) for hart in range(5)])

    def test_who_gives_its_lock_back_again_is_in_no_deadlock(self):
        """Two harts that take turns take their locks, try each other's, and give theirs back, for
        ever."""
        elf = common.written(common.path("polite.elf"), elf_of([
            lui(S0, DATA), slli(T0, A0, 6), add(S1, S0, T0), addi(T1, 0, 64), sub(T1, T1, T0),
            add(S2, S0, T1), addi(T2, 0, 1),
            atomic(SWAP, T0, S1, T2), atomic(SWAP, T0, S2, T2), branch_unless_equal(T0, 0, 8), 0x6f,
            store(0, S1), branch_unless_equal(T2, 0, -20)]))
        turns = common.written(common.path("turns"), bytes((0, 1)) * 2000)
        log = common.record("polite", elf, "--harts", "2", "--limit",
                            "1500", schedule=f"book:{turns}")
        said = self.says("why", log, elf)
        self.assertRegex(said, r"\n  hart 0 \(\w+\) waits for 00020040 of hart 1 ")
        self.assertNotIn("Deadlock", said)

    def test_a_lock_that_its_hart_holds_itself(self):
        said = self.hang("lock_left_held")
        self.assertIn("  Deadlock: hart 0 (transfer lock_left_held.c:23) waits for lock which it "
                      "holds itself (transfer lock_left_held.c:23).\n"
                      "  hart 1 (total lock_left_held.c:35) waits for lock of hart 0 (transfer "
                      "lock_left_held.c:23).\n", said)
        self.assertNotIn("waits for", self.hang("hang_wakeup"))

    def test_a_run_that_ends_has_none(self):
        log = self.record("counter", "--seed", "1", "--harts", "2")
        self.assertNotIn("HANG", self.says("why", log, self.elf("counter")))

    def test_a_loop_that_ends_in_time_is_none(self):
        """The run is stopped in the inner of two loops, which ended in time before: the outer one
        is told."""
        log, elf = self.crash("hang_width")
        with analysed(log, elf) as facts:
            self.assertIn("checksum_of", {facts.places.function(facts.rows.codes[at].pc)
                                          for at in facts.loops[0].places})

    def test_stays_and_exits_are_those_of_the_rows(self):
        for name in HANGS:
            log, elf = self.crash(name)
            with analysed(log, elf) as facts:
                rows = rows_of(log, elf)
                self.assertTrue(facts.loops)
                for loop in facts.loops:
                    self.check_loop(facts, loop, rows[loop.hart])

    def check_loop(self, facts, loop, rows):
        since = facts.rows.count_of(loop.first)
        stay = [pc for count, pc in rows if count >= since]
        before = [pc for count, pc in rows if count < since]
        self.assertEqual(set(stay), {facts.rows.codes[at].pc for at in loop.places})
        self.assertNotIn(before[-1], set(stay))
        self.assertEqual(loop.rounds, min(stay.count(pc) for pc in set(stay)))
        ways = {}
        for pc, following in zip(stay, stay[1:]):
            ways.setdefault(pc, set()).add(following)
        for item in loop.exits:
            ins = facts.rows.code_of(item.row)
            other = {ins.pc + 4, ins.leads} - ways[ins.pc]
            self.assertEqual(len(other), 1, facts.where(item.row))
            self.assertEqual(item.leads_out, not other & set(stay))
            self.assertEqual(item.times, stay.count(ins.pc))
        for row, times in loop.stopped:
            pc = facts.rows.code_of(row).pc
            self.assertEqual((before.count(pc), stay.count(pc)), (times, 0))

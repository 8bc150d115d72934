"""Which branch decided that a row was reached, on a program that is written here by its words."""

import case
import common
from recordings import (A0, DATA, EXIT, T0, T1, T2, addi, branch_unless_equal, elf_of, jump_to,
                        load, lui, pc_of, store)

from companion.why.control import Control, other_side
from companion.recording.elf import Elf
from companion.recording.log import read_log
from companion.recording.trace import Trace, read_trace

RA = 1
# T0 is the data's address. Each place is told by its number; the words after `#` are what the test
# asks of it.
PROGRAM = [
    lui(T0, DATA),                              # 0
    addi(T1, 0, 3),                             # 1
    # 2: the loop begins; decided by its branch at 10, but for the first time
    addi(A0, 0, 0),
    branch_unless_equal(T1, T2, 12),            # 3: to 6
    addi(A0, 0, 7),                             # 4
    store(A0, T0, 4),                           # 5
    store(T1, T0),                              # 6: reached in any case within a round
    0x01c000ef,                                 # 7: calls 14
    addi(T2, 0, 2),                             # 8
    addi(T1, T1, -1),                           # 9
    branch_unless_equal(T1, 0, -32),            # 10: to 2
    load(A0, T0, 4),                            # 11: got the store at 5
    *EXIT,                                      # 12, 13
    branch_unless_equal(T1, T2, 8),             # 14: the called function; to 16
    store(T2, T0, 8),                           # 15
    jump_to(RA),                                # 16
]


class ControlTest(case.Case):
    trace: Trace
    control: Control

    @classmethod
    def setUpClass(cls):
        elf = common.written(common.path("control.elf"), elf_of(PROGRAM))
        cls.trace = read_trace(read_log(common.record("control", elf, "--seed", "1")), elf)
        cls.control = Control(cls.trace, Elf(elf))

    def rows(self, place):
        """The rows of a place of the program."""
        return [n for n in range(1, self.trace.rows.size + 1)
                if self.trace.rows.code_of(n).pc == pc_of(place)]

    def decided_by(self, row):
        """The place of the branch that decided that a row was reached, or None."""
        found = self.control.before(row)
        return (self.trace.rows.code_of(found).pc - pc_of(0)) // 4 if found else None

    def test_the_program_does_what_the_test_says(self):
        self.assertEqual([len(self.rows(place)) for place in (2, 5, 6, 15, 11)], [3, 1, 3, 1, 1])

    def test_a_row_that_is_reached_in_any_case(self):
        first, second, third = self.rows(6)
        self.assertEqual([self.decided_by(row) for row in (first, second, third)], [None, 10, 10])
        self.assertEqual(self.control.before(second), self.rows(10)[0])

    def test_a_row_behind_a_branch(self):
        self.assertEqual(self.control.before(self.rows(5)[0]), self.rows(3)[1])

    def test_a_row_of_a_function(self):
        """The branch of the function that is called, or else what decided of the call: what it
        returned from is passed."""
        self.assertEqual(self.decided_by(self.rows(15)[0]), 14)
        self.assertEqual(self.decided_by(self.rows(14)[2]), 10)
        self.assertEqual(self.decided_by(self.rows(8)[2]), 10)

    def test_a_row_behind_the_loop(self):
        self.assertIsNone(self.decided_by(self.rows(11)[0]))

    def test_a_branch_past_the_store_that_a_load_got(self):
        """In the last round the branch went past the store, and so the load got that of the round
        before."""
        self.assertEqual(self.control.kept(self.rows(11)[0], self.rows(5)[0]), self.rows(3)[2])
        self.assertEqual(self.control.kept(self.rows(11)[0], self.rows(6)[2]), 0)

    def test_the_other_side(self):
        branch = self.trace.rows.code_of(self.rows(3)[0])
        self.assertEqual((branch.leads, other_side(branch, pc_of(6)), other_side(branch, pc_of(4))),
                         (pc_of(6), pc_of(4), pc_of(6)))

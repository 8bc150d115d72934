"""zelkuma whatif: a row that is done otherwise changes what follows alone, and a row that is given
its own value changes nothing."""
import json
import os
import random

import case
import common
from recordings import (A0, A7, DATA, ECALL, T0, T1, addi, branch_unless_equal, elf_of, load,
                        lui, pc_of, store)

from companion.call.errors import CompanionError
from companion.orders import whatif
from companion.orders.patch import Execution, NewCode, unnamed_registers
from companion.recording.elf import Elf
from companion.recording.instruction import Instruction
from companion.recording.log import asked_row
from companion.recording.opened import opened
from companion.recording.row import rows_of

PROGRAMS = 6  # of tests/crashes that fault
ROWS = 3  # with $ZELKUMA_ROWS so many rows of 20
LEFT_OUT = "jal", "auipc", "ecall", "amo", "lr.", "sc."
END = addi(A7, 0, 93), addi(A0, T1, 0), ECALL


def lines_of(turns):
    """What each turn of each hart accessed, but for turns that end with an interval."""
    return {hart: [whatif.ACCESS.findall(line) for line in lines if not whatif.is_end(line)]
            for hart, lines in turns.lines.items()}


class WhatIfTest(case.Case):
    def small(self, words, *options):
        """LOG, ELF and BOOK of some words."""
        elf = common.written(common.path("small.elf"), elf_of(words))
        return common.record("small", elf, "--seed", "1", *options), elf, common.path("small.book")

    def told(self, log, elf, book, row, *action):
        return json.loads(self.says("whatif", log, elf, book, row, *action, "--json"))

    def test_the_example(self):
        """The store that cleared the header is needed for the crash; the first suspect of `why`
        isn't."""
        log = self.record("heap", "--seed", "1")
        elf = self.elf("heap")
        book = log[:-len("log")] + "book"
        said = self.says("whatif", log, elf, book, "0:33817", "--skip")
        self.assertEqual(said, "without the store of 0:33817 keep heap.c:75, execution 123 of 215\n"
                         "before it the accesses of all harts are those of LOG, in 10,073 turns\n"
                         "LOG: LoadOutside tidy heap.c:106, hart 0 after 18,711 turns\n"
                         "now: it ends well\n")
        found = self.told(log, elf, book, "0:50351", "--skip")
        self.assertEqual((found["is_sound"], found["was"]), (True, found["now"]))
        found = self.told(log, elf, book, "0:50150", "--turn")
        self.assertEqual((found["execution"], found["now"]["reason"], found["now"]["turns"]),
                         (319, "LoadOutside", 14944))

    def test_each_action_by_hand(self):
        """The exit code is what the changed row makes it."""
        loop = [lui(8, DATA), addi(T0, 0, 5), addi(T1, T1, 3), store(T1, 8), load(T1, 8),
                addi(T0, T0, -1), branch_unless_equal(T0, 0, -16), *END]
        log, elf, book = self.small(loop)
        rows = list(rows_of(log, elf))
        for index, number, action, code in ((2, 2, ("--set", "100"), 109), (3, 3, ("--skip",), 12),
                                            (4, 5, ("--set", "-1"), 0xffffffff),
                                            (6, 2, ("--turn",), 6), (5, 3, ("--set", "9"), 36),
                                            (6, 5, ("--turn",), None)):
            row = [row for row in rows if row.pc == pc_of(index)][number - 1]
            with self.subTest(f"{index} {action}"):
                status = self.status(log, elf, book, row, action)
                self.assertEqual(status, (code, True))

    def status(self, log, elf, book, row, action):
        """The exit code with a row done otherwise, None if it doesn't end, and whether it is
        sound."""
        given = {action[0]: action[1] if len(action) > 1 else ""}
        with opened(log, elf, {}) as found:
            whole = found.log(whatif.MOST_ROWS)
            at = asked_row(f"{row.hart}:{row.ic}")
            question = whatif.question_of(found, whole, at, given)
            data = whatif.patched(found.elf, question.done.code,
                                  NewCode(question.done, whatif.registers_for(whole, found)).words)
            old = whatif.Turns(whole, elf, common.content(book))
            with whatif.Scratch() as folder, whatif.Quick(folder) as quick:
                options = {**whatif.options_of(found, whole, question.times, ""), "--limit": "3000"}
                made, name = whatif.record_changed(quick, data, options, book)
                new = whatif.Turns(made, name, common.content(os.path.join(folder, "book")))
                code = made.ends[0].value if made.ends[0].reason != "limit" else None
                return code, whatif.compare(old, new, at).is_sound

    def test_its_own_value_changes_nothing(self):
        """Rows by chance, of all kinds that can be set: each access of each hart is LOG's, to the
        end."""
        draw = random.Random(5)
        refused = tried = 0
        programs, few = ((20, int(os.environ["ZELKUMA_ROWS"]) // 20) if "ZELKUMA_ROWS" in os.environ
                         else (PROGRAMS, ROWS))
        for name in draw.sample(sorted(name for name, crash in common.crashes().items()
                                       if crash.ends == "10"), programs):
            log, elf = common.crash(name)
            book = log[:-len("log")] + "book"
            rows = [row for row in rows_of(log, elf)
                    if row.register and not row.text.startswith(LEFT_OUT)]
            with opened(log, elf, {}) as found:
                whole = found.log(whatif.MOST_ROWS)
                old = whatif.Turns(whole, elf, common.content(book))
                for row in draw.sample(rows, few):
                    tried += 1
                    place = f"{row.hart}:{row.ic}"
                    with self.subTest(f"{name} {place}"), whatif.Scratch() as folder, \
                            whatif.Quick(folder) as quick:
                        try:
                            at = asked_row(place)
                            question = whatif.question_of(found, whole, at,
                                                          {"--set": f"{row.result:08x}"})
                            code = NewCode(question.done, whatif.registers_for(whole, found))
                        except CompanionError:
                            refused += 1
                            continue
                        data = whatif.patched(found.elf, question.done.code, code.words)
                        made, its = whatif.record_changed(
                            quick, data, whatif.options_of(found, whole, question.times, ""), book)
                        new = whatif.Turns(made, its, common.content(os.path.join(folder, "book")))
                        self.assertTrue(whatif.compare(old, new, at).is_sound)
                        self.assertEqual(lines_of(new), lines_of(old))
        self.assertGreater(tried, 15)
        self.assertLess(refused, tried / 10)
        print(f"{refused} of {tried} refused", end=" ") if "ZELKUMA_ROWS" in os.environ else None

    def test_what_differs_before_the_row_is_unsound(self):
        """The program looks at its own code: the patch changes it."""
        words = [lui(8, pc_of(0)), addi(8, 8, pc_of(0) & 0xfff), load(T1, 8, 16), lui(9, DATA),
                 addi(T0, 0, 1), store(T0, 9), *END]
        log, elf, book = self.small(words)
        row = next(row for row in rows_of(log, elf) if row.pc == pc_of(4))
        status, said, err = common.companion("whatif", log, elf, book,
                                             f"{row.hart}:{row.ic}", "--set", "1")
        self.assertEqual((status, err), (16, ""))
        self.assertIn("UNSOUND: the runs differ before it", said)

    def test_intervals_are_no_difference(self):
        """They end turns in LOG, and not in the new run."""
        loop = [addi(T0, 0, 50), *[addi(T1, T1, 3)] * 20, addi(T0, T0, -1),
                branch_unless_equal(T0, 0, -84), load(T1, 0)]
        log, elf, book = self.small(loop, "--interval", "7")
        row = [row for row in rows_of(log, elf) if row.pc == pc_of(4)][20]
        found = self.told(log, elf, book, f"{row.hart}:{row.ic}", "--set",
                          f"{row.result:08x}", "--names", elf)
        self.assertTrue(found["is_sound"])
        self.assertEqual((found["was"], found["was"]["turns"]), (found["now"], 1))

    def test_one_free_register(self):
        """The count is taken off and added again; the code's other registers are all named."""
        named = [addi(each, each, 0) for each in range(1, 32) if each != 25]
        loop = [addi(T0, 0, 9), addi(T1, T1, 3), lui(8, DATA), store(T1, 8), addi(T0, T0, -1),
                branch_unless_equal(T0, 0, -16), *END]
        log, elf, book = self.small([*named, *loop])
        self.assertEqual(unnamed_registers(Elf(elf)), [25])
        at = pc_of(len(named) + 1)
        row = [row for row in rows_of(log, elf) if row.pc == at][4]
        self.assertEqual(self.status(log, elf, book, row, ("--set", "50")), (62, True))

    def test_refusals(self):
        log = self.record("heap", "--seed", "1")
        elf = self.elf("heap")
        book = log[:-len("log")] + "book"
        for status, words, asked in (
                (2, "one of --skip, --turn, --set", ["0:5"]),
                (2, "one of --skip", ["0:5", "--skip", "--turn"]),
                (14, "no row 0:99999999", ["0:99999999", "--skip"]),
                (2, "--skip is for a store", ["0:50150", "--skip"]),
                (2, "--turn is for a branch", ["0:33817", "--turn"]),
                (2, "--set is for a row that", ["0:33817", "--set", "1"]),
                (4, "has no nothing", ["0:1", "--set", "nothing"]),
                (2, "has to be HART:COUNT", ["5", "--skip"])):
            with self.subTest(words):
                self.assertIn(words, self.refuses(status, "whatif", log, elf, book, *asked))
        other = self.record("heap", "--seed", "1", "--limit", "500")
        self.refuses(17, "whatif", log, elf, other[:-len("log")] + "book", "0:33817", "--skip")
        named = [addi(each, each, 0) for each in range(1, 32)]
        self.assertIn("names each register",
                      self.refuses(2, "whatif", *self.small([*named, *END]), "0:3", "--set", "1"))
        late = common.record("late", elf, "--seed", "1", "--log-size", "16384", "--interval", "500",
                             "--sets", "1", "--ways", "1")
        self.assertIn("LOG has to hold its whole run",
                      self.refuses(2, "whatif", late, elf, common.path("late.book"),
                                   "0:62000", "--skip"))


class NewCodeTest(case.Case):
    def test_a_count_that_takes_too_many_steps(self):
        code = Instruction(0, b"00010074 00130313 addi t1,t1,1")
        self.assertEqual(len(NewCode(Execution(code, 2047, ()), [25]).steps), 1)
        self.assertRaises(CompanionError, NewCode, Execution(code, 2047 * 17, ()), [25])
        self.assertRaises(CompanionError, NewCode, Execution(code, 5, ((2, 7),)), [25])

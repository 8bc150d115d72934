"""zelkuma output, and `why --output`: what the guest wrote, whole or with what isn't known, and
from where a byte came."""
import re
import subprocess

import case
import common
from companion.recording.log import SystemCall
from companion.recording.stacks import BOTTOM
from companion.why.output import Found, Write, find_text
from recordings import (A0, A1, A2, A7, DATA, ECALL, EXIT, FIRST, T0, T1, addi,
                        branch_unless_equal, elf_of, load, lui, store)

READ = 63
WRITE = 64


def call(number, stream, address, size):
    return [addi(A7, 0, number), addi(A0, 0, stream), lui(A1, address + 0x800),
            addi(A1, A1, address & 0xfff), addi(A2, 0, size), ECALL]


def texts(said):
    """The texts of the writes, put together; what isn't known stands in brackets."""
    lines = re.findall(r"^ *\d+\. .* to .*, in .*\n {5}(.*)\n {5}\d+ \d+ ", said, re.M)
    return "".join(re.sub(r"'((?:[^'\\]|\\.)*)'",
                          lambda found: str(found[1]).encode().decode("unicode_escape"), line)
                   for line in lines)


class OutputTest(case.Case):
    def recorded(self, name, elf, *options, given=b""):
        """The log of a program, and what it wrote."""
        log = common.path(name + ".log")
        given_file = common.path(name + ".input")
        common.written(given_file, given)
        done = subprocess.run([common.PROGRAM, "record", "--format", "2", "--seed", "1", "--input",
                               given_file, *options, elf, log, common.path(name + ".book")],
                              stdout=subprocess.PIPE, stderr=subprocess.DEVNULL, check=False)
        return log, done.stdout.decode("latin-1")

    def words(self, name, words):
        elf = common.written(common.path(name + ".elf"), elf_of(words, b"of the file\n"))
        return elf

    def test_it_is_what_the_guest_wrote(self):
        cases = [(name, self.elf(name), options) for name, options in
                 (("counter", ("--harts", "2")), ("wild_store", ()), ("word_count", ()))]
        cases += [(name, common.crashes()[name].elf, ())
                  for name in ("wrong_total", "wrong_order", "wrong_price", "wrong_date")]
        for name, elf, options in cases:
            log, written = self.recorded(name, elf, *options, given=b"three little words\n")
            said = self.says("output", log, elf)
            self.assertEqual(texts(said), written, name)
            self.assertTrue(written)
            self.assertIn(f", {len(written):,} bytes\n", said)

    def test_each_row_is_one_of_the_log(self):
        log, elf = self.crash("wrong_order")
        rows = re.findall(r"^ {5}(\d+ \d+ .* ecall .*)$", self.says("output", log, elf), re.M)
        self.assertEqual(len(rows), 24)
        self.assertLessEqual(set(rows), set(common.output("joint", log, elf).decode().split("\n")))

    def test_calls_are_told(self):
        log, elf = self.crash("wrong_total")
        self.assertIn("  0. 68 bytes to the output, in system_call machine.h:15  <  write_bytes "
                      "machine.h:30  <  write_all machine.c:6  <  print_line wrong_total.c:92\n",
                      self.says("output", log, elf))

    def test_what_is_not_known_is_told_so(self):
        """Eight bytes are read and written as they came; one of their words is loaded before the
        second write."""
        elf = self.words("echo", call(READ, 0, DATA, 8) + call(WRITE, 1, DATA, 12) +
                         [lui(T0, DATA), load(T1, T0)] + call(WRITE, 2, DATA, 12) + list(EXIT))
        log, written = self.recorded("echo", elf, given=b"unheard!")
        self.assertEqual(written, "unheard!ile\n")
        said = self.says("output", log, elf)
        self.assertEqual(texts(said), "(8 unknown) ile\nunhe (4 unknown) ile\n")
        self.assertIn("1. 12 bytes to err, in ", said)
        self.assertIn("OUTPUT: 2 writes, 24 bytes, of which 12 aren't known\n", said)

    def test_what_was_stored_before_the_rows_is_not_as_the_file_has_it(self):
        """Most rows of the one interval are passed by, and so is the store of the first word."""
        count = [lui(T0, DATA), addi(T1, 0, 200), store(T1, T0), addi(T1, T1, -1),
                 branch_unless_equal(T1, 0, -4)]
        elf = self.words("passed", count + call(WRITE, 1, DATA, 8) + list(EXIT))
        log, written = self.recorded("passed", elf)
        self.assertEqual((written, texts(self.says("output", log, elf))), ("\xc8\0\0\0he f",) * 2)
        said = self.says("output", log, elf, "--rows", "20")
        self.assertEqual(texts(said), "(8 unknown)")
        self.assertIn(" to the output, in ", said)

    def test_calls_that_fail_wrote_nothing(self):
        elf = self.words("fails", call(WRITE, 7, DATA, 4) + call(WRITE, 1, DATA, 2) + list(EXIT))
        log, written = self.recorded("fails", elf)
        self.assertEqual((written, texts(self.says("output", log, elf))), ("of", "of"))

    def test_a_log_without_its_front(self):
        log, _ = self.recorded("small", self.elf("wild_store"), "--log-size", "16384", "--interval",
                               "500", "--sets", "1", "--ways", "1", "--line", "1")
        self.assertIn("earlier writes are lost", self.says("output", log, self.elf("wild_store")))

    def test_refusals(self):
        log, elf = self.crash("wrong_total")
        for byte, status in (("0:68", 14), ("4:0", 14), ("no such text", 14), ("", 2),
                             ("9" * 20 + ":0", 2)):
            self.refuses(status, "why", log, elf, "--output", byte)

    def test_calls_of_a_library_are_passed(self):
        """The place that called printf is told, whatever printf called."""
        said = self.says("output", *self.crash("libc_prices"))
        self.assertIn("put machine.c:38  <  print_order libc_prices.c:81\n", said)
        self.assertNotIn("printf", said)

    def test_a_text_in_pieces(self):
        writes = [Write(at, SystemCall(0, at, WRITE, 0, len(data), 0), "", stream, list(data),
                        BOTTOM) for at, (stream, data)
                  in enumerate([(1, b"one tw"), (2, b"two"), (1, b"o"), (1, b" two"), (1, b"")])]
        writes[2].data.append(None)
        self.assertEqual(find_text(writes, "two"), Found(3, 3, 3))
        self.assertEqual(find_text(writes[:3], "two"), Found(2, 0, 2))
        self.assertEqual(find_text(writes, "w"), Found(3, 2, 3))
        self.assertEqual(find_text(writes, "otw").times, 0)


class ByteTest(case.Case):
    def test_a_text_asks_of_its_last_letter(self):
        log, elf = self.crash("libc_prices")
        one, other = (self.says("why", log, elf, "--output", asked)
                      for asked in ("18:18", "1 canvas   at  18.7"))
        self.assertTrue(other.startswith(one[:one.index("LAST ROWS")]), other)
        self.assertIn("  Asked of byte 0 of write 18, ",
                      self.says("why", log, elf, "--output", "18"))

    def asked(self, name):
        case_of = common.crashes()[name]
        return self.says("why", *self.crash(name), "--output", case_of.wrong)

    def test_the_byte_and_its_write(self):
        said = self.asked("wrong_total")
        self.assertTrue(said.startswith("OUTPUT\n  Asked of byte 29 of write 0, "
                                        "which took 68 bytes from 0001957c\n"), said[:200])
        self.assertIn("hart 0 wrote it at count 18,577 in system_call machine.h:15\n", said)
        self.assertIn("The byte is '5': hart 0 stored it at count 18,281.\n", said)

    def test_the_branch_that_let_a_value_in(self):
        said = self.asked("wrong_total")
        first = said[said.index("  1. "):said.index("  2. ")]
        self.assertIn("chose the way in is_in wrong_total.c:42", first)
        self.assertIn("it compared 0000005a with 0000005a, which are the same", first)

    def test_the_branch_that_kept_a_value(self):
        said = self.asked("wrong_price")
        first = said[said.index("  1. "):said.index("  2. ")]
        self.assertIn("chose the way in price_of wrong_price.c:61", first)
        self.assertIn("0000003e is the lowest 6 bits of 000000fe in price_of wrong_price.c:60",
                      first)
        self.assertIn("so a word beside what it compared kept its value in "
                      "add_line wrong_price.c:72", first)

    def test_the_store_is_that_of_the_byte(self):
        """Of each byte of a text the store that is told put it there, and no later row before the
        write did."""
        log, elf = self.crash("wrong_price")
        rows = [line.split(" ") for line in common.output("joint", log, elf).decode().split("\n")
                if " store " in line]
        written = texts(self.says("output", log, elf)).split("\n")[6]
        for place in (0, 8, 27, 39):
            said = self.says("why", log, elf, "--output", f"6:{place}")
            address = int(re.search(r"from ([0-9a-f]{8})\n", said).group(1), 16) + place
            count = int(re.search(r"stored it at count ([\d,]+)", said).group(1).replace(",", ""))
            last = int(re.search(r"wrote it at count ([\d,]+)", said).group(1).replace(",", ""))
            stores = [int(row[1]) for row in rows
                      if row[-1].startswith(f"{address:08x}=") and int(row[1]) < last]
            self.assertEqual(count, stores[-1])
            self.assertIn(f"The byte is {written[place]!r}: ", said)

    def test_a_byte_that_a_library_formatted(self):
        """printf took a number apart: what is asked of is the number, not the letter."""
        said = self.says("why", *self.crash("libc_prices"), "--output", "18:18")
        self.assertIn("  A library made it of what it was given: below is that.\n"
                      "  In print_order libc_prices.c:81:  printf(", said)
        self.assertRegex(said, r"\n  1\. "
                         r".*\n(?:   .*\n)* +hart 0 loaded it in print_order libc_prices\.c:81 ")
        self.assertNotIn("A library",
                         self.says("why", *self.crash("wrong_price"), "--output", "6:27"))

    def test_a_byte_that_no_row_stored(self):
        elf = common.written(common.path("constant.elf"),
                             elf_of(call(WRITE, 1, FIRST, 4) + list(EXIT)))
        log = common.record("constant", elf, "--seed", "1")
        self.assertIn("No row of the log stored the byte: below is the write.\n",
                      self.says("why", log, elf, "--output", "0:1"))

"""zelkuma at: each value that gdb's dprintf tells over the bridge is told alike, and what can't be
told is said."""
import json
import os
import re
import shutil
import subprocess
import sys
import tempfile
import unittest

import case
import common
from recordings import A0, A1, A2, A7, DATA, ECALL, addi, elf_of, load, lui, pc_of, store

from companion.questions import at
from companion.questions.bytecode import Unknown, evaluate
from companion.questions.debugger import told_by_gdb
from companion.questions.expressions import Compiled, Expression
from companion.questions.reading import asked_of, read
from companion.questions.types import Leaf, value_text
from companion.recording.elf import Elf

GDB = "gdb-multiarch"
NO_GDB = {"ZELKUMA_GDB": "/nowhere/gdb"}
# Of each program lines and expressions: registers, memory, pointers that are followed, with and
# without a sign. Of several harts they depend on the hart alone: gdb goes along the rows in another
# of the legal orders.
QUESTIONS = {
    "filters": (("filters.c:93", "sum"), ("filters.c:93", "(int)(sum % 7) - 3"),
                ("filters.c:68", "filter")),
    "heap": (("heap.c:75", "text[1] - text[0]"), ("heap.c:75", "text[0] == 'r' && text[1] != 'i'"),
             ("heap.c:75", "(short)text[2] << 3 | 1"),
             ("heap.c:66", "count"), ("heap.c:66", "count * count - 9")),
    "race_list": (("race_list.c:35", "value / 3"), ("race_list.c:60", "job"),
                  ("race_list.c:60", "job->number"),
                  ("race_list.c:60", "job->result ? job->result : -7")),
    "libc_tree": (("libc_tree.c:46", "tree.nodes * number"),
                  ("libc_tree.c:46", "tree.latest ? tree.latest->number : -1"),
                  ("libc_tree.c:46", "~tree.short_ways - (tree.latest != 0)"),
                  ("libc_tree.c:46", "tree.latest ? tree.latest->name[1] : 0")),
}
VALUE = re.compile(r"^  (\d+):(\d+) .*\) = (-?\d+)(?: \(\w{8}\))?$", re.M)


class AtTest(case.Case):
    def setUp(self):
        if not shutil.which(GDB):
            self.skipTest(f"{GDB} isn't installed")
        self.needs_addr2line()

    def recorded(self, name):
        if name == "filters":
            return self.record("filters", "--seed", "10", "--harts", "4"), self.elf("filters")
        return ((self.record("heap", "--seed", "1"), self.elf("heap")) if name == "heap"
                else common.crash(name))

    def printed(self, log, elf, questions):
        """Hart and value of each that gdb's dprintf prints, in order, of each question."""
        prints = [word for number, (line, text) in enumerate(questions)
                  for word in ("-ex",
                               f'dprintf {line},"<{number}|%d|%d>\\n",$_thread,(int)({text})')]
        bridge = f"{sys.executable} {common.COMPANION} gdb {log} {elf}"
        done = subprocess.run([GDB, "-nx", "-q", "-batch", "-iex", "set remotetimeout 300", "-ex",
                               f"target remote | {bridge}", *prints, "-ex", "continue", elf],
                              stdout=subprocess.PIPE, stderr=subprocess.DEVNULL, check=False)
        found = [[] for _ in questions]
        for number, thread, value in re.findall(rb"^<(\d+)\|(\d+)\|(-?\d+)>$", done.stdout, re.M):
            found[int(number)].append((int(thread) - 1, int(value)))
        return found

    def test_values_are_those_of_dprintf(self):
        """Each hart's in its order."""
        self.assertEqual(sum(map(len, QUESTIONS.values())), 16)
        for name, questions in QUESTIONS.items():
            log, elf = self.recorded(name)
            for (line, text), printed in zip(questions, self.printed(log, elf, questions)):
                with self.subTest(f"{name} {line} {text}"):
                    said = self.says("at", log, elf, line, f"(int)({text})", "--last", "100000")
                    found = [(int(hart), int(value)) for hart, _, value in VALUE.findall(said)]
                    self.assertGreater(len(printed), 5)
                    for hart in range(4):           # (gdb ends at the first hart's fault)
                        its = [value for one, value in printed if one == hart]
                        self.assertEqual([value for one, value in found if one == hart][:len(its)],
                                         its)
                    self.assertTrue(name == "filters" or len(found) == len(printed))

    def test_types_texts_and_parts(self):
        log, elf = self.recorded("filters")
        said = self.says("at", log, elf, "filters.c:68", "filter", "*filter",
                         "--if", "filter->number == 5")
        self.assertEqual(said.split("\n")[:3], [
            "AT filters.c:68: 15 passes, 1 of them with filter->number == 5",
            "  before 00010218 hold filters.c:68",
            "  3:427  filter = 00011430 <pool+80>  *filter = {users = 1, number = 5, "
            "taps = 00010378 <tables+32>, "
            "next_free = 00011420 <pool+64>}"])
        log, elf = self.recorded("heap")
        said = self.says("at", log, elf, "heap.c:75", "text", "$a1",
                         "sizeof(struct order)", "--last", "1")
        self.assertIn("AT heap.c:75: 215 passes; the last 1 are told (--last N)\n", said)
        self.assertRegex(said, r"\n  0:62340  text = 00010468 'no substitutes'  \$a1 = \S.* "
                         r"sizeof\(struct order\) = 12\n")

    def test_pointers_to_arrays_and_functions(self):
        """gdb tells their types as C writes them, and compiles 0 for the address of a function."""
        log, elf = self.recorded("heap")
        said = self.says("at", log, elf, "heap.c:75", "&orders", "(int (*)(int))0x103a8",
                         "(int *(*(*)[2])(char))&orders", "&main", "&(main) == 0",
                         "1 && text", "--last", "1")
        for words in ("&orders = 00011498 <orders>", "(int (*)(int))0x103a8 = 000103a8 <main+608>",
                      "[2])(char))&orders = 00011498 <orders>",
                      "&main = <gdb doesn't compile &main>",
                      "&(main) == 0 = <gdb doesn't compile &main>", "1 && text = 1"):
            self.assertIn(words, said)
        for text, why in (("main", "main: it is a function, and not a value"),
                          ("*main", "Attempt to take contents of a non-pointer"),
                          ("*orders[0] == *orders[1]", "no component named operator=="),
                          ("text + *orders[0]", "Can't do that")):
            self.assertIn(why, self.refuses(2, "at", log, elf, "heap.c:75", text))

    def test_an_enumeration_below_0(self):
        if not shutil.which("riscv64-unknown-elf-gcc"):
            self.skipTest("riscv64-unknown-elf-gcc isn't installed")
        with tempfile.TemporaryDirectory() as folder:
            source = os.path.join(folder, "color.c")
            name = os.path.join(folder, "color")
            with open(source, "w", encoding="ascii") as file:
                file.write("enum { RED, GREEN = -5 } color = GREEN;\n"
                           "int _start(void) { return color; }\n")
            subprocess.run(["riscv64-unknown-elf-gcc", "-march=rv32ima", "-mabi=ilp32", "-nostdlib",
                            "-static", "-g", "-o", name, source], check=True)
            of = told_by_gdb(Elf(name), variable="color")["type"]
        self.assertEqual(value_text(Leaf("", 0, of), b"\xfb\xff\xff\xff", str), "GREEN (-5)")

    def test_json(self):
        log, elf = self.recorded("heap")
        found = json.loads(self.says("at", log, elf, "heap.c:75", "text[0]", "--if",
                                     "text[0] == 'r'", "--last", "2", "--json"))
        self.assertEqual((found["passes"], found["met"], found["untold"], found["slid"]),
                         (215, 42, 0, 0))
        self.assertEqual(found["places"], [{"address": "000103a8", "function": "keep",
                                            "file": "heap.c", "line": 75}])
        self.assertEqual([(one["count"], one["address"], one["values"])
                          for one in found["entries"]][-1], (61888, "000103a8", ["114 'r'"]))

    def test_what_is_said_of_a_line(self):
        """It has no code, or several places; of these some have no value."""
        log, elf = common.crash("libc_tree")
        said = self.says("at", log, elf, "libc_tree.c:40", "link", "number", "--last", "1")
        self.assertIn("Line 40 has no code at which gdb would stop: these are passes of line 39.\n",
                      said)
        self.assertEqual(len(re.findall(r"^  before \w{8} \w+ libc_tree.c:39$", said, re.M)),
                         said.count("before"))
        self.assertGreater(said.count("before"), 1)
        self.assertRegex(said,
                         r"0:74323  000106d4  link = 00011d78 <tree>  number = <optimized out>\n")

    def test_memory_that_is_not_known(self):
        """A log that lost its beginning, and addresses without memory."""
        elf = self.elf("heap")
        log = common.record("late", elf, "--seed", "1", "--log-size", "16384", "--interval", "500",
                            "--sets", "1", "--ways", "1")
        said = self.says("at", log, elf, "heap.c:75", "orders[0]", "*(int *)4", "*(int *)-4",
                         "text[0] / 0", "--last", "3000")
        self.assertIn("The log gave up ", said)
        self.assertRegex(said, r"orders\[0\] = <no row before tells 00011498>")
        self.assertEqual(len(VALUE.findall(said)), 0)
        for words in ("<no memory at 00000004>", "<no memory at fffffffc>", "<division by 0>"):
            self.assertEqual(said.count(words), said.count("text[0] / 0 = "), words)

    def test_a_condition_that_is_not_known(self):
        elf = self.elf("heap")
        log = common.record("late", elf, "--seed", "1", "--log-size", "16384", "--interval", "500",
                            "--sets", "1", "--ways", "1")
        found = json.loads(self.says("at", log, elf, "heap.c:75", "1", "--if",
                                     "orders[0] == 0", "--json"))
        self.assertGreater(found["untold"], 0)
        self.assertLessEqual(found["met"] + found["untold"], found["passes"])

    def test_by_the_library_and_in_gdb(self):
        from companion import Recording
        log, elf = self.recorded("heap")
        with Recording(log, elf) as run:
            found = run.at_line("heap.c:75", "text[0]", "*text", condition="text[0] == 'r'", last=2)
        self.assertEqual(found[-1], (0, 61888, {"text[0]": "114 'r'", "*text": "114 'r'"}))
        bridge = f"{sys.executable} {common.COMPANION} gdb {log} {elf}"
        done = subprocess.run([GDB, "-nx", "-q", "-batch", "-iex", "set remotetimeout 300",
                               "-ex", f"target remote | {bridge}", "-ex",
                               "monitor at heap.c:75 'text[0] + 1'", "-ex", "monitor at", elf],
                              stdout=subprocess.PIPE, stderr=subprocess.STDOUT, check=False)
        said = done.stdout.decode()
        self.assertIn(self.says("at", log, elf, "heap.c:75", "text[0] + 1"), said)
        self.assertRegex(said, r"at 0 of \d+ known")

    def test_refusals(self):
        log, elf = self.recorded("heap")
        for status, words, asked in (
                (2, "an expression is missing", ["heap.c:75"]),
                (2, "a line has to be FILE:LINE", ["keep", "1"]),
                (4, "nothing.c:3 has no code", ["nothing.c:3", "1"]),
                (2, 'No symbol "texts"', ["heap.c:75", "texts"]),
                (2, "syntax error", ["heap.c:75", "text["]),
                (2, "is no expression", ["heap.c:75", "1\nshell id"]),
                (2, "--if orders: it is no number", ["heap.c:75", "1", "--if", "orders"]),
                (2, "from 1 to 32 expressions", ["heap.c:75", *["1"] * 33]),
                (2, "--last has to be", ["heap.c:75", "1", "--last", "0"])):
            with self.subTest(words):
                self.assertIn(words, self.refuses(status, "at", log, elf, *asked))
        status, said, err = common.companion("at", log, elf, "heap.c:75", "1", environment=NO_GDB)
        self.assertEqual((status, said, err),
                         (1, "", "zelkuma: no gdb is here; Debian has it in gdb-multiarch\n"))


def placed(code):
    """Operations with their places in the code."""
    return [(place, name, operand) for place, (name, operand) in enumerate(code)]


def with_registers(**registers):
    return lambda number: registers[f"r{number}"]


def no_memory(address, size):
    raise Unknown(f"{size} bytes at {address:08x}")


class BytecodeTest(unittest.TestCase):
    """gdb's operations, on values whose answers C gives."""

    def value(self, *code, **registers):
        return evaluate(placed(code), with_registers(**registers),
                        lambda address, size: address + size)

    def test_operations(self):
        minus = (1 << 64) - 7
        for name, one, other, result in (
                ("add", minus, 8, 1), ("sub", 1, 8, minus), ("mul", minus, 2, (1 << 64) - 14),
                ("lsh", 3, 4, 48), ("lsh", 1, 64, 0),
                ("rsh_signed", minus, 1, (1 << 64) - 4), ("rsh_unsigned", minus, 60, 15),
                ("div_signed", minus, 2, (1 << 64) - 3),
                ("div_signed", 7, 2, 3), ("rem_signed", minus, 2, (1 << 64) - 1),
                ("rem_unsigned", 7, 4, 3),
                ("div_unsigned", minus, 1 << 63, 1), ("bit_and", 12, 10, 8),
                ("bit_or", 12, 10, 14), ("bit_xor", 12, 10, 6),
                ("equal", 4, 4, 1), ("equal", 4, 5, 0), ("less_signed", minus, 1, 1),
                ("less_unsigned", minus, 1, 0)):
            with self.subTest(name):
                self.assertEqual(self.value(("reg", 1), ("reg", 2), (name, 0), ("end", 0),
                                            r1=one, r2=other), result)

    def test_one_operand_memory_and_what_moves(self):
        self.assertEqual(self.value(("const16", 0x80ff), ("ext", 8), ("end", 0)), (1 << 64) - 1)
        self.assertEqual(self.value(("const16", 0x80ff), ("zero_ext", 8), ("end", 0)), 255)
        self.assertEqual(self.value(("const8", 0), ("log_not", 0), ("bit_not", 0), ("end", 0)),
                         (1 << 64) - 2)
        for width in (8, 16, 32, 64):
            self.assertEqual(self.value(("const8", 40), (f"ref{width}", 0), ("end", 0)),
                             40 + width // 8)
        self.assertEqual(self.value(("const8", 9), ("const8", 2), ("swap", 0), ("dup", 0),
                                    ("pop", 0), ("sub", 0), ("end", 0)), (1 << 64) - 7)
        for condition, result in ((1, 5), (0, 6)):
            self.assertEqual(self.value(("reg", 1), ("if_goto", 4), ("const8", 6), ("goto", 5),
                                        ("const8", 5), ("end", 0), r1=condition), result)

    def test_what_has_no_value(self):
        for code in ((("const8", 1), ("const8", 0), ("div_signed", 0), ("end", 0)),
                     (("float", 0), ("end", 0)), (("const8", 1),)):
            self.assertRaises(Unknown, self.value, *code)
        self.assertRaises(Unknown, evaluate, [(0, "const8", 1), (1, "ref8", 0), (2, "end", 0)],
                          with_registers(), no_memory)


class RowsTest(case.Case):
    """Without gdb: code by hand along rows whose values are known."""

    def passes(self, words, index, code, text, rows=0, **given):
        """The value at each pass of a row, of chunks as they are or as `text` gives them."""
        elf = common.written(common.path("rows.elf"), elf_of(words))
        log = common.record("rows", elf, "--limit", str(rows or 1000), "--log-size", "16777216",
                            "--input", common.written(common.path("four"), "\1\2\3\4"))
        expression = Expression("x", {pc_of(index): placed(code)},
                                {"kind": "int", "size": 4, "name": ""})
        with asked_of(log, elf, {}) as asked:
            found = at.Passes(asked, "a.c:1", Compiled([pc_of(index)], [expression]),
                              False, given.get("most", 100))
            read(asked.chunks() if not text else text(asked), found)
        return [entry.values[0] for entry in found.told], found

    def test_a_word_and_its_bytes(self):
        """What was stored last to any byte of a word is told, whatever address a row names."""
        words = [lui(8, DATA), addi(5, 0, 1), store(5, 8), store(5, 8, 1, 0), load(6, 8),
                 addi(5, 5, 1), store(5, 8, 3, 0), addi(0, 0, 0)]
        code = ("const32", DATA), ("ref32", 0), ("end", 0)
        expected = {3: 1, 4: 0x101, 7: 0x2000101}
        for index, value in expected.items():
            self.assertEqual(self.passes(words, index, code, None)[0],
                             [str(value) if value < 65536 else f"{value} ({value:08x})"])

    def test_what_a_read_call_filled(self):
        """It isn't known up to the row that loads it."""
        words = [lui(8, DATA), store(8, 8), addi(A7, 0, 63), addi(A0, 0, 0), addi(A1, 8, 0),
                 addi(A2, 0, 4), ECALL, addi(0, 0, 0), load(6, 8), addi(0, 0, 0)]
        code = ("const32", DATA), ("ref32", 0), ("end", 0)
        for index, value in ((2, f"{DATA} ({DATA:08x})"), (6, f"{DATA} ({DATA:08x})"),
                             (7, f"<no row before tells {DATA:08x}>"),
                             (8, f"<no row before tells {DATA:08x}>"), (9, "67305985 (04030201)")):
            self.assertEqual(self.passes(words, index, code, None)[0], [value], index)

    def test_chunks_of_any_size_tell_the_same(self):
        rounds = [addi(5, 5, 1), store(5, 8), 0xff9ff06f]
        code = ("reg", 5), ("const32", DATA), ("ref32", 0), ("add", 0), ("end", 0)
        whole = self.passes([lui(8, DATA), *rounds], 2, code, None, 400)[0]
        self.assertEqual(len(whole), 100)

        def lines(asked):
            for text in asked.chunks():
                yield from (b"\n" + line for line in text[1:].split(b"\n"))

        self.assertEqual(self.passes([lui(8, DATA), *rounds], 2, code, lines, 400)[0], whole)
        self.assertEqual(self.passes([lui(8, DATA), *rounds], 2, code, lines, 400, most=3)[0],
                         whole[-3:])


if __name__ == "__main__":
    unittest.main()

"""zelkuma memory: each kind beside its nearest good twin, with one hart and several, and in a log
that lost its beginning."""
import bisect
import json
import os
import re
import shutil
import subprocess
import unittest.mock
from contextlib import closing

import case
import common

from companion.memory import blocks, findings, memory
from companion.memory.answer import MemoryAnswer
from companion.memory.heap import hooks_of
from companion.memory.leaks import leaks_of
from companion.memory.program import CheckedProgram
from companion.memory.run import CheckedRun
from companion.memory.state import CODE
from companion.recording.chunks import chunks
from companion.recording.elf import Elf
from companion.recording.log import load_log
from companion.recording.places import Places
from companion.recording.recent import open_log
from companion.recording.row import rows_of

SOURCES = [os.path.join("tests", "companions", "lib", "programs", name)
           for name in ("libc/memory.c", "memory_errors.c")]
# In the order of the program's cases: the kind, what is said of the access, and the function that
# it is in.
CASES = (
    ("heap_after", findings.HEAP, "store of 1, 0 bytes after a block of 13 bytes", "set"),
    ("heap_before", findings.HEAP, "store of 1, 1 bytes before a block of 8 bytes", "set"),
    ("heap_by_copy", findings.HEAP, "store of 1, 0 bytes after a block of 8 bytes",
     "copy, called in heap_by_copy"),
    ("freed", findings.FREED,
     "load of 4, 4 bytes into a block of 16 bytes that was given back", "get"),
    ("freed_twice", findings.TWICE, "is given back again: a block of 8 bytes", "work"),
    ("freed_inside", findings.NO_BLOCK,
     "is given back: it is 4 bytes into a block of 8 bytes", "work"),
    ("freed_global", findings.NO_BLOCK, "is given back: it is in letters", "work"),
    ("failed", findings.NULL, "store of 1, 5 bytes from the 0 that malloc gave", "set"),
    ("resized", findings.FREED,
     "load of 4, 12 bytes into a block of 16 bytes that was given back", "get"),
    ("aligned", findings.HEAP, "store of 1, 0 bytes after a block of 16 bytes", "set"),
    ("global_after", findings.GLOBAL, "store of 1, 0 bytes after letters (10 bytes)", "set"),
    ("member_after", findings.MEMBER, "store of 1, 0 bytes after name.text (12 bytes)", "set_text"),
    ("block_member_after", findings.MEMBER,
     "store of 1, 0 bytes after name.text (12 bytes)", "set_text"),
    ("stack_after", findings.STACK,
     "store of 1, 0 bytes after text of stack_after (20 bytes)", "set"),
    ("after_return", findings.AFTER_RETURN, "store of 1, text of keep_place has ended", "set"),
    ("depth", findings.DEPTH, "bytes deep, and has run into", "deep"),
    ("over_return_address", findings.REGISTER,
     "store of 4, over the saved s0 of over_return_address", "over_return_address"),
    ("no_pointer", findings.POINTER, "74786574 gets into the pointer first, and is none",
     "copy, called in no_pointer"),
    ("unwritten_block", findings.UNINITIALIZED,
     "8 bytes into a block of 16 bytes", "unwritten_block"),
    ("unwritten_local", findings.UNINITIALIZED,
     "that nobody wrote, of word of unwritten_local", "unwritten_local"),
    ("unwritten_copied", findings.UNINITIALIZED,
     "4 bytes into a block of 8 bytes", "unwritten_copied"),
    ("unwritten_out", findings.UNINITIALIZED,
     "byte 7 of 8 that are written out is one that nobody wrote", "system_call"),
    ("leak", findings.LEAK,
     "1 block of 8 bytes, 1 of them reached by no pointer, taken in leak", ""),
    ("overlapping", findings.OVERLAP, "memcpy of 8 bytes between places that have 1 bytes in "
     "common", "memcpy, called in overlapping"),
    ("lends", findings.FREED,
     "store of 1, 0 bytes into a block of 8 bytes that was given back", "set"),
    ("freed_nowhere", findings.NO_BLOCK, "87654320 is given back: memory ends at 00100000", "work"),
    ("unwritten_size", findings.UNINITIALIZED,
     "what malloc is given depends on bytes that nobody wrote, of size of unwritten_size",
     "malloc, called in unwritten_size"),
    ("asked", findings.STACK,
     "store of 1, 0 bytes after an alloca or array of asked (13 bytes)", "set"),
    ("array_of_length", findings.STACK,
     "store of 1, 0 bytes after an alloca or array of array_of_length (28 bytes)", "set"),
    ("after_scope", findings.AFTER_SCOPE,
     "store of 1, text of after_scope, whose block has ended", "set"),
    ("after_unknown", findings.HEAP, "store of 1, 0 bytes after a block of 8 bytes", "set"),
    ("freed_unknown", findings.FREED,
     "store of 1, 5 bytes into a block of 8 bytes that was given back", "set"),
    ("after_return_unknown", findings.AFTER_RETURN, "in a frame that has ended", "set"),
    ("unwritten_bits", findings.UNINITIALIZED, "0 bytes into a block of 8 bytes", "unwritten_bits"),
    ("moved", findings.HEAP, "store of 1, 419 bytes after a block of 8 bytes", "set"),
    ("local_member_after", findings.MEMBER, "store of 1, 0 bytes after name.text (12 bytes)",
     "local_member_after"),
    ("clone_member_after", findings.MEMBER,
     "store of 1, 0 bytes after name.text (12 bytes)", "set_of_clone"),
    ("beside_a_lost_block", findings.HEAP, "store of 1, 0 bytes after a block of 8 bytes", "set"),
    ("member_pointer_after", findings.MEMBER,
     "store of 1, 0 bytes after name.text (12 bytes)", "set"),
    ("stack_after_constant", findings.STACK,
     "store of 1, 0 bytes after four of stack_after_constant (4 bytes)", "set_fifth"),
)
GOOD_EXAMPLES = (("counter", "--harts", "4"), ("sort", "--limit", "300000"), ("word_count",),
                 ("lock", "--harts", "4"), ("two_locks", "--harts", "2"),
                 ("prices", "--harts", "4"), ("filters", "--harts", "4"))
# Cases of the program that is compiled without optimization
PLAIN = "after_scope",
NUMBERS = {name: at for at, (name, *_) in enumerate(CASES)}
# MEMORY_CASES can name some, for mutants.py.
TRIED = [each for each in CASES if each[0] in os.environ.get("MEMORY_CASES", each[0]).split()]
programs = {}


def told_of(run):
    """What is told of a run: each kind with the place of its access."""
    return {(each.kind, each.when.pcs[0]) for each in run.findings.in_order()}


class Oracle:
    """Blocks by a plain reading of rows: which accesses outside of the allocator's functions are to
    bytes that were given back and weren't taken again."""

    def __init__(self, log, elf):
        named = {item.name: item.address for item in Elf(elf).symbols}
        self.malloc, self.free = (named[name] for name in ("malloc", "free"))
        functions = sorted(item.address for item in Elf(elf).functions if item.kind == 2)
        self.begins = functions
        self.own = {named[name]
                    for name in ("malloc", "free", "calloc", "realloc", "posix_memalign", "copy")}
        self.registers = {}
        self.live = {}
        self.freed = {}
        self.awaited = None
        self.bad = []
        for row in rows_of(log, elf):
            self.take(row)

    def take(self, row):
        if row.pc == self.malloc:
            self.awaited = self.registers["ra"], self.registers["a0"]
        elif row.pc == self.free and self.registers.get("a0") in self.live:
            begin = self.registers["a0"]
            self.freed[begin] = begin + self.live.pop(begin)
        if self.awaited and row.pc == self.awaited[0]:
            begin = self.registers["a0"]
            self.live[begin] = self.awaited[1]
            self.awaited = None
            self.freed.pop(begin, None)
        function = self.begins[max(0, bisect.bisect_right(self.begins, row.pc) - 1)]
        for access in (row.load, row.store):
            if access and function not in self.own and any(low <= access.address < high
                                                           for low, high in self.freed.items()):
                self.bad.append((row.hart, row.ic))
        if row.register:
            self.registers[row.register] = row.result


class MemoryTest(case.Case):
    # The program of all cases, with optimization and without; none without a compiler
    built = plain = ""

    @classmethod
    def setUpClass(cls):
        if shutil.which("riscv64-unknown-elf-gcc"):
            cls.built, cls.plain = common.path("memory.elf"), common.path("plain.elf")
            for elf, options in ((cls.built, ""), (cls.plain, "-O0")):
                subprocess.run(["bash", "-c", '. examples/lib/with_names.sh && build_with_names '
                                '"$@"', "-", elf, *SOURCES], cwd=common.TOP, check=True,
                               env=dict(os.environ, OPTIONS=options))

    def elf_of(self, name):
        return self.plain if name in PLAIN else self.built

    def given(self, name, which, hart=0):
        """The input that asks for a case."""
        return common.written(common.path("given"),
                              chr(ord("A") + NUMBERS[name]) + which + str(hart))

    def log(self, name, which, hart=0):
        """The recording of a case: `which` is b or g."""
        if not self.built:
            self.skipTest("riscv64-unknown-elf-gcc isn't installed")
        key = name, which, hart
        if key not in case.logs:
            given = self.given(name, which, hart)
            harts = ["--harts", "2"] if hart or name == "lends" else []
            case.logs[key] = common.record("-".join(map(str, key)), self.elf_of(name), "--seed",
                                           "3", "--input", given, *harts)
        return case.logs[key]

    def found(self, log, elf, *options):
        """The findings of a log, as the word's JSON has them, and its whole answer."""
        answer = json.loads(self.says("memory", log, elf, "--json", *options))
        return answer["findings"], answer

    def run_of(self, log, elf):
        return self.run_of_log(load_log(log), elf)

    def run_of_log(self, log, elf, is_plain=False):
        if elf not in programs:
            programs[elf] = CheckedProgram(Elf(elf))
        program = programs[elf]
        run = CheckedRun(log, program, hooks_of(program, [], []), is_plain)
        run.along(chunks(log.name, elf, log=log))
        return run

    def lines_of(self, log, elf):
        """What the word says, without a process of its own."""
        run = self.run_of(log, elf)
        with closing(Places(run.program.elf)) as places:
            return "\n".join(MemoryAnswer(run, places, [],
                                          leaks_of(run.heap, run.harts, log, elf)).lines()) + "\n"

    def test_each_kind_is_told_where_it_happens(self):
        self.needs_addr2line()
        for name, kind, text, function in TRIED:
            with self.subTest(name):
                said = self.lines_of(self.log(name, "b"), self.elf_of(name))
                told = re.search(r"(?:1\. |  )%s: (.*)\n(?:     it is in (.*))?" % kind, said)
                self.assertIsNotNone(told, said)
                self.assertIn(text, told[1])
                self.assertTrue((told[2] or "").startswith(function), said)

    def test_good_twins_are_silent(self):
        for name, *_ in TRIED:
            for hart in (0, 1):
                if hart and name == "lends":
                    continue
                with self.subTest(name, hart=hart):
                    self.assertEqual(self.run_of(self.log(name, "g", hart),
                                                 self.elf_of(name)).findings.in_order(), [])
        self.assertNotIn("memory-leak", self.lines_of(self.log("leak", "g"), self.built))

    def test_another_hart_is_told_the_same(self):
        for name, kind, text, _ in TRIED:
            if name in ("leak", "lends"):       # (no finding; of two harts by itself)
                continue
            with self.subTest(name):
                found = self.run_of(self.log(name, "b", 1), self.elf_of(name)).findings.in_order()
                self.assertEqual((found[0].kind, found[0].when.hart), (kind, 1))
                self.assertIn(text, found[0].text)

    def test_what_another_hart_gave_back(self):
        found, = self.run_of(self.log("lends", "b"), self.built).findings.in_order()
        self.assertEqual((found.kind, found.when.hart, found.thing.taken.hart,
                          found.thing.gone.hart), (findings.FREED, 0, 0, 1))
        self.needs_addr2line()
        self.assertRegex(self.lines_of(self.log("lends", "b"), self.built),
                         r"given back in gives_back .*: another hart\n")

    def test_of_a_lost_beginning_nothing_is_told_that_needs_it(self):
        """Each end of a good recording is silent, and one of a bad recording tells nothing that the
        whole doesn't."""
        for name, *_ in TRIED:
            for which in "gb":
                log = self.record_in_intervals(name, which)
                elf = self.elf_of(name)
                whole = told_of(self.run_of(log, elf))
                with closing(open_log(log)) as source:
                    for end in (source.end(rows) for rows in (20, 60, 200)):
                        with self.subTest(name, which=which, rows=end.rows()):
                            run = self.run_of_log(end, elf)
                            self.assertLessEqual(told_of(run), whole)
                            self.assertEqual(run.is_whole, not end.unread)

    def record_in_intervals(self, name, which):
        """A recording with a Header each hundred rows, so that an end of it can be read."""
        key = name, which, "intervals"
        if key not in case.logs:
            self.log(name, which)
            harts = ["--harts", "2"] if name == "lends" else []
            given = self.given(name, which)
            case.logs[key] = common.record("-".join(key), self.elf_of(name), "--seed", "3",
                                           "--input", given, "--interval", "100", *harts)
        return case.logs[key]

    def test_blocks_and_single_rows_say_the_same(self):
        """Code that runs often is followed by functions of many rows: here of all that runs
        twice."""
        examples = [(self.record(name, "--seed", "1", *words), self.elf(name))
                    for name, *words in GOOD_EXAMPLES]
        # In a loop of this one a pointer leads out of a global object, to bytes that are as good.
        examples.append(common.crash("underflow_option"))
        with unittest.mock.patch.object(blocks, "HOT", 2):
            for log, elf in [(self.log(name, "b"), self.elf_of(name))
                             for name, *_ in TRIED] + examples:
                with self.subTest(log):
                    runs = [self.run_of_log(load_log(log), elf, is_plain)
                            for is_plain in (True, False)]
                    self.assertEqual(*([(each.kind, each.text, each.when, each.times)
                                        for each in one.findings.in_order()] for one in runs))
                    self.assertEqual(*(one.findings.unknown for one in runs))
                    self.assertEqual(*(one.memory.states for one in runs))
                    self.assertEqual(*([hart.value(at) for hart in one.harts for at in range(32)]
                                       for one in runs))

    def test_code_that_is_changed(self):
        """A store to code of a block ends all blocks."""
        log = self.record("sort", "--limit", "30000")
        elf = self.elf("sort")
        run = self.run_of_log(load_log(log), elf)
        made = [each for each in run.blocks[0].values() if each.__name__ == "block"]
        word = run.pointers.sorts.index(CODE)
        self.assertTrue(run.pointers.stored(run.harts[0], None, b"00000000", 4 * word, None))
        self.assertEqual((bool(made), dict(run.blocks[0]), run.blocks[0].left,
                          CODE in run.pointers.sorts), (True, {}, 0, False))

    def test_accesses_to_what_was_given_back_are_those_of_a_plain_reading(self):
        for name in ("freed", "resized", "heap_after", "unwritten_copied"):
            log = self.log(name, "b")
            oracle = Oracle(log, self.built).bad
            found = [each for each in self.run_of(log, self.built).findings.in_order()
                     if each.kind == findings.FREED]
            told = [(each.when.hart, each.when.count) for each in found]
            # (the memory of `freed` was taken again: addresses don't tell it)
            if name == "resized":
                self.assertEqual(told, oracle)
            else:
                self.assertLessEqual(set(oracle), set(told))

    def test_allocators_of_the_program(self):
        log, elf = self.crash("use_after_free")
        found, answer = self.found(log, elf)
        self.assertIn("No function that takes or gives back memory is known",
                      " ".join(answer["notes"]))
        self.assertNotIn(findings.FREED, [each["kind"] for each in found])
        found, answer = self.found(log, elf, "--alloc", "take", "--free", "give:1")
        first = found[0]
        self.assertEqual((first["kind"], first["calls"][0]["line"], first["hart"]),
                         (findings.FREED, 47, 0))
        self.assertEqual(first["taken"]["calls"][0]["function"], "open_session")
        self.assertEqual(first["given_back"]["calls"][0]["line"], 31)
        self.assertEqual([each["text"]
                          for each in self.found(log, elf, "--alloc=take:=12", "--free=give")[0]],
                         [each["text"] for each in found])

    def test_an_allocator_that_was_inlined(self):
        log = self.log("freed", "g")
        said = self.refuses_here(4, memory, log, self.built, "--alloc", "wait_for")
        self.assertIn("no function wait_for: it was inlined in 2 places", said)
        run = self.run_of(log, self.built)
        for times, notes in ((0, []), (1, ["malloc was inlined in 1 place, too: "
                                           "what it does there isn't known."])):
            with unittest.mock.patch.dict(run.program.inlined,
                                          malloc=times), closing(Places(run.program.elf)) as places:
                self.assertEqual([note for note in MemoryAnswer(run, places, [], []).notes
                                  if "inlined" in note], notes)

    def test_blocks_of_optimized_code(self):
        """Its instructions leave their blocks: nothing is said of them. Of a compiler that isn't
        GCC it isn't known."""
        run = self.run_of(common.record("optimized", self.built, "--seed", "3", "--input",
                                        self.given("after_scope", "b")), self.built)
        self.assertEqual(run.findings.in_order(), [])
        program = CheckedProgram(Elf(self.plain))
        first = program.function_named("after_scope")
        for producer, is_plain in (("GNU C17 12.2.0 -g", True), ("GNU C17 12.2.0 -O2 -g -O0", True),
                                   ("GNU C17 12.2.0 -g -Os", False),
                                   ("GNU C17 12.2.0 -O0 -O", False),
                                   ("clang version 14.0.6", False),
                                   ("GNU C17" + " -g" * 100, False)):
            program.entries[first].unit = program.entries[first].unit._replace(producer=producer)
            self.assertEqual(program.is_plain(first), is_plain, producer)

    def test_a_stack_of_its_own(self):
        """A hart that changes its stack to an array hasn't run into that. Its end is a load where
        nothing is mapped."""
        elf = common.path("deep.elf")
        if not self.built:
            self.skipTest("riscv64-unknown-elf-gcc isn't installed")
        source = os.path.join("tests", "companions", "lib", "programs", "deep.c")
        subprocess.run(["bash", "-c", '. examples/lib/with_names.sh && build_with_names "$@"', "-",
                        elf, source], cwd=common.TOP, check=True)
        found = self.run_of(common.record("deep", elf, "--seed", "3"), elf).findings.in_order()
        self.assertEqual([each.kind for each in found], ["unmapped-address"])

    def test_why_tells_it_before_its_suspects(self):
        self.needs_addr2line()
        log, elf = self.crash("libc_end_of_block")
        said = self.says("why", log, elf)
        self.assertRegex(said, r"MEMORY ERRORS.*\n  1\. heap-buffer-overflow: store of 1, "
                         r"0 bytes after a block of 14 bytes\n"
                         r"     it is in join libc_end_of_block.c:36 ")
        self.assertLess(said.index("MEMORY ERRORS"), said.index("SUSPECTS"))
        self.assertEqual(
            json.loads(self.says("why", log, elf, "--json"))["memory"][0]["calls"][0]["line"], 36)
        self.assertNotIn("MEMORY ERRORS", self.says("why", *self.crash("null_route")))

    def test_a_fault_that_nothing_explains(self):
        """`why` tells it otherwise. It isn't told beside another finding."""
        self.needs_addr2line()
        (found,), _ = self.found(*self.crash("null_route"))
        self.assertEqual((found["kind"], found["calls"][0]["line"] > 0), (findings.UNMAPPED, True))
        self.assertRegex(found["text"],
                         r"^(load|store) of [124] at 0000[0-9a-f]{4}, where nothing is mapped$")
        self.assertEqual(
            json.loads(self.says("why", *self.crash("null_route"), "--json"))["memory"], [])
        self.assertNotIn(findings.UNMAPPED,
                         [each["kind"] for each in self.found(*self.crash("libc_end_of_block"))[0]])

    def test_fail_is_a_status(self):
        for which, status in (("b", memory.FOUND), ("g", 0)):
            self.assertEqual(common.companion("memory", self.log("freed", which),
                                              self.built, "--fail")[0], status)

    def test_refusals(self):
        log = self.record("heap", "--seed", "10")
        elf = self.elf("heap")
        self.assertIn("no function nothing",
                      self.refuses_here(4, memory, log, elf, "--alloc", "nothing"))
        self.refuses_here(2, memory, log, elf, "--alloc", "take:x")
        self.refuses_here(2, memory, log, elf, "--free", "main:=3")
        self.refuses_here(2, memory, log, elf, "--alloc", "main:9")
        self.refuses_here(2, memory, log, elf, "--rows", "0")
        self.refuses(8, "memory", log, self.elf("counter"))

    def test_examples_are_good(self):
        """Those that end well have no error of memory; of those with one nothing but it is told."""
        for name, *words in GOOD_EXAMPLES:
            with self.subTest(name):
                log = self.record(name, "--seed", "1", *words)
                self.assertEqual(self.run_of(log, self.elf(name)).findings.in_order(), [])

"""zelkuma calls: each call with its arguments, its result and how long it ran, beside a plain
reading of the rows."""
import json
import re

import case
import common

from companion.recording.elf import Elf
from companion.questions import calls, debugger
from companion.questions.functions import function_of, parameters_of
from companion.questions.reading import asked_of, read
from companion.questions.texts import MOST_TEXT, Pointer, text_in, texts_of

LINE = re.compile(r"^  (\d+):(\d+) +(\(.*?\)) +(?:-> (\w+).*?)? +(?:([\d,]+) rows?|no return) "
                  r"+(from|jumps from) (.*)$", re.M)


def calls_in(log, elf, entry, size=0):
    """[hart, count, a0 before, a0 after, rows] of each call of a function: calls are told by jumps
    from outside of it or that link, returns by the return address and the stack pointer."""
    found = []
    state = {}
    for line in common.output("joint", log, elf).decode().split("\n"):
        row = re.match(r"(\d+) (\d+) (\w{8}) \w+ (\S+) ?([^ ]*)(?: \| (\w\w\w?)=(\w{8}))?", line)
        if not row or line.startswith("word"):
            continue
        hart = int(row[1])
        count = int(row[2])
        pc = int(row[3], 16)
        registers, opened, before = state.setdefault(hart, ({"sp": None}, [], ["", 0]))
        if opened and (pc, registers["sp"]) == opened[-1][1:] and before[0] == "ret":
            call = opened.pop()[0]
            call[3:] = [registers.get("a0"), count - call[1]]
        if pc == entry and (before[0] == "call"
                            or before[0] == "jump" and not entry <= before[1] < entry + size):
            found.append([hart, count, registers.get("a0"), None, None])
            opened.append((found[-1], registers["ra"], registers["sp"]))
        kind = ""
        if (row[4], row[5]) == ("jalr", "zero,0(ra)"):
            kind = "ret"
        elif row[4] in ("jal", "jalr"):
            kind = "call" if row[5].startswith("ra,") else "jump"
        before[:] = kind, pc
        if row[6]:
            registers[row[6]] = int(row[7], 16)
    return found


def symbol(elf, name):
    """Its address and size."""
    return next((item.address, item.size) for item in Elf(elf).symbols if item.name == name)


class CallsTest(case.Case):
    def compared(self, log, elf, name, **more):
        """The calls by both ways: hart, count, rows."""
        status, said, err = common.companion("calls", log, elf, name, "--last", "100000", **more)
        self.assertEqual(status, 0, err)
        told = [(int(hart), int(count), int(rows.replace(",", "")) if rows else None)
                for hart, count, _, _, rows, _, _ in LINE.findall(said)]
        wanted = [(call[0], call[1], call[4]) for call in calls_in(log, elf, *symbol(elf, name))]
        self.assertTrue(wanted)
        self.assertEqual(next(filter(lambda pair: pair[0] != pair[1], zip(told, wanted)), None),
                         None)
        self.assertEqual(len(told), len(wanted))
        return said

    def test_each_call_and_how_long_it_ran(self):
        self.compared(self.record("heap", "--seed", "1"), self.elf("heap"), "put_text")
        log, elf = self.crash("use_after_free")
        for name in ("take", "give"):
            self.compared(log, elf, name)

    def test_a_function_that_calls_itself(self):
        log, elf = self.crash("stack_overflow")
        said = self.compared(log, elf, "sum_of.isra.0")
        self.assertIn("no return  from sum_of ", said)

    def test_functions_that_put_registers_aside_by_a_library(self):
        log, elf = self.crash("libc_tree")
        self.compared(log, elf, "__malloc_malloc")

    def test_calls_of_several_harts(self):
        log, elf = self.crash("race_list")
        harts = {found[0] for found in LINE.findall(self.compared(log, elf, "work"))}
        self.assertGreater(len(harts), 1)

    def test_registers_have_names_without_a_gdb(self):
        log, elf = self.crash("use_after_free")
        status, said, err = common.companion("calls", log, elf, "take",
                                             environment={"ZELKUMA_GDB": "/nowhere/gdb"})
        self.assertEqual((status, err.count("\n")), (0, 1))
        self.assertIn("names are those of symbols, without types", err)
        wanted = calls_in(log, elf, *symbol(elf, "take"))
        self.assertEqual([(int(a0, 16), int(result, 16))
                          for a0, result in re.findall(r"\(a0=(\w+), .*-> (\w+) ", said)],
                         [(call[2], call[3]) for call in wanted])

    def test_text_that_is_forgotten_loses_nothing(self):
        log = self.record("heap", "--seed", "1")
        elf = self.elf("heap")
        said = []
        for kept in (1 << 30, 1 << 15, 1 << 10):
            with asked_of(log, elf, {}) as asked:
                found = calls.FoundCalls(asked, calls.function_of(asked.named, "put_text"),
                                         1000, None)
                found.window.kept = kept
                rows = b"".join(asked.chunks())[1:].split(b"\n")
                read((b"\n" + b"\n".join(rows[at:at + 10]) for at in range(0, len(rows), 10)),
                     found)
                found.finish()
                said.append(calls.calls_report(found))
        self.assertEqual(said[1:], said[:1] * 2)

    def test_a_text_that_changes_is_the_one_of_then(self):
        """put_text copies its second argument to the first: at its return the text is there, and
        before its call it isn't."""
        log = self.record("heap", "--seed", "1")
        elf = self.elf("heap")
        with asked_of(log, elf, {}) as asked:
            told = [call for call in calls.calls_of(asked, function_of(asked.named, "put_text"),
                                                    1000).told if call.rows is not None]
            copied = {Pointer(call.back, call.values[0]):
                      calls.literal(asked.named, call.values[1])[2:-1] for call in told}
            found = texts_of(asked, copied)
            self.assertGreater(len(found), len(copied) // 2)    # (not each is followed by a 0)
            for pointer, text in found.items():
                self.assertTrue(text.startswith(copied[pointer]), (pointer, text))
            self.assertEqual(texts_of(asked,
                                      [Pointer(call.place, call.values[0]) for call in told]), {})

    def test_texts_end_and_are_printed(self):
        for data, said in ((b"abc\0xyz", "abc"), (b"a" * MOST_TEXT, "a" * MOST_TEXT),
                           (b"\0abc", ""), (b"ab\x01\0", ""), (b"", "")):
            self.assertEqual(text_in(list(data)), said)
        self.assertEqual([text_in([97, None, 0]), text_in([97, 0, None]), text_in([None])],
                         ["", "a", ""])

    def test_a_function_whose_parts_a_compiler_inlined_and_put_back(self):
        log, elf = self.crash("libc_tree")
        self.assertNotIn("(inlined)", self.compared(log, elf, "free"))

    def test_refusals(self):
        log, elf = self.crash("use_after_free")
        for name, said in (("tke", "has no tke; near it: take"), ("sessions", "has no sessions"),
                           ("00010148:3x", "has no")):
            self.assertIn(said, self.refuses_here(4, calls, log, elf, name))
        self.assertIn("it has",
                      self.refuses_here(2, calls, log, elf, "take", "--where", "nothing==1"))
        self.assertIn("is no condition",
                      self.refuses_here(2, calls, log, elf, "take", "--where", "size"))
        self.refuses_here(2, calls, log, elf, "take", "--where", "result==x")
        self.refuses(8, "calls", log, self.elf("counter"), "00010148")


class TypedTest(case.Case):
    def setUp(self):
        if not debugger.gdb_path():
            self.skipTest("no gdb is installed")

    def test_arguments_have_names_and_types(self):
        self.needs_addr2line()
        log = self.record("heap", "--seed", "1")
        elf = self.elf("heap")
        said = self.says("calls", log, elf, "put_text", "--last", "1")
        self.assertTrue(said.startswith("CALLS of put_text(char * to, const char * text): "
                                        "215 calls; the last 1 "), said)
        self.assertIn("  0:62342  (to=00011684 <arena+172>, text=00010468 'no substitutes')  -> "
                      "00011692 <arena+186>  73 rows  from keep heap.c:75  <  accept heap.c:85  <  "
                      "main heap.c:120\n", said)

    def test_conditions(self):
        log = self.record("heap", "--seed", "1")
        elf = self.elf("heap")
        wanted = calls_in(log, elf, *symbol(elf, "put_text"))
        for condition, takes in (("to==00011684", lambda call: call[2] == 0x11684),
                                 ("result>=0x11a00", lambda call: call[3] >= 0x11a00),
                                 ("to < 72000", lambda call: call[2] < 72000)):
            said = self.says("calls", log, elf, "put_text", "--where", condition, "--last", "1000")
            told = sorted((int(hart), int(count)) for hart, count, *_ in LINE.findall(said))
            self.assertEqual(told, [tuple(call[:2]) for call in wanted if takes(call)], condition)
            self.assertTrue(told)

    def test_inlined_calls_are_told_as_such(self):
        """deliver gives back two blocks, and removes an order; each order is removed once."""
        self.needs_addr2line()
        log = self.record("heap", "--seed", "1")
        elf = self.elf("heap")
        removed = sum("store 00011" in line and line.split(" | store ")[1][9:] == "00000000"
                      and 0x11498 <= int(line.split(" | store ")[1][:8], 16) < 0x11598
                      for line in common.output("joint", log, elf).decode().split("\n")
                      if " | store " in line)
        said = self.says("calls", log, elf, "give")
        self.assertTrue(said.startswith(f"CALLS of give: {2 * removed} calls; "), said[:80])
        self.assertEqual(len(re.findall(r"^  0:\d+  \(inlined\)", said, re.M)), 100)

    def test_a_function_that_begins_with_an_inlined_call(self):
        """The call is that of the function, and the inlined one's is told of that function
        alone."""
        log, elf = self.crash("race_settings")
        self.assertRegex(self.says("calls", log, elf, "main"),
                         r"^CALLS of main\(\): 1 call\n  0:4  \(\) .* from _start start.S:\d+\n$")
        self.assertEqual(self.says("calls", log, elf, "install").count("(inlined)"), 3)
        self.assertIn("is inlined everywhere",
                      self.refuses(2, "calls", log, elf, "install", "--where", "hart==1"))

    def test_json(self):
        log = self.record("heap", "--seed", "1")
        elf = self.elf("heap")
        said = json.loads(self.says("calls", log, elf, "put_text", "--last", "1", "--json"))
        entry = said["entries"][0]
        self.assertEqual((said["calls"], entry["count"], entry["rows"]), (215, 62342, 73))
        self.assertEqual(entry["arguments"],
                         {"to": "00011684 <arena+172>", "text": "00010468 'no substitutes'"})

    def test_the_calling_convention(self):
        def of(*sizes, result=None, register=""):
            said = [{"name": str(i), "register": register, "type": {"size": size}}
                    for i, size in enumerate(sizes)]
            return [each.registers
                    for each in parameters_of(said, {"size": result} if result else None)]
        self.assertEqual(of(4, 8, 1), [["a0"], ["a1", "a2"], ["a3"]])
        self.assertEqual(of(4, 12, result=12), [["a1"], ["a2"]])
        self.assertEqual(of(4, *[4] * 8)[-2:], [["a7"], []])
        self.assertEqual(of(4, register="s1"), [[]])
        # DWARF has a place for each of two pieces
        self.assertEqual(of(8, register="a2 a3"), [["a2", "a3"]])
        self.assertEqual(of(8, register="a2"), [[]])

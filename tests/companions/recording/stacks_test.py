"""The calls over a row: those who read text and those who read columns say the same, behind tail
calls too."""
import json
import re
import unittest

import case
import common

from companion.recording import chunks, stacks
from companion.recording.calls import Entries, entries_of
from companion.recording.elf import Elf
from companion.recording.log import read_log
from companion.recording.trace import read_trace

PROGRAMS = ("freed_entry", "libc_strings", "misaligned_trim", "narrowed_size",
            "race_gauges", "race_berths")
MOST_ROWS = 30000           # a program that grew makes this test slow


def traced(log, elf):
    """The rows as columns, and the places of all calls over each."""
    trace = read_trace(read_log(log), elf, entries_of(Elf(elf)))
    return trace.rows, lambda n: trace.calls.above(n, 1 << 20).calls


class StacksTest(case.Case):
    def setUp(self):
        self.addCleanup(setattr, chunks, "CHUNK", chunks.CHUNK)

    def frames(self, log, elf, harts):
        """{(hart, count): the places of the calls over it} of all rows, by text."""
        found = {}
        followed = stacks.Stacks(entries_of(Elf(elf)), harts)
        for text in chunks.chunks(log, elf):
            followed.take(text)
            for row in re.finditer(rb"\n(\d+) (\d+) ", text):
                found[int(row[1]), int(row[2])] = stacks.call_places(
                    followed.chunk.top(row[1], row.start() + 1), 1 << 20)
            # Without places and with them
            self.assertEqual(followed.tops, {**followed.tops, **followed.chunk.tops})
            self.assertEqual(followed.waiting, followed.chunk.waiting)
        return found

    def test_text_and_columns_have_the_same_calls(self):
        for name in PROGRAMS:
            log, elf = self.crash(name)
            rows, calls = traced(log, elf)
            self.assertLess(rows.size, MOST_ROWS)
            for size in (700, 1 << 18):
                chunks.CHUNK = size
                found = self.frames(log, elf, len(rows.harts))
                for n in range(1, rows.size + 1):
                    self.assertEqual(found[rows.hart[n], rows.count_of(n)],
                                     calls(n), f"{name} {rows.text(n)}")

    def test_a_return_is_paired_with_its_call(self):
        """It leads behind the call, to the same calls over it. What isn't paired is what the end is
        in."""
        returned = 0
        for name in PROGRAMS:
            log, elf = self.crash(name)
            rows, _, calls = read_trace(read_log(log), elf, entries_of(Elf(elf)))
            paired = calls.paired
            jumps = calls.jumps
            made = sum(rows.code_of(n).call for n in jumps)
            self.assertEqual(len(paired.calls) + sum(map(len, paired.left.values())), made, name)
            returned += len(paired.calls)
            for call, back in zip(paired.calls, paired.backs):
                behind = rows.following(jumps[back])
                self.assertEqual((rows.code_of(behind).pc, calls.node_of(behind)),
                                 (rows.code_of(jumps[call]).pc + 4, calls.node_of(jumps[call])),
                                 name)
            for hart, last in rows.last.items():
                under = calls.above(last, 1 << 20).calls
                self.assertLessEqual({rows.code_of(jumps[at]).pc for at in paired.left[hart]},
                                     set(under))
        self.assertGreater(returned, 100)

    def test_all_who_tell_a_caller_tell_the_same(self):
        """Behind a tail call the function that jumped is among them."""
        log, elf = self.crash("freed_entry")
        said = json.loads(self.says("calls", log, elf, "give", "--json"))["entries"]
        jumped = [each for each in said if each["from"]["function"] == "evict"]
        self.assertGreater(len(jumped), 3)
        told = json.loads(self.says("history", log, elf, "00011640", "--json",
                                    "--last", "1000"))["entries"]
        callers = {(each["hart"], each["count"]): each["caller"]["function"]
                   for each in told if each["place"]["function"] == "give"}
        inside = [count for call in jumped
                  for _, count in callers if call["count"] <= count < call["count"] + call["rows"]]
        self.assertEqual({callers[0, count] for count in inside}, {"evict"})
        for count in (inside[0], jumped[0]["count"], jumped[-1]["count"]):
            why = self.says("why", log, elf, "--row", f"0:{count}")
            self.assertRegex(why, r"\n  at +\w+ give .*\n  from +\w+ evict ")
        self.says("export", log, elf, "--callgrind", common.path("costs"))
        made = sum(map(int,
                       re.findall(r"cfn=give\ncalls=(\d+) ", common.text_of(common.path("costs")))))
        self.assertEqual(made, len(said))


class FramesTest(unittest.TestCase):
    def stacks(self, *entries, size=0):
        return stacks.Stacks(Entries(dict.fromkeys(entries, size)), 1)

    def calls(self, followed, text):
        followed.take(text)
        return [f"{place:x}" for place in stacks.call_places(followed.tops[b"0"], 9)]

    def test_a_loop_to_the_first_row_of_a_function_is_no_call(self):
        followed = self.stacks(0x100, 0x200)
        self.assertEqual(self.calls(followed,
                                    b"\n0 0 00000100 0ffff06f jal zero,00000200\n0 1 00000200 x x"),
                         [])
        text = b"\n0 0 00000110 ff1ff06f jal zero,00000100\n0 1 00000100 00000013 addi"
        self.assertEqual(self.calls(self.stacks(0x100, 0x200), text), [])
        self.assertEqual(self.calls(self.stacks(0x100, 0x108), text), ["110"])
        self.assertEqual(self.calls(self.stacks(0x100, size=0x14), text), [])
        # The code behind it is another's
        self.assertEqual(self.calls(self.stacks(0x100, size=0x10), text), ["110"])

    def test_a_jump_by_a_register_is_a_call_if_it_leads_to_a_function(self):
        text = b"\n0 0 00000100 00078067 jalr zero,0(a5)\n0 1 00000%d00 00000013 addi"
        self.assertEqual(self.calls(self.stacks(0x100, 0x200), text % 2), ["100"])
        self.assertEqual(self.calls(self.stacks(0x100, 0x200), text % 3), [])

    def test_of_many_frames_the_inner_half_is_kept(self):
        self.addCleanup(setattr, stacks, "MOST_FRAMES", stacks.MOST_FRAMES)
        stacks.MOST_FRAMES = 8
        followed = self.stacks()
        row = b"\n0 %d 00000100 000000ef jal ra,00000100"
        for count in range(0, 60, 3):
            followed.take(b"".join(row % each for each in range(count, count + 3)))
            self.assertLessEqual(
                len(stacks.call_places(followed.tops.get(b"0", stacks.BOTTOM), 99)), 8 + 3)
        self.assertEqual(followed.tops[b"0"][2], 59)


if __name__ == "__main__":
    unittest.main()

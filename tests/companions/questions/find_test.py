"""zelkuma find: the places of a value, beside a plain reading of the rows."""
import json
import re

import case
import common

from companion.recording.elf import Elf
from companion.questions import debugger, find
from companion.questions.reading import asked_of, read

LINE = re.compile(r"^  (\d+:\d+) +(\d+:\d+) +([\d,]+) +(puts it into|loads it from|stores it "
                  r"to) (\w+)", re.M)


def rows_with(log, elf, value):
    """{(pc, what the row did): [first, last, times]}, line by line."""
    found = {}
    for line in common.output("joint", log, elf).decode().split("\n"):
        parts = line.split(" | ")
        words = parts[0].split(" ")
        did = [told for told in parts[1:] if told.endswith(f"={value:08x}")]
        if did and words[0].isdigit():
            what = re.sub(r"( \w+)?=.*", "", did[-1])
            entry = found.setdefault((words[2], what), [f"{words[0]}:{words[1]}", "", 0])
            entry[1:] = f"{words[0]}:{words[1]}", entry[2] + 1
    return found


class FindTest(case.Case):
    def test_each_place_is_told(self):
        for name, value, *words in (("heap", 0x11b00), ("filters", 0x11450, "--harts", "4"),
                                    ("counter", 1, "--harts", "2")):
            log = self.record(name, "--seed", "10", *words)
            elf = self.elf(name)
            wanted = rows_with(log, elf, value)
            said = self.says("find", log, elf, f"{value:08x}")
            told = [list(found[:3]) for found in LINE.findall(said)]
            self.assertEqual(told, [[first, last, f"{times:,}"]
                                    for first, last, times in wanted.values()])
            self.assertIn(f": {sum(entry[2] for entry in wanted.values()):,} rows, "
                          f"{len(wanted)} places\n", said)

    def test_a_symbol_is_its_address(self):
        log = self.record("heap", "--seed", "10")
        elf = self.elf("heap")
        self.assertTrue(self.says("find", log, elf, "orders").startswith("FIND 00011498: "))
        self.assertTrue(self.says("find", log, elf, "orders+12").startswith("FIND 000114a4: "))
        self.assertIn("has no nothing", self.refuses(4, "find", log, elf, "&nothing"))
        if debugger.gdb_path():
            self.assertTrue(self.says("find", log, elf, "&orders[3]").startswith("FIND 000114a4: "))

    def test_words_of_the_file(self):
        log = self.record("heap", "--seed", "10")
        elf = self.elf("heap")
        at = next(item.address for item in Elf(elf).symbols if item.name == "end")
        value = Elf(elf).word(at)
        self.assertIn(f"\n  in the file: {at:08x} <end>\n",
                      self.says("find", log, elf, f"{value:08x}"))

    def test_of_very_many_rows_the_number_is_told(self):
        log = self.record("heap", "--seed", "10")
        elf = self.elf("heap")
        kept = find.MOST_ROWS
        find.MOST_ROWS = 100
        self.addCleanup(setattr, find, "MOST_ROWS", kept)
        with asked_of(log, elf, {}) as asked:
            found = find.FoundRows(asked, 1)
            rows = b"".join(asked.chunks())[1:].split(b"\n")
            read((b"\n" + row for row in rows), found)
            lines = find.rows_report(found)
        some = sum(row.count(b"=00000001") for row in rows)
        self.assertLess(100, found.total)
        self.assertLessEqual(found.total, some)
        self.assertEqual(lines[1], "  Places are those of the first 100 rows that have it.")

    def test_json(self):
        log = self.record("heap", "--seed", "10")
        elf = self.elf("heap")
        said = json.loads(self.says("find", log, elf, "00011b00", "--json"))
        wanted = rows_with(log, elf, 0x11b00)
        self.assertEqual([(each["place"]["address"], each["times"]) for each in said["places"]],
                         [(pc, times) for (pc, _), (_, _, times) in wanted.items()])

    def test_refusals(self):
        log = self.record("heap", "--seed", "10")
        elf = self.elf("heap")
        self.assertIn("has no ordrs; near it: orders",
                      self.refuses_here(4, find, log, elf, "ordrs"))
        self.refuses_here(2, find, log, elf, "4294967296")
        self.refuses_here(2, find, log, elf)
        self.refuses(8, "find", log, self.elf("counter"), "00011b00")

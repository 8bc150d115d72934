"""zelkuma export: each file is read by the tool that it is for, and says what the rows say."""
import collections
import json
import os
import re
import shutil
import subprocess

import case
import common

from companion.recording.elf import Elf
from companion.questions import export


def rows_at(log, elf):
    """{address: how many rows}"""
    return collections.Counter(int(words[2], 16) for words in common.rows(log, elf))


class ExportTest(case.Case):
    def exported(self, option, name, *words):
        self.needs_addr2line()
        log = self.record(name, *words)
        elf = self.elf(name)
        file = common.path(name + option)
        self.says("export", log, elf, option, file)
        return log, elf, file

    def test_callgrind_annotate(self):
        if not shutil.which("callgrind_annotate"):
            self.skipTest("callgrind_annotate of valgrind isn't installed")
        log, elf, file = self.exported("--callgrind", "heap", "--seed", "1")
        rows = rows_at(log, elf)
        done = subprocess.run(["callgrind_annotate", "--inclusive=no", file],
                              stdout=subprocess.PIPE, stderr=subprocess.STDOUT, check=True)
        said = done.stdout.decode()
        self.assertIn(f"\n{sum(rows.values()):,} (100.0%)  PROGRAM TOTALS", said)
        symbol = next(item for item in Elf(elf).symbols if item.name == "put_text")
        own = sum(rows[pc] for pc in range(symbol.address, symbol.address + symbol.size))
        self.assertRegex(said, rf"\n *{own:,} \( ?[\d.]+%\)  .*machine.c:put_text")
        calls = re.search(r"\ncfn=put_text\ncalls=(\d+) ", common.text_of(file))
        self.assertEqual(int(calls[1]), rows[symbol.address])

    def test_inclusive_costs_are_those_of_the_calls(self):
        log, elf, file = self.exported("--callgrind", "heap", "--seed", "1")
        taken = sum(int(cost) for cost in re.findall(r"\ncfn=put_text\ncalls=\d+ \d+\n\d+ (\d+)\n",
                                                     common.text_of(file)))
        said = json.loads(self.says("calls", log, elf, "put_text", "--last", "1000", "--json"))
        self.assertEqual(taken, sum(each["rows"] for each in said["entries"]))

    def test_lcov_and_genhtml(self):
        log, elf, file = self.exported("--lcov", "heap", "--seed", "1")
        text = common.text_of(file)
        rows = rows_at(log, elf)
        main = next(item for item in Elf(elf).symbols if item.name == "main")
        self.assertIn(f"\nFNDA:{rows[main.address]},main\n", text)
        counts = dict(re.findall(r"^DA:(\d+),(\d+)$",
                                 text.partition("/heap.c\n")[2].partition("end_of_record")[0],
                                 re.M))
        # Keep's line 75 puts a text each time
        self.assertEqual(counts["75"], "215")
        self.assertIn("\nDA:", text)
        if not shutil.which("genhtml"):
            self.skipTest("genhtml of lcov isn't installed")
        said = subprocess.run(["genhtml", "-o", common.path("html"), file], cwd=common.TOP,
                              stdout=subprocess.PIPE, stderr=subprocess.STDOUT, check=False)
        self.assertEqual(said.returncode, 0, said.stdout)
        done, lines = re.search(r"lines\.+: [\d.]+% \((\d+) of (\d+) lines\)",
                                said.stdout.decode()).groups()
        self.assertEqual((int(done), int(lines)),
                         (sum(map(int, re.findall(r"^LH:(\d+)$", text, re.M))),
                          sum(map(int, re.findall(r"^LF:(\d+)$", text, re.M)))))

    def test_trace_events(self):
        """The form is that of the Trace Event Format: what each kind of event has to have."""
        log, elf, file = self.exported("--perfetto", "filters", "--seed", "10", "--harts", "4")
        events = json.loads(common.text_of(file))["traceEvents"]
        needs = {"X": {"ts", "dur"}, "M": {"args"}, "i": {"ts", "s"}, "s": {"ts", "id", "cat"},
                 "f": {"ts", "id", "cat"}}
        for event in events:
            self.assertLessEqual({"name", "ph", "pid", "tid"} | needs[event["ph"]], set(event))
        self.assertEqual({event["args"]["name"] for event in events if event["ph"] == "M"
                          and event["pid"] == 1 and "thread" in event["name"]},
                         {f"hart {hart}" for hart in range(4)})
        faults = [event for event in events if event["ph"] == "i" and event["args"]["fault"]]
        self.assertEqual([(event["name"], event["tid"], event["args"]["count"])
                          for event in faults], [("LoadOutside", 2, 444)])
        harts = [words[0] for words in common.rows(log, elf)]
        turns = sum(one != other for one, other in zip(harts, harts[1:])) + 1
        self.assertEqual(sum(event["pid"] == 2 and event["ph"] == "X" for event in events), turns)
        starts = {event["id"]: event["ts"] for event in events if event["ph"] == "s"}
        self.assertTrue(starts)
        for event in events:
            if event["ph"] == "f":
                # What comes after is told after
                self.assertLess(starts[event["id"]], event["ts"])

    def test_waits(self):
        """Two harts wait for two locks up to their limit; those that got theirs wait a moment at
        most."""
        for seed, many in (("8", 2), ("1", 0)):
            log, elf, file = self.exported("--perfetto", "two_locks", "--seed", seed, "--harts",
                                           "2", "--limit", "20000")
            waits = [event for event in json.loads(common.text_of(file))["traceEvents"]
                     if event["pid"] == 3 and event["ph"] == "X"]
            long = [wait for wait in waits if wait["dur"] > 1000]
            self.assertEqual([wait["tid"] for wait in long], list(range(many)))
            rows = [words[0] for words in common.rows(log, elf)]
            for wait in long:
                self.assertTrue(wait["name"].startswith("waits in "))
                last = max(at for at, hart in enumerate(rows) if int(hart) == wait["tid"])
                self.assertLess(last - wait["ts"] - wait["dur"], 64)
                self.assertEqual(rows[wait["ts"]:wait["ts"] + wait["dur"]].count(str(wait["tid"])),
                                 wait["args"]["rows"])

    def test_refusals(self):
        log = self.record("heap", "--seed", "1")
        elf = self.elf("heap")
        self.refuses_here(2, export, log, elf)
        self.refuses_here(2, export, log, elf, "--lcov", common.path("a"),
                          "--callgrind", common.path("b"))
        other = common.path("precious.txt")
        for name, text in ((other, "mine"), (common.path("log.log"), "")):
            common.written(name, text)
        self.refuses_here(2, export, log, elf, "--lcov", other)
        self.refuses_here(2, export, log, elf, "--lcov", log)
        self.assertEqual(common.text_of(other), "mine")
        self.refuses(8, "export", log, self.elf("counter"), "--lcov", common.path("none.info"))
        self.assertFalse(os.path.exists(common.path("none.info")))

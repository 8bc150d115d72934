"""--json, and what docs/PYTHON.md promises to scripts."""
import json
import os
import re
import subprocess
import sys

import case
import common

from companion.recording.log import read_log
from companion.recording.row import parse_row, rows_of
from companion.recording.trace import read_trace


def documented(word):
    """The keys that docs/JSON.md tells of a word, in its section's table or text."""
    section = re.search(r"^## %s\n(.*?)(?=^## |\Z)" % word,
                        common.text_of(os.path.join(common.TOP, "docs", "JSON.md")),
                        re.S | re.M).group(1)
    cells = re.findall(r"^\| (`[^|]*) \|", section, re.M)
    told = re.findall(r"`(\w+)`", " ".join(cells) or section)
    return set(told)


class AnswersTest(case.Case):
    def answer(self, *words):
        said = self.says(*words, "--json")
        self.assertEqual(said.count("\n"), 1)
        found = json.loads(said)
        self.assertEqual((found.pop("answer"), found.pop("version")), (words[0], 1))
        self.assertEqual(found.pop("zelkuma"), common.version())
        return found

    def test_why(self):
        log, elf = self.crash("use_after_free")
        found = self.answer("why", log, elf)
        text = self.says("why", log, elf)
        self.assertEqual(set(found), documented("why"))
        self.assertEqual((found["reason"], found["value"], found["faulted"]),
                         ("LoadOutside", "63616220", True))
        self.assertEqual((found["start"]["place"]["function"], found["start"]["place"]["line"]),
                         ("serve", 48))
        first = found["suspects"][0]
        self.assertEqual((first["kind"], first["guilty"]["place"]["line"]), ("back", 31))
        for row in [found["start"]["row"]] + found["last_rows"] + [first["guilty"]["row"]]:
            self.assertIn(row, text)
        self.assertEqual(self.answer("why", log, elf, "--row", "0:100")["registers"], {})

    def test_the_loops_of_a_hang(self):
        found = self.answer("why", *self.crash("hang_width"))
        loop = found["loops"][0]
        self.assertEqual((loop["hart"], loop["since"], loop["rows"], loop["rounds"]),
                         (0, 51660, 8340, 14))
        self.assertEqual([item["place"]["line"] for item in loop["exits"]], [92, 68, 61])
        self.assertIn(69, [item["place"]["line"] for item in loop["stopped"]])
        self.assertEqual([(item["kind"], item["store"] is None) for item in found["suspects"][:2]],
                         [("store", False), ("branch", True)])
        self.assertEqual([point["place"]["line"] for point in found["suspects"][1]["extra"]],
                         [43, 69, 92])

    def test_race(self):
        log, elf = self.crash("race_settings")
        found = self.answer("race", log, elf)
        self.assertEqual(set(found), documented("race"))
        self.assertEqual((found["pairs"], sum(group["pairs"] for group in found["groups"])), (8, 8))
        self.assertEqual(found["groups"][0]["one"]["place"]["line"], 23)

    def test_bucket(self):
        log, elf = self.crash("use_after_free")
        found = self.answer("bucket", log, elf)
        self.assertEqual(set(found), documented("bucket"))
        self.assertEqual(found["line"] + "\n", self.says("bucket", log, elf))

    def test_output(self):
        log = self.record("word_count", "--seed", "1")
        elf = self.elf("word_count")
        found = self.answer("output", log, elf)
        text = self.says("output", log, elf)
        self.assertEqual(set(found), {"writes", "writes_before", "dropped_records"})
        self.assertGreater(len(found["writes"]), 0)
        for number, write in enumerate(found["writes"]):
            self.assertEqual(write["number"], number)
            self.assertIn(f"{number:>3}. {len(write['bytes'])} byte", text)
            self.assertIn(write["row"], text)

    def test_seeds(self):
        words = ["--", "--harts", "2", self.elf("hand_over"), common.path("seeds.log"),
                 common.path("seeds.book")]
        found = json.loads(self.says("seeds", "--json", "--only", "seeds", "1", "9", *words))
        self.assertEqual((found["answer"], found["seed"], found["from"], found["to"]),
                         ("seeds", 3, 1, 9))
        self.assertEqual(set(found), {"answer", "version", "zelkuma", "kind", "number", "seed",
                                      "command", "status", "from", "to", "tried", "part", "parts",
                                      "shrunk", "compared", "endings", "until", "kinds"})
        self.assertEqual(found["endings"][0], {"status": 0, "place": "-", "count": 2,
                                               "kind": "seed", "number": 1, "files": []})
        self.assertEqual((found["kind"], found["number"], found["tried"], len(found["endings"])),
                         ("seed", 3, 3, 2))
        self.assertIn(" --seed=3 ", found["command"])
        drawn = json.loads(self.says("seeds", "--json", "--only", "bursts", "--until", "0", "1",
                                     "9", *words))
        self.assertEqual((drawn["kind"], drawn["seed"]), ("bursts", None))
        status, said, err = common.companion("seeds", "--json", "--only", "seeds", "1", "2", *words)
        self.assertEqual((status, json.loads(said)["seed"], err.count("\n")), (22, None, 1))

    def test_a_refusal_is_no_object(self):
        log, _ = self.crash("use_after_free")
        for word in ("why", "race", "bucket"):
            self.refuses(8, word, log, self.elf("sort"), "--json")


class PythonTest(case.Case):
    def test_rows_of_a_log(self):
        for log, elf in (self.crash("use_after_free"), self.crash("race_ring")):
            told, writers, _ = read_trace(read_log(log), elf)
            rows = list(rows_of(log, elf))
            self.assertEqual(len(rows), told.size)
            for n, row in enumerate(rows, 1):
                self.assertEqual((row.hart, row.ic, row.pc),
                                 (told.hart[n], told.count_of(n), told.code_of(n).pc))
                self.assertEqual((row.load, row.store), (told.load_of(n), told.store_of(n)))
                self.assertEqual(row.result if row.register else None, told.result_of(n))
                self.assertEqual(parse_row(told.text(n).encode()), row)
            stores = [n for n, row in enumerate(rows, 1) if row.store]
            address = rows[stores[-1] - 1].store.address
            before = [n for n in stores
                      if n < stores[-1] and rows[n - 1].store.address & ~3 == address & ~3]
            self.assertEqual(writers.word[stores[-1]], before[-1] if before else 0)
        self.assertIsNone(parse_row(b"end 0 2 22675 LoadOutside 6e657472\n"))
        self.assertIsNone(parse_row(b"word 0001147c=00000000\n"))

    def test_the_script_of_the_page(self):
        self.needs_addr2line()
        log, _ = self.crash("use_after_free")
        script = re.findall(r"<<'END'\n(.*?)^END$",
                            common.text_of(os.path.join(common.TOP, "docs", "PYTHON.md")),
                            re.S | re.M)[-1]
        done = subprocess.run([sys.executable, "-c", script.replace("/tmp/LOG", log)],
                              cwd=common.TOP, stdout=subprocess.PIPE,
                              env=dict(os.environ, PYTHONPATH=os.path.join(common.TOP, "python")),
                              check=False)
        self.assertRegex(done.stdout.decode(), r"\A\d+ stores\n0 \d+ 000103f4 .* in note "
                         r"use_after_free.c:40\ncalled from \['_start start.S:16'\]\n\Z")

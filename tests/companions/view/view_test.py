"""zelkuma view: what a page holds, and that names of a log or an ELF get into it as text alone."""
import array
import html.parser
import json
import os
import pty
import re
import shutil
import subprocess
import sys
import unittest

import case
import common
import hostile
from case import data_of

from companion.recording import log as logs, trace
from companion.view import data as view_data


class Reader(html.parser.HTMLParser):
    """The elements of a page in their order, their attributes, and the text of each script."""

    def __init__(self, text):
        super().__init__(convert_charrefs=True)
        self.elements = []
        self.attributes = []
        self.scripts = []
        self.title = ""
        self.inside = ""
        self.feed(text)
        self.close()

    def handle_starttag(self, tag, attributes):
        self.elements.append(tag)
        self.attributes += attributes
        self.inside = tag
        if tag == "script":
            self.scripts.append("")

    def handle_endtag(self, tag):
        self.inside = ""

    def handle_data(self, data):
        if self.inside == "script":
            self.scripts[-1] += data
        elif self.inside == "title":
            self.title += data


class ViewTest(case.Case):
    def view(self, name, *options):
        return self.says("view", self.record(name, *options), self.elf(name),
                         "--names", self.names(name))

    def test_wild_store(self):
        page = self.view("wild_store", "--seed", "1")
        reader = Reader(page)
        data = data_of(page)
        self.assertEqual(reader.title, "wild_store.elf: LoadOutside 6e657472")
        self.assertEqual((data["fault"], data["harts"], data["start"]),
                         (["LoadOutside", "6e657472"], 1, [0, 22675, 22676]))
        self.assertEqual([interval[4] for interval in data["intervals"]],
                         ["call", "call", "LoadOutside"])
        suspect = data["suspects"][0]
        self.assertEqual(data["places"][suspect["place"]][:2], ["put_text", "machine.c:18"])
        self.assertEqual(suspect["steps"][-1]["about"], "members[20].next 'rten'")

    def test_lines_of_source_stand_around_places(self):
        data = data_of(self.says("view", *self.crash("use_after_free")))
        first, lines = data["around"][str(data["where"])]
        self.assertEqual((first, len(lines)), (47, 3))
        self.assertIn("return session->user[0]", lines[1])
        self.assertEqual(set(map(int, data["around"])),
                         {data["where"]} | {item["place"] for item in data["suspects"]})
        stripped = self.record("wild_store", "--seed", "1"), self.elf("wild_store")
        self.assertEqual({len(lines)
                          for _, lines in data_of(self.says("view", *stripped))["around"].values()},
                         {0})

    def test_a_hang_shows_its_loop(self):
        page = self.says("view", *self.crash("hang_wakeup"))
        data = data_of(page)
        self.assertEqual((data["about"], data["fault"], data["words"]), ("hang", None, []))
        self.assertEqual(data["places"][data["where"]][:2],
                         ["sleep_until_rung", "hang_wakeup.c:35"])
        self.assertIn("hart 0 goes round since count 8,372: 51,628 rows, 25,814 rounds",
                      data["hang"])
        self.assertTrue([line for line in data["hang"] if "(zelkuma why --more)" in line])

    def test_suspects_are_those_of_the_text(self):
        """What a library did is told by its caller's line on the page, in the text and in JSON."""
        log, elf = self.crash("libc_line")
        data = data_of(self.says("view", log, elf))
        answer = json.loads(self.says("why", log, elf, "--json"))
        places = [" ".join(data["places"][item["place"]][:2]) for item in data["suspects"]]
        self.assertIn("finish libc_line.c:65", places)
        self.assertEqual(places, [item["where"] for item in answer["suspects"]][:len(places)])

    def test_memory_errors_are_those_of_the_text(self):
        log, elf = self.crash("libc_end_of_block")
        lines = data_of(self.says("view", log, elf))["memory"]
        self.assertEqual(lines[0],
                         "1. heap-buffer-overflow: store of 1, 0 bytes after a block of 14 bytes")
        self.assertIn("\n".join("  " + line for line in lines), self.says("why", log, elf))
        self.assertEqual(data_of(self.says("view", *self.crash("null_route")))["memory"], [])

    def test_a_byte_of_the_output_shows_its_store(self):
        log, elf = self.crash("wrong_total")
        page = self.says("view", log, elf, "--output", "0:29")
        data = data_of(page)
        self.assertEqual((data["about"], data["hang"]), ("output", []))
        self.assertEqual(Reader(page).title, "wrong_total.elf: byte 29 of write 0")
        self.assertEqual(data["start"][:2], [0, 18281])
        self.assertIn("The byte is '5': hart 0 stored it at count 18,281.", data["words"])
        self.assertEqual(data["places"][data["suspects"][0]["place"]][1], "wrong_total.c:42")
        self.assertIn("has to be a number", self.refuses(2, "view", log, elf, "--output", "x"))
        self.refuses(14, "view", log, elf, "--output", "999:0")

    def test_tills_has_its_race(self):
        data = data_of(self.view("tills", "--seed", "1", "--harts", "2"))
        self.assertEqual(data["allRaces"], 477)
        self.assertEqual(sum(group["pairs"] for group in data["races"]), 477)
        first = data["races"][0]
        kinds = [group["kind"] for group in data["races"]]
        self.assertEqual({data["places"][first[side]][1] for side in ("first", "second")},
                         {"tills.c:37", "tills.c:38"})
        self.assertEqual(kinds, sorted(kinds, key=["", "ordered by fences", "fenced"].index))
        self.assertEqual(kinds[-1], "fenced")

    def test_rows_are_the_programs(self):
        page = data_of(self.view("tills", "--seed", "1", "--harts", "2"))
        log = self.record("tills", "--seed", "1", "--harts", "2")
        exact = set(self.program("joint", log, self.elf("tills")).split("\n"))
        words = {}
        for row in exact:
            parts = row.split(" ")
            if len(parts) > 3 and parts[0].isdigit():
                words[parts[2]] = parts[3]
        seen = 0
        wrong = []
        for hart, first, codes, tails, _ in page["windows"]:
            for offset, (code, tail) in enumerate(zip(codes, tails.split("\n"))):
                pc, text, _ = page["codes"][code]
                address = "%08x" % pc
                row = "%d %d %s %s %s%s" % (hart, first + offset, address, words[address],
                                            text, tail and " | " + tail)
                wrong += [] if row in exact else [row]
                seen += 1
        self.assertEqual(wrong, [])
        self.assertGreater(seen, 1000)

    def test_the_page_is_one_file(self):
        reader = Reader(self.view("wild_store", "--seed", "1"))
        self.assertEqual(reader.elements.count("script"), 2)
        self.assertEqual([tag for tag in reader.elements
                          if tag in ("img", "link", "iframe", "object", "embed", "base")], [])
        self.assertEqual([name for name, _ in reader.attributes if name in ("src", "href", "action")
                          or name[:2] == "on"], [])
        self.assertIn(("content", f"Zelkuma {common.version()}"), reader.attributes)

    def test_twice_the_same(self):
        self.assertEqual(self.view("tills", "--seed", "1", "--harts", "2"),
                         self.view("tills", "--seed", "1", "--harts", "2"))

    def test_the_terminals_encoding_is_nothing_to_it(self):
        words = "view", self.record("tills", "--seed", "1", "--harts", "2"), self.elf("tills")
        status, page, err = common.companion(*words, environment={"PYTHONIOENCODING": "ascii"})
        self.assertEqual((status, err, page), (0, "", self.says(*words)))
        self.assertIn("\u2190", page)

    def test_companions_show_the_program_proves(self):
        self.assertIn("Companions show; the program proves", self.view("wild_store", "--seed", "1"))

    def test_without_names(self):
        log = self.record("tills", "--seed", "1", "--harts", "2")
        data = data_of(self.says("view", log, self.elf("tills")))
        self.assertEqual({place[0] for place in data["places"]}, {""})
        self.assertEqual({place[2] for place in data["places"]}, {""})

    def test_without_addr2line(self):
        words = ("view", self.record("tills", "--seed", "1", "--harts", "2"), self.elf("tills"),
                 "--names", self.names("tills"))
        status, page, err = common.companion(*words, environment={"PATH": ""})
        self.assertEqual((status, err.count("\n"), "no addr2line" in err), (0, 1, True))
        data = data_of(page)
        self.assertEqual(["no addr2line" in note for note in data["notes"]], [True])
        self.assertEqual(data["places"][data["where"]], ["sell", "00010194", ""])

    def test_a_row_that_is_asked_for(self):
        log = self.record("wild_store", "--seed", "1")
        data = data_of(self.says("view", log, self.elf("wild_store"), "--row", "0:22671"))
        self.assertEqual((data["start"][:2], data["fault"], data["words"]), ([0, 22671], None, []))

    def test_runs_without_a_fault(self):
        ends = {("two_locks", "--seed", "8", "--harts", "2", "--limit", "20000"): "limit",
                ("counter", "--seed", "1", "--harts", "2", "--log-size", "65536"): "exit"}
        for (name, *options), reason in ends.items():
            data = data_of(self.view(name, *options))
            self.assertIsNone(data["fault"])
            self.assertEqual({end[2] for end in data["ends"]}, {reason})
            self.assertEqual(len(data["ends"]), 2)

    def test_what_was_dropped(self):
        data = data_of(self.view("counter", "--seed", "1", "--harts", "2", "--log-size", "65536"))
        self.assertGreater(data["dropped"], 0)
        self.assertGreater(min(interval[2] for interval in data["intervals"]), 0)
        self.assertTrue(any(0 in (edge[4], edge[5]) for edge in data["edges"]))

    def test_a_full_log_makes_a_small_page(self):
        options = ("--seed", "1", "--harts", "8", "--log-size", "1048576")
        self.assertGreater(os.path.getsize(self.record("counter", *options)), 1000000)
        self.assertLess(len(self.view("counter", *options)), 5 << 20)

    def test_a_log_without_intervals(self):
        log = common.path("empty.log")
        subprocess.run([common.PROGRAM, "record", "--seed", "1", "--log-size", "16384",
                        "--limit", "3000000", self.elf("sort"), log, common.path("book")],
                       stderr=subprocess.DEVNULL, check=False)
        self.assertEqual(self.program("list", log), "")
        self.assertIn("no row", self.refuses(14, "view", log, self.elf("sort")))

    def test_one_row(self):
        data = data_of(self.view("tills", "--seed", "1", "--limit", "1"))
        self.assertEqual((data["rows"], data["start"], len(data["chain"]["nodes"])),
                         (1, [0, 0, 1], 1))

    def test_refusals(self):
        log = self.record("wild_store", "--seed", "1")
        self.refuses(2, "view", log, self.elf("wild_store"), "--row", "here")
        self.refuses(14, "view", log, self.elf("wild_store"), "--row", "0:99999999")

    def test_no_page_goes_to_a_terminal(self):
        log = self.record("wild_store", "--seed", "1")
        ours, theirs = pty.openpty()
        done = subprocess.run([sys.executable, common.COMPANION, "view", log,
                               self.elf("wild_store")], stdout=theirs,
                              stderr=subprocess.PIPE, check=False)
        os.close(ours)
        os.close(theirs)
        self.assertEqual((done.returncode, done.stderr),
                         (2, b"zelkuma: the page is for a browser, and not for a terminal: "
                          b"zelkuma view LOG ELF >page.html\n"))


class HostileTest(case.Case):
    def hostile_page(self):
        return self.says("view",
                         *hostile.files(self.elf("tills"),
                                        self.record("tills", "--seed", "1", "--harts", "2")))

    def test_no_name_becomes_markup(self):
        plain = Reader(self.says("view", self.record("tills", "--seed", "1", "--harts", "2"),
                                 self.elf("tills")))
        page = self.hostile_page()
        reader = Reader(page)
        data = data_of(page)
        self.assertEqual((reader.elements, reader.attributes), (plain.elements, plain.attributes))
        told = json.dumps(data)
        self.assertIn("onerror=document.title='hit'", told)     # the names are there, as text
        self.assertIn("@DATA@", told)
        self.assertEqual(reader.scripts[1], plain.scripts[1])

    def test_no_source_becomes_markup(self):
        """The path of a source, its text and its functions are hostile; a compiler is needed to
        write them."""
        if not shutil.which("riscv64-unknown-elf-gcc"):
            self.skipTest("riscv64-unknown-elf-gcc isn't installed")
        elf = hostile.compiled()
        log = common.record("compiled", elf, "--seed", "1")
        reader = Reader(self.says("view", log, elf))
        data = json.loads(reader.scripts[0])
        self.assertEqual([tag for tag in reader.elements if tag in ("img", "b")], [])
        self.assertIn("</script><b>", json.dumps(data["places"]))
        self.assertIn("<img src=x onerror=alert(1)>.c:", json.dumps(data["places"]))

    def test_data_has_no_letter_of_markup(self):
        script = re.search(r'<script type="application/json" id="data">(.*?)</script>',
                           self.hostile_page(), re.S).group(1)
        self.assertNotRegex(script, "[<>&]")
        self.assertNotRegex(script, "[^ -~]")


class EdgesTest(unittest.TestCase):
    def test_evenly_chosen_edges_are_even(self):
        """Of a log whose Edges crowd at the end as many are chosen of each part."""
        class Log:
            edges = logs.Edges(*(array.array("q", column)
                                 for column in zip(*((0, 0, i % 2, 1) for i in range(20000)))))

        class Rows:
            size = 10000

        page = view_data.Page(trace.Trace(Rows, None, None), None, Log)     # type: ignore[arg-type]
        rows = list(range(5000)) + [5000 + i // 3 for i in range(15000)]
        even = page.even_edges(rows)
        late = sum(rows[i] >= 5000 for i in even)
        self.assertLessEqual(len(even), view_data.EDGES // 2)
        self.assertAlmostEqual(late / len(even), 0.5, delta=0.02)

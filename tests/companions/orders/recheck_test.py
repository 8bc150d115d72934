"""What `recheck` says of true, half and no fixes; that its bad ends are recordings; order files by
hand; folders; and refusals."""
import json
import os
import re
import shlex
import subprocess
import unittest
import xml.etree.ElementTree as xml

import case
import common
import mended
from companion.orders.order_file import order_text, read_order

HAND = """zelkuma order 1
program filters.elf
set --harts=6
end fault LoadOutside in apply
hart 0 until store ready in main
hart 3 until load current in hold
hart 0 until store pool in give_filter
hart 3 to the end
"""
STEALING = """zelkuma order 1
program race_stealing.elf
set --harts=4
end fault LoadOutside in work
hart 0 until atomic bottom in put
hart 2 until load bottom in steal
hart 0 until atomic jobs in work #4
hart 2 to the end
"""
FEW = "--tries", "40"
needs_compiler = unittest.skipIf(common.lacks_compiler(), common.lacks_compiler())


def checked(*words):
    """(the status, the object of the first order, what is said on err)"""
    status, said, err = common.companion("recheck", *words, "--json")
    return status, json.loads(said)["orders"][0] if said else {}, err


def hand(text=HAND, name="hand.order"):
    return common.written(common.path(name), text)


def symbols(elf):
    """{name: the addresses of its object} by the section headers, as readelf tells them."""
    found = {}
    for tool in ("riscv64-unknown-elf-readelf", "readelf"):
        try:
            text = subprocess.run([tool, "-sW", elf], stdout=subprocess.PIPE,
                                  check=True).stdout.decode()
        except OSError:
            continue
        for line in text.splitlines():
            words = line.split()
            if len(words) == 8 and words[3] in ("OBJECT", "FUNC"):
                found[words[7]] = range(int(words[1], 16), int(words[1], 16) + int(words[2]))
        return found
    raise unittest.SkipTest("no readelf is installed")


def last_rows(log, elf, book):
    """Of each piece of a list of turns the last row, from what `replay` prints: an access or a call
    ends a turn."""
    turns = {}
    for line in common.output("list", log).decode().splitlines():
        hart, number = line.split(" ")[:2]
        rows = common.output("replay", log, elf, hart, number).decode().splitlines()
        turns.setdefault(int(hart), []).extend(row for row in rows
                                               if re.search(r"\| (load|store|fault) | ecall", row))
    done = dict.fromkeys(turns, 0)
    found = []
    for piece in re.finditer(rb"(.)\1*", common.content(book), re.S):
        hart = piece[0][0]
        done[hart] += len(piece[0])
        found.append((hart, turns[hart][done[hart] - 1]))
    return found


class RecheckTest(case.Case):
    def order_of(self, name, *options, level="-O2"):
        """The order file of a recorded program, as `shrink` saves it."""
        file = common.path(f"{name}{level}.order")
        short = common.path(f"{name}{level}.short")
        if not os.path.exists(file):
            self.says("shrink", *mended.recorded(name, level), short, short + ".book",
                      "--order", file, *options)
        return file

    def verdict(self, status, verdict, *words):
        found, told, err = checked(*words)
        self.assertEqual((found, told.get("status"), err), (status, status, ""), told)
        self.assertTrue(told["verdict"].startswith(verdict), told)
        return told

    def test_by_hand_an_order_finds_what_no_seed_up_to_100_finds(self):
        self.needs_addr2line()
        elf = self.elf("filters")
        told = self.verdict(10, "STILL CRASHES, by the order itself", hand(), elf)
        self.assertEqual([each["how"] for each in told["switches"]], ["kept"] * 3)
        self.assertLessEqual(told["recordings"], 6)

    def test_the_saved_run_is_the_one_that_is_told(self):
        """By the rows of the run, and the addresses that readelf tells: each hart stops after the
        access of its line."""
        elf = self.elf("filters")
        name = common.path("told")
        status, said, err = common.companion("recheck", hand(), elf, "--save", name)
        self.assertEqual((status, err), (10, ""))
        self.assertEqual(common.output("audit", name + ".log", elf, name + ".book"), b"agree\n")
        known = symbols(elf)
        rows = last_rows(name + ".log", elf, name + ".book")
        for (hart, row), (wanted, access, symbol, function) in zip(
                rows, ((0, "store", "ready", "main"), (3, "load", "current", None),
                       (0, "store", "pool", None))):
            address = int(re.search(rf"\| {access} (\w+)=", row)[1], 16)
            self.assertEqual(hart, wanted)
            self.assertIn(address, known[symbol])
            self.assertTrue(function is None or int(row.split(" ")[2], 16) in known[function])
        command = shlex.split(re.search(r"made again by: (.*)", said)[1])
        schedule = command[0]
        program = command[1]
        words = command[2:]
        self.assertEqual((program, words[-3:]), ("zelkuma", [elf, "LOG", "BOOK"]))
        again = common.path("again.log"), common.path("again.book")
        done = subprocess.run([common.PROGRAM, *words[:-2], *again],
                              env=common.scheduled(schedule.partition("=")[2]),
                              stdout=subprocess.DEVNULL, stderr=subprocess.DEVNULL, check=False)
        self.assertEqual(done.returncode, 10)
        self.assertEqual(common.content(again[0]), common.content(name + ".log"))

    @needs_compiler
    def test_a_true_fix_holds_by_its_lock(self):
        self.needs_addr2line()
        order = self.order_of("filters")
        told = self.verdict(0, "HOLDS", order, mended.built("filters", "mended"), *FEW)
        self.assertEqual([each["how"] for each in told["switches"]], ["kept", "kept", "forbidden"])
        self.assertRegex(told["switches"][2]["said"], r"only after hart 3 has done unlock .* waits "
                         r"in lock filters.c:\d+ for pool_lock")
        self.assertEqual((told["tried"], told["well"]), (40, 40))
        self.assertGreater(told["power"][0], 0)
        self.verdict(0, "HOLDS", order, mended.built("filters", "mended", "-O1"), *FEW)

    @needs_compiler
    def test_what_is_not_mended_crashes_in_each_build(self):
        self.needs_addr2line()
        order = self.order_of("filters")
        for change, level in (("", "-O2"), ("", "-O0"), ("", "-Os"), ("moved", "-O2"),
                              ("half", "-O2"), ("renamed function", "-O2"),
                              ("renamed variable", "-O2")):
            with self.subTest(change + level):
                told = self.verdict(10, "STILL CRASHES, by the order itself", order,
                                    mended.built("filters", change, level), *FEW)
                self.assertEqual([each["how"] for each in told["switches"]], ["kept"] * 3)
                self.assertEqual("renamed, it seems" in json.dumps(told),
                                 change.startswith("renamed"))

    @needs_compiler
    def test_a_load_that_is_done_before_the_call(self):
        """At -O2 GCC loads in `look` what `length` gets, so the same fault is in one of two lines,
        of which one calls the other's function."""
        self.needs_addr2line()
        same = "STILL CRASHES, by the order itself"
        apart = same + "; one of the two lines calls the other's function"
        for level, other in (("-O0", "-O2"), ("-O2", "-O0")):
            order = self.order_of("shelf", level=level)
            text = common.text_of(order)
            self.assertEqual("\n  from look shelf.c:16 | " in text, level == "-O0")
            new = mended.built("shelf", level=other)
            told = self.verdict(10, same, order, mended.built("shelf", level=level), *FEW)
            self.assertEqual(told["verdict"], same)
            self.verdict(10, apart, order, new, *FEW)
            alone = hand(re.sub("  from .*\n", "", text), "alone.order")
            otherwise = "ENDS BADLY, but otherwise, by the order itself"
            self.verdict(10, otherwise if level == "-O0" else apart, alone, new, *FEW)

    @needs_compiler
    def test_a_log_is_asked_directly_and_a_stripped_build_is_named(self):
        self.needs_addr2line()
        stripped = common.path("stripped.elf")
        kept = common.path("direct.order")
        names = mended.built("filters", "moved")
        subprocess.run(["riscv64-unknown-elf-strip", "-o", stripped, names], check=True)
        told = self.verdict(10, "STILL CRASHES", *mended.recorded("filters"), stripped, "--names",
                            names, "--order", kept, *FEW)
        self.assertEqual(told["power"][1], 40)
        one, other = (read_order(name) for name in (kept, self.order_of("filters")))
        self.assertEqual((one.marks, one.end, one.last), (other.marks, other.end, other.last))
        self.assertEqual(order_text(one, kept), common.text_of(kept))

    @needs_compiler
    def test_a_hang(self):
        self.needs_addr2line()
        order = self.order_of("two_locks")
        self.verdict(11, "STILL CRASHES, by the order itself", order,
                     mended.built("two_locks"), *FEW)
        self.verdict(0, "HOLDS", order, mended.built("two_locks", "mended"), *FEW)
        self.verdict(11, "STILL CRASHES, by an order near it", order,
                     mended.built("two_locks", "half"), "--tries", "100")

    @needs_compiler
    def test_if_the_order_comes_and_ends_well_its_switches_are_moved_to_shared_accesses(self):
        """The half fix leaves one turn, some dozen before that of the order."""
        self.needs_addr2line()
        order = hand(STEALING, "stealing.order")
        for change, status, verdict in (
                ("", 10, "STILL CRASHES, by the order itself"),
                ("half", 10, "STILL CRASHES, by an order near it"),
                ("mended", 0, "HOLDS, as far as was tried: the order comes, and ends well")):
            with self.subTest(change):
                self.verdict(status, verdict, order, mended.built("race_stealing", change), *FEW)

    @needs_compiler
    def test_a_run_that_needs_more_than_the_limit_is_no_hang(self):
        self.needs_addr2line()
        text = common.text_of(self.order_of("prices"))
        new = mended.built("prices", "mended")
        limit = max(int(line.split(" ")[3]) for line in self.program("list", common.record(
            "long", new, "--harts", "4", "--limit", "1000000", "--seed", "1")).splitlines())
        short = common.written(common.path("short.order"),
                               text.replace("--limit=1000000", f"--limit={limit // 4}"))
        told = self.verdict(0, "HOLDS", short, new, "--tries", "60")
        self.assertGreater(told["slow"], 0)
        shorter = common.written(common.path("shorter.order"),
                                 text.replace("--limit=1000000", f"--limit={limit // 40}"))
        self.verdict(11, "ENDS BADLY, but otherwise, by the order itself", shorter, new, *FEW)

    @needs_compiler
    def test_a_byte_of_the_output(self):
        """counter.c loses counts of `plain` if a hart stops between its load and its store."""
        log, elf, _ = mended.recorded("counter")
        writes = json.loads(self.says("output", "--json", log, elf))["writes"][0]["bytes"]
        place = bytes(writes).index(b"plain ") + len("plain ")
        order = self.order_of("counter", "--output", f"0:{place}")
        self.assertEqual(read_order(order).end.value, writes[place])
        self.verdict(25, "STILL CRASHES, by the order itself", order,
                     mended.built("counter", level="-O1"), *FEW)

    @needs_compiler
    def test_one_hart_has_one_order(self):
        log, elf, book = mended.recorded("heap")
        self.needs_addr2line()
        told = self.verdict(10, "STILL CRASHES, by the order itself", log, elf, book,
                            mended.built("heap", level="-O1"))
        self.assertEqual((told["recordings"], told["switches"], told["tried"]), (1, [], 0))
        well = hand("zelkuma order 1\nprogram counter.elf\n", "well.order")
        self.verdict(0, "HOLDS for this input", well, mended.built("counter"))

    def test_the_input_is_that_of_the_file(self):
        """word_count.c reads its input, and ends with another code or output; the run that is saved
        has the same."""
        text = ("zelkuma order 1\nprogram word_count.elf\n"
                + 'input "one two\\n"\ninput "three"\nend output 0 51\n')
        elf = self.elf("word_count")
        name = common.path("words")
        given = common.written(common.path("words.in"), "one two\nthree")
        out = subprocess.run([common.PROGRAM, "record", "--format", "2", "--seed", "0", "--input",
                              given, elf, common.path("w.log"), common.path("w.book")],
                             stdout=subprocess.PIPE, stderr=subprocess.DEVNULL, check=False).stdout
        order = hand(text.replace("end output 0 51", f"end output 0 {out[0]}"), "words.order")
        status, said, err = common.companion("recheck", order, elf, "--save", name)
        self.assertEqual((status, err), (25, ""), said)
        self.assertEqual(common.content(name + ".input"), common.content(given))
        self.assertIn(f"--input={name}.input", said)
        other = hand(text.replace("end output 0 51", f"end output 0 {out[0] ^ 1}"), "words2.order")
        self.verdict(0, "HOLDS", other, elf)

    def test_an_order_without_a_place_is_unsure(self):
        self.needs_addr2line()
        order = hand(HAND.replace("in hold", "in gone").replace("current", "missing"),
                     "stale.order")
        told = self.verdict(24, "UNSURE", order, self.elf("filters"), "--tries", "2")
        self.assertEqual(told["switches"][1]["how"], "gone")
        self.assertIn("hart 3 doesn't come to gone", told["switches"][1]["said"])
        order = hand("zelkuma order 1\nprogram counter.elf\nset --harts=2\n"
                     "hart 0 until load missing in main\n", "waits.order")
        elf = self.elf("counter")
        status, said, _ = common.companion("recheck", order, elf, "--tries", "1")
        self.assertEqual(status, 24)
        self.assertRegex(said,
                         r"in main: it has no object missing; hart 0 waits in .* alone changes\n"
                         r"0 of 1 switch is as it was; by this order: it ends well\n"
                         r"1 of 1 order near it ends well; how many of ")
        order = hand(HAND.replace("ready in main", "ready in main #9"), "ninth.order")
        told = self.verdict(10, "STILL CRASHES", order, self.elf("filters"), "--tries", "2")
        self.assertIn("hart 0 does it 1 time, not 9", told["switches"][0]["said"])

    def test_a_folder_and_its_report(self):
        self.needs_addr2line()
        folder = common.path("orders")
        elfs = common.path("elfs")
        report = common.path("report.xml")
        common.written(os.path.join(elfs, "deep", "filters.elf"),
                       common.content(self.elf("filters")))
        common.written(os.path.join(folder, "a.order"), HAND)
        common.written(os.path.join(folder, "more", "b.order"),
                       HAND.replace("filters.elf", "nowhere.elf"))
        common.written(os.path.join(folder, "c.order"), HAND.replace("until load", "untl load"))
        common.written(os.path.join(folder, "d.order"),
                       HAND.replace("in hold", "in gone").replace("current", "missing"))
        for _ in range(2):                      # the second time the report is replaced
            status, said, err = common.companion("recheck", folder, "--elfs", elfs, "--tries",
                                                 "2", "--junit", report)
        self.assertEqual((status, err), (10, ""))
        self.assertRegex(said, r"\A 10  a: STILL CRASHES.*\n  2  c: .*line 6: .*\n 24  d: "
                         r"UNSURE.*\n  4  more/b: .*0 files of the name nowhere.elf")
        suite = xml.parse(report).getroot()
        self.assertEqual(dict(suite.attrib, name=""),
                         {"name": "", "tests": "4", "failures": "1", "errors": "3"})
        kinds = {test.get("name"): test[0].tag for test in suite}
        self.assertEqual(kinds, {"a": "failure", "c": "error", "d": "error", "more/b": "error"})
        told = json.loads(common.companion("recheck", folder, "--elfs", elfs, "--tries",
                                           "2", "--json")[1])["orders"]
        self.assertEqual([(each["order"], each["status"]) for each in told],
                         [("a", 10), ("c", 2), ("d", 24), ("more/b", 4)])

    def test_the_cost_is_that_of_the_switches(self):
        """A recording a switch, one of the whole, and one that looks how far the last hart
        comes."""
        self.needs_addr2line()
        for rounds in (1, 2, 4):
            switches = ("hart 0 until store pool in take_filter #1\n"
                        "hart 3 until load ready in other_harts\n" * rounds)
            order = hand("zelkuma order 1\nprogram filters.elf\nset --harts=4\n" + switches
                         + "hart 3 to the end\n", "many.order")
            _, told, _ = checked(order, self.elf("filters"), "--tries", "0")
            self.assertLessEqual(told["recordings"], 6 * len(told["switches"]) + 3)

    def test_refusals(self):
        elf = self.elf("filters")
        common.record("well", elf, "--harts", "1", "--seed", "1")
        well = common.path("well.log"), elf, common.path("well.book")
        for status, said, words in (
                (2, "1 names are given", [hand()]), (2, "3 names are given", [hand(), elf, elf]),
                (2, "2 names are given", [hand(), elf, "--elfs", "x"]),
                (2, "2 names are given", [hand(), elf, "--output", "0:1"]),
                (4, "nowhere.order", [common.path("nowhere.order"), elf]),
                (2, "is no order of harts", [elf, elf]),
                (6, "is no 32-bit", [hand(), hand()]),
                (4, "has 0 order files", [common.path("empty/"), "--elfs", "x"]),
                (2, "--tries has to be a number", [hand(), elf, "--tries", "x"]),
                (2, "ended well", [*well, elf]),
                (2, "--save is for one order",
                 [common.path("empty/"), "--elfs", "x", "--save", "y"]),
                (2, "would be lost", [hand(), elf, "--junit", self.elf("heap")]),
                (3, "there is no folder", [hand(), elf, "--save", "/nowhere/x"])):
            with self.subTest(said):
                self.assertIn(said, self.refuses(status, "recheck", *words))

"""What `shrink` finds, saves and tells: the same bytes each time, the lines of known races, and
what it refuses."""
import json
import os
import re
import signal
import subprocess
import sys
import time

import case
import common
from common import content

EIGHTH_ROUND = ("0x15 1x11 0x13 2x11 0x13 1x12 0x13 1x12 0x13 1x12 0x13 1x12 0x13 2x12 0x14 1x20 "
                "0x15 2x17 0x13 2x3")
LOCKS = "--harts", "2", "--seed", "8", "--limit", "20000"
MOST_SWITCHES = 12


def pieces_of(turns):
    """As docs/COMMANDS.md says of BOOK: a byte a turn."""
    return [(found[0][0], len(found[0])) for found in re.finditer(rb"(.)\1*", turns, re.S)]


def is_searching(process):
    """Whether a call is beyond its first recording, by the names of those that it makes."""
    with open(f"/proc/{process}/task/{process}/children") as file:
        children = file.read().split()
    for child in children:
        try:
            if re.search(rb"/[1-9][0-9]*\.log\0", content(f"/proc/{child}/cmdline")):
                return True
        except OSError:
            pass
    return False


class ShrinkTest(case.Case):
    def recording(self, name, *options, schedule=""):
        """LOG, ELF and BOOK of an example."""
        log = common.path(f"{name}.log")
        book = common.path(f"{name}.book")
        if not os.path.exists(log):
            common.record(name, self.elf(name), *options, schedule=schedule)
        return log, self.elf(name), book

    def filters(self):
        return self.recording("filters", "--harts", "4", "--seed", "10")

    def shrunk(self, recording, to, *options):
        """What is said, and the new LOG and BOOK, which `audit` has to agree with."""
        log = common.path(to + ".log")
        book = common.path(to + ".book")
        said = self.says("shrink", *recording, log, book, *options)
        self.assertEqual(common.output("audit", log, recording[1], book), b"agree\n")
        self.assertEqual(common.output("check", log)[:3], b"ok ")
        return said, log, book

    def test_the_same_bytes_twice(self):
        """On all processors, and on one."""
        examples = (self.filters(), self.recording("prices", "--harts", "4", schedule="sleeper:1"),
                    self.recording("hand_over", "--harts", "2", "--seed", "3"))
        for recording in examples:
            one = self.shrunk(recording, "one")
            processors = os.sched_getaffinity(0)
            os.sched_setaffinity(0, {min(processors)})
            try:
                other = self.shrunk(recording, "other")
            finally:
                os.sched_setaffinity(0, processors)
            self.assertEqual(one[0], other[0])
            self.assertEqual([content(name) for name in one[1:]],
                             [content(name) for name in other[1:]])
            self.assertEqual(self.says("bucket", recording[0], recording[1]),
                             self.says("bucket", one[1], recording[1]))
            self.assertLessEqual(len(pieces_of(content(one[2]))) - 1, MOST_SWITCHES)

    def test_the_order_is_that_of_the_turns(self):
        said, _, book = self.shrunk(self.filters(), "order")
        order = re.search(r"^order: (.*)$", said, re.M)[1]
        self.assertEqual(order,
                         " ".join(f"{hart}x{turns}" for hart, turns in pieces_of(content(book))))

    def test_the_lines_of_filters(self):
        """The comment in filters.c tells the bug: `hold` loads the pointer first and counts itself
        after that."""
        self.needs_addr2line()
        said, _, _ = self.shrunk(self.filters(), "lines")
        source = content(os.path.join(common.EXAMPLES, "filters.c")).decode().split("\n")
        load = next(at for at, line in enumerate(source, 1)
                    if "__atomic_load_n(&current" in line and "filter = " in line)
        late = next(at for at, line in enumerate(source, 1) if "the bug: too late" in line)
        self.assertIn(f"it has to come between hold filters.c:{load} and hold filters.c:{late}\n",
                      said)
        self.assertRegex(said, r"stores to current in install filters.c:\d+, "
                         rf"which hart \d loaded in hold filters.c:{load}\n")
        self.assertTrue(said.endswith("\nend: " + self.says("bucket", *self.filters()[:2])))

    def test_each_switch_is_needed(self):
        """With one piece less it doesn't crash in fewer pieces."""
        _, _, book = self.shrunk(self.filters(), "needed")
        pieces = pieces_of(content(book))
        for left_out in range(len(pieces)):
            turns = common.written(common.path("turns"),
                                   b"".join(bytes([hart]) * n for at, (hart, n) in enumerate(pieces)
                                            if at != left_out))
            done = subprocess.run(
                [common.PROGRAM, "record", "--format", "2", "--harts", "4", self.elf("filters"),
                 common.path("left.log"), common.path("left.book")], stdout=subprocess.DEVNULL,
                stderr=subprocess.DEVNULL, env=common.scheduled("book:" + turns), check=False)
            found = pieces_of(content(common.path("left.book")))
            self.assertTrue(done.returncode != 10 or len(found) >= len(pieces), (left_out, found))

    def test_a_hang_waits_whatever_comes_next(self):
        recording = self.recording("two_locks", *LOCKS)
        said, log, book = self.shrunk(recording, "hang")
        self.assertIn("\nfrom then on harts 0, 1 wait\n", said)
        ends = [line.split(" ")[4] for line in common.output("list", log).decode().splitlines()]
        self.assertEqual(set(ends), {"limit"})
        order = re.search(r"^order: (.*) \.\.$", said, re.M)[1]
        turns = common.written(common.path("hang.turns"), common.turns_of(order))
        # The rest is drawn by seed 0, which lets no hart wait for long.
        done = subprocess.run([common.PROGRAM, "record", "--format", "2", "--harts", "2", "--limit",
                               "100000", recording[1],
                               common.path("again.log"), common.path("again.book")],
                              stdout=subprocess.DEVNULL, stderr=subprocess.DEVNULL,
                              env=common.scheduled("book:" + turns), check=False)
        self.assertEqual(done.returncode, 11)
        self.assertLessEqual(len(pieces_of(content(book))) - 1, MOST_SWITCHES)

    def test_a_hang_of_three_harts_in_an_earlier_round(self):
        """A worker of hang_signal.c falls asleep after its last look into its box, here in the
        eighth round. Each round costs two switches, so the same has to be found in an earlier
        one."""
        self.needs_addr2line()
        crash = common.crashes()["hang_signal"]
        asked = common.written(common.path("signal.asked"), common.turns_of(EIGHTH_ROUND))
        log = common.record("signal", crash.elf, "--harts", crash.harts, "--limit",
                            "2500", schedule="book:" + asked)
        said, _, new_book = self.shrunk((log, crash.elf, common.path("signal.book")), "round")
        self.assertLessEqual(len(pieces_of(content(new_book))) - 1, MOST_SWITCHES)
        self.assertIn("\nfrom then on harts 0, 1, 2 wait\n", said)
        self.assertRegex(said, r"\n +it has to come between release .*\) and nap "
                         rf"{re.escape(crash.guilty)} \(in work ")

    def test_a_byte_of_the_output(self):
        """counter.c loses counts of `plain` if a hart stops between its load and its store."""
        recording = self.recording("counter", "--harts", "2", "--seed", "2", "--limit", "100000")
        before = json.loads(self.says("output", "--json", recording[0],
                                      recording[1]))["writes"][0]["bytes"]
        place = bytes(before).index(b"plain ") + len("plain ")
        _, log, book = self.shrunk(recording, "byte", "--output", f"0:{place}")
        after = json.loads(self.says("output", "--json", log, recording[1]))["writes"][0]["bytes"]
        self.assertEqual((before[place], after[place]), (ord("1"), ord("1")))
        self.assertLessEqual(len(pieces_of(content(book))) - 1, MOST_SWITCHES)

    def test_json(self):
        said, _, book = self.shrunk(self.filters(), "json", "--json")
        answer = json.loads(said)
        self.assertEqual((answer["answer"], answer["version"], answer["is_done"]),
                         ("shrink", 1, True))
        self.assertEqual([tuple(piece) for piece in answer["pieces"]], pieces_of(content(book)))
        self.assertEqual(len(answer["switches"]), len(answer["pieces"]) - 1)

    def test_what_is_there_when_it_is_ended_is_saved(self):
        recording = self.recording("buffers", "--harts", "4", "--limit",
                                   "1000000", schedule="sleeper:20")
        for sent, status in ((signal.SIGTERM, 143), (signal.SIGINT, 130), (signal.SIGALRM, 0)):
            log = common.path(f"{sent.name}.log")
            book = common.path(f"{sent.name}.book")
            process = subprocess.Popen([sys.executable, common.COMPANION, "shrink", *recording, log,
                                        book], stdout=subprocess.PIPE,
                                       stderr=subprocess.PIPE, universal_newlines=True)
            while process.poll() is None and not is_searching(process.pid):
                time.sleep(0.01)
            process.send_signal(sent)
            _, err = process.communicate()
            self.assertEqual((process.returncode, err.count("\n")), (status, 1), err)
            self.assertIn("the search was ended before it was done", err)
            self.assertEqual(common.output("audit", log, recording[1], book), b"agree\n")
            self.assertEqual(self.says("bucket", log, recording[1]),
                             self.says("bucket", *recording[:2]))

    def test_what_seeds_find(self):
        log = common.path("seeds.log")
        book = common.path("seeds.book")
        elf = self.elf("hand_over")
        words = "--only", "seeds", "1", "40", "--", "--format", "2", "--harts", "2", elf, log, book
        said = self.says("seeds", "--shrink", *words)
        self.assertTrue(said.startswith("seed 3: status 10\n"), said)
        self.assertRegex(said, r"\norder: 0x2 1x3\n(.*\n)+end: LoadOutside ")
        self.assertEqual(pieces_of(content(book)), [(0, 2), (1, 3)])
        self.assertEqual(common.output("audit", log, elf, book), b"agree\n")

    def test_what_seeds_can_not_shrink(self):
        """It is said before a run is made."""
        names = self.elf("hand_over"), common.path("none.log"), common.path("none.book")
        for said, own, words in (
                ("--shrink needs one run with a fault, a hang or an exit code",
                 ["--until", "0"], ["--harts", "2"]),
                ("--shrink needs BOOK, and with --lean there is none",
                 [], ["--harts", "2", "--lean"]),
                ("one hart has one order, so --shrink has nothing to shrink", [], []),
                ("one hart has one order, so --shrink has nothing to shrink",
                 [], ["--harts", "0x1"])):
            self.assertIn(said, self.refuses(2, "seeds", "--shrink", *own, "1", "40", "--",
                                             *words, *names))
        self.assertIn("--compare needs one run",
                      self.refuses(2, "seeds", "--compare", "--until", "0", "1", "40",
                                   "--", "--harts", "2", *names))
        self.assertFalse(any(map(os.path.exists, names[1:])))

    def test_seeds_compares_the_short_run_with_a_good_one_that_is_near(self):
        """The good run is the short one with one switch moved, and both are told apart by what
        `compare` tells."""
        elf = self.elf("filters")
        log = common.path("near.log")
        book = common.path("near.book")
        words = "--only", "seeds", "10", "10", "--", "--format", "2", "--harts", "4", elf, log, book
        said = self.says("seeds", "--compare", *words)
        told = re.search(r"\nnearest run that ends well: "
                         r"switch (\d+) comes (\d+) turns? (earlier|later)\n", said)
        self.assertEqual(said[told.end():], self.says("compare", log + ".good", log, elf))
        self.assertIn("stored by 3:93 in hold ",
                      re.sub(r"in 0001\w+", "in hold ", said[told.end():]))
        self.assertEqual({line.split(" ")[1] for line in common.output(
                              "list", log + ".good").decode().splitlines()} & {"fault"}, set())
        with open(book, "rb") as bad, open(book + ".good", "rb") as good:
            turns = bad.read(), good.read()
        same = next(at for at, (one, other) in enumerate(zip(*turns)) if one != other)
        switches = [at + 1 for at in range(len(turns[0]) - 1) if turns[0][at] != turns[0][at + 1]]
        moved = switches[int(told[1]) - 1]
        self.assertEqual(same, moved - int(told[2]) if told[3] == "earlier" else moved)
        answer = json.loads(self.says("seeds", "--compare", "--json", *words))["compared"]
        self.assertEqual((answer["switch"], abs(answer["turns"]), answer["harts"]),
                         (int(told[1]), int(told[2]), 4))
        self.assertEqual([each["hart"] for each in answer["parted"]], [0, 3])

    def test_seeds_finds_no_good_run_near_one_that_always_crashes(self):
        log = common.path("always.log")
        book = common.path("always.book")
        status, said, err = common.companion("seeds", "--only", "seeds", "--compare", "1", "1",
                                             "--", "--harts", "2", self.elf("wild_store"),
                                             log, book)
        self.assertEqual(status, 0, err)
        self.assertIn("no run that ends well is found near", err)
        self.assertNotIn("COMPARE", said)
        self.assertFalse(os.path.exists(log + ".good"))

    def test_refusals(self):
        log, elf, book = self.filters()
        counter = self.recording("counter", "--harts", "2", "--seed", "2", "--limit", "100000")
        heap = self.recording("heap", "--seed", "1")
        new = common.path("new.log"), common.path("new.book")
        for status, words, said in (
                (17, [log, elf, counter[2], *new],
                 "BOOK is no list of turns of a whole run of ELF"),
                (8, [log, counter[1], book, *new], "program differs"),
                (2, [*counter, *new], "the run of LOG ended well"),
                (14, [*counter, *new, "--output", "0:99"], "the log holds no byte 99 of a write 0"),
                (2, [log, elf, book, *new, "--", "--harts", "3"], "--harts is 4 in LOG, not 3"),
                (2, [log, elf, book, *new, "--", "--lean"], "a lean recording keeps no BOOK"),
                (2, [log, elf, log, *new], "a lean recording keeps no BOOK"),
                (2, [log, elf, book, *new, "--", "--seed=4"], "--seed can't be given"),
                (2, [*heap, *new], "there is nothing to shrink"),
                (4, [log, elf, "/nowhere/BOOK", *new], "missing: /nowhere/BOOK"),
                (2, [log, elf, book, log, new[1]], "are one file"),
                (2, [log, elf, book, new[0], elf], "are one file"),
                (2, [log, elf, book, new[0], new[0]], "are one file"),
                (3, [log, elf, book, new[0], "/nowhere/NEW"], "there is no folder /nowhere"),
                (2, [log, elf, book, *new, "--seconds", "x"], "--seconds has to be a number"),
                (2, [log, elf, book], "NEWLOG is missing")):
            with self.subTest(said):
                self.assertIn(said, self.refuses(status, "shrink", *words))
        self.assertFalse(any(map(os.path.exists, new)))

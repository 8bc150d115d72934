"""zelkuma shrink --input: the short input ends as LOG's, by recordings of one's own; the same bytes
each time; and what it refuses."""
import itertools
import json
import os
import re
import signal
import subprocess
import sys
import time
from types import SimpleNamespace
from typing import Any, Dict, Tuple

import case
import common
import inputs

from companion.orders import shrink
from companion.orders.input_ends import FaultEnd, InputEnds, LoopEnd
from companion.orders.input_search import InputSearch, groups_of, without_groups
from companion.orders.same_end import Faulted
from companion.orders.shrinking_input import FirstSuspects
from companion.recording.log import End


class ShrinkInputTest(case.Case):
    known: Dict[str, Tuple[str, bytes]] = {}

    def setUp(self):
        self.readers = inputs.readers()

    def recorded(self, name):
        """LOG, ELF and input of a reader."""
        elf = common.path(f"{name}.elf")
        source = common.path(f"{name}.in")
        reader = self.readers[name]
        if not os.path.exists(elf):
            try:
                inputs.build(name, elf)
            except (OSError, subprocess.CalledProcessError):
                self.skipTest("riscv64-unknown-elf-gcc isn't installed")
            common.written(source, reader.data)
            common.record(name, elf, "--seed", "1", "--input", source, *reader.options)
        return common.path(f"{name}.log"), elf, source

    def shrunk(self, name, to, *options):
        """What is said, and the short input."""
        log, elf, source = self.recorded(name)
        new = common.path(to)
        reader = self.readers[name]
        says = ["--says", reader.says] if reader.says else []
        said = self.says("shrink", log, elf, new, "--input", source, *says, *options)
        return said, common.content(new)

    def shrunk_once(self, name):
        """The same of NAME.short, by one search for all tests."""
        if name not in self.known:
            self.known[name] = self.shrunk(name, name + ".short")
        return self.known[name]

    def end(self, log, elf):
        """How a run ended, without the count."""
        return re.sub(r"^0 \d+ \d+ \d+ ", "",
                      common.output("list", log).decode().strip().rpartition("\n")[2])

    def check_shorter(self, name):
        """The input is short enough, and a recording with it ends with LOG's fault or code at LOG's
        place, or writes LOG's text."""
        log, elf, _ = self.recorded(name)
        reader = self.readers[name]
        said, data = self.shrunk_once(name)
        self.assertLessEqual(len(data), reader.most, said)
        self.assertLess(int(re.search(r"by ([\d,]+) recordings", said)[1].replace(",", "")), 1000)
        short = common.record(name + "-short", elf, "--seed", "1", "--input",
                              common.path(name + ".short"), *reader.options)
        if reader.says:
            for one in (log, short):
                self.assertIn(reader.says, self.says("output", one, elf))
        else:
            self.assertEqual(self.says("bucket", short, elf), self.says("bucket", log, elf))
            self.assertEqual(self.end(short, elf).split()[0], self.end(log, elf).split()[0])
        return said

    def test_each_reader(self):
        for name in self.readers:
            with self.subTest(name):
                said = self.check_shorter(name)
                self.assertRegex(said, r"\A[\d,]+ bytes of input are cut to \d+, "
                                 r"by [\d,]+ recordings; [\d,]+ instructions to [\d,]+\ninput: '")

    def test_what_is_recorded_again(self):
        """The command that is printed last makes a recording that ends so."""
        said, _ = self.shrunk_once("names")
        command = said.strip().rpartition("\n")[2].split()
        self.assertEqual((command[:2], command[-2:]), (["zelkuma", "record"], ["LOG", "BOOK"]))
        done = subprocess.run([common.PROGRAM, *command[1:-2], common.path("again.log"),
                               common.path("again.book")], stdout=subprocess.DEVNULL,
                              stderr=subprocess.DEVNULL, check=False)
        self.assertEqual(done.returncode, 11)

    def test_the_same_on_one_processor(self):
        """The same bytes by as many recordings."""
        processors = os.sched_getaffinity(0)
        for name in ("table", "bookings", "sections"):
            said, data = self.shrunk_once(name)
            os.sched_setaffinity(0, {min(processors)})
            try:
                its, other = self.shrunk(name, name + ".one")
            finally:
                os.sched_setaffinity(0, processors)
            self.assertEqual((data, said.split("\n")[:2]), (other, its.split("\n")[:2]))

    def test_ctrl_c_keeps_what_is_found(self):
        log, elf, source = self.recorded("nested")
        for stop, status in ((signal.SIGINT, 130), (signal.SIGTERM, 143)):
            new = common.path(f"stopped{status}")
            process = subprocess.Popen([sys.executable, common.COMPANION, "shrink", log, elf,
                                        new, "--input", source],
                                       stdout=subprocess.PIPE, stderr=subprocess.PIPE)
            while not is_searching(process.pid) and process.poll() is None:
                time.sleep(0.01)
            process.send_signal(stop)
            said, err = process.communicate()
            self.assertEqual((process.returncode, err),
                             (status, b"zelkuma: the search was ended before it was done: "
                              b"the input may be longer than it need be\n"))
            self.assertIn(b" bytes of input are cut to ", said)
            self.assertLessEqual(len(common.content(new)), len(self.readers["nested"].data))

    def test_json(self):
        log, elf, source = self.recorded("sections")
        found = json.loads(self.says("shrink", log, elf, common.path("sections.json"),
                                     "--input", source, "--json"))
        self.assertEqual((found["answer"], found["recorded_bytes"], found["is_done"]),
                         ("shrink", len(self.readers["sections"].data), True))
        self.assertEqual(found["bytes"], len(common.content(common.path("sections.json"))))
        self.assertLess(found["instructions"], found["recorded_instructions"])
        self.assertRegex(found["suspect"], r"^sections inputs.c:\d+$")

    def test_refusals(self):
        log, elf, source = self.recorded("bookings")
        new = common.path("refused")
        for status, words, asked in (
                (2, "ended well; --says TEXT", [log, elf, new, "--input", source]),
                (2, "doesn't write 'nothing of this'",
                 [log, elf, new, "--input", source, "--says", "nothing of this"]),
                (2, "with it the run ends otherwise",
                 [log, elf, new, "--input", elf, "--says", "debt"]),
                (2, "NEW is missing", [log, elf, "--input", source]),
                (2, "are one file", [log, elf, source, "--input", source]),
                (2, "isn't an empty file",
                 [log, elf, common.written(common.path("full"), "a"), "--input", source]),
                (3, "can't be read", [log, elf, new, "--input", new + ".none"]),
                (8, "", [log, self.elf("heap"), new, "--input", source])):
            with self.subTest(words):
                self.assertIn(words, self.refuses_here(status, shrink, *asked))
            self.assertFalse(os.path.exists(new))
        several = self.record("filters", "--seed", "10", "--harts", "4")
        self.assertIn("several harts", self.refuses(2, "shrink", several, self.elf("filters"),
                                                    new, "--input", source))


def is_searching(process):
    """Whether a call is beyond its first recordings, by the names of those that it makes."""
    try:
        with open(f"/proc/{process}/task/{process}/children", encoding="ascii") as file:
            return any(re.search(rb"/[1-9][0-9]\.log\0", common.content(f"/proc/{child}/cmdline"))
                       for child in file.read().split())
    except OSError:
        return False


def ended(status, reason, value):
    """A recording that ended so."""
    return SimpleNamespace(status=status, read=SimpleNamespace(ends={0: End(9, reason, value)}))


class Never:
    """Tries of which none ends as wanted, counted."""

    def __init__(self):
        self.count = 0
        self.wanted = None

    def is_ended(self):
        return False

    def first(self, candidates, most):
        self.count += len(list(itertools.islice(candidates, most)))


class EndsTest(case.Case):
    def test_a_null_address_is_not_like_a_wild_one(self):
        ends = InputEnds(None, None)
        wild, other, null, code = (ends.rough(ended(*each)) for each in (
            (10, "LoadOutside", 0xff689c15), (10, "LoadOutside", 4096), (10, "LoadOutside", 4095),
            (0, "exit", 0xff689c15)))
        self.assertEqual(wild, other)
        self.assertEqual(len({wild, null, code, ends.rough(ended(10, "StoreOutside", 4096))}), 4)

    def test_a_pass_ends_that_gains_nothing(self):
        never: Any
        halves = sum(-(-500 // size) for size in (250, 125, 62, 31, 15, 7, 6, 5, 4, 3, 2, 1))
        for size, most in ((500, halves), (6000, 2000)):
            never = Never()
            InputSearch(never, b"a" * size).cut([b"a"] * size)
            self.assertEqual(never.count, most)
        never = Never()
        InputSearch(never, b"b" * 6000).make_plain(lambda data: b"a" * len(data))
        self.assertEqual(never.count, 2000)

    def test_a_suspect_that_is_none_of_the_log(self):
        self.assertEqual(FirstSuspects("f a.c:1", "g a.c:9", True).lines(),
                         ["first suspect: f a.c:1"])
        self.assertIn("none of LOG's: its cause may be another",
                      FirstSuspects("f a.c:1", "g a.c:9", False).lines()[0])

    def test_a_loop_is_like_one_around_it(self):
        wide = LoopEnd(frozenset((b"1", b"2", b"3")))
        narrow = LoopEnd(frozenset((b"1", b"3")))
        self.assertTrue(wide.is_like(narrow) and wide.is_like(wide))
        self.assertFalse(narrow.is_like(wide)
                         or wide.is_like(FaultEnd(Faulted("LoadOutside", 4, ("f",), False), b"1")))

    def test_groups(self):
        self.assertEqual(groups_of(b"a(b[c])d(e"), [(1, 6), (3, 5)])
        self.assertEqual(groups_of(b"(]){}"), [(0, 2), (3, 4)])
        self.assertEqual(list(without_groups(b"a(b[c])")), [b"a", b"ab[c]", b"a(b)", b"a(bc)"])

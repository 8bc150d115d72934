"""zelkuma race: groups, their order, fences, and what is refused."""
import json
import re

import case
import common

from companion.call.errors import FOUND
from companion.recording import fences, races

# Lw, sw, addi, bgeu
LOAD = 0x0007a703
STORE = 0x00e7a023
ADD = 0x00000013
BRANCH = 0xfef6fce3
FENCE_ALL = 0x0ff0000f  # iorw,iorw
FENCE_RELEASE = 0x0310000f  # rw,w
FENCE_WRITES = 0x0110000f  # w,w


def counts(text):
    """The pairs of each group that is told, of those in full and those in one line."""
    found = re.findall(r"^ *\d+\. ([\d,]+) pairs? on|^ {4} +([\d,]+)  \S.*  and  \S", text, re.M)
    return [int((full or brief).replace(",", "")) for full, brief in found]


class RaceTest(case.Case):
    def tills(self):
        return self.record("tills", "--seed", "1", "--harts", "2")

    def test_the_race_behind_the_fault_comes_first(self):
        text = self.says("race", self.tills(), self.elf("tills"), "--names", self.names("tills"))
        first = text[text.index(" 1. "):text.index(" 2. ")]
        self.assertIn("on shelf[199] (0001159c)   (on the chain of values behind the fault)", first)
        self.assertIn("hart 0 stores in sell tills.c:38   shelf[last] = 0;", first)
        self.assertIn("hart 1 loads in sell tills.c:37", first)

    def test_fenced_accesses_come_last(self):
        text = self.says("race", self.tills(), self.elf("tills"), "--names", self.names("tills"))
        ordered = text.index("\nORDERED BY FENCES")
        fenced = text.index("\nFENCED")
        self.assertLess(ordered, fenced)
        # Left = THINGS, which `ready` orders
        self.assertNotIn("main tills.c:67", text[:ordered])
        self.assertRegex(text[fenced:], r"46\d  ready \(000118c0\) +wait_for_both tills.c:46  and  "
                         r"wait_for_both tills.c:47\n\Z")

    def test_every_pair_of_the_program_is_in_one_group(self):
        for name, options in (("tills", ("--seed", "1", "--harts", "2")),
                              ("counter", ("--seed", "1", "--harts", "4")),
                              ("hand_over", ("--seed", "1", "--harts", "2"))):
            log = self.record(name, *options)
            exact = int(self.program("races", log, self.elf(name), "1000000").rsplit(" ", 1)[1])
            self.assertGreater(exact, 0)
            for more in ((), ("--names", self.names(name))):
                text = self.says("race", log, self.elf(name), "--more", *more)
                self.assertEqual(sum(counts(text)), exact, name)
                self.assertTrue(text.startswith("RACES: {:,} pairs in {} groups.".format(
                                                    exact, len(counts(text)))), text[:80])

    def test_rows_are_the_programs(self):
        text = self.says("race", self.tills(), self.elf("tills"))
        exact = set(self.program("races", self.tills(), self.elf("tills"), "1000").split("\n"))
        rows = re.findall(r"^        (\d+ \d+ [0-9a-f]{8} .*)$", text, re.M)
        self.assertGreater(len(rows), 6)
        self.assertEqual([row for row in rows if row not in exact], [])

    def groups(self, *more):
        """The groups of `tills` as JSON, and the status with --fail."""
        words = "race", self.tills(), self.elf("tills"), "--names", self.names("tills"), *more
        status, said, err = common.companion(*words, "--json", "--fail")
        self.assertEqual(err, "")
        return json.loads(said), status

    def test_what_a_file_names_is_left_out(self):
        """As a plain reading of the groups' words and places has it."""
        def has(group, *lines):
            found = [group[access]["place"] for access in ("one", "other")]
            told = [f"{place['file']}:{place['line']}"
                    for place in found] + [place["function"] for place in found]
            return all(line in told for line in lines)

        every, status = self.groups()
        self.assertEqual((status, every["ignored"]), (FOUND, 0))
        for line, fits in (
                ("shelf", lambda group: group["name"].startswith("shelf")),
                ("shelf[199]", lambda group: group["name"].startswith("shelf[199]")),
                ("0001159c  # the last place", lambda group: "0001159c" in group["words"]),
                ("tills.c:38", lambda group: has(group, "tills.c:38")),
                ("tills.c:3* and tills.c:38", lambda group: has(group, "tills.c:38")
                 and all(30 <= group[access]["place"]["line"] < 40 for access in ("one", "other"))),
                ("sell", lambda group: has(group, "sell")), ("# sell", lambda group: False)):
            left, _ = self.groups("--ignore",
                                  common.written(common.path("ignored"), line.encode() + b"\n"))
            wanted = [word for group in every["groups"] if not fits(group)
                      for word in group["words"]]
            self.assertEqual([word for group in left["groups"] for word in group["words"]],
                             wanted, line)
            self.assertTrue(line[0] == "#" or len(wanted)
                            < sum(len(group["words"]) for group in every["groups"]), line)
        left, status = self.groups("--ignore", common.written(common.path("ignored"), b"*\n"))
        self.assertEqual((status, left["groups"], left["ignored"] > 5), (0, [], True))
        told = common.companion("race", self.tills(), self.elf("tills"),
                                "--ignore", common.path("ignored"))[1]
        self.assertRegex(told, r"\nleft out: \d+ groups that --ignore names\n\Z")

    def test_fail_is_of_races_that_no_fences_order(self):
        fenced = common.written(common.path("fenced"), b"sell\ntills.c:3*\n")
        left, status = self.groups("--ignore", fenced)
        self.assertEqual({group["kind"] for group in left["groups"]}
                         - {"fenced", "ordered by fences"}, {""} if status else set())
        log = self.record("heap", "--seed", "1")
        self.assertEqual(common.companion("race", log, self.elf("heap"), "--fail")[0], 0)

    def test_a_bad_file_of_races_is_refused(self):
        for text, words in ((b"a and b and c\n", ":1: a line of --ignore"),
                            (b"ok\n" + b"x" * 300, ":2: a line"),
                            (b"x\n" * 10001, "at most 10000 lines")):
            name = common.written(common.path("ignored"), text)
            self.assertIn(words, self.refuses(2, "race", self.tills(), self.elf("tills"),
                                              "--ignore", name))
        self.assertIn("missing", self.refuses(4, "race", self.tills(), self.elf("tills"),
                                              "--ignore", common.path("nowhere")))

    def test_without_names_places_are_addresses(self):
        text = self.says("race", self.tills(), self.elf("tills"))
        self.assertIn("hart 0 stores in 0001018c\n", text)
        self.assertNotIn("tills.c", text)

    def test_a_finished_flag_orders_what_was_before(self):
        log = self.record("counter", "--seed", "1", "--harts", "4")
        text = self.says("race", log, self.elf("counter"), "--names", self.names("counter"))
        behind = text[text.index("\nORDERED BY FENCES"):]
        self.assertRegex(behind, r"plain \(000112c8\) +count counter.c:15  and  main counter.c:43")
        self.assertNotRegex(behind,
                            r"plain \(000112c8\) +count counter.c:15  and  count counter.c:15")

    def test_words_of_one_object_are_one_group(self):
        text = self.says("race", *self.crash("lock_left_held"))
        self.assertIn(" 1. 8 pairs on accounts[0] (0001935c) and 7 more words\n", text)
        self.assertEqual(counts(text), [8])

    def test_a_guilty_line_that_races_is_in_the_first_groups(self):
        for name in ("race_ring", "race_settings"):
            text = self.says("race", *self.crash(name))
            self.assertIn(common.crashes()[name].guilty, text[:text.find(" 3. ")], name)

    def test_it_says_whose_judgement_it_is(self):
        self.assertIn("own judgement; zelkuma races lists each",
                      self.says("race", self.tills(), self.elf("tills")))

    def test_one_hart_has_none(self):
        text = self.says("race", self.record("wild_store", "--seed", "1"), self.elf("wild_store"))
        self.assertEqual(text.split(".")[0], "RACES: 0 pairs in 0 groups")

    def test_refusals(self):
        log = self.tills()
        self.assertIn("more than 100 pairs",
                      self.refuses(20, "race", log, self.elf("tills"), "--max", "100"))
        self.refuses(2, "race", log, self.elf("tills"), "--max", "0")


class FencesTest(case.Case):
    def fenced(self, words, at):
        return fences.is_fenced(dict(zip(range(0, 4 * len(words), 4), words)).get, 4 * at)

    def test_acquire_loads(self):
        self.assertTrue(self.fenced([LOAD, FENCE_ALL], 0))
        self.assertTrue(self.fenced([LOAD, ADD, FENCE_ALL], 0))
        self.assertFalse(self.fenced([LOAD, FENCE_WRITES], 0))
        self.assertFalse(self.fenced([LOAD, BRANCH, FENCE_ALL], 0))
        self.assertFalse(self.fenced([LOAD, STORE, FENCE_ALL], 0))
        self.assertFalse(self.fenced([FENCE_ALL, LOAD], 1))
        self.assertFalse(self.fenced([LOAD], 0))

    def test_release_stores(self):
        self.assertTrue(self.fenced([FENCE_RELEASE, STORE], 1))
        self.assertTrue(self.fenced([FENCE_RELEASE, ADD, STORE], 2))
        self.assertFalse(self.fenced([FENCE_RELEASE, LOAD, STORE], 2))
        self.assertFalse(self.fenced([STORE, FENCE_RELEASE], 0))
        self.assertFalse(self.fenced([0x0320000f, STORE], 1))   # rw,r: no write waits

    def test_a_way_over_a_fence(self):
        # Fenced stores, and the least count that loads one of them or a later one
        way = races.Way([10, 20, 30], [5, 40, 60])
        self.assertTrue(races.leads(way, 20, 40))
        self.assertTrue(races.leads(way, 15, 41))
        self.assertFalse(races.leads(way, 21, 59))
        self.assertFalse(races.leads(way, 31, 99))
        self.assertFalse(races.leads(None, 1, 2))

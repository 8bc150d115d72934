"""`why` on the examples: what it says of the fault, its suspects, and of logs that gave up their
front."""
import os
import re
import shutil
import subprocess

import case
from common import TOP, companion, example, output, path, record, text_of, written
from companion.why.analysis import analysed
from companion.why.facts import StackFrame


UNLOCKED = "didn't hold the others' lock in"


def suspects(text):
    part = re.search(r"^SUSPECTS.*?\n(.*?)^VALUES", text, re.S | re.M)
    return re.split(r"^  (?=\d+\. )", part.group(1), flags=re.M)[1:]


class WhyTest(case.Case):
    def test_known_causes(self):
        self.needs_addr2line()
        names = os.path.dirname(self.names("tills"))
        log = record("wild", example("wild_store"), "--seed", "1")
        elf = example("wild_store")
        text = companion("why", log, elf, "--names", names + "/wild_store.elf")[1]
        self.check("wild_store: the fault in words", "LoadOutside 6e657472, hart 0 at count 22,675"
                   in text and "As text 6e657472 is 'rten': text was taken for a pointer." in text,
                   text[:600])
        self.check("wild_store: the call stack with what is inlined",
                   "from  000102ec report  wild_store.c:60  (inlined)" in text, text[:1200])
        first = suspects(text)[0]
        self.check("wild_store: the store in rename is first",
                   "machine.c:18" in first and "called from rename wild_store.c:31" in first, first)
        for seed in ("1", "2", "5"):
            log = record("tills" + seed, example("tills"), "--seed", seed, "--harts", "2")
            text = companion("why", log, example("tills"), "--names", names + "/tills.elf")[1]
            self.check("tills, seed %s: the other hart's store is first" % seed,
                       "another hart" in suspects(text)[0]
                       and "sell tills.c:38" in suspects(text)[0], text[-2000:])

    def test_the_programs_slice_is_in_the_history(self):
        self.against_slice("tills",
                           record("sliced", example("tills"), "--seed", "1", "--harts", "2"),
                           example("tills"))

    def test_locks(self):
        log = record("locks", example("two_locks"), "--seed", "8", "--harts", "2",
                     "--limit", "20000")
        text = companion("why", log, example("two_locks"))[1]
        self.check("two_locks: both harts are at their limit",
                   text.startswith("END\n  No hart faulted: hart 0 limit 00000000, hart 1 limit"),
                   text[:300])
        first = suspects(text)[0]
        self.check("two_locks: the first suspect is the swap by which the other hart holds "
                   "the lock", "hart 1 stored it" in first and "amoswap.w" in first
                   and re.search(r"\n +1 107 ", first), first)

    def test_a_word_without_its_lock(self):
        found = [item for item in suspects(self.says("why", *self.crash("race_list"), "--more"))
                 if UNLOCKED in item]
        self.assertEqual(len(found), 1)
        self.assertIn(UNLOCKED + " take_one_back race_list.c:61", found[0])
        self.assertRegex(found[0],
                         r"at [0-9]+ other accesses to \S+ their hart holds lock, here none")
        self.assertNotIn(UNLOCKED, self.says("why", *self.crash("lock_left_held"), "--more"))

    def test_a_count_is_no_lock(self):
        self.assertNotIn(UNLOCKED, self.built("readers", "--harts", "2"))

    def test_nothing_is_guarded_once_the_others_are_done(self):
        self.assertNotIn(UNLOCKED, self.built("joined", "--harts", "2"))

    def built(self, name, *options, begins=""):
        """What `why` says of one of lib/programs, whose file begins with a text."""
        self.needs_addr2line()
        elf = path(name + ".elf")
        kept = os.path.join(TOP, "tests", "companions", "lib", "programs", name + ".c")
        source = written(path(name + ".c"), begins + text_of(kept))
        if not shutil.which("riscv64-unknown-elf-gcc"):
            self.skipTest("riscv64-unknown-elf-gcc isn't installed")
        subprocess.run(["bash", "-c", ". examples/lib/with_names.sh && build_with_names \"$@\"",
                        "-", elf, source], cwd=TOP, check=True)
        return self.says("why", record(name, elf, "--seed", "3", *options), elf, "--more")

    def test_a_word_of_the_stack_that_its_call_never_stored(self):
        """That is an error by definition, and no guess."""
        said = self.built("unset")
        self.assertIn("use-of-uninitialized-value: an address depends on bytes that nobody wrote, "
                      "of place of find", said)
        self.assertIn("the value was loaded in find unset.c:21\n", said)

    def test_a_store_conditional_whose_answer_nobody_read(self):
        first = suspects(self.built("conditional", "--harts", "2"))[0]
        self.assertIn("stored nothing in add conditional.c:7", first)
        self.assertRegex(first,
                         r"a store-conditional failed here \d+ times, and nothing read its answer")

    def test_a_stack_that_was_left(self):
        """A stack in a segment of the program is as good as any. One that was left is told."""
        self.assertNotIn("stack", self.built("deep").split("CALLS")[0])
        said = self.built("deep", begins="#define ROUNDS 100\n")
        rows = output("joint", path("deep.log"), path("deep.elf")).decode()
        lowest = min(re.findall(r"\| sp=(\w+)", rows))
        self.assertRegex(said, r"\n  The stack of hart 0 left its 2,048 bytes at \w{8} \(own\): "
                         r"its pointer was " + lowest
                         + r"( \(\S+\))?, [\d,]+ bytes below them, at count [\d,]+ in walk ")

    def test_the_call_that_returned_the_null(self):
        self.assertIn("  The null is what take returned to make spent.c:13.\n", self.built("spent"))
        self.assertNotIn("The null is what", self.says("why", *self.crash("null_lookup")))

    def test_a_jump_into_the_middle_of_a_function(self):
        self.assertRegex(self.built("middle"),
                         r"\n  The jump through a pointer in main middle.c:13 \(hart 0 at count "
                         r"\d+\) led into the middle of twice, to \w{8}\.\n")
        self.assertNotIn("into the middle", self.says("why", *self.crash("jump_plugin")))

    def test_a_library_is_told_by_its_call(self):
        """No line of a library, whose source isn't here, is a suspect: the call of it is."""
        said = self.says("why", *self.crash("libc_line"), "--more")
        self.assertIn(
            "hart 0 stored it in finish libc_line.c:65   line->letters = malloc(buffer.used + 1);\n"
            "        by malloc, called from finish libc_line.c:65  <  main libc_line.c:102", said)
        told = re.findall(r"^  \d+\. hart \d .* in \S+ (\S+):\d+ ", said, re.M)
        self.assertEqual((len(told), set(told)), (12, {"libc_line.c"}))

    def test_a_fenced_pair_is_no_race(self):
        said = self.built("fenced", "--harts", "2")
        self.assertIn("hart 1 stored it in other_harts fenced.c:10", suspects(said)[0])
        self.assertNotIn("a race:", said)
        self.assertRegex(said, r"\nRACES\n  (\d+) pairs?, of which fences order \1; ")

    def test_inlined_callers_of_values(self):
        self.assertIn("\n         inlined in main use_after_free.c:66\n",
                      self.says("why", *self.crash("use_after_free")))

    def test_the_branch_that_left_what_others_wait_for(self):
        found = [item for item in suspects(self.says("why", *self.crash("hang_barrier"), "--more"))
                 if "goes on waiting in" in item]
        self.assertEqual(len(found), 1)
        self.assertIn("hart 0 chose the way in work hang_barrier.c:71", found[0])

    def test_the_store_that_closed_a_circle(self):
        first = suspects(self.says("why", *self.crash("hang_recent")))[0]
        self.assertIn("hart 0 stored it in put_second hang_recent.c:53", first)
        self.assertIn("it may have closed a circle", first)

    def test_the_first_call_that_gave_memory_back(self):
        """Others had the memory since, and gave it back, too."""
        first = suspects(self.says("why", *self.crash("freed_watcher")))[0]
        self.assertIn("gave the memory back in end_watching freed_watcher.c:53", first)
        self.assertIn("it was given back last in main freed_watcher.c:108", first)

    def test_the_branch_that_spared_a_word(self):
        found = suspects(self.says("why", *self.crash("jump_phase")))
        self.assertIn("chose the way in go_on jump_phase.c:81", found[1])
        self.assertIn("so a word beside what it compared kept its value in run jump_phase.c:87",
                      found[1])

    def test_a_frame_is_told_as_far_as_it_is_known(self):
        for function, place, said in (("main", "a.c:3", "main a.c:3"),
                                      ("main", "", "main"), ("", "", "00010148")):
            self.assertEqual(StackFrame(0x10148, function, place, False).text(), said)

    def test_a_counter_is_one_step(self):
        """The way to what a long loop counted from is short, whatever its rounds."""
        log, elf = self.crash("libc_short_packet")
        with analysed(log, elf) as facts:
            counted = [n for n in facts.history.cost if facts.rows.code_of(n).counts
                       and facts.rows.code[n] == facts.rows.code[facts.writers.first[n]]]
            self.assertTrue(counted)
            for n in counted:
                before = facts.writers.before_counting(n)
                self.assertNotEqual(facts.rows.code[before], facts.rows.code[n])
                self.assertIn(before, [0, *facts.history.cost])

    def against_slice(self, name, log, elf):
        """Each row of the program's own slice of the fault is in the history."""
        with analysed(log, elf) as facts:
            hart = facts.rows.hart[facts.start]
            count = facts.rows.count_of(facts.start)
            interval = next(item for item in facts.log.intervals
                            if item.hart == hart and item.start <= count <= item.end)
            rows = [line.split()
                    for line in output("slice", log, elf, str(hart), str(interval.number),
                                       str(count)).decode().split("\n") if line[:1].isdigit()]
            missing = [row[:3] for row in rows
                       if facts.rows.row_of(int(row[0]), int(row[1])) not in facts.history.cost]
            self.check("%s: all %d rows of the slice are in the history" % (name, len(rows)),
                       rows and not missing, missing)

    def test_lost_front(self):
        words = ("--seed", "1", "--log-size", "16384", "--interval", "500", "--sets", "1",
                 "--ways", "1", "--line", "1")
        log = record("small", example("wild_store"), *words)
        elf = example("wild_store")
        text = companion("why", log, elf)[1]
        self.check("a log without its front says so, and which option keeps it",
                   "stored before the log" in text and "The log gave up" in text
                   and re.search(r"--log-size \d+` would", text), text[-1500:])
        self.check("its call stack says that earlier calls aren't known",
                   "calls from before the log's first row" in text)
        size = re.search(r"--log-size (\d+)` would", text).group(1)
        log = record("larger", elf, *words[:2], "--log-size", size, *words[4:])
        text = companion("why", log, elf)[1]
        self.check("with that size nothing is given up", "The log gave up" not in text, text[-800:])
        self.against_slice("wild_store in 16 KiB", path("small.log"), elf)

    def test_other_forms(self):
        log, elf = self.crash("use_after_free")
        text = companion("why", log, elf)[1]
        again = companion("why", log, elf)[1]
        first, second = (re.sub(r" in [\d.]+ s \(.*", "", one) for one in (text, again))
        self.check("the same text twice, but for the times", first == second)
        without = companion("why", log, elf, environment={"PATH": "/nowhere"})[1]
        self.check("without addr2line it has functions, and says so",
                   "no addr2line is here" in without and "In main" in without, without[-300:])
        asked = companion("why", log, elf, "--row", "0:100")[1]
        self.check("--row asks of another row",
                   asked.startswith("ROW\n  Asked of hart 0 at count 100"), asked[:200])
        status, text, _ = companion("why",
                                    record("bare", example("tills"), "--seed", "1", "--harts", "2"),
                                    example("tills"))
        self.check("a stripped program: addresses, and --names is told", status == 0
                   and "In 00010194" in text and "give that to --names" in text, text[:600])
        log = record("harts", example("counter"), "--harts", "16", "--seed", "3",
                     "--log-size", "16384", "--limit", "3000")
        status, text, err = companion("why", log, example("counter"))
        self.check("16 harts with dropped records", status == 0 and "VALUES" in text, err)

    def test_hang(self):
        text = companion("why", *self.crash("hang"), "--html", path("hang.html"))[1]
        self.check("a hang names the store that closed the circle",
                   "hang.c:19" in suspects(text)[0] and "closed a circle" in text, text)
        page = text_of(path("hang.html"))
        self.check("--html holds the same text, and nothing to load",
                   "<h2>CALLS</h2>" in page and not re.search(r"src=|href=|https?:|<script", page))
        self.check("--html tells the version",
                   re.search(r'name="generator" content="Zelkuma [0-9.]+"', page))

"""The switches of a short order, as `why`, `race` and `view` tell them of BOOK."""
import json
import os
import re
from unittest import mock

import case
import chromium
import common

from companion.recording import log as logs
from companion.recording import story

SHORT = "0x26 3x14 0x14 3x3"                    # of filters, as `shrink` finds it
TOO_MANY = 42                                   # pieces


class StoryTest(case.Case):
    def recording(self, name, to, *options, order="", seed=""):
        """LOG, ELF and BOOK of an example."""
        asked = common.written(common.path(f"{to}.asked"), common.turns_of(order))
        given = {"schedule": "" if seed else "book:" + asked}
        log = common.record(to, self.elf(name), *options,
                            *(["--seed", seed] if seed else []), **given)
        return log, self.elf(name), common.path(f"{to}.book")

    def filters(self):
        return self.recording("filters", "short", "--harts", "4", order=SHORT)

    def lines_of_filters(self):
        source = common.text_of(os.path.join(common.EXAMPLES, "filters.c")).split("\n")
        return [next(at for at, line in enumerate(source, 1) if text in line)
                for text in ("filter = __atomic_load_n(&current", "__atomic_store_n(&current")]

    def test_why_begins_with_the_switches(self):
        self.needs_addr2line()
        log, elf, book = self.filters()
        said = self.says("why", "--book", book, log, elf)
        load, store = self.lines_of_filters()
        self.assertTrue(said.startswith(f"SWITCHES between harts, in the order of BOOK\n  {SHORT}\n"
                                        "    1. hart 0 stops after main "), said)
        self.assertRegex(said, rf"\n    2\. hart 3 stops after hold filters\.c:{load} .*\n       "
                         r"hart 0 continues at .*\n"
                         rf"       hart 0 stores to current in install filters\.c:{store}, "
                         rf"which hart 3 loaded in hold filters\.c:{load}\n")
        self.assertEqual(len(re.findall(r"^ +\d\. hart \d stops after", said, re.M)), 3)
        self.assertEqual(said[said.index("\nFAULT\n") + 1:].split("\n")[:8],
                         self.says("why", log, elf).split("\n")[:8])

    def test_race_tells_them_too(self):
        log, elf, book = self.filters()
        said = self.says("race", "--book", book, log, elf)
        told = said[:said.index("RACES: ")]
        self.assertEqual(told, self.says("why", "--book", book, log, elf)[:len(told)])
        self.assertEqual(said[len(told):], self.says("race", log, elf))

    def test_for_other_programs(self):
        log, elf, book = self.filters()
        for word in ("why", "race"):
            answer = json.loads(self.says(word, "--json", "--book", book, log, elf))["book"]
            self.assertEqual((answer["all"], answer["order"]), (3, SHORT))
            self.assertEqual([(each["hart"], each["other"]) for each in answer["switches"]],
                             [(0, 3), (3, 0), (0, 3)])
            self.assertEqual(answer["switches"][1]["load"]["hart"], 3)
            self.assertIsNone(json.loads(self.says(word, "--json", log, elf))["book"])

    def test_a_long_order_is_counted_alone(self):
        log, elf, book = self.recording("filters", "long", "--harts", "4", seed="10")
        turns = common.content(book)
        switches = sum(one != other for one, other in zip(turns, turns[1:]))
        self.assertGreaterEqual(switches, TOO_MANY)
        said = self.says("why", "--book", book, log, elf)
        self.assertIn(f"BOOK\n  {switches} switches are too many to tell: "
                      "zelkuma shrink finds an order with fewer\nFAULT\n", said)
        self.assertEqual(json.loads(self.says("race", "--json", "--book", book, log, elf))["book"],
                         {"all": switches, "order": "", "switches": []})

    def test_a_long_run_is_not_done_again(self):
        """How long `audit` would take is known by the log's Ends, before it is asked."""
        log, elf, book = self.filters()
        with mock.patch.object(story, "MOST_AUDITED",
                               10), mock.patch.object(story, "check_book") as asked:
            found = story.read_story(logs.read_log(log), elf, book, "")
        self.assertEqual((found.switches, found.left),
                         ([], "3 switches: the run is too long to look for their rows"))
        asked.assert_not_called()

    def test_another_book(self):
        log, elf, _ = self.recording("hand_over", "one", "--harts", "2", seed="3")
        _, _, other = self.recording("hand_over", "other", "--harts", "2", order="0x2 1x3")
        for word in ("why", "race", "view"):
            self.assertIn("LOG isn't the recording of BOOK's turns",
                          self.refuses(16, word, "--book", other, log, elf))
            self.assertIn("missing: /nowhere/BOOK",
                          self.refuses(4, word, "--book", "/nowhere/BOOK", log, elf))

    def test_a_run_that_read_a_file(self):
        """`audit` runs the program again, and so needs what it read."""
        text = common.written(common.path("text"), "one word or two\n")
        log, elf, book = self.recording("word_count", "counted", "--input", text, seed="1")
        self.assertIn("or the input isn't that of the recording",
                      self.refuses(17, "why", "--book", book, log, elf))
        self.assertRegex(self.says("why", "--book", book, "--input", text, log, elf),
                         r"BOOK\n  0x\d+\n")

    def test_the_page(self):
        log, elf, book = self.filters()
        status, page, err = common.companion("view", "--book", book, log, elf)
        self.assertEqual((status, err), (0, ""))
        story = case.data_of(page)["story"]
        self.assertEqual([piece[:2] for piece in story["pieces"]],
                         [[0, 26], [3, 14], [0, 14], [3, 3]])
        ends = {}
        for hart, _, begin, _, end, _ in story["pieces"]:
            self.assertEqual(begin, ends.get(hart, 0))
            self.assertGreater(end, begin)
            ends[hart] = end
        self.assertEqual([len(lines) for lines in story["switches"]], [2, 3, 3])
        self.assertIsNone(case.data_of(self.says("view", log, elf))["story"])

    def test_what_a_browser_draws(self):
        if not chromium.find():
            self.skipTest("no chromium is installed")
        log, elf, book = self.filters()
        page = common.written(common.path("page.html"), self.says("view", "--book", book, log, elf))
        with chromium.Browser() as browser:
            browser.open(page)
            self.assertEqual(browser.errors(), [])
            drawn = [browser.run(f"document.querySelectorAll('{each}').length")
                     for each in (".piece", ".switch", "#story li")]
            self.assertEqual(drawn, [4, 3, 3])
            browser.click_on("#story li:nth-child(2) button")
            self.assertTrue(browser.run("state.chosen.hart === 3 && state.chosen.count === "
                                        "D.story.pieces[1][4] - 1"))

"""The end of a log as a log of its own: it says what the whole says of the same rows. And names of
another build."""
import os
import sys
from contextlib import closing

import case
import common

from companion.recording import recent
from companion.why.analysis import analysed
from companion.recording.log import At
from companion.recording.recent import LogFile
from companion.recording.trace import read_trace

# Many records in few rows
SMALL = ("--seed", "1", "--sets", "1", "--ways", "1", "--line", "1", "--interval", "200")


class RecentTest(case.Case):
    def small_steps(self, first, more):
        """Logs count as large from so few rows on."""
        for name, value in (("FIRST_ROWS", first), ("MORE_ROWS", more)):
            for module in (recent, sys.modules["companion.why.analysis"]):
                self.addCleanup(setattr, module, name, getattr(module, name))
                setattr(module, name, value)

    def texts(self, log, elf):
        rows = read_trace(log, elf).rows
        return [rows.text(n) for n in range(1, rows.size + 1)]

    def test_an_end_has_the_last_rows(self):
        for name, words in (("wild_store", SMALL), ("tills", SMALL + ("--harts", "2")),
                            ("counter", SMALL + ("--harts", "4", "--limit", "2000"))):
            log = self.record(name, *words)
            elf = self.elf(name)
            with closing(LogFile(log)) as source:
                whole = self.texts(source.whole(), elf)
                for rows in (500, 3000):
                    end = source.end(rows)
                    some = self.texts(end, elf)
                    self.assertTrue(rows <= len(some) < len(whole),
                                    (name, rows, len(some), len(whole)))
                    self.assertGreater(end.unread, 0)
                    self.assertEqual(end.ends, source.whole().ends)
                    if "--harts" in words:      # rows that no Edge orders may stand otherwise
                        self.assertEqual(set(some) - set(whole), set(), name)
                    else:
                        self.assertEqual(some, whole[-len(some):])
                self.assertEqual((source.end(10**9).unread, self.texts(source.end(10**9), elf)),
                                 (0, whole))

    def test_a_row_that_is_asked_of_is_among_them(self):
        log = self.record("wild_store", *SMALL)
        elf = self.elf("wild_store")
        with closing(LogFile(log)) as source:
            rows = read_trace(source.end(500, At(0, 10000)), elf).rows
            self.assertGreater(rows.row_of(0, 10000), 0)
            self.assertEqual(rows.row_of(0, 2000), 0)

    def test_the_rows_before_those_that_are_kept_are_passed(self):
        log = self.record("wild_store", *SMALL)
        elf = self.elf("wild_store")
        with closing(LogFile(log)) as source:
            whole = self.texts(source.whole(), elf)
            rows = read_trace(source.whole(), elf, most=500).rows
        # The fault's row isn't counted
        self.assertEqual([rows.text(n) for n in range(1, rows.size + 1)], whole[-501:])
        self.assertEqual((rows.passed, rows.is_cut(1)), (len(whole) - 501, True))

    def test_registers_are_known_behind_the_rows_that_are_passed(self):
        """Those that no kept row wrote, too, whichever interval the first kept row of a hart is
        in."""
        for name, words in (("wild_store", ()), ("wild_store", SMALL),
                            ("tills", SMALL + ("--harts", "2")),
                            ("counter", SMALL + ("--harts", "4", "--limit", "2000"))):
            log = self.record(name, *words)
            elf = self.elf(name)
            with closing(LogFile(log)) as source:
                whole = read_trace(source.whole(), elf).rows.final
                for most in (1, 50, 700, 3001):
                    some = read_trace(source.whole(), elf, most=most).rows
                    self.assertEqual(some.final,
                                     {hart: whole[hart] for hart in some.last}, (name, most))

    def test_a_head_tells_the_settings(self):
        """Of both versions, with a second level of the caches and without."""
        own = {"--harts": "2", "--interval": "700", "--limit": "3000", "--log-size": "32768",
               "--memory": "131072", "--sets": "4", "--ways": "2", "--line": "8"}
        for more in ({"--format": "1"}, {"--format": "2"},
                     {"--format": "2", "--sets2": "16", "--ways2": "3"}):
            given = {**own, **more}
            log = common.path("settings.log")
            words = [word for option in given.items() for word in option]
            common.output("record", *words, "--seed", "1", self.elf("counter"), log,
                          common.path("settings.book"))
            with closing(LogFile(log)) as source:
                self.assertEqual(source.head.settings(), given)

    def test_version_1_is_converted(self):
        log = common.path("version1.log")
        common.output("record", "--format", "1", *SMALL, self.elf("wild_store"), log,
                      common.path("version1.book"))
        kept = recent.LARGEST_SMALL
        recent.LARGEST_SMALL = 1000
        self.addCleanup(setattr, recent, "LARGEST_SMALL", kept)
        with closing(LogFile(log)) as source:
            self.assertGreater(source.end(500).unread, 0)
        self.assertFalse(os.path.exists(source.folder))

    def test_why_reads_more_only_if_values_come_from_before(self):
        log = self.record("wild_store", *SMALL)
        elf = self.elf("wild_store")
        self.small_steps(1000, 20000)
        with analysed(log, elf) as crash:
            # The name was stored long before it was used
            self.assertGreater(crash.log.rows(), 19000)
        self.small_steps(1000, 2000)
        with analysed(log, elf) as crash:
            self.assertLess(crash.log.rows(), 3000)
            self.assertIn("stored before the rows that were read", str(list(crash.origin)))
        with analysed(log, elf, {"--rows": str(10**9)}) as crash:
            self.assertEqual(crash.log.unread, 0)

    def test_what_was_not_read_is_said(self):
        log = self.record("wild_store", *SMALL)
        elf = self.elf("wild_store")
        text = self.says("why", log, elf, "--rows", "500")
        self.assertRegex(text, r"\nOnly the last [\d,]+ rows of the log were read: [\d,]+ bytes of "
                               r"records before them weren't\.")
        self.assertIn("calls from before the first row that was read", text)
        self.assertNotIn("The log gave up", text)
        self.assertNotIn("Only the last", self.says("why", log, elf))

    def test_no_scratch_folder_is_a_line(self):
        log = self.record("wild_store", *SMALL)
        elf = self.elf("wild_store")
        status, _, err = common.companion("why", log, elf, "--rows", "500",
                                          environment={"TMPDIR": "/nowhere"})
        self.assertNotIn("Traceback", err)
        self.assertIn(status, (0, 3))           # python takes another folder if there is one


class NamesOfTest(case.Case):
    def test_names_of_another_build_are_refused(self):
        """A rebuild that differs in one byte of its code isn't the same program."""
        log, elf = self.crash("race_settings")
        data = bytearray(common.content(elf))
        data[0x200] ^= 1
        other = common.written(common.path("rebuilt.elf"), data)
        for word in ("why", "race", "view", "bucket"):
            said = self.refuses(8, word, log, elf, "--names", other)
            self.assertRegex(said, r"is another build than .*race_settings.elf, "
                             r"so its names would be wrong: other bytes from 00010200 on")
            self.assertRegex(self.refuses(8, word, log, elf, "--names", self.elf("sort")),
                             "another build")

    def test_without_addr2line_it_is_said_at_once(self):
        log, elf = self.crash("race_settings")
        line = ("zelkuma: no addr2line is here, so functions come without lines; "
                "Debian has it in binutils\n")
        for words in (("why", log, elf), ("race", log, elf), ("bucket", log, elf),
                      ("view", log, elf), ("names", elf)):
            status, _, err = common.companion(*words, environment={"PATH": "/nowhere"})
            self.assertEqual((status, err), (0, line), words)

    def test_a_buckets_digest_is_the_same_with_each_tool_and_file(self):
        self.needs_addr2line()
        log = self.record("tills", "--seed", "1", "--harts", "2")
        elf = self.elf("tills")
        calls = [((), {}), (("--names", self.names("tills")), {}),
                 (("--names", self.names("tills")), {"PATH": "/nowhere"})]
        lines = [common.companion("bucket", log, elf, *more, environment=given)[1].split()
                 for more, given in calls]
        self.assertEqual({line[3] for line in lines}, {lines[0][3]})
        self.assertEqual([line[1:3] for line in lines],
                         [["00010194", "-"], ["sell", "tills.c:40"], ["sell", "-"]])

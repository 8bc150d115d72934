"""unittest on top of the companions' common test functions: recordings by example, and what a
companion says."""
import json
import os
import re
import unittest

import common
from companion.call.errors import CompanionError

logs = {}


def data_of(page):
    """The data that a page of `view` holds."""
    return json.loads(re.search(r'<script type="application/json" id="data">(.*?)</script>',
                                page, re.S)[1])


class Case(unittest.TestCase):
    """Examples are named without folder and ending; `elf` is without names, `names` with names and
    lines."""

    @staticmethod
    def elf(name):
        return common.example(name)

    @staticmethod
    def names(name):
        if common.lacks_compiler():
            raise unittest.SkipTest(common.lacks_compiler())
        return os.path.join(common.named_examples(), name + ".elf")

    def record(self, name, *options):
        """The log of an example. The same words are recorded once."""
        key = (name,) + options
        if key not in logs:
            logs[key] = common.record("log%d" % len(logs), self.elf(name), *options)
        return logs[key]

    def crash(self, name):
        """The log and the ELF of one of tests/crashes, whose lines only an addr2line can tell."""
        self.needs_addr2line()
        return common.crash(name)

    def needs_addr2line(self):
        if not common.present_tools():
            self.skipTest("no addr2line is installed")

    def program(self, *words):
        return common.output(*words).decode("ascii")

    def says(self, *words):
        """The text that a companion prints, if it ends well and says nothing on err."""
        status, said, err = common.companion(*words)
        self.assertEqual((status, err), (0, ""), words)
        return said

    def check(self, what, good, seen=""):
        """One test of several; the others are run even if it fails. `seen` is shown then."""
        with self.subTest(what):
            self.assertTrue(good, seen)

    def refused(self, what, status, words, *call, **given):
        """A call that has to end with a status and one line on err, which holds these words, and
        print nothing."""
        found, said, err = common.companion(*call, **given)
        good = ((found, said, err[:9]) == (status, "", "zelkuma: ")
                and err.count("\n") == 1 and words in err)
        self.check(what, good, (found, err[-2000:]))

    def refuses(self, status, *words):
        """A companion refuses with one line on err and a status, and prints nothing. Gives the
        line."""
        found, said, err = common.companion(*words)
        self.assertEqual((found, said), (status, ""), err)
        self.assertRegex(err, r"\Azelkuma: [^\n]+\n\Z")
        return err

    def refuses_here(self, status, module, *words):
        """The same of a companion's module, without a process of its own. Gives what it says."""
        with self.assertRaises(CompanionError) as found:
            module.main(list(words))
        self.assertEqual(found.exception.status, status, found.exception)
        self.assertNotIn("\n", str(found.exception))
        return str(found.exception)

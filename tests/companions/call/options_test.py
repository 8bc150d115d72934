"""The numbers of options are read as the script zelkuma reads them, tests/script/numbers.txt, and
help tells each option."""
import os
import re
import unittest

import common

from companion.call.errors import CompanionError
from companion.call.help import MOTTO, WIDTH
from companion.call.options import whole
from companion.call.words import WORDS, help_of


class NumbersTest(unittest.TestCase):
    def read(self, word):
        try:
            return str(whole(word, 0, 2 ** 64 - 1, "N"))
        except CompanionError:
            return "-"

    def test_each_of_the_list(self):
        with open(os.path.join(common.TOP, "tests", "script", "numbers.txt"),
                  encoding="utf-8") as file:
            lines = [line.split() for line in file if not line.startswith("#")]
        self.assertEqual([[word, self.read(word)] for word, _ in lines], lines)
        self.assertGreater(len(lines), 20)


class HelpTest(unittest.TestCase):
    def test_each_option_of_a_form_is_told_and_no_other(self):
        for word in WORDS:
            found = help_of(word)
            taken = re.findall(r"(?<![\w-])--?[a-z][a-z-]*", found.form)
            self.assertEqual([name.split()[0] for name, _ in found.told()], taken, word)
            self.assertLessEqual(set(found.options), set(taken), word)

    def test_its_text(self):
        for word in WORDS:
            lines = help_of(word).text().splitlines()
            self.assertEqual((lines[0].split()[:2], lines[-1]), (["zelkuma", word], MOTTO))
            self.assertLessEqual(max(map(len, lines)), WIDTH, word)

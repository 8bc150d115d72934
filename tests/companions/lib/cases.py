"""Test files of functions whose names begin with `case_`, as tests of unittest: each gets the
file's own recordings."""
import shutil
import unittest

from recordings import Recordings

Skipped = unittest.SkipTest


def tests_of(names, needs="", given=lambda recordings: recordings):
    """The cases among the names of a module, as a class of tests. The recordings are there while
    its tests run; what is `given` of them is handed to each. `needs` is a program without which all
    are skipped."""
    scratch = Recordings()

    class Cases(unittest.TestCase):
        @classmethod
        def setUpClass(cls):
            if needs and not shutil.which(needs):
                raise Skipped(f"{needs} isn't installed")
            scratch.__enter__()

        @classmethod
        def tearDownClass(cls):
            scratch.__exit__()

    def method(function):
        def test(_self):
            function(given(scratch))
        test.__doc__ = function.__doc__
        return test

    Cases.__module__ = names["__name__"]
    Cases.__qualname__ = "Cases"
    for name in [name for name in names if name.startswith("case_")]:
        setattr(Cases, "test_" + name[len("case_"):], method(names[name]))
    return Cases

"""`python3 -m unittest`, called in the folder around this one, runs the tests of the companions:
all, or with the name of a file those in it. What they share is in companions/lib."""
import pathlib
import sys

HERE = pathlib.Path(__file__).resolve().parent
sys.path.insert(0, str(HERE / "companions" / "lib"))


def load_tests(loader, _tests, _pattern):
    files = sorted(HERE.glob("companions/*/*_test.py"))
    return loader.loadTestsFromNames(f"tests.companions.{file.parent.name}.{file.stem}"
                                     for file in files)

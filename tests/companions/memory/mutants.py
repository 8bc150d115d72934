#!/usr/bin/env python3
"""Plants wrong lines in a copy of the companions, one by one: a test of `memory` has to find each.

tests/companions/memory/mutants.py [NAME..]: those of mutants.txt, or the named ones. The status is
1 if one isn't found, or can't be planted. An entry has a heading, `# NAME: why it is to be feared`,
and then `file:`, `old:`, `new:`, and `test:`, which passes without it; `cases:` are those that it
tries, if not all. `old` stands in the file once."""
import os
import shutil
import subprocess
import sys
import tempfile

HERE = os.path.dirname(os.path.abspath(__file__))
TOP = os.path.dirname(os.path.dirname(os.path.dirname(HERE)))
sys.path.insert(0, TOP)
from tests.oracle.mutants import planted, read_mutants      # noqa: E402

COPIED = ("companion", "tests/companions")
LINKED = ("examples", "release", "python", "tests/crashes", "tests/oracle", "VERSION")


def copied(folder):
    os.mkdir(os.path.join(folder, "tests"))
    for part in COPIED:
        shutil.copytree(os.path.join(TOP, part), os.path.join(folder, part),
                        ignore=shutil.ignore_patterns("__pycache__"))
    for part in LINKED:
        os.symlink(os.path.join(TOP, part), os.path.join(folder, part))


def passes(folder, mutant):
    environment = dict(os.environ, PYTHONPATH=os.path.join(folder, "tests", "companions", "lib"),
                       PYTHONDONTWRITEBYTECODE="1")
    if "cases" in mutant:
        environment["MEMORY_CASES"] = mutant["cases"]
    done = subprocess.run([sys.executable, "-m", "unittest",
                           f"memory_test.MemoryTest.{mutant['test']}"], env=environment,
                          cwd=os.path.join(folder, "tests", "companions", "memory"),
                          stdout=subprocess.PIPE, stderr=subprocess.STDOUT, check=False)
    return done.returncode == 0, done.stdout.decode()


def try_mutant(mutant):
    with tempfile.TemporaryDirectory(prefix="mutant-") as folder:
        copied(folder)
        if not planted(mutant, folder):
            return f"can't be planted: {mutant['file']} doesn't have its line once"
        is_good, said = passes(folder, mutant)
        if is_good:
            return "NOT FOUND"
        return "found" if "Error" in said else f"can't be tried: {said[-200:]}"


def main(names):
    mutants = [each for each in read_mutants(os.path.join(HERE, "mutants.txt"))
               if not names or each["name"] in names]
    with tempfile.TemporaryDirectory(prefix="mutant-") as folder:
        copied(folder)
        bad = [test for test in sorted({each["test"] for each in mutants})
               if not passes(folder, {"test": test})[0]]
    if bad:
        sys.exit(f"without a wrong line {', '.join(bad)} doesn't pass")
    found = 0
    for mutant in mutants:
        said = try_mutant(mutant)
        found += said == "found"
        print(f"{mutant['name']}: {said}", flush=True)
    print(f"{found} of {len(mutants)} planted lines are found")
    return 0 if found == len(mutants) and mutants else 1


if __name__ == "__main__":
    sys.exit(main(sys.argv[1:]))

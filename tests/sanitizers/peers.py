"""What AddressSanitizer and memcheck tell of a test on the machine that this runs on: kinds, and
lines of the first frames."""
from __future__ import annotations

import os
import re
import subprocess
from typing import TYPE_CHECKING, List, Optional, Tuple

if TYPE_CHECKING:
    from tries import Test

# Reports of which so many frames of the test's own file count
PATIENCE_S = 60
FIRST = 3
FRAMES = 2
INCLUDED = "valgrind", "valgrind/include", "valgrind/memcheck"
SANITIZER = re.compile(r"ERROR: AddressSanitizer:? ([a-z-]+)")
# memcheck's reports begin with such words, and their kinds here.
MEMCHECK = {"Invalid read": "heap", "Invalid write": "heap", "Invalid free": "invalid-free",
            "Conditional jump": "use", "Use of unin": "use", "Syscall param": "use",
            "Source and dest": "memcpy", "Jump to the": "invalid", "Process terminating": "SEGV"}
LOST = re.compile(r"definitely lost in|possibly lost in")
Told = Optional[Tuple[List[str], List[int]]]    # None if the test doesn't build


def built(test: Test, folder: str, level: str, *options: str) -> str:
    """The program for this machine, or nothing."""
    name = os.path.join(folder,
                        test.name.replace("/", "-")[:-2] + level + "".join(options) + ".here")
    if not os.path.exists(name):
        done = subprocess.run(["gcc", "-g", "-w", level, *options, *test.options,
                               *(f"-I{os.path.join(folder, part)}" for part in INCLUDED), "-o",
                               name, test.source, "-lm", "-lpthread"], stdout=subprocess.DEVNULL,
                              stderr=subprocess.DEVNULL, check=False)
        if done.returncode:
            return ""
    return name


def said_by(*words: str, settings: str = "") -> str:
    try:
        done = subprocess.run(words, stdin=subprocess.DEVNULL, stdout=subprocess.DEVNULL,
                              stderr=subprocess.PIPE, timeout=PATIENCE_S,
                              env=dict(os.environ, ASAN_OPTIONS=settings), check=False)
    except subprocess.TimeoutExpired as late:
        return (late.stderr or b"").decode("latin-1")
    return done.stderr.decode("latin-1")


def lines_of(test: Test, report: str) -> List[int]:
    """Those of a report's first stack that are of the test's own file."""
    stack = re.split(r"\n(?:==\d+== *)?\n", report)[0]
    return [int(line) for line in re.findall(re.escape(os.path.basename(test.source)) + r":(\d+)",
                                             stack)[:FRAMES]]


def by_sanitizer(test: Test, folder: str, level: str) -> Told:
    program = built(test, folder, level, "-fsanitize=address")
    if not program:
        return None
    settings = ":".join(filter(None,
                               (test.settings, f"detect_leaks={int(test.kind == 'memory-leak')}")))
    said = said_by(program, settings=settings)
    reports = [said[each.start():] for each in SANITIZER.finditer(said)][:FIRST]
    kinds = [SANITIZER.findall(each)[0] for each in reports]
    if "LeakSanitizer: detected" in said:
        reports = reports + said.split("Direct leak")[1:][:FIRST]
        kinds = kinds + ["memory-leak"]
    return kinds, [line for each in reports for line in lines_of(test, each)]


def by_memcheck(test: Test, folder: str, level: str) -> Told:
    program = built(test, folder, level)
    if not program:
        return None
    leaks = ["--leak-check=full"] if test.kind == "memory-leak" else ["--leak-check=no"]
    said = said_by("valgrind", "-q", *leaks, program)
    reports = [each for each in re.split(r"\n==\d+== *\n",
                                         "\n" + re.sub(r"(?m)^(==\d+==) *$", r"\1 ", said))
               if LOST.search(each) or any(words in each for words in MEMCHECK)][:FIRST]
    kinds = ["memory-leak" if LOST.search(each)
             else next(kind for words, kind in MEMCHECK.items() if words in each)
             for each in reports]
    return kinds, [line for each in reports for line in lines_of(test, each)]

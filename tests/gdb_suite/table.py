#!/usr/bin/env python3
"""table.py BRIDGE CONTROL: what passed and failed in two runs of GDB's test suite by test file, as
a Markdown table.

Each run is a folder with dejagnu's gdb.log. Behind a file of BRIDGE stands why its tests failed, as
far as the log shows it:

write    it writes memory or a register, or calls a function of the program
after    an earlier test of the file did, and so the state isn't what this one expects
end      it or a test before it waits for the program's exit; a recording ends, its program doesn't
other    has to be looked at: these are listed below the table"""
import os
import re
import sys
from collections import Counter, defaultdict
from typing import Dict, Iterator, List, NamedTuple, Tuple

PASSED = ("PASS", "KPASS", "XPASS")  # K: a known failure
FAILED = "FAIL"  # X: an expected one
FILE = re.compile(r"Running .*/(gdb\.\w+/[^ /]+\.exp) ")
RESULT = re.compile(r"([A-Z]+): gdb\.\w+/[^ ]+\.exp: (.*)")
WRITE = re.compile("can't be changed|Could not write|Cannot access memory|memory write|"
                   "[Cc]an ?not call|-var-assign")
END = "No more reverse-execution history"
CAUSES = "write", "after", "end", "other"


class Result(NamedTuple):
    """Of a test: its file, how it ended, its name, and what gdb said since the test before."""
    file: str
    passed: bool
    name: str
    said: str


def results(log: str) -> Iterator[Result]:
    file = ""
    said = ""
    with open(log, encoding="utf-8", errors="replace") as lines:
        for line in lines:
            begun = FILE.match(line)
            ended = RESULT.search(line)
            if begun:
                file = begun[1]
                said = ""
            elif ended and ended[1] in (*PASSED, FAILED):
                yield Result(file, ended[1] in PASSED, ended[2], said)
                said = ""
            else:
                said += line


def cause(result: Result, wrote: bool, ended: bool) -> str:
    if WRITE.search(result.said + result.name):
        return "write"
    if END in result.said:
        return "end"
    if wrote:
        return "after"
    return "end" if ended else "other"


def main(bridge: str, control: str) -> None:
    # By file, and whether it is the bridge.
    counts: Dict[Tuple[str, bool], Counter] = defaultdict(Counter)
    causes: Dict[str, Counter] = defaultdict(Counter)
    # Files that did, and failures without another cause
    wrote = set()
    ended = set()
    others = []
    for is_bridge, folder in enumerate((control, bridge)):
        for result in results(os.path.join(folder, "gdb.log")):
            counts[result.file, bool(is_bridge)][result.passed] += 1
            if is_bridge and not result.passed:
                why = cause(result, result.file in wrote, result.file in ended)
                causes[result.file][why] += 1
                if why == "end":
                    ended.add(result.file)
                if why == "other":
                    others.append(f"{result.file}: {result.name}")
            if is_bridge and WRITE.search(result.said):
                wrote.add(result.file)
    show(counts, causes)
    if others:
        print("\nOther failures of the bridge:\n", *others, sep="\n")


def show(counts: Dict[Tuple[str, bool], Counter], causes: Dict[str, Counter]) -> None:
    heads = "test file", "bridge passed", "failed", "control passed", "failed", *CAUSES
    print(f"| {' | '.join(heads)} |")
    print("|---" * len(heads) + "|")
    total = [0] * (4 + len(CAUSES))
    for file in sorted({file for file, _ in counts}):
        cells: List[int] = [counts[file, is_bridge][passed]
                            for is_bridge in (True, False) for passed in (True, False)]
        cells += [causes[file][why] for why in CAUSES]
        total = [before + cell for before, cell in zip(total, cells)]
        print(f"| {file} | " + " | ".join(str(cell or "") for cell in cells) + " |")
    print("| all | " + " | ".join(map(str, total)) + " |")


main(*sys.argv[1:])

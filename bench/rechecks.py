#!/usr/bin/env python3
"""Rechecks builds of which it is known if they are mended, and prints what is said of them.

bench/rechecks.py [--tries N] [PROGRAM..]   without PROGRAM those of tests/crashes/mended

Each program has nine builds: the recorded one, the same with other line numbers, at four other
levels, with half a fix, and with a true fix at two levels. Some have two more: with a change that
mends nothing, and with other names, functions and lines. A cell says how a bad end was found: by
the order itself or by so many of those near it. Behind it stands how many of the switches are as
they were, if not all. The status is 1 if a verdict is wrong."""
import argparse
import json
import os
import resource
import subprocess
import sys
from collections import Counter

TOP = os.path.dirname(os.path.dirname(os.path.abspath(__file__)))
sys.path.insert(0, os.path.join(TOP, "tests", "companions", "lib"))
import common
import mended

# Each build: its name, the change of the source, the level; the mended ones are last.
BUILDS = (("same", "", "-O2"), ("moved", mended.MOVED, "-O2"), ("-O0", "", "-O0"),
          ("-O1", "", "-O1"), ("-Os", "", "-Os"), ("-O3", "", "-O3"),
          ("rewritten", "rewritten", "-O2"), ("none", "none", "-O2"), ("half", "half", "-O2"),
          ("mended", "mended", "-O2"), ("mended -O1", "mended", "-O1"))
HOLDS = 0
BAD_ENDS = (10, 11, 25)
UNSURE = 24
WRONG = "WRONG"


def said_by(*words):
    """The object that a companion prints."""
    call = [sys.executable, common.COMPANION, *words, "--json"]
    done = subprocess.run(call, stdout=subprocess.PIPE, check=False)
    return json.loads(done.stdout)


def processor_seconds():
    used = resource.getrusage(resource.RUSAGE_CHILDREN)
    return used.ru_utime + used.ru_stime


def order_of(name):
    """The order file of a program's recording."""
    order = common.path(f"{name}.order")
    short = common.path(f"{name}.short")
    output = mended.program_of(name).output
    said_by("shrink", *mended.recorded(name), short, short + ".book", "--order", order,
            *(("--output", output) if output else ()))
    return order


def cell_of(told, is_mended):
    """How a verdict is told in the table, with its kind."""
    switches = told["switches"]
    kept = sum(switch["how"] == "kept" for switch in switches)
    of = "" if kept == len(switches) else f" {kept}/{len(switches)}"
    if told["status"] == UNSURE:
        return f"UNSURE{of}", "unsure"
    if is_mended != (told["status"] == HOLDS):
        return WRONG + of, WRONG
    if is_mended:
        return f"HOLDS{of}", "holds"
    other = ", otherwise" if "otherwise" in told["verdict"] else ""
    if "by the order itself" in told["verdict"]:
        return f"order{of}{other}", "by the order"
    return f"near {told['tried'] - told['well']}/{told['tried']}{of}{other}", "by an order near it"


def row_of(name, tries, kinds):
    """The cells of a program; counts in `kinds` how each build is told."""
    order = order_of(name)
    cells = []
    for _, change, level in BUILDS:
        if not mended.has_change(name, change):
            cells.append("")
            continue
        is_mended = change == "mended"
        new = mended.built(name, change, level)
        told = said_by("recheck", order, new, "--tries", str(tries))["orders"][0]
        assert told["status"] in (HOLDS, UNSURE, *BAD_ENDS), told
        cell, kind = cell_of(told, is_mended)
        kinds["mended" if is_mended else "broken", kind] += 1
        cells.append(cell)
    return [name, str(len(told["switches"])), *cells]


def main():
    parser = argparse.ArgumentParser()
    parser.add_argument("names", nargs="*")
    parser.add_argument("--tries", type=int, default=300)
    asked = parser.parse_args()
    kinds = Counter()
    print("| program | switches | " + " | ".join(build for build, _, _ in BUILDS) + " | seconds |")
    print("|---" * (len(BUILDS) + 3) + "|")
    for name in asked.names or mended.names():
        before = processor_seconds()
        row = row_of(name, asked.tries, kinds)
        print(f"| {' | '.join(row)} | {processor_seconds() - before:.0f} |", flush=True)
    for (build, kind), count in sorted(kinds.items()):
        print(f"{build}, {kind}: {count}")
    return 1 if any(kind == WRONG for _, kind in kinds) else 0


if __name__ == "__main__":
    sys.exit(main())

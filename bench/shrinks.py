#!/usr/bin/env python3
"""Shrinks recordings of programs of several harts, and prints a table of what comes out.

bench/shrinks.py [PROGRAM..]    without PROGRAM those of `PROGRAMS`; others are taken from
                                tests/crashes/cases.txt

A guilty line is named if the story has it, or a window of which it is one, or lies within."""
import json
import os
import resource
import subprocess
import sys
import tempfile

TOP = os.path.dirname(os.path.dirname(os.path.abspath(__file__)))
sys.path.insert(0, os.path.join(TOP, "tests", "companions", "lib"))
import common

# Of an example: options of its recording, its schedule, and a text that its guilty line has.
EXAMPLES = {
    "filters": (["--harts", "4", "--seed", "10"], "", "the bug: too late"),
    "buffers": (["--harts", "4", "--limit", "1M"], "sleeper:20",
                "while (!__atomic_compare_exchange_n(&top, &seen, below"),
    "prices": (["--harts", "4"], "sleeper:1", "list = __atomic_load_n(&announced"),
    "hand_over": (["--harts", "2", "--seed", "3"], "", "the bug:"),
    "two_locks": (["--harts", "2", "--seed", "8", "--limit", "20000"], "", "the bug:"),
    "tills": (["--harts", "2", "--seed", "1"], "", "the bug:"),
}
PROGRAMS = [*EXAMPLES, "hang_signal", "hang_kitchen", "race_gauges", "race_tickets", "race_berths"]
ROW = "| {:<13} | {:>14} | {:>14} | {:>10} | {:>9} | {} |"


def recorded(name):
    """LOG, ELF, BOOK, the file with names and the guilty line of a program."""
    if name in EXAMPLES:
        options, schedule, text = EXAMPLES[name]
        with open(os.path.join(TOP, "examples", name + ".c")) as file:
            line = next(at for at, source in enumerate(file, 1) if text in source)
        elf = common.example(name)
        named = os.path.join(common.named_examples(), name + ".elf")
        guilty = f"{name}.c:{line}"
    else:
        crash = common.crashes()[name]
        options = crash.options
        schedule = ""
        elf = crash.elf
        named = crash.elf
        guilty = crash.guilty
    log = common.record(name, elf, *options, schedule=schedule)
    return [log, elf, common.path(name + ".book")], named, guilty


def lines_in(switch):
    """The places of a switch, and those between its window's ends, as FILE:LINE."""
    points = [switch[key]
              for key in ("stopped", "next", "store", "load", "after", "before") if switch[key]]
    found = {f"{point['place']['file']}:{point['place']['line']}" for point in points}
    found.update(place.split(" ")[1] for point in points for place in point["inlined"])
    ends = [told_last(switch[key]) for key in ("after", "before") if switch[key]]
    if len(ends) == 2 and ends[0][:2] == ends[1][:2]:
        low, high = sorted(line for _, _, line in ends)
        found.update(f"{ends[0][1]}:{line}" for line in range(low, high + 1))
    return found


def told_last(point):
    """The function, the file and the line that are told last of a row."""
    place = point["place"]
    if not point["inlined"]:
        return place["function"], place["file"], place["line"]
    function, at = point["inlined"][-1].split(" ")
    return (function, *at.split(":")[:1], int(at.split(":")[1]))


def processor_seconds():
    used = resource.getrusage(resource.RUSAGE_CHILDREN)
    return used.ru_utime + used.ru_stime


def main(names):
    print(ROW.format("program", "switches", "turns", "recordings",
                     "seconds", "names the guilty line"))
    print("|---" * 6 + "|")
    with tempfile.TemporaryDirectory() as folder:
        for name in names:
            recording, named, guilty = recorded(name)
            before = processor_seconds()
            done = subprocess.run([sys.executable, common.COMPANION, "shrink", *recording,
                                   os.path.join(folder, "short.log"),
                                   os.path.join(folder, "short.book"), "--names", named, "--json"],
                                  stdout=subprocess.PIPE, check=True)
            answer = json.loads(done.stdout)
            seconds = processor_seconds() - before
            is_named = any(guilty in lines_in(switch) for switch in answer["switches"])
            print(ROW.format(name,
                             f"{answer['recorded_pieces'] - 1:,} to {len(answer['pieces']) - 1}",
                             f"{answer['recorded_turns']:,} to {answer['turns']:,}",
                             answer["recordings"], f"{seconds:.1f}",
                             f"{'yes' if is_named else 'no'}, {guilty}: `{answer['order']}`"),
                  flush=True)


if __name__ == "__main__":
    main(sys.argv[1:] or PROGRAMS)

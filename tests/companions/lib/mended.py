"""Programs with a known race, and what mends each: changes of its source, built as the examples
are.

In tests/crashes/mended NAME.mended.diff is a true fix, and NAME.half.diff one by which some orders
still end badly. NAME.none.diff mends nothing, and NAME.rewritten.diff changes names, functions and
lines alone."""
import os
import re
import subprocess
from typing import NamedTuple

import common

FLAGS = ("-march=rv32ima", "-mabi=ilp32", "-mstrict-align", "-g", "-ffreestanding", "-fno-pic",
         "-fno-tree-loop-distribute-patterns", "-nostdlib", "-static", "-z", "max-page-size=4096",
         "-Wl,--build-id=none")
LIB = os.path.join(common.EXAMPLES, "lib")
DIFFS = os.path.join(common.CRASHES, "mended")
MOVED = "moved"             # a change that gives each line another number


class Program(NamedTuple):
    """The source, the options of a recording that ends badly, and its turns.

    changes  {change: what is put in place of what}, of changes that have no diff
    output   the byte of the output that is wrong, as `shrink` takes it"""
    source: str
    options: tuple
    schedule: str = ""
    changes: dict = {}
    output: str = ""


def fresh(name, harts, turns, limit=1000000, output=""):
    """A program that stands beside its fixes. Its turns are those of a seed or a schedule."""
    seed = () if ":" in turns else (f"--seed={turns}",)
    options = f"--harts={harts}", f"--limit={limit}", *seed
    return Program(f"tests/crashes/mended/{name}.c", options, "" if seed else turns, output=output)


PROGRAMS = {
    "filters": Program("examples/filters.c", ("--harts=4", "--seed=10", "--limit=1000000"), "", {
        "renamed function": {"hold(": "hold_current("},
        "renamed variable": {"current": "installed"},
    }),
    "buffers": Program("examples/buffers.c", ("--harts=4", "--limit=1048576"), "sleeper:20"),
    "two_locks": Program("examples/two_locks.c", ("--harts=2", "--seed=8", "--limit=20000")),
    "prices": Program("examples/prices.c", ("--harts=4", "--limit=1000000"), "sleeper:1"),
    "counter": Program("examples/counter.c", ("--harts=2", "--seed=2", "--limit=100000")),
    "heap": Program("examples/heap.c", ("--harts=1", "--seed=1", "--limit=1000000")),
    "shelf": Program("tests/companions/lib/programs/shelf.c", ("--harts=2", "--seed=1")),
    "hang_bakery": fresh("hang_bakery", 3, "sleeper:26", 100000),
    "hang_ferry": fresh("hang_ferry", 3, "bursts:2", 100000),
    "race_alarms": fresh("race_alarms", 2, "6"),
    "race_library": fresh("race_library", 3, "1"),
    "race_market": fresh("race_market", 3, "bursts:6"),
    "race_purses": fresh("race_purses", 3, "bursts:3"),
    "race_stealing": fresh("race_stealing", 4, "bursts:9"),
    "wrong_bulletin": fresh("wrong_bulletin", 2, "bursts:1", output="3:0"),
    "wrong_rod": fresh("wrong_rod", 4, "1"),
    "wrong_votes": fresh("wrong_votes", 4, "1"),
}


def program_of(name):
    """One of those above, or of tests/crashes."""
    if name in PROGRAMS:
        return PROGRAMS[name]
    return Program(f"tests/crashes/{name}.c", tuple(common.crashes()[name].options))


def names():
    """The programs that have a true and a half fix."""
    return sorted({name.split(".")[0] for name in os.listdir(DIFFS)})


def has_change(name, change):
    return (change in ("", MOVED) or change in program_of(name).changes
            or os.path.exists(diff_of(name, change)))


def diff_of(name, change):
    return os.path.join(DIFFS, f"{name}.{change}.diff")


def changes_of(name, change):
    """{a text of the source: what is put in its place}"""
    known = program_of(name).changes
    if change in known:
        return known[change]
    diff = common.text_of(diff_of(name, change))
    hunks = re.split(r"^@@.*\n", diff, flags=re.M)[1:]
    return {part_of(hunk, " -"): part_of(hunk, " +") for hunk in hunks}


def part_of(hunk, kinds):
    """The old or the new lines of a diff's hunk."""
    return "".join(line[1:] for line in hunk.splitlines(True) if line[0] in kinds)


def source_of(name, change=""):
    text = common.text_of(os.path.join(common.TOP, program_of(name).source))
    if change == MOVED:
        comment = "/* A comment\n   that moves\n   all lines. */\n"
        return re.sub(r"^(static|struct) ", comment + r"\1 ", text, 1, re.M)
    for old, new in changes_of(name, change).items() if change else ():
        assert text.count(old) == 1 or change in program_of(name).changes, (name, change, old)
        text = text.replace(old, new)
    return text


def built(name, change="", level="-O2"):
    """The program with a change, in a folder of its own beside its source. It is built once."""
    folder = common.path(os.path.join("mended", f"{name} {change} {level}".replace(" ", "_")))
    elf = os.path.join(folder, name + ".elf")
    if not os.path.exists(elf):
        source = common.written(os.path.join(folder, name + ".c"), source_of(name, change))
        script, start, machine = (os.path.join(LIB, name)
                                  for name in ("program.ld", "start.S", "machine.c"))
        subprocess.run([common.COMPILER, *FLAGS, level, "-I", LIB, "-I", common.CRASHES,
                        "-T", script, "-o", elf, start, machine, source], check=True)
    return elf


def recorded(name, level="-O2"):
    """LOG, ELF and BOOK of the program as it is."""
    program = program_of(name)
    elf = built(name, level=level)
    log = common.path(f"mended_{name}{level}.log")
    if not os.path.exists(log):
        common.record(f"mended_{name}{level}", elf, *program.options, schedule=program.schedule)
    return log, elf, common.path(f"mended_{name}{level}.book")

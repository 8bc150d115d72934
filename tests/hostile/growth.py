#!/usr/bin/env python3
"""Counts the calls of functions that companions make for inputs of doubling sizes: logs of triage,
harts, switches of BOOK, and lines, entries and members of debug information. (Of rows
tests/companions/package/doubling_test.py measures the time.)

tests/hostile/growth.py [FAMILY..]. Twice the size may take at most MOST times the calls, an
exponent of 1.1. It ends with 1 if one takes more."""
import math
import os
import random
import subprocess
import sys
import tempfile

import dwarf_file as dw
import forked
from dwarf_file import DATA4, REF4, STRING, Die
from forged_dwarf import Good
from tried import TOP, read, write

sys.path.insert(0, TOP)
from companion.call import program                            # noqa: E402
from companion.recording.elf import Elf                       # noqa: E402

MOST = 2 ** 1.1
# Races of each two harts are told, so many at most as `race` asks of the program
MOST_OF_PAIRS = 2 ** 2.1
ELF = f"{TOP}/tests/crashes/use_after_free.elf"
BUFFERS = f"{TOP}/examples/buffers.elf"
COUNTER = f"{TOP}/examples/counter.elf"
BARRIER = f"{TOP}/tests/crashes/hang_barrier.elf"


def counted(folder):
    """What calls a companion, and saves how many functions were called meanwhile."""
    def run(words):
        count = 0

        def told(_frame, event, _what):
            nonlocal count
            count += event in ("call", "c_call")

        sys.setprofile(told)
        try:
            status = forked.call.run_word(words)
        finally:
            sys.setprofile(None)
        write(f"{folder}/count", str(count).encode())
        sys.stdout.flush()
        os._exit(status)
    return run


def record(folder, name, elf, *options, schedule="bursts:1"):
    log = f"{folder}/{name}"
    book = f"{folder}/{name}.book"
    done = subprocess.run([program.path(), "record", "--format", "2", *options, elf, log, book],
                          stderr=subprocess.PIPE, check=False,
                          env={**os.environ, "ZELKUMA_SCHEDULE": schedule})
    assert done.returncode in (0, 10, 11), done.stderr
    return log, elf, book


def logs(folder, size):
    """Of as many runs."""
    place = f"{folder}/logs{size}"
    os.mkdir(place)
    for number in range(size):
        record(place, f"log{number}", BUFFERS, "--harts", "4", schedule=f"sleeper:{number}")
    yield "triage", place, "--elfs", os.path.dirname(BUFFERS)


def harts(folder, size):
    """Each of which does as much."""
    log, elf, book = record(folder, f"harts{size}", COUNTER, "--harts", str(size),
                            "--limit", "3000")
    yield from ((word, log, elf) for word in ("why", "race", "view", "bucket", "memory"))
    yield "calls", log, elf, "00010074"
    yield "again", log, elf, book, f"{folder}/again"


def switches(folder, size):
    """In as many more rows."""
    log, elf, book = record(folder, f"switches{size}", BARRIER, "--harts", "4", "--seed",
                            "1", "--limit", str(size))
    yield from ((word, log, elf, "--book", book) for word in ("why", "race", "view"))
    yield "again", log, elf, book, f"{folder}/again"


def debug_information(folder, name, good):
    elf = f"{folder}/{name}.elf"
    write(elf, good.made())
    log, _, _ = record(folder, name, elf, "--seed", "1")
    yield from ((word, log, elf) for word in ("why", "memory", "view"))
    yield "names", elf, "main"
    yield "history", log, elf, "arena"


def lines(folder, size):
    good = Good(Elf(ELF), random.Random(1))
    good.lines.rows = dw.line_rows(good.begin, size, 0)
    return debug_information(folder, f"lines{size}", good)


def entries(folder, size):
    good = Good(Elf(ELF), random.Random(1))
    good.top.below += [Die(0x34, (3, STRING, b"v%d" % at), (0x49, REF4, good.int))
                       for at in range(size)]
    return debug_information(folder, f"entries{size}", good)


def members(folder, size):
    good = Good(Elf(ELF), random.Random(1))
    big = Die(0x13, (3, STRING, b"big"), (0xb, DATA4, 32768), below=[
        Die(0xd, (3, STRING, b"m%d" % at), (0x49, REF4, good.draw.choice((good.int, good.pointer))),
            (0x38, DATA4, 4 * at % 32768)) for at in range(size)])
    good.top.below.append(big)
    for die in good.data:
        die.tell(0x49, REF4, big)
    return debug_information(folder, f"members{size}", good)


# The sizes of which the second is the double: what doesn't grow with them has to be small beside
# what does.
FAMILIES = ((logs, 16), (harts, 8), (switches, 10000), (lines, 8000),
            (entries, 8000), (members, 4000))


def main(words):
    wrong = 0
    with tempfile.TemporaryDirectory() as folder:
        os.environ["XDG_CACHE_HOME"] = folder
        for family, size in FAMILIES if not words else [each for each in FAMILIES
                                                        if each[0].__name__ in words]:
            for few, many in zip(family(folder, size), family(folder, 2 * size)):
                told = []
                for call in few, many:
                    ended = forked.companion(call, folder, run=counted(folder))
                    assert ended.status in (0, 16), (call, ended)
                    told.append(int(read(f"{folder}/count")))
                exponent = math.log2(told[1] / told[0])
                is_wrong = told[1] > (MOST_OF_PAIRS if (family, few[0]) == (harts, "race")
                                      else MOST) * told[0]
                wrong += is_wrong
                print(f"{family.__name__}, {few[0]}: {told[0]} calls, of twice as many {told[1]}: "
                      f"exponent {exponent:.2f}" + " is too much" * is_wrong, flush=True)
    sys.exit(1 if wrong else 0)


if __name__ == "__main__":
    main(sys.argv[1:])

#!/usr/bin/env python3
"""Tests that a recording without a seed is made by the harts' own threads.

tests/program/threads.py PROGRAM

No clause says who takes a turn. If a worker stops early, seed 0 takes the turns that are left, and
LOG and BOOK are those of a run all the same. So this looks at lists of turns, and at the threads of
a process. None of it is timed: a run that has the fault looked for ends at its limit.

It was seen to fail for a worker that stops early, for one that takes every other turn only, for one
that waits for another's end, and if the caller's thread takes all turns.
"""
import os
import struct
import subprocess
import sys
import tempfile
import time
from typing import Callable, List

TOP = os.path.dirname(os.path.dirname(os.path.dirname(os.path.realpath(__file__))))
LOOPS = f"{TOP}/bench/harts.elf"
HARTS = 4
# How often a hart of LOOPS goes around, with two turns each time: 100,024 turns of four harts.
TIMES = 12500
# So many draws of seed 0 among two or more harts come by chance once in 2 ** 64 places.
DRAWS = 64
# With these no hart of LOOPS ends before its limit, which takes seconds. A run by several threads
# is stopped long before.
ENDLESS = 2**31 - 1
ENDLESS_LIMIT = 10000000
# Two harts that hand a word to and fro ten times: hart 0 counts it up if it is even, hart 1 if it
# is odd.
HAND_TO_AND_FRO = [
    0x00020437,  # lui s0,0x20
    0x00A00293,  # li t0,10
    0x00042303,  # wait: lw t1,0(s0)
    0x00535C63,  # bge t1,t0,over
    0x00137393,  # andi t2,t1,1
    0xFEA39AE3,  # bne t2,a0,wait
    0x00130313,  # addi t1,t1,1
    0x00642023,  # sw t1,0(s0)
    0xFE9FF06F,  # j wait
    0x05D00893,  # over: li a7,93
    0x00000073,  # ecall
]
# Four seconds of waiting for the other hart, which needs its thread to run for microseconds.
HAND_LIMIT = 200000000


def executable(words):
    """Returns a program file of these instructions, with a page of zeros at 0x20000."""
    size = 4 * len(words)
    ident = b"\x7fELF\x01\x01\x01" + bytes(9)
    header = struct.pack("<HHIIIIIHHHHHH", 2, 243, 1, 0x10000, 52, 0, 0, 52, 32, 2, 0, 0, 0)
    text = struct.pack("<8I", 1, 116, 0x10000, 0x10000, size, size, 5, 4)
    data = struct.pack("<8I", 1, 116 + size, 0x20000, 0x20000, 0, 4096, 6, 4)
    return ident + header + text + data + struct.pack(f"<{len(words)}I", *words)


def is_drawn(book, last, first):
    """Whether the turns from the first on are what seed 0 draws among the live harts.

    The last turn of each hart is given.
    """
    state = 0
    for place in range(first, first + DRAWS):
        live = [hart for hart, end in enumerate(last) if end >= place]
        state = (state * 6364136223846793005 + 1442695040888963407) % 2**64
        if book[place] != live[(state >> 33) % len(live)]:
            return False
    return True


def seed_zero_from(book):
    """Returns the first place from which on the turns are seed 0's, or None.

    When one hart alone is left, each seed takes its turns.
    """
    last = [book.rindex(hart) for hart in range(max(book) + 1)]
    alone = sorted(last)[-2] + 1
    places = range(alone - DRAWS)
    return next((place for place in places if is_drawn(book, last, place)), None)


class Recordings:
    """Recordings in a folder of their own, of a program."""

    def __init__(self, program, folder):
        self.program = program
        self.folder = folder

    def write(self, name, data):
        with open(f"{self.folder}/{name}", "wb") as file:
            file.write(data)
        return f"{self.folder}/{name}"

    def loops_input(self, times):
        return self.write("input", struct.pack("<3I", times, 0, 0) * HARTS)

    def words(self, elf, *options):
        log, book = (f"{self.folder}/{name}" for name in ("LOG", "BOOK"))
        return [self.program, "record", "--format=2", *options, elf, log, book]

    def record(self, elf, *options, status=0, **environment):
        """Returns the list of turns of a recording, which has to end with this status."""
        words = self.words(elf, *options)
        env = {**os.environ, **environment}
        done = subprocess.run(words, env=env, stderr=subprocess.PIPE, check=False)
        if done.returncode != status:
            said = done.stderr.decode()
            sys.exit(f"tests/program/threads.py: status {done.returncode} of {words}: {said}")
        with open(f"{self.folder}/BOOK", "rb") as file:
            return file.read()

    def loops(self, **environment):
        given = self.loops_input(TIMES)
        return self.record(LOOPS, f"--harts={HARTS}", f"--input={given}", **environment)


def busy_threads(process):
    """Returns how many threads of a process got processor time, in ticks of the system."""
    busy = 0
    for thread in os.listdir(f"/proc/{process}/task"):
        try:
            with open(f"/proc/{process}/task/{thread}/stat", encoding="ascii") as file:
                fields = file.read().rpartition(")")[2].split()
        except OSError:  # it has ended meanwhile
            continue
        busy += int(fields[11]) + int(fields[12]) > 0
    return busy


def seed_zero_is_found(runs):
    """The search itself: a list that is cut is followed, and then seed 0 chooses."""
    book = runs.loops()
    cut = runs.write("cut", book[:8000])
    place = seed_zero_from(runs.loops(ZELKUMA_SCHEDULE=f"book:{cut}"))
    return place is not None and place <= 8000


def workers_take_all_turns(runs):
    """No worker stops early: from no place on the turns are seed 0's."""
    return seed_zero_from(runs.loops()) is None


def no_worker_keeps_to_every_other_turn(runs):
    """Some hart takes two turns in succession while all are live."""
    book = runs.loops()
    end = min(book.rindex(hart) for hart in range(HARTS))
    return any(one == other for one, other in zip(book[:end], book[1:end]))


def no_worker_waits_for_anothers_end(runs):
    """Two harts that need each other both end. If one waits for the other's end, it has a limit."""
    elf = runs.write("hand.elf", executable(HAND_TO_AND_FRO))
    book = runs.record(elf, "--harts=2", f"--limit={HAND_LIMIT}")
    return set(book) == {0, 1}


def each_hart_has_a_thread(runs, *options):
    """As many threads as harts get processor time. If one takes all turns, the run ends itself."""
    given = [f"--harts={HARTS}", f"--limit={ENDLESS_LIMIT}", f"--input={runs.loops_input(ENDLESS)}"]
    words = runs.words(LOOPS, *given, *options)
    with subprocess.Popen(words, stderr=subprocess.DEVNULL) as process:
        while process.poll() is None:
            if busy_threads(process.pid) >= HARTS:
                process.kill()
                return True
            time.sleep(0.01)  # it needs the processor more than this
    return False


def each_hart_of_a_lean_run_has_a_thread(runs):
    return each_hart_has_a_thread(runs, "--lean")


TESTS: List[Callable[[Recordings], bool]] = [
    seed_zero_is_found,
    workers_take_all_turns,
    no_worker_keeps_to_every_other_turn,
    no_worker_waits_for_anothers_end,
    each_hart_has_a_thread,
    each_hart_of_a_lean_run_has_a_thread,
]
with tempfile.TemporaryDirectory() as work:
    recordings = Recordings(os.path.realpath(sys.argv[1]), work)
    failed = [test.__name__ for test in TESTS if not test(recordings)]
for name in failed:
    print(f"tests/program/threads.py: failed: {name}", file=sys.stderr)
if failed:
    sys.exit(1)
print(f"{len(TESTS)} tests of harts in threads")

#!/usr/bin/env python3
"""Tells what the companions take of large logs: processor seconds, with those of the program that
they ask, and the most memory of a process.

bench/companions.py [FOLDER]: the logs are recorded in FOLDER, or in one that goes; those that are
there are taken. If the folder that $ZELKUMA_GUESTS names has lua.elf and lua.input
(bench/guests.sh), it is recorded to 80 million instructions; else a program of its own takes its
place. Each line says if the figure is within its goal.
"""
import os
import subprocess
import sys
import tempfile

TOP = os.path.dirname(os.path.dirname(os.path.realpath(__file__)))
sys.path[:0] = [f"{TOP}/tests/hostile", f"{TOP}/tests/companions/lib"]
import forge  # noqa: E402
from recordings import (  # noqa: E402
    A0, A1, A2, A7, ECALL, PROGRAM, T0, T1, T2, addi, branch_unless_equal, load, lui, store)

HALTED = (0, 10, 11)
S0 = 8
S1 = 9
ROUNDS = 28
FOREVER = 0x6F
MEGABYTES = 200
STAND_IN = 26_600_000                   # rounds of three instructions


def unless_zero(one, words):
    return branch_unless_equal(one, 0, 4 * words)


def rounds(count, register, words):
    again = [*words, addi(register, register, -1), unless_zero(register, -len(words) - 1)]
    return [lui(register, count + 0x800), addi(register, register, count & 0xFFF), *again]


def far_store(count):
    """A bad pointer is stored, so many rounds pass, and it is used."""
    return [lui(S0, 0x20000), addi(T0, 0, -1), store(T0, S0),
            *rounds(count, ROUNDS, [addi(T1, T1, 3)]), load(T2, S0), load(T2, T2)]


def writes(count):
    """So many writes of a counter, each after 10,000 rounds of a loop that loads and stores."""
    work = rounds(2000, S1, [load(T0, S0, 64), addi(T0, T0, 1), store(T0, S0, 64)])
    asks = [store(T0, S0), addi(A7, 0, 64), addi(A0, 0, 1), addi(A1, S0, 0), addi(A2, 0, 4), ECALL]
    return [lui(S0, 0x20000), *rounds(count, ROUNDS, work + asks), addi(A7, 0, 93), ECALL]


def circle():
    """Two places that name each other are followed for ever, and the steps counted."""
    return [lui(S0, 0x20000), addi(T0, S0, 8), store(T0, S0), store(S0, T0), lui(S1, 0x20000),
            load(S0, S0), load(T1, S1, 16), addi(T1, T1, 1), store(T1, S1, 16), unless_zero(S0, -4)]


class Logs:
    def __init__(self, folder):
        self.folder = folder

    def made(self, name, words, *options, elf=None):
        """The log and the program file of a recording."""
        log = f"{self.folder}/{name}.log"
        file = elf or f"{self.folder}/{name}.elf"
        if not elf:
            with open(file, "wb") as opened:
                opened.write(forge.program(*words))
        if not os.path.exists(log):
            ran = subprocess.run([PROGRAM, "record", "--lean", "--seed", "1",
                                  *map(str, options), file, log, log],
                                 stdout=subprocess.DEVNULL, stderr=subprocess.PIPE, check=False)
            if ran.returncode not in HALTED:
                sys.exit(f"{name}: {ran.stderr.decode()}")
        return log, file

    def lua(self):
        guests = os.environ.get("ZELKUMA_GUESTS", "")
        if os.path.exists(f"{guests}/lua.elf"):
            return self.made("lua", (), "--format", 2, "--log-size", "268435456", "--memory",
                             "4194304", "--limit", 80_000_000, "--input", f"{guests}/lua.input",
                             elf=f"{guests}/lua.elf"), "80 M rows of Lua"
        return (self.made("far", far_store(STAND_IN), "--format", 2),
                "80 M rows, a store 80 M before")


def measured(words):
    """Processor seconds of a call and what it starts, and the most megabytes of one of them."""
    process = subprocess.Popen(words, stdin=subprocess.DEVNULL, stdout=subprocess.DEVNULL)
    _, status, used = os.wait4(process.pid, 0)
    if status:
        sys.exit(f"{words}: {os.WEXITSTATUS(status)}")
    return used.ru_utime + used.ru_stime, used.ru_maxrss / 1024


def told(what, words, goal):
    seconds, memory = measured([sys.executable, "-B", f"{TOP}/companion", *words])
    within = "within" if seconds <= goal and memory <= MEGABYTES else "over"
    print(f"{what:<44} {words[0]:<7} {seconds:6.1f} s  {memory:4.0f} MB  {within} {goal} s and "
          f"{MEGABYTES} MB", flush=True)


def main(folder):
    logs = Logs(folder)
    hang = logs.made("hang", circle(), "--format", 2, "--limit", 1_000_000)
    lua, lua_words = logs.lua()
    output = logs.made("writes", writes(3000), "--format", 2)
    long_one = logs.made("long", far_store(3_900_000), "--format", 2, "--interval", 10_000_000)
    default = logs.made("default", (FOREVER,))
    told("1 M rows of a hang", ("why", *hang), 6)
    told(lua_words, ("why", *lua), 12)
    told("`j .` with default settings", ("why", *default), 6)
    told("30 M rows, 3,000 writes", ("output", *output), 12)
    told("the same", ("why", *output, "--output", "2000:0"), 12)
    for what, log in (("1 M rows of a hang", hang), (lua_words, lua),
                      ("`j .` with default settings", default), ("30 M rows, 3,000 writes", output),
                      ("an interval of 10 M rows", long_one)):
        told(what, ("bucket", *log), 3)
        told("the same", ("race", *log), 3)


if __name__ == "__main__":
    if sys.argv[1:]:
        main(sys.argv[1])
    else:
        with tempfile.TemporaryDirectory() as made:
            main(made)

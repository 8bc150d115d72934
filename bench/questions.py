#!/usr/bin/env python3
"""Measures the questions in processor seconds, those of the program and of gdb among them, and in
memory.

    bench/questions.py [ROUNDS..]

Each number of rounds is a recording of bench/questions.c; 9000 are a million rows, and 727000 are
80 million. For `compare` there are two with three harts, which have about as many rows together. It
needs riscv64-unknown-elf-gcc."""
import os
import subprocess
import sys
import tempfile

from companions import TOP, measured

FLAGS = ("-march=rv32ima -mabi=ilp32 -mstrict-align -O2 -g -ffreestanding -nostdlib -static "
         "-fno-tree-loop-distribute-patterns -I examples/lib -T examples/lib/program.ld "
         "-Wl,--build-id=none examples/lib/start.S examples/lib/machine.c "
         "bench/questions.c").split()
QUESTIONS = (("history", "total"), ("history", "device"), ("calls", "find"), ("find", "00000123"))
FEWER = 6                   # so many times fewer rounds has each hart of two recordings of three


def told(what, *words):
    print("{}: {:.2f} s, {:.0f} MB".format(what, *measured(["./zelkuma", *words])), flush=True)


def recorded(folder, rounds, *options):
    """The log and the ELF of a recording of so many rounds."""
    elf = f"{folder}/program{rounds}.elf"
    log = f"{folder}/log{rounds}{''.join(options)}"
    subprocess.run(["riscv64-unknown-elf-gcc", f"-DROUNDS={rounds}", "-o", elf, *FLAGS], check=True)
    subprocess.run(["./zelkuma", "record", "--format", "2", "--log-size", "256M", *options, elf,
                    log, f"{folder}/book"], check=False)
    return log, elf


def main(rounds):
    os.chdir(TOP)
    with tempfile.TemporaryDirectory() as folder:
        for number in rounds:
            log, elf = recorded(folder, number, "--seed", "1")
            for word, name in QUESTIONS:
                told(f"{number} rounds, {word} {name}", word, log, elf, name)
            told(f"{number} rounds, gdb --run up to its prompt", "gdb", "--run", log, elf)
            (good, elf), (bad, _) = (recorded(folder, int(number) // FEWER, "--harts", "3",
                                              "--seed", seed) for seed in "12")
            told(f"{number} rounds, compare of two recordings with three harts", "compare",
                 good, bad, elf)


if __name__ == "__main__":
    main(sys.argv[1:] or ["9000", "727000"])

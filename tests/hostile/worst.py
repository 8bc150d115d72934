#!/usr/bin/env python3
"""Gives the program the worst files within its limits that are known, and tells what each command
takes of them.

tests/hostile/worst.py [MIB [NAME..]]: logs of so many MiB (64), of all kinds or of those named; a
call is stopped after SECONDS of processor time. Those of many records are given in version 1 and in
version 2. For each call it prints the status, the processor time and the most memory, both also for
each byte of all files that the call was given. It says too whether the memory is within the goal of
20 bytes a byte and 64 MiB. Times are measured and not bounded: no clause of the program's contract
speaks of time.
"""

import os
import struct
import subprocess
import sys
import tempfile

import forge
from tried import PROGRAM, write

SECONDS = 300
GREAT = {"log_size": 2**28, "limit": 2**40}
# addi a0,zero,5; addi a7,zero,93; ecall: an exit
EXIT_CODE = (0x00500513, 0x05D00893, 0x00000073)
# jal zero,0
LOOP = (0x0000006F,)
# lui s0,0x20; lw t0,0(s0); jal zero,-4
LOADS = (0x00020437, 0x00042283, 0xFFDFF06F)
# lui s0,0x20; sw zero,0(s0); addi s0,s0,256; jal zero,-8: a word in each 256 bytes, up to the
# memory's end
STORES = (0x00020437, 0x00042023, 0x10040413, 0xFF9FF06F)
FIRST_STORE = 0x20000
STRIDE = 256
MEMORY = 2**26
STORES_END = 1 + 3 * ((MEMORY - FIRST_STORE) // STRIDE)
# The commands that read a log, and their words after it; `slice` is of the last row of hart 0's
# first interval.
READERS = {
    "check": (),
    "list": (),
    "replay": ("ELF", "0", "0"),
    "joint": ("ELF",),
    "races": ("ELF", "1000000"),
    "slice": ("ELF", "0", "0", "LAST"),
    "convert": ("NEW",),
    "salvage": ("NEW",),
}
# addi s1,s1,1; jal zero,-4
CHAIN = (0x00148493, 0xFFDFF06F)


# ---- the files: each gives a log, a program file, and the last count of hart 0's first interval


def sc_records(size):
    """ScOk records, of two bytes each."""
    elf = forge.program(*EXIT_CODE)
    count = (size - 400) // 2
    return forge.log(elf, forge.begun(0) + forge.sc_ok(0) * count + forge.end(0, 3, forge.EXIT, 5),
                     **GREAT), elf, 2


def first_loads(size):
    """FirstLoads that no load meets, in an interval of 10,000,000 loads and jumps."""
    elf = forge.program(*LOADS)
    steps = 10_000_000
    count = (size - 400) // 10
    records = forge.first_load(0, 0, 0) + forge.first_load(0, 2**32 - 1, 0) * count
    ends = (forge.end(0, steps, forge.LENGTH) + forge.header(0, 1, steps, 0x10054)
            + forge.end(0, steps, forge.STOPPED))
    return forge.log(elf, forge.begun(0) + records + ends, interval=steps, **GREAT), elf, steps - 1


def intervals(size):
    """Intervals of one instruction, a Header and an End each."""
    elf = forge.program(*LOOP)
    count = (size - 400) // 161
    pairs = [forge.header(0, k, k, 0x10054) + forge.end(0, k + 1, forge.LENGTH)
             for k in range(count)]
    last = forge.header(0, count, count, 0x10054) + forge.end(0, count, forge.STOPPED)
    return forge.log(elf, b"".join(pairs) + last, interval=1, **GREAT), elf, 0


def edge_chain(size):
    """Edges between two harts, of which each waits for the other at each step."""
    elf = forge.program(*EXIT_CODE)
    count = (size - 400) // 38
    pairs = [forge.edge(1, k, 0, k) + forge.edge(0, k + 1, 1, k) for k in range(count)]
    ends = forge.end(0, count + 1, forge.EXIT) + forge.end(1, count, forge.EXIT)
    return forge.log(elf, b"".join(pairs) + ends, dropped=1, harts=2, **GREAT), elf, 0


def edges_into_one(size):
    """Edges into one instruction, from each of another hart's."""
    elf = forge.program(*EXIT_CODE)
    count = (size - 400) // 19
    edges = [forge.edge(0, 0, 1, k) for k in range(count)]
    return forge.log(elf, b"".join(edges) + forge.end(0, 1, forge.EXIT), dropped=1,
                     harts=2, **GREAT), elf, 0


def stored_pages(_):
    """A small log of an interval that stores a word in each 256 bytes of 64 MiB."""
    elf = forge.program(*STORES)
    records = forge.begun(0, memory=MEMORY) + forge.end(0, STORES_END, 23, MEMORY)
    return forge.log(elf, records, interval=10_000_000, memory=MEMORY), elf, STORES_END - 1


def stored_pages_of_8(_):
    """The same of eight harts, of which all but the last wait near their ends for that one."""
    elf = forge.program(*STORES)
    harts = 8
    heads = [forge.begun(hart, harts, memory=MEMORY) for hart in range(harts)]
    edges = [forge.edge(hart, STORES_END - 1, harts - 1, STORES_END - 2)
             for hart in range(harts - 1)]
    ends = [forge.end(hart, STORES_END, 23, MEMORY) for hart in range(harts)]
    records = b"".join(heads + edges + ends)
    return (forge.log(elf, records, harts=harts, interval=10_000_000, memory=MEMORY),
            elf, STORES_END - 1)


def shared_range(_):
    """A program file of 1 MiB whose 64 program headers share one range, and so are 64 MiB of
    memory."""
    at = 52 + 64 * 32
    size = 2**20
    sizes = [size] * 63 + [size - 4096]
    headers = [forge.segment(at, 4096 + size * k, length, length, 7)
               for k, length in enumerate(sizes)]
    code = struct.pack("<3I", *EXIT_CODE)
    elf = forge.elf(4096, headers, code + bytes(size - len(code)))
    records = forge.begun(0, pc=4096, memory=MEMORY) + forge.end(0, 3, forge.EXIT, 5)
    return forge.log(elf, records, memory=MEMORY), elf, 2


def chained(_):
    """A small log of an interval of 10,000,000 instructions of which each second one stands on the
    one before."""
    elf = forge.program(*CHAIN)
    steps = 10_000_000
    ends = (forge.end(0, steps, forge.LENGTH) + forge.header(0, 1, steps, 0x10054)
            + forge.end(0, steps, forge.STOPPED))
    return forge.log(elf, forge.begun(0) + ends, interval=steps, **GREAT), elf, steps - 2


def tiny_blocks(size):
    """A log of version 2 with an ScOk record in each block: all are walked over, and then cut
    otherwise."""
    elf = forge.program(*EXIT_CODE)
    count = size // 50
    settings = (*{**forge.SETTINGS, **GREAT}.values(), 1, 0, 0)
    data = forge.sealed(forge.head2(settings, forge.digest(elf), 1, 2 * count))
    blocks = [forge.block(data[104:136], forge.sc_ok(0), 1 + k, 2 * (count - 1 - k))
              for k in range(count)]
    return data + b"".join(blocks), elf, 0


# ---- what they take


class Call:
    """A call of the program, and what it took."""

    def __init__(self, folder, *words):
        self.words = words
        command = ["sh", "-c", f'ulimit -t {SECONDS}; exec "$@"', "sh"]
        command += ["/usr/bin/time", "-f", "%U %S %M", "-o", f"{folder}/took", PROGRAM, *words]
        with open(os.devnull, "wb") as out:
            self.status = subprocess.run(command, stdin=subprocess.DEVNULL, stdout=out,
                                         stderr=out, cwd=folder, check=False).returncode
        with open(f"{folder}/took", encoding="ascii") as file:
            user, system, size = file.read().split("\n")[-2].split()
        self.seconds = float(user) + float(system)
        self.size = int(size) << 10
        self.given = sum(os.path.getsize(f"{folder}/{word}")
                         for word in words if word != "NEW" and os.path.isfile(f"{folder}/{word}"))

    def row(self, name):
        within = "yes" if self.size <= 20 * self.given + (64 << 20) else "no"
        status = self.status if self.status < 128 else "stopped"
        print(f"| {name} | {self.given:,} | `{self.words[0]}` | {status} | {self.seconds:.2f} | "
              f"{self.size / 2**20:,.1f} | {1e9 * self.seconds / self.given:,.1f} | "
              f"{self.size / self.given:,.1f} | {within} |", flush=True)


def made(folder, make, size):
    """Writes the files in a process of its own, so that none of its memory is counted."""
    child = os.fork()
    if child == 0:
        *files, last = make(size)
        for name, data in zip(("LOG", "ELF", "LAST"), (*files, str(last).encode())):
            write(f"{folder}/{name}", data)
        os._exit(0)
    os.waitpid(child, 0)


def read(folder, name, log="LOG", commands=READERS):
    with open(f"{folder}/LAST", encoding="ascii") as file:
        last = file.read()
    for command in commands:
        words = (last if word == "LAST" else word for word in READERS[command])
        if os.path.exists(f"{folder}/NEW"):
            os.remove(f"{folder}/NEW")
        Call(folder, command, log, *words).row(name)
        if command == "convert" and os.path.exists(f"{folder}/NEW"):
            os.rename(f"{folder}/NEW", f"{folder}/SEALED")


def read_both(folder, make, size):
    """Gives a log in both versions, if it can be converted."""
    if os.path.exists(f"{folder}/SEALED"):
        os.remove(f"{folder}/SEALED")
    made(folder, make, size)
    read(folder, make.__name__)
    if make in GREAT_LOGS and os.path.exists(f"{folder}/SEALED"):
        os.rename(f"{folder}/SEALED", f"{folder}/LOG2")
        read(folder, f"{make.__name__}, version 2", "LOG2", ("check", "list", "convert", "salvage"))


def audit(folder, size):
    """A BOOK of a byte for each interval of one instruction."""
    write(f"{folder}/ELF", forge.program(*LOOP))
    settings = ("--interval", "1", "--limit", str(size), "--log-size", "16384")
    Call(folder, "record", "--seed", "1", *settings, "ELF", "LOG", "BOOK").row("audit")
    Call(folder, "audit", "LOG", "ELF", "BOOK").row("audit")


def too_long(folder):
    """Files that are a byte longer than their limit, one of 2^40 bytes, and one that has no end."""
    for name, length in (("LOG", 2**28 + 65_537), ("LOG", 2**40), ("ELF", 2**26 + 1)):
        with open(f"{folder}/{name}", "wb") as file:
            file.truncate(length)
        words = ("check", "LOG") if name == "LOG" else ("record", "--seed", "1", "ELF",
                                                        "LOG2", "BOOK")
        Call(folder, *words).row(f"{name} of {length:,} bytes")
    os.remove(f"{folder}/LOG")
    os.symlink("/dev/zero", f"{folder}/LOG")
    call = Call(folder, "check", "LOG")
    (print(f"| /dev/zero | | `check` | {call.status} | {call.seconds:.2f} | "
           f"{call.size / 2**20:,.1f} | | | |"))


GREAT_LOGS = (sc_records, first_loads, intervals, edge_chain)
MAKERS = (*GREAT_LOGS, tiny_blocks, stored_pages, stored_pages_of_8, shared_range, chained)


def main(words):
    size = (int(words[0]) if words else 64) << 20
    names = words[1:]
    print("| file | bytes given | command | status | seconds | MiB | nanoseconds a byte | bytes a "
          "byte | within the goal |")
    print("|---|---|---|---|---|---|---|---|---|")
    with tempfile.TemporaryDirectory() as folder:
        for make in MAKERS:
            if not names or make.__name__ in names:
                read_both(folder, make, size)
        for part in (4, 8, 16) if not names or "edges_into_one" in names else ():
            made(folder, edges_into_one, (1 << 20) * part // 8)
            read(folder, f"edges_into_one, {part / 8:g} MiB")
        if not names or "audit" in names:
            audit(folder, size)
        if not names or "too_long" in names:
            too_long(folder)


if __name__ == "__main__":
    main(sys.argv[1:])

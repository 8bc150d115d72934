"""Compiles a program, and records it."""
from __future__ import annotations

import os
import random
import shutil
import subprocess
from dataclasses import dataclass, field
from typing import List

from . import sources
from .program import ADDR2LINE, GDB, NM

HERE = os.path.dirname(os.path.abspath(__file__))
TOP = os.path.dirname(os.path.dirname(HERE))
STARTER = os.path.join(TOP, "examples", "picolibc")
LIBRARY = ["--specs=picolibc.specs", "-mabi=ilp32", "-mstrict-align"]
CSMITH = ["--no-argc", "--max-funcs", "5", "--no-packed-struct", "--no-float"]
GCC = "riscv64-unknown-elf-gcc"
STRIP = "riscv64-unknown-elf-strip"
FLAGS = ["-march=rv32ima", "-mabi=ilp32", "-ffreestanding", "-fno-pic", "-mstrict-align", "-w",
         "-nostartfiles", "-nodefaultlibs", "-static", "-T",
         os.path.join(HERE, "lib", "program.ld"), "-z", "max-page-size=4096", "-Wl,--build-id=none"]
OPTIMISED = ("-O0", "-O1", "-O2", "-O3", "-Os", "-Og")
HEAP = os.path.join(HERE, "lib", "allocator.c")      # an allocator
INPUT = b"abx abacus: a text that is read\n" * 40


@dataclass
class Recorded:
    """A recording: its log and its program; `named` has the names if `elf` has none; `said` is how
    it was made; `read` is its input."""
    log: str
    book: str
    elf: str
    named: str
    harts: int
    settings: List[str]
    read: bytes
    is_whole: bool = True
    said: List[str] = field(default_factory=list)

    @property
    def options(self) -> List[str]:
        """Those of its recording, but for the seed."""
        at = self.settings.index("--seed")
        return self.settings[:at] + self.settings[at + 2:]


def has_tools() -> bool:
    return all(map(shutil.which, (GCC, STRIP, NM, ADDR2LINE, GDB)))


def has_library() -> bool:
    """Whether there is a C library to link with."""
    return not subprocess.run([GCC, *LIBRARY, "-E", "-xc", os.devnull], stdout=subprocess.DEVNULL,
                              stderr=subprocess.DEVNULL, check=False).returncode


def write(folder: str, name: str, code: str) -> str:
    source = os.path.join(folder, name)
    with open(source, "w", encoding="utf-8") as file:
        file.write(code)
    return source


def compiled(folder: str, name: str, code: str, *options: str) -> str:
    """The ELF file of a C program."""
    source = write(folder, name + ".c", code)
    elf = os.path.join(folder, name + ".elf")
    subprocess.run([GCC, *FLAGS, *options, "-o", elf, os.path.join(HERE, "lib", "start.S"),
                    source, "-lgcc"], check=True)
    return elf


def compiled_with_library(folder: str, name: str, code: str, *options: str) -> str:
    """The same with picolibc, whose parts are linked as examples/picolibc says."""
    source = write(folder, name + ".c", code)
    elf = os.path.join(folder, name + ".elf")
    objects = []
    for part in (os.path.join(STARTER, "start.S"), os.path.join(STARTER, "machine.c"), source):
        objects.append(os.path.join(folder, os.path.basename(part) + ".o"))
        subprocess.run([GCC, *LIBRARY, "-march=rv32ima", "-w", *options, "-c", "-o",
                        objects[-1], part], check=True)
    subprocess.run([GCC, *LIBRARY, "-march=rv32im", "-static", "-nostartfiles", "-T",
                    os.path.join(STARTER, "program.ld"), "-Wl,--build-id=none", "-z",
                    "max-page-size=4096", "-o", elf, *objects], check=True)
    return elf


def stripped(folder: str, elf: str) -> str:
    bare = os.path.join(folder, os.path.basename(elf)[:-4] + ".bare.elf")
    subprocess.run([STRIP, "-o", bare, elf], check=True)
    return bare


def recorded(program: str, folder: str, elf: str, named: str, harts: int, *options: str,
             read: bytes = INPUT, number: int = 0) -> Recorded:
    """Records a program. Several recordings of one have numbers."""
    base = os.path.join(folder, f"{os.path.basename(elf)[:-4]}.{number}")
    log = base + ".log"
    book = base + ".book"
    given = base + ".input"
    with open(given, "wb") as file:
        file.write(read)
    settings = ["--format", "2", "--harts", str(harts), "--input", given, *options]
    words = [program, "record", *settings, elf, log, book]
    done = subprocess.run(words, stdout=subprocess.DEVNULL, stderr=subprocess.PIPE, check=False)
    if done.returncode not in (0, 10, 11):
        raise RuntimeError(f"{' '.join(words)}: {done.stderr.decode()}")
    is_whole = b" dropped 0 " in done.stderr
    return Recorded(log, book, elf, named, harts, settings, read, is_whole, [" ".join(words)])


def crashes() -> List[List[str]]:
    """The programs of tests/crashes: their name, harts, seed and limit."""
    with open(os.path.join(TOP, "tests", "crashes", "cases.txt"), encoding="utf-8") as file:
        rows = [line.split() for line in file if line.strip() and line[0] != "#"]
    return [[row[0], row[4], row[5], row[6]] for row in rows]


def drawn_crash(program: str, folder: str, draw: random.Random) -> Recorded:
    """One of tests/crashes, cut at a limit: so it can end as it does, or before."""
    name, harts, seed, limit = draw.choice(crashes())
    elf = os.path.join(TOP, "tests", "crashes", name + ".elf")
    small: List[str] = draw.choice([[], ["--interval", "700"], ["--log-size", "16384"]])
    return recorded(program, folder, elf, elf, int(harts), "--seed", seed, "--limit",
                    str(min(int(limit), 40000)), *small)


def drawn_by_csmith(program: str, folder: str, draw: random.Random) -> Recorded:
    """A program of csmith's, which prints a sum of all its variables."""
    code = subprocess.run(["csmith", "--seed", str(draw.randrange(1 << 30)), *CSMITH],
                          stdout=subprocess.PIPE, text=True, check=True).stdout
    elf = compiled_with_library(folder, "csmith", code, "-I/usr/include/csmith",
                                "-g", draw.choice(OPTIMISED))
    return recorded(program, folder, elf, elf, 1, "--seed", "1", "--limit",
                    str(draw.choice([10000, 40000])))


def drawn_heap(program: str, folder: str, draw: random.Random) -> Recorded:
    """A program that takes and gives back memory, with an allocator of its own."""
    options = [HEAP, "-g", "-fno-builtin", draw.choice(OPTIMISED)]
    elf = compiled(folder, "heap", sources.drawn_heap_program(draw), *options)
    small: List[str] = draw.choice([[], [], ["--interval", "700"]])
    return recorded(program, folder, elf, elf, 1, "--seed", "1", "--limit", "40000", *small)


def drawn_own(program: str, folder: str, draw: random.Random) -> Recorded:
    """A program of pieces, compiled and recorded by drawn options."""
    harts = draw.choice([1, 1, 1, 2, 3, 8])
    options = ([draw.choice(OPTIMISED)] + draw.choice([["-g"], ["-g"], ["-g"], []])
               + draw.choice([[], [], ["-msave-restore"]]))
    elf = compiled(folder, "own", sources.drawn_program(draw, harts), *options)
    given = ["--seed", str(draw.randrange(1, 1000)), "--limit",
             str(draw.choice([3000, 8000, 8000, 20000, 20000, 40000]))]
    given += draw.choice([[], [], ["--log-size", "16384"], ["--interval", "700"],
                          ["--interval", "500", "--log-size", "16384"]])
    return recorded(program, folder, stripped(folder, elf) if draw.random() < 0.2 else elf,
                    elf, harts, *given)


def guest(program: str, folder: str, elf: str, draw: random.Random) -> Recorded:
    """A program of bench/guests.sh, up to a limit that is drawn."""
    with open(elf[:-4] + ".input", "rb") as file:
        read = file.read()
    small: List[str] = draw.choice([[], ["--log-size", "16384"], ["--interval", "700"]])
    return recorded(program, folder, elf, elf[:-4] + ".names", 1, "--seed", "1", "--memory",
                    "4194304", "--limit", str(draw.randrange(5000, 60000)), *small, read=read)


def drawn(program: str, folder: str, seed: int) -> Recorded:
    """The recording of a number."""
    draw = random.Random(seed)
    kind = draw.random()
    if kind < 0.15:
        return drawn_crash(program, folder, draw)
    if (kind < 0.3 and os.path.exists("/usr/include/csmith/csmith.h")
            and shutil.which("csmith") and has_library()):
        return drawn_by_csmith(program, folder, draw)
    if kind < 0.45:
        return drawn_heap(program, folder, draw)
    return drawn_own(program, folder, draw)


def again(program: str, recorded_first: Recorded, draw: random.Random) -> Recorded:
    """The same program with another input, and if it has several harts with another seed."""
    first = recorded_first
    read = bytes(draw.choice(b"abxz ") if draw.random() < 0.2 else byte for byte in INPUT)
    seed = str(draw.randrange(1000, 2000)) if first.harts > 1 else "1"
    at = first.options.index("--input")
    options = [word
               for place, word in enumerate(first.options) if place not in (0, 1, 2, 3, at, at + 1)]
    return recorded(program, os.path.dirname(first.log), first.elf, first.named, first.harts,
                    "--seed", seed, *options, read=read, number=1)

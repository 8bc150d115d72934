#!/usr/bin/env python3
"""The compiler of GDB's tests: riscv64-unknown-elf-gcc for static RV32IMA programs with picolibc,
as in examples/picolibc.

Sources are compiled for rv32ima and linked with the library for rv32im: Debian's picolibc for
rv32ima has no multiplication."""
import os
import subprocess
import sys
import tempfile
from typing import List

HERE = os.path.dirname(os.path.abspath(__file__))
START = os.path.join(os.path.dirname(os.path.dirname(HERE)), "examples", "picolibc")
GCC = ["riscv64-unknown-elf-gcc", "--specs=picolibc.specs", "-mabi=ilp32", "-mstrict-align"]
COMPILE = ["-march=rv32ima"]
LINK = ["-march=rv32im", "-static", "-nostartfiles", "-T", os.path.join(START, "program.ld"),
        "-z", "max-page-size=4096", "-Wl,--build-id=none", "-Wl,--no-gc-sections",
        "-Wl,--no-warn-rwx-segments"]
# Compiled without -g, as a system's C library is: gdb doesn't step into it.
LIBRARY = [os.path.join(START, "start.S"), os.path.join(START, "machine.c"),
           os.path.join(HERE, "library.c")]
NO_LINK = ("-c", "-S", "-E", "-M", "-MM", "--version", "-v", "-dumpmachine")
WITH_WORD = ("-o", "-I", "-L", "-D", "-U", "-include", "-x", "-T", "-u", "-z", "-Xlinker",
             "-isystem")


def sorted_words(words):
    """Of a call that links: (sources, words to compile them, words to link, output)."""
    sources = []
    to_compile = []
    to_link = []
    output = "a.out"
    left = iter(words)
    for word in left:
        if word == "-o":
            output = next(left)
        elif word in WITH_WORD:
            to_compile += [word, next(left)]
        elif word.endswith((".c", ".S", ".s", ".i")) and not word.startswith("-"):
            sources.append(word)
        elif word.startswith(("-l", "-L", "-Wl")) or word.endswith((".o", ".a")):
            to_link.append(word)
        else:
            to_compile.append(word)
    return sources, to_compile, to_link, output


def main(words):
    if any(word in NO_LINK or word.startswith("-print") for word in words):
        return subprocess.call([*GCC, *COMPILE, *words])
    sources, to_compile, to_link, output = sorted_words(words)
    with tempfile.TemporaryDirectory() as folder:
        objects: List[str] = []
        compiled = [(source, to_compile) for source in sources]
        compiled += [(source, ["-O2"]) for source in LIBRARY]
        for source, flags in compiled:
            objects.append(os.path.join(folder, f"{len(objects)}.o"))
            status = subprocess.call([*GCC, *COMPILE, *flags, "-c", "-o", objects[-1], source])
            if status:
                return status
        return subprocess.call([*GCC, *to_compile, *LINK, *objects, *to_link, "-o", output])


sys.exit(main(sys.argv[1:]))

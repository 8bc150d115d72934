#!/usr/bin/env python3
"""Shrinks the inputs of eight readers: bench/shortest_inputs.py [NAME..]. Of each it tells bytes
before and after, recordings, and processor seconds of all processes. It needs
riscv64-unknown-elf-gcc. The readers are those of tests/companions/lib/inputs.py."""
import os
import subprocess
import sys
import tempfile

TOP = os.path.dirname(os.path.dirname(os.path.abspath(__file__)))
sys.path.insert(0, os.path.join(TOP, "tests", "companions", "lib"))
import inputs

ZELKUMA = os.path.join(TOP, "zelkuma")


def shrunk(name: str, reader: inputs.Reader, folder: str) -> str:
    elf, source, log, book, new = (os.path.join(folder, f"{name}.{kind}")
                                   for kind in ("elf", "in", "log", "book", "new"))
    inputs.build(name, elf)
    with open(source, "wb") as file:
        file.write(reader.data)
    subprocess.run([ZELKUMA, "record", "--format", "2", "--seed", "1", "--input", source,
                    *reader.options, elf, log, book], stdout=subprocess.DEVNULL,
                   stderr=subprocess.DEVNULL, check=False)
    before = os.times()
    done = subprocess.run([ZELKUMA, "shrink", log, elf, new, "--input",
                           source, *(["--says", reader.says] if reader.says else [])],
                          stdout=subprocess.PIPE, check=True)
    after = os.times()
    seconds = sum(after[2:4]) - sum(before[2:4])
    return f"{name}: {done.stdout.decode().partition(chr(10))[0]}; {seconds:.1f} s"


def main() -> None:
    readers = inputs.readers()
    with tempfile.TemporaryDirectory() as folder:
        for name in sys.argv[1:] or readers:
            print(shrunk(name, readers[name], folder), flush=True)


main()

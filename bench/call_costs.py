#!/usr/bin/env python3
"""Measures what the script zelkuma adds to a call of the program.

bench/call_costs.py [CALLS]

Each line is the least wall time of CALLS (200) calls in milliseconds: of a shell that does nothing,
and of the same words by the program and by the script.
"""
import os
import subprocess
import sys
import tempfile
import time

TOP = os.path.dirname(os.path.dirname(os.path.realpath(__file__)))
PROGRAM = os.environ.get("ZELKUMA_PROGRAM", f"{TOP}/release/zelkuma-x86_64-linux")


def least(words, calls):
    best = float("inf")
    for _ in range(calls):
        begin = time.perf_counter()
        subprocess.run(words, stdin=subprocess.DEVNULL, stdout=subprocess.DEVNULL,
                       stderr=subprocess.PIPE, check=False)
        best = min(best, time.perf_counter() - begin)
    return best * 1000


def main(calls):
    with tempfile.TemporaryDirectory() as folder:
        log = f"{folder}/LOG"
        book = f"{folder}/BOOK"
        record = ["record", "--format", "2", "--seed", "1", "--limit", "2000",
                  f"{TOP}/examples/counter.elf", log, book]
        print(f"{least(['bash', '-c', ':'], calls):6.2f}  bash -c :")
        for words in (record, ["list", log], ["list"]):
            for name, start in (("program", PROGRAM), ("script", f"{TOP}/zelkuma")):
                print(f"{least([start, *words], calls):6.2f}  {name} {words[0]}, "
                      f"{len(words) - 1} words")


if __name__ == "__main__":
    main(int(sys.argv[1]) if sys.argv[1:] else 200)

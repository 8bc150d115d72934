#!/usr/bin/env python3
"""Compares the processor time of two programs whose runs take turns: so both meet the same load.

bench/clock.py BEFORE NOW [RUNS]: each command is run RUNS times (25) by both programs. A line has
how many times BEFORE's least time the least time of NOW is, and both in seconds.
"""
from __future__ import annotations

import dataclasses
import os
import pathlib
import subprocess
import sys
import tempfile

TOP = pathlib.Path(__file__).resolve().parents[1]
SORT = str(TOP / "examples/sort.elf")
HARTS = str(TOP / "bench/harts.elf")
FILES = ["LOG", "BOOK"]
SORTED = ["record", "--seed", "1", SORT, *FILES]
ROWS = ["record", "--seed", "1", "--limit", "1000000", "--interval", "1000000",
        "--log-size", "16777216", SORT, *FILES]
# How often each of several harts loads and stores the same word.
ROUNDS = 50_000


@dataclasses.dataclass(frozen=True)
class Case:
    """A command whose time counts, and the recording that is made before, if it reads one."""
    name: str
    words: list[str]
    recording: list[str] = dataclasses.field(default_factory=list)


def on_the_same_words(harts: int) -> list[str]:
    return ["record", "--seed", "1", "--format", "2", "--harts", str(harts),
            "--input", f"input{harts}", HARTS, *FILES]


CASES = [
    Case("record, sort", SORTED),
    Case("audit of it", ["audit", "LOG", SORT, "BOOK"], SORTED),
    Case("replay of its first million rows", ["replay", "LOG", SORT, "0", "0"], ROWS),
    Case("joint of them", ["joint", "LOG", SORT], ROWS),
    Case("record, eight harts on the same words", on_the_same_words(8)),
    Case("record, four harts on the same words", on_the_same_words(4)),
]


def write_input(folder: pathlib.Path, harts: int) -> None:
    """What bench/harts.elf reads of each hart: its rounds, and twice 0 (see bench/harts.sh)."""
    numbers = [ROUNDS, 0, 0] * harts
    data = b"".join(number.to_bytes(4, "little") for number in numbers)
    (folder / f"input{harts}").write_bytes(data)


def seconds_of(program: str, words: list[str], folder: pathlib.Path) -> float:
    """The processor time of one run, which ends well (0) or at its limit (11)."""
    with open(os.devnull, "wb") as nothing:
        process = subprocess.Popen([program, *words], cwd=folder, stdout=nothing, stderr=nothing)
        _, status, usage = os.wait4(process.pid, 0)
    process.returncode = os.WEXITSTATUS(status) if os.WIFEXITED(status) else -1
    if process.returncode not in (0, 11):
        raise SystemExit(f"bench/clock.py: {' '.join(words)} ended with {process.returncode}")
    seconds: float = usage.ru_utime + usage.ru_stime
    return seconds


def compare(case: Case, programs: list[str], runs: int, folder: pathlib.Path) -> str:
    if case.recording:
        seconds_of(programs[0], case.recording, folder)
    least = [float("inf")] * len(programs)
    for _ in range(runs):
        for place, program in enumerate(programs):
            least[place] = min(least[place], seconds_of(program, case.words, folder))
    before, now = least
    return f"{case.name}: {now / before:.3f} ({now:.4f} s of {before:.4f} s)"


def main(before: str, now: str, runs: int) -> None:
    programs = [os.path.realpath(before), os.path.realpath(now)]
    with tempfile.TemporaryDirectory() as name:
        folder = pathlib.Path(name)
        for harts in (4, 8):
            write_input(folder, harts)
        for case in CASES:
            print(compare(case, programs, runs, folder), flush=True)


if __name__ == "__main__":
    if len(sys.argv) not in (3, 4):
        raise SystemExit("bench/clock.py BEFORE NOW [RUNS]")
    main(sys.argv[1], sys.argv[2], int(sys.argv[3]) if sys.argv[3:] else 25)

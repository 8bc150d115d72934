#!/usr/bin/env python3
"""Records examples with format 2 by drawn settings, and gives the logs to all that read them, whole
and damaged.

tests/hostile/damaged.py [SECONDS [SEED]]: as many recordings as there is time for (60). Each log
has to be taken by `check`, `list` and `joint`, `audit` has to agree, `convert` and `salvage` have
to save the same bytes, and drawn intervals have to be replayed to their last row. Then a bit after
the head is flipped: what `salvage` saves has to be taken by `joint`, and drawn intervals of it by
`replay`; or nothing is left. It ends with 1 if a call was answered otherwise.
"""

import collections
import glob
import random
import subprocess
import sys
import tempfile
import time

import tried
from tried import PROGRAM, TOP

SETTINGS = {
    "harts": (1, 2, 3, 8, 9, 13, 16),
    "limit": (50, 1_000, 3_000),
    "interval": (1, 7, 100, 10_000),
    "log-size": (16_384, 16_384, 20_000, 1_048_576),
    "sets": (1, 4, 64),
    "ways": (1, 4),
    "line": (1, 8),
    "sets2": (0, 0, 1, 4, 64),
}


class Calls:
    def __init__(self, folder):
        self.folder = folder
        self.ended = collections.Counter()
        self.wrong = []

    def read(self, name):
        return tried.read(f"{self.folder}/{name}")

    def write(self, name, data):
        tried.write(f"{self.folder}/{name}", data)

    def run(self, what, wanted, *words):
        """Runs a command, which has to end with one of some statuses, and returns its status and
        its lines."""
        ran = subprocess.run([PROGRAM, *map(str, words)], cwd=self.folder, capture_output=True,
                             check=False)
        self.ended[what, ran.returncode] += 1
        if ran.returncode not in wanted:
            self.wrong.append(f"{what}: {words}: status {ran.returncode}, {ran.stderr[-200:]!r}")
        return ran.returncode, ran.stdout.decode(errors="replace").splitlines()


def replay_some(draw, calls, what, log, elf, listed):
    for line in draw.sample(listed, min(3, len(listed))):
        hart, interval, first, last = line.split()[:4]
        _, lines = calls.run(what, (0,), "replay", log, elf, hart, interval)
        # A fault's row follows those that are counted.
        if len(lines) - 2 - (int(last) - int(first)) not in (0, 1):
            calls.wrong.append(f"{what}: {log} {line}: {len(lines)} lines")


def give(draw, calls, elf, seed):
    """Records an example, and gives its log."""
    chosen = {name: draw.choice(values) for name, values in SETTINGS.items()}
    chosen["ways2"] = draw.choice((1, 2, 16)) if chosen["sets2"] else 0
    options = [word for name, value in chosen.items() for word in (f"--{name}", value)]
    options += ["--format", 2, "--memory", 2_097_152, "--input", "IN"]
    if calls.run("record", (0, 10, 11), "record", "--seed", seed, *options, elf, "LOG",
                 "BOOK")[0] not in (0, 10, 11):
        return
    calls.run("check", (0,), "check", "LOG")
    calls.run("joint", (0,), "joint", "LOG", elf)
    calls.run("audit", (0,), "audit", "LOG", elf, "BOOK", "--input", "IN")
    for command in ("convert", "salvage"):
        calls.run(command, (0,), command, "LOG", "NEW")
        if calls.read("NEW") != calls.read("LOG"):
            calls.wrong.append(f"{command}: other bytes")
    listed = calls.run("list", (0,), "list", "LOG")[1]
    calls.ended["intervals, by the guard"] += sum(" guard " in line for line in listed)
    replay_some(draw, calls, "replay", "LOG", elf, listed)
    data = bytearray(calls.read("LOG"))
    data[draw.randrange(136, len(data))] ^= 1 << draw.randrange(8)
    calls.write("DAMAGED", data)
    if calls.run("salvage, damaged", (0, 19), "salvage", "DAMAGED", "NEW")[0] == 0:
        calls.run("joint, salvaged", (0,), "joint", "NEW", elf)
        replay_some(draw, calls, "replay, salvaged", "NEW", elf,
                    calls.run("list, salvaged", (0,), "list", "NEW")[1])


def main(words):
    seconds, seed = map(int, [*words, *("60", "1")[len(words) :]])
    elves = sorted(glob.glob(f"{TOP}/examples/*.elf"))
    until = time.time() + seconds
    number = 0
    with tempfile.TemporaryDirectory() as folder:
        calls = Calls(folder)
        calls.write("IN", b"some words here\n" * 40)
        while time.time() < until and len(calls.wrong) < 20:
            draw = random.Random(seed << 40 | number)
            give(draw, calls, draw.choice(elves), number)
            number += 1
    for what, count in sorted(calls.ended.items(), key=str):
        print(f"{what}: {count}")
    print(f"{number} recordings, {len(calls.wrong)} calls answered otherwise")
    print("".join(f"{line}\n" for line in calls.wrong), end="")
    sys.exit(1 if calls.wrong else 0)


if __name__ == "__main__":
    main(sys.argv[1:])

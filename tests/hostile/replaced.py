#!/usr/bin/env python3
"""Replaces, cuts or removes LOG or ELF while a word is reading it.

tests/hostile/replaced.py [--from N] [EACH [SEED]]: of each word so many drawn ways (all): which
file, how, and after which part of what the word takes. A call has to end with a status of
docs/COMMANDS.md, with a line on err if that isn't 0, and without a traceback. What it answers can
be of the old file or of the new one. It ends with 1 if a call ended otherwise."""
import collections
import os
import random
import shutil
import subprocess
import sys
import tempfile
import time

import forked
from limits import LAST_STATUS, WORDS_OF_PROGRAM, script
from tried import TOP, numbered, taken_from

HANG = f"{TOP}/tests/crashes/hang.elf"
OTHER = f"{TOP}/tests/crashes/use_after_free.elf"
HOW = {"replaced": 'cp "$2" "$1.new" && mv -f "$1.new" "$1"', "written over": 'cat "$2" >"$1"',
       "cut": 'head -c 100 "$1" >"$1.new"; cat "$1.new" >"$1"', "removed": 'rm -f "$1"'}
PARTS = (0.1, 0.4, 0.8)
LONGEST_S = 60


def calls(log, elf):
    both = log, elf
    yield from ([word, *both]
                for word in ("why", "race", "view", "bucket", "output", "memory", "joint", "gdb"))
    yield ["view", *both, "--with-questions"]
    yield from ([word, *both, asked] for word, asked in (("history", "timers"), ("find", "12345"),
                                                         ("calls", "fire"), ("races", "9")))
    yield ["replay", *both, "0", "0"]
    yield ["compare", log, *both]
    yield ["export", *both, "--lcov", "/dev/null"]
    yield ["triage", log, "--elfs", elf]


class Tries:
    def __init__(self, folder):
        self.folder = folder
        self.log = f"{folder}/LOG"
        self.elf = f"{folder}/program.elf"
        self.wrong = []
        self.counts = collections.Counter()
        self.took = {}
        os.environ["XDG_CACHE_HOME"] = folder
        for log, elf, limit in ((f"{folder}/kept", HANG, "200000"),
                                (f"{folder}/other", OTHER, "9999")):
            subprocess.run([f"{TOP}/zelkuma", "record", "--format", "2", "--seed", "1",
                            "--limit", limit, elf, log, f"{folder}/book"],
                           stderr=subprocess.DEVNULL, check=False)

    def call(self, words):
        shutil.copy(f"{self.folder}/kept", self.log)
        shutil.copy(HANG, self.elf)
        return forked.companion(words, self.folder, prepare=os.setsid, out=os.devnull,
                                run=script if words[0] in WORDS_OF_PROGRAM else forked.call.main)

    def one(self, words, name, how, part):
        key = tuple(words)
        if key not in self.took:
            began = time.monotonic()
            self.call(words)
            self.took[key] = min(LONGEST_S, time.monotonic() - began)
        new = f"{self.folder}/other" if name == self.log else OTHER
        change = subprocess.Popen(["sh", "-c", f'sleep "$3"; {HOW[how]}', "sh", name, new,
                                   f"{part * self.took[key]:.3f}"])
        ended = self.call(words)
        change.wait()
        told = (f"{words[0]}, {os.path.basename(name)} is {how} after {part}: "
                f"status {ended.status}: {ended.err[-300:].decode(errors='replace')}")
        is_fine = (ended.status <= LAST_STATUS and (ended.status == 0 or bool(ended.err))
                   and not ended.has_traceback)
        self.counts[ended.status] += 1
        if not is_fine:
            self.wrong.append(told)
            print(told, flush=True)


def main(words):
    first = taken_from(words)
    every = [(which, how, part) for which in ("log", "elf") for how in HOW for part in PARTS]
    draw = random.Random(int(words[1]) if len(words) > 1 else 1)
    with tempfile.TemporaryDirectory() as folder:
        tries = Tries(folder)
        all_tries = ((each, *way) for each in calls(tries.log, tries.elf) for way in (
            draw.sample(every, min(len(every), int(words[0]))) if words else every))
        for each, which, how, part in numbered(all_tries, first):
            tries.one(each, getattr(tries, which), how, part)
    print(", ".join(f"status {status}: {count}" for status, count in sorted(tries.counts.items()))
          + f"; {len(tries.wrong)} calls ended otherwise")
    sys.exit(1 if tries.wrong else 0)


if __name__ == "__main__":
    main(sys.argv[1:])

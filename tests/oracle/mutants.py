#!/usr/bin/env python3
"""Plants wrong lines in a copy of the companions, one by one: the oracle has to find each.

tests/oracle/mutants.py [NAME..]: those of mutants.txt, or the named ones. The status is 1 if one
isn't found, or can't be planted. An entry of mutants.txt has a heading, `# NAME: why it is to be
feared`, and then `file:`, `old:`, `new:`, and `ask:`, the words by which the oracle is called.
`old` stands in the file once."""
from __future__ import annotations

import functools
import os
import shutil
import subprocess
import sys
import tempfile
from typing import Dict, List

HERE = os.path.dirname(os.path.abspath(__file__))
TOP = os.path.dirname(os.path.dirname(HERE))
PARTS = ("companion", "python", "VERSION")


def read_mutants(name: str = os.path.join(HERE, "mutants.txt")) -> List[Dict[str, str]]:
    found: List[Dict[str, str]] = []
    with open(name, encoding="utf-8") as file:
        for line in file.read().splitlines():
            key, _, value = line.partition(": ")
            if key.startswith("# "):
                found.append({"name": key[2:], "why": value})
            elif value:
                found[-1][key] = value
    return found


def planted(mutant: Dict[str, str], folder: str) -> bool:
    """Puts the wrong line into a copy."""
    name = os.path.join(folder, mutant["file"])
    with open(name, encoding="utf-8") as file:
        text = file.read()
    if text.count(mutant["old"]) != 1:
        return False
    with open(name, "w", encoding="utf-8") as file:
        file.write(text.replace(mutant["old"], mutant["new"]))
    return True


def oracle(folder: str, ask: str) -> "subprocess.CompletedProcess[str]":
    """The oracle of a copy."""
    program = os.path.join(TOP, "release", "zelkuma-x86_64-linux")
    return subprocess.run([sys.executable, "-B", "-m", "tests.oracle", "--project", folder,
                           "--program", program, "--keep", os.path.join(folder, "kept"),
                           *ask.split()], cwd=TOP, stdout=subprocess.PIPE,
                          stderr=subprocess.STDOUT, text=True, check=False)


def copied(folder: str) -> None:
    for part in PARTS:
        source = os.path.join(TOP, part)
        if os.path.isdir(source):
            shutil.copytree(source, os.path.join(folder, part), symlinks=True,
                            ignore=shutil.ignore_patterns("__pycache__"))
        else:
            shutil.copy(source, folder)


@functools.lru_cache(maxsize=None)
def differs_anyway(ask: str) -> bool:
    """Whether the companions as they are don't pass: then nothing can be told of a mutant."""
    with tempfile.TemporaryDirectory(prefix="mutant-") as folder:
        copied(folder)
        return oracle(folder, ask).returncode != 0


def try_mutant(mutant: Dict[str, str]) -> str:
    """What the oracle says of it."""
    if differs_anyway(mutant["ask"]):
        return f"can't be tried: {mutant['ask']} differs without it"
    with tempfile.TemporaryDirectory(prefix="mutant-") as folder:
        copied(folder)
        if not planted(mutant, folder):
            return f"can't be planted: {mutant['file']} doesn't have its line once"
        done = oracle(folder, mutant["ask"])
        kinds = [line[9:] for line in done.stdout.splitlines() if line.startswith("differs: ")]
        return (f"found: {'; '.join(kinds)}" if done.returncode == 1 and kinds
                else f"NOT FOUND: status {done.returncode}, {done.stdout[-200:]}")


def main(names: List[str]) -> int:
    mutants = [each for each in read_mutants() if not names or each["name"] in names]
    found = 0
    for mutant in mutants:
        said = try_mutant(mutant)
        found += said.startswith("found")
        print(f"{mutant['name']}: {said}", flush=True)
    print(f"{found} of {len(mutants)} planted lines are found")
    return 0 if found == len(mutants) and mutants else 1


if __name__ == "__main__":
    sys.exit(main(sys.argv[1:]))

"""python3 -m tests.oracle [--seed N] [--minutes M | --recordings N] [--only WORD] [--case NAME]
[--guests DIR] [--project DIR] [--keep DIR]

Compares what the companions say with the oracle's answers, of random programs from a number on.
`--only` asks some words (history, calls ..), `--guests` asks of the programs that bench/guests.sh
builds of Debian's packages in a folder, in place of drawn ones. `--project` asks the companions of
another checkout than this. Each difference is told with the recording's command, the question and
both answers; its files are kept below --keep. The status is 1 if there is one."""
from __future__ import annotations

import argparse
import functools
import glob
import os
import random
import resource
import shutil
import sys
import tempfile
import time
from typing import Callable, Dict, List

from . import building
from .asking import Asked, Tally
from .cases import CASES, Case
from .machine import Machine
from .of_calls import ask_calls
from .of_compare import ask_compare
from .of_core import ask_core
from .of_export import ask_export
from .of_find import ask_find
from .of_gdb import ask_gdb
from .of_history import ask_history
from .of_memory import ask_memory
from .of_names import ask_bucket, ask_names
from .of_output import ask_output
from .of_page import ask_page
from .of_race import ask_race
from .of_same import ask_same
from .of_shrink import ask_shrink_seldom
from .of_why import ask_why
from .program import Program
from .server import Server

TOP = os.path.dirname(os.path.dirname(os.path.dirname(os.path.abspath(__file__))))
WORDS: Dict[str, Callable[[Asked, random.Random], None]] = {
    "history": ask_history, "calls": ask_calls, "find": ask_find, "export": ask_export,
    "output": ask_output, "race": ask_race,
    "why": ask_why, "names": ask_names, "bucket": ask_bucket, "same": ask_same, "page": ask_page,
    "core": ask_core, "shrink": ask_shrink_seldom,
    "memory": ask_memory, "gdb": ask_gdb}


def asked_of(given: argparse.Namespace, server: Server, recorded: building.Recorded,
             tally: Tally, has_gdb: bool) -> Asked:
    names = Program(recorded.named, has_gdb)
    machine = Machine(given.program, recorded.log, recorded.elf, names.functions())
    environment = {"ZELKUMA_PROGRAM": given.program, **({} if has_gdb else {"ZELKUMA_GDB": "nope"})}
    return Asked(server, recorded, machine, names, tally, environment)


def asks(given: argparse.Namespace, word: str) -> bool:
    return not given.only or word in given.only.split(",")


def ask_all(given: argparse.Namespace, asked: Asked, seed: int) -> None:
    for word, ask in WORDS.items():
        if asks(given, word):
            ask(asked, random.Random(f"{seed} {word}"))


def options(words: List[str]) -> argparse.Namespace:
    parser = argparse.ArgumentParser(prog="tests.oracle", description=__doc__,
                                     formatter_class=argparse.RawDescriptionHelpFormatter)
    parser.add_argument("--seed", type=int, default=1)
    parser.add_argument("--minutes", type=float, default=0.0)
    parser.add_argument("--recordings", type=int, default=5)
    parser.add_argument("--only", default="")
    parser.add_argument("--case", default="", help="one of the kept cases; 'all'; 'none'")
    parser.add_argument("--guests", default="")
    parser.add_argument("--project", default=TOP)
    parser.add_argument("--keep", default="")
    parser.add_argument("--program", default="")
    given = parser.parse_args(words)
    given.program = given.program or os.path.join(given.project, "release", "zelkuma-x86_64-linux")
    return given


class Session:
    """What is tried, each in a folder of its own, which is kept if something differs."""

    def __init__(self, given: argparse.Namespace) -> None:
        self.given = given
        self.tally = Tally()
        self.told = 0
        self.recordings = 0
        self.folder = given.keep or tempfile.mkdtemp(prefix="oracle-")
        os.makedirs(self.folder, exist_ok=True)
        self.server = Server(given.project, self.folder)

    def try_seed(self, folder: str, seed: int) -> None:
        """A program of a number."""
        recorded = building.drawn(self.given.program, folder, seed)
        draw = random.Random(f"{seed} again")
        asked = asked_of(self.given, self.server, recorded, self.tally, draw.random() < 0.6)
        ask_all(self.given, asked, seed)
        if asks(self.given, "compare") and recorded.is_whole and draw.random() < 0.4:
            other = building.again(self.given.program, recorded, draw)
            if other.is_whole:
                ask_compare(asked, asked_of(self.given, self.server, other, self.tally, False))

    def try_guest(self, folder: str, elf: str, seed: int) -> None:
        recorded = building.guest(self.given.program, folder, elf, random.Random(seed))
        ask_all(self.given, asked_of(self.given, self.server, recorded, self.tally, True), seed)

    def try_case(self, folder: str, case: Case) -> None:
        """A program that is kept."""
        elf = named = case.built(folder)
        if case.is_stripped:
            elf = building.stripped(folder, named)
        options = list(case.record) if "--seed" in case.record else ["--seed", "1", *case.record]
        both = []
        for number, read in enumerate((case.first, case.second)[:2 if case.second else 1]):
            recorded = building.recorded(self.given.program, folder, elf, named, case.harts,
                                         *options, read=read, number=number)
            both.append(asked_of(self.given, self.server, recorded, self.tally, case.has_gdb))
        case.ask(both[0])
        if case.second:
            ask_compare(*both)

    def attempt(self, name: str, what: Callable[[str], None]) -> None:
        before = sum(self.tally.differing.values())
        own = os.path.join(self.folder, name)
        os.makedirs(own, exist_ok=True)
        what(own)
        self.recordings += 1
        for difference in self.tally.kept[self.told:]:
            print("\n".join([f"in {name}:", *difference.lines()]), flush=True)
        self.told = len(self.tally.kept)
        if sum(self.tally.differing.values()) == before:
            shutil.rmtree(own)

    def cases(self, chosen: str) -> None:
        for case in CASES:
            if chosen == case.name or chosen == "all" and not case.is_big and case.can_be_built():
                self.attempt(case.name, functools.partial(self.try_case, case=case))

    def seeds(self) -> None:
        given = self.given
        until = time.monotonic() + 60 * self.given.minutes
        seed = given.seed
        while time.monotonic() < until if given.minutes else seed < given.seed + given.recordings:
            self.attempt(str(seed), functools.partial(self.try_seed, seed=seed))
            seed += 1

    def guests(self) -> None:
        for seed in range(self.given.seed, self.given.seed + self.given.recordings):
            for elf in sorted(glob.glob(os.path.join(self.given.guests, "*.elf"))):
                self.attempt(f"{os.path.basename(elf)}.{seed}",
                             functools.partial(self.try_guest, elf=elf, seed=seed))

    def end(self) -> int:
        tally = self.tally
        self.server.close()
        print(", ".join(f"{word} {count:,}" for word, count in sorted(tally.compared.items())))
        for kind, count in sorted(tally.differing.items()):
            print(f"differs: {kind}: {count:,}")
        total = sum(tally.compared.values())
        differing = sum(tally.differing.values())
        used = sum(sum(resource.getrusage(who)[:2])
                   for who in (resource.RUSAGE_SELF, resource.RUSAGE_CHILDREN))
        print(f"{total:,} answers of {self.recordings} recordings compared in {used:,.0f} "
              f"processor seconds, {differing:,} differ"
              + (f"; their files are in {self.folder}" if differing else ""))
        if not differing and not self.given.keep:
            shutil.rmtree(self.folder, ignore_errors=True)
        return 1 if differing else 0


def main(words: List[str]) -> int:
    given = options(words)
    if not building.has_tools():
        print("skipped: a RISC-V compiler with its tools, or a gdb for RISC-V, isn't here")
        return 77
    session = Session(given)
    session.cases(given.case)
    if given.guests:
        session.guests()
    elif given.case in ("", "all"):
        session.seeds()
    return session.end()


if __name__ == "__main__":
    sys.exit(main(sys.argv[1:]))

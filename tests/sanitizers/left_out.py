"""Leaves out one check or rule of `memory` at a time: which errors aren't named then, and which
good programs aren't silent?

    left_out.py FOLDER [PART..]     all parts, or those whose names begin with one of these words

It tries the logs that tries.py recorded in FOLDER, but for those of more than MOST_ROWS rows, and
the twins of tests/companions/lib/programs/memory_errors.c, each an error and its nearest good one.
FOLDER/ablation.json gets the ends, of which tables.py makes a table. A check is tried on logs with
a finding alone: without it there can be no more."""
from __future__ import annotations

import contextlib
import json
import os
import re
import sys
import unittest.mock
from contextlib import closing
from typing import Any, Callable, Dict, Iterator, NamedTuple, Tuple

HERE = os.path.dirname(os.path.abspath(__file__))
sys.path[:0] = [os.path.join(HERE, "..", *part)
                for part in (("..",), ("companions", "lib"), ("companions", "memory"))]
from companion.memory import (                      # noqa: E402
    calls, facts, heap, judge, leaks, parts, pointers, program, run, stacks, sums, undefined, value)
from companion.memory.answer import MemoryAnswer          # noqa: E402
from companion.memory.state import GOOD             # noqa: E402
from companion.recording import types               # noqa: E402
from companion.recording.chunks import chunks       # noqa: E402
from companion.recording.elf import Elf             # noqa: E402
from companion.recording.log import load_log        # noqa: E402
from companion.recording.places import Places       # noqa: E402
import tries                                        # noqa: E402
from memory_test import CASES, MemoryTest          # noqa: E402

# Of a log: it is followed up to 37 times, and most tests are shorter
MOST_ROWS = 20000
NEVER = re.compile(r"(?!)")
NONE, NO, YES = (lambda *_given, told=told: told for told in (None, False, True))
Patches = Tuple[Tuple[Any, str, Any], ...]
# What finds errors, and what keeps false ones out: what of `companion` leaves it out.
CHECKS: Dict[str, Patches] = {
    "blocks of allocators": ((run, "hooks_of", lambda *_: {}),),
    "bytes beside blocks": ((heap.Heap, "beside", NONE),),
    "bytes that were given back": ((heap, "FREED", GOOD),),
    "global objects": ((parts.Parts, "global_thing", NONE),),
    "members": ((types.Types, "array_at", NONE),),
    "members by an index": ((parts.Parts, "missed_part", NONE),),
    "types of variables in registers": ((program.CheckedProgram,
                                         "pointers_in_registers", lambda *_: {}),),
    "variables of frames": ((parts.Parts, "place", NONE),),
    "memory asked for on a stack": ((sums, "size_asked", NONE),),
    "ended blocks": ((parts.Parts, "scope_of", NONE),),
    "ended frames, by pointers": ((stacks.CheckedStacks, "keep", NONE),),
    "ended frames, by bytes": ((stacks, "ENDED", GOOD),),
    "depth": ((stacks.CheckedStacks, "met", lambda *_: ""),),
    "saved registers": ((facts.FunctionFlow, "find_slots", NONE),),
    "return addresses": ((stacks.CheckedStacks, "strayed",
                          lambda _, hart, *__: hart.returns.clear()),),
    "types of pointers": ((pointers.PointerWords, "stored", NONE),),
    "bits that nobody wrote": ((undefined.UndefinedBits, "tell", NONE),),
    "overlap": ((judge.Judge, "tell_overlap", NONE),),
    "addresses outside of memory": ((judge.Judge, "tell_unmapped", NONE),),
    "read and write calls": ((calls.AllocatorCalls, "clip", NONE),),
    "leaks": ((leaks, "leaks_of", lambda *_: []),)}
RULES: Dict[str, Patches] = {
    "words that a library reads past an end": ((judge.Judge, "is_by_words", NO),),
    "an allocator's file may use headers": ((judge.Judge, "is_allocators", NO),),
    "a constant may be meant for an object beside": ((judge.Judge, "origin", lambda *_: (0, "")),),
    "an end may be the next one's begin": ((judge.Judge, "is_loops_end", NO),),
    "what ends at a begin is taken in": ((parts, "BEFORE", 0),),
    "what starts a program goes over sections": ((parts, "STARTS", NEVER),),
    "a short array at a structure's end": ((types, "TRAILING", 0),),
    "a place before a member is another's": ((types, "ANCHOR", 0),),
    "products may hide a place": ((facts, "mixed", NONE), (facts, "multiplied", NONE)),
    "low numbers are no addresses": ((value, "LOWEST_ADDRESS", 0),),
    "clones have other parameters": ((program, "CLONE", NEVER),),
    "blocks of optimized code aren't known": ((program.CheckedProgram, "is_plain", YES),),
    "a library looks at bytes that don't count": ((undefined, "LOOKS", NEVER),),
    "bits are followed exactly": ((undefined, "result_bits", lambda *_: (1 << 32) - 1),),
    "marks in pointers": ((pointers, "LEAST_ADDRESS", 1),),
    "mem* move bytes of any type": ((pointers, "COPIES", NEVER),)}
WHOLE = "nothing"
programs: Dict[str, program.CheckedProgram] = {}


class Tried(NamedTuple):
    """A log with what is known of it: the test, and the lines that are right."""
    test: tries.Test
    lines: Tuple[int, ...]
    log: str
    elf: str

    @property
    def name(self) -> str:
        level = "" if self.test.elf else self.elf.rpartition("-")[2][:2]
        return f"{self.test.name} {level}".strip()


@contextlib.contextmanager
def without(patches: Patches) -> Iterator[None]:
    with contextlib.ExitStack() as stack:
        for place, name, other in patches:
            stack.enter_context(unittest.mock.patch.object(place, name, other))
        yield


def logs_of_tests(folder: str) -> Iterator[Tried]:
    with open(os.path.join(folder, "results.json"), encoding="utf-8") as file:
        told = [each for each in json.load(file) if "told" in each]
    lines = {(each["test"], each["level"]): tuple(each["lines"]) for each in told}
    for test in tries.tests_in(folder):
        for level in test.levels:
            if (test.name, level) in lines:
                elf = tries.built(test, folder, level)
                yield Tried(test, lines[test.name, level], tries.log_of(folder, elf), elf)


def logs_of_twins() -> Iterator[Tried]:
    """Of each case the error, which is named if its kind is, and the good twin."""
    MemoryTest.setUpClass()
    case = MemoryTest()
    for name, kind, *_ in CASES:
        for which in "bg":
            elf = case.elf_of(name)
            test = tries.Test(f"twins/{name} {which}", "", kind if which == "b" else "",
                              frozenset(), (), elf=elf)
            yield Tried(test, (), case.log(name, which), elf)


class Log:
    """A log whose rows and program are read once, however often it is followed."""

    def __init__(self, tried: Tried, places: Places) -> None:
        self.tried, self.places = tried, places
        self.log = load_log(tried.log)
        self.program = programs.setdefault(tried.elf, program.CheckedProgram(places.elf))
        self.texts = list(chunks(tried.log, tried.elf, log=self.log))
        names = {each.name for each in places.elf.functions}
        self.pool = (tries.POOL[1::2] if tried.test.elf and names.issuperset(tries.POOL[1::2])
                     else ())

    def end(self) -> str:
        """How it is told, with what is left out now."""
        tried = self.tried
        hooks = run.hooks_of(self.program, self.pool[:1], self.pool[1:])
        found = run.CheckedRun(self.log, self.program, hooks)
        found.along(self.texts)
        asks = tried.test.kind == tries.LEAK
        lost = leaks.leaks_of(found.heap, found.harts, tried.log, tried.elf) if asks else []
        answer = MemoryAnswer(found, self.places, [], lost).answer()
        end: str = tries.judged(tried.test, tried.lines, answer)["memory"]
        return end

    def ends(self, wanted: Callable[[str], bool]) -> Iterator[Tuple[str, str]]:
        """(what is left out, the end)"""
        whole = self.end()
        yield WHOLE, whole
        has_finding = whole not in ("not told", "silent")
        for name, patches in {**(CHECKS if has_finding else {}), **RULES}.items():
            if wanted(name):
                with without(patches):
                    yield name, self.end()


def main(folder: str, *begins: str) -> None:
    found: Dict[str, Dict[str, str]] = {}
    for tried in [*logs_of_twins(), *logs_of_tests(folder)]:
        if load_log(tried.log).rows() > MOST_ROWS:
            continue
        with closing(Places(Elf(tried.elf))) as places:
            ends = dict(Log(tried, places).ends(lambda name: name.startswith(begins or ("",))))
        found[tried.name] = ends
        changed = (f"; without {name}: {end}" for name, end in ends.items() if end != ends[WHOLE])
        print(tried.name, ends[WHOLE], *changed, flush=True)
        with open(os.path.join(folder, "ablation.json"), "w", encoding="utf-8") as file:
            json.dump({"checks": list(CHECKS), "rules": list(RULES), "ends": found}, file, indent=0)


if __name__ == "__main__":
    main(*sys.argv[1:])

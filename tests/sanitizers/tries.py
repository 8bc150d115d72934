"""Builds each test, records it, and holds what `memory` tells against what the test says: tries.py
FOLDER [gcc | memcheck | fresh | crashes].

A test of GCC says by dg-shouldfail that it has an error, and by dg-output its kind and the line of
its first frame. One of memcheck has its errors in NAME.stderr.exp. Programs of fresh/ and of
tests/crashes have a guilty line. A test that says of no error has to be silent. Beside it stands
what AddressSanitizer and memcheck tell of the same test on the machine that this runs on
(peers.py). FOLDER/results.json gets all, of which tables.py makes tables."""
from __future__ import annotations

import json
import os
import re
import subprocess
import sys
from typing import Any, Dict, Iterable, Iterator, List, NamedTuple, Sequence

import peers

HERE = os.path.dirname(os.path.abspath(__file__))
TOP = os.path.dirname(os.path.dirname(HERE))
PROGRAM = os.environ.get("ZELKUMA_PROGRAM", os.path.join(TOP, "release", "zelkuma-x86_64-linux"))
GCC = ("riscv64-unknown-elf-gcc", "--specs=picolibc.specs", "-mabi=ilp32", "-mstrict-align",
       "-march=rv32im", "-g", "-w")
LIMIT = "2000000"
PATIENCE_S = 120
FIRST = 3
INCLUDED = "valgrind", "valgrind/include", "valgrind/memcheck"
# ANY is of a kind that the test doesn't say
ANY = "an error"
LEAK = "memory-leak"
HEAD = re.compile(r"AddressSanitizer:? ([a-z-]+)")
FRAME = re.compile(r"(?:#0|#1)[^\n]*?([\w+-]+\.c):(\d+)")
# (those of one target alone have more behind)
OPTIONS = re.compile(r'dg-(?:additional-)?options "([^"]*)"\s*\}')
SETTINGS = re.compile(r'dg-set-target-env-var ASAN_OPTIONS "([^"]*)"')
# Their kinds in cases.txt
CRASHES_OF_MEMORY = ("freed", "libc", "overrun", "underflow", "stack", "jump",
                     "unwritten", "narrowed")
POOL = "--alloc", "take", "--free", "give"      # of tests/crashes/heap.c
MEMCHECK_KINDS = (("Invalid read", "invalid-access"), ("Invalid write", "invalid-access"),
                  ("Invalid free", "invalid-free"), ("uninitialised", "use-of-uninitialized-value"),
                  ("overlap", "memcpy-param-overlap"), ("definitely lost in", LEAK))


class Test(NamedTuple):
    """kind      nothing if the test has no error
    lines     those of its frames, if it says them
    levels    what it is built by, beside its own options
    settings  what it sets for AddressSanitizer
    elf       its ELF file, if that is kept; recorded: how it is recorded"""
    name: str
    source: str
    kind: str
    lines: frozenset[int]
    levels: tuple[str, ...]
    options: tuple[str, ...] = ()
    settings: str = ""
    elf: str = ""
    recorded: tuple[str, ...] = ("--seed", "1", "--limit", LIMIT)


def text_of(path: str) -> str:
    with open(path, encoding="latin-1") as file:
        return file.read()


def gcc_tests(folder: str) -> Iterator[Test]:
    for at, _, names in sorted(os.walk(folder)):
        for name in sorted(name for name in names if name.endswith(".c")):
            path = os.path.join(at, name)
            text = text_of(path)
            if not re.search(r"dg-do\s+run", text):
                continue
            told = " ".join(re.findall(r'dg-output "(.*?)" *(?:\{[^}]*\} *)?\}', text))
            kind = HEAD.search(told)
            # (some continue after an error, and end well)
            is_bad = ("dg-shouldfail" in text or kind is not None or "RITE of size" in told
                      or "READ of size" in told)
            lines = frozenset(int(line) for file, line in FRAME.findall(told.replace("\\", ""))
                              if file == name)
            options = tuple(word for words in OPTIONS.findall(text) for word in words.split()
                            if word[:2] in ("-f", "-D") and "sanitize" not in word)
            settings = SETTINGS.search(text)
            told = kind[1] if kind else ANY
            yield Test("gcc/" + name, path, told if is_bad else "", lines,
                       ("-O0", "-O2"), options, settings[1] if settings else "")


def memcheck_tests(folder: str) -> Iterator[Test]:
    for name in sorted(os.listdir(folder)) if os.path.isdir(folder) else ():
        path = os.path.join(folder, name)
        said = os.path.join(folder, name[:-2] + ".stderr.exp")
        if name.endswith(".c") and os.path.exists(said):
            text = text_of(said)
            kind = next((kind for words, kind in MEMCHECK_KINDS if words in text), "")
            lines = frozenset(int(line) for line in re.findall(re.escape(name) + r":(\d+)\)", text))
            yield Test("memcheck/" + name, path, kind, lines, ("-O0",))


def fresh_tests(folder: str) -> Iterator[Test]:
    for line in text_of(os.path.join(folder, "lines.txt")).splitlines():
        name, *lines = line.split()
        if name != "#":
            yield Test(f"fresh/{name}.c", os.path.join(folder, name + ".c"), ANY,
                       frozenset(map(int, lines)), ("-O2",))


def crash_tests(folder: str) -> Iterator[Test]:
    for line in text_of(os.path.join(folder, "cases.txt")).splitlines():
        if line.strip() and line[0] != "#":
            name, guilty, kind, _, harts, seed, limit, *_ = line.split()
            yield Test(f"crashes/{name}.c", os.path.join(folder, name + ".c"), ANY
                       if kind in CRASHES_OF_MEMORY else "", frozenset([int(guilty.split(":")[1])]),
                       ("kept",), (), "", os.path.join(folder, name + ".elf"),
                       ("--harts", harts, "--seed", seed, "--limit", limit))


def built(test: Test, folder: str, level: str) -> str:
    """The ELF file of a test, or nothing."""
    if test.elf:
        return test.elf
    elf = os.path.join(folder, test.name.replace("/", "-")[:-2] + level + ".elf")
    if not os.path.exists(elf):
        parts = [os.path.join(TOP, "examples", "picolibc", name)
                 for name in ("start.S", "machine.c")]
        done = subprocess.run(
            [*GCC, level, *test.options, *(f"-I{os.path.join(folder, part)}" for part in INCLUDED),
             "-static", "-nostartfiles", "-T",
             os.path.join(TOP, "examples", "picolibc", "program.ld"), "-Wl,--build-id=none", "-z",
             "max-page-size=4096", "-march=rv32ima", "-o", elf, *parts, test.source],
            stderr=subprocess.DEVNULL, stdout=subprocess.DEVNULL, check=False)
        if done.returncode:
            return ""
    return elf


def end_of(test: Test, kinds: Sequence[str], lines: Iterable[int]) -> str:
    """What came of a test, of which these kinds and lines were told first."""
    if not test.kind:
        return "false" if kinds else "silent"
    if test.lines:
        is_named = bool(test.lines.intersection(lines))
    else:
        is_named = bool(kinds) and (test.kind == ANY or test.kind.split("-")[0]
                                    in {each.split("-")[0] for each in kinds})
    if is_named:
        return "named"
    return "another line" if kinds else "not told"


def companion(*words: str) -> Dict[str, Any]:
    done = subprocess.run([sys.executable, os.path.join(TOP, "companion"), *words, "--json"],
                          stdout=subprocess.PIPE, stderr=subprocess.PIPE, timeout=PATIENCE_S,
                          check=False)
    answer: Dict[str, Any] = (json.loads(done.stdout) if done.returncode == 0
                              else {"error": done.stderr.decode().strip()})
    return answer


def lines_in(found: Any) -> Iterator[int]:
    """All lines of an answer's part."""
    parts = found if isinstance(found, list) else []
    if isinstance(found, dict):
        yield from (value for key, value in found.items() if key == "line" and value)
        parts = list(found.values())
    for each in parts:
        yield from lines_in(each)


def by_memory(test: Test, lines: frozenset[int], log: str, elf: str) -> Dict[str, Any]:
    """What came of a test by `memory`, of which these lines are right."""
    answer = companion("memory", log, elf, *(["--leaks"] if test.kind == LEAK else []),
                       *(POOL if test.elf else ()))
    if "error" in answer and test.elf:          # it has no such pool
        answer = companion("memory", log, elf)
    if "error" in answer:
        return {"memory": "isn't read", "told": str(answer["error"])}
    return judged(test, lines, answer)


def judged(test: Test, lines: Iterable[int], answer: Dict[str, Any]) -> Dict[str, Any]:
    """What an answer of `memory` tells first, and which kinds tell a right line. Of programs with a
    guilty line each line of a finding counts, as a reader sees it."""
    lost = [{"kind": LEAK, "calls": each["calls"]} for each in answer["leaks"] if each["unreached"]]
    found: List[Dict[str, Any]] = (answer["findings"] + lost)[:FIRST]
    said = "; ".join(f"{each['kind']} {each['calls'][0]['line'] if each['calls'] else '?'}"
                     for each in found)
    has_guilty = test.name.startswith(("fresh/", "crashes/"))
    near = [set(lines_in(each) if has_guilty else (line["line"] for line in each["calls"][:2]))
            for each in found]
    by = sorted({each["kind"] for each, told in zip(found, near) if told.intersection(lines)})
    return {"memory": end_of(test, [each["kind"] for each in found], set().union(*near)),
            "told": said, "by": by, "kinds": sorted({each["kind"] for each in found})}


def by_why(test: Test, log: str, elf: str) -> str:
    """The same of the first suspects of `why`."""
    suspects = companion("why", log, elf).get("suspects", [])[:FIRST]
    return end_of(test, [ANY] * len(suspects), lines_in(suspects))


def tried(test: Test, lines: frozenset[int], folder: str, elf: str) -> Dict[str, Any]:
    """What came of a test by `memory`, and of a fresh one by `why`."""
    log = log_of(folder, elf)
    subprocess.run([PROGRAM, "record", "--format", "2", *test.recorded, elf, log,
                    log[:-4] + ".book"], stdout=subprocess.DEVNULL,
                   stderr=subprocess.DEVNULL, timeout=PATIENCE_S, check=False)
    if not os.path.exists(log):
        return {"memory": "isn't recorded"}
    found = by_memory(test, lines, log, elf)
    if test.name.startswith("fresh/"):
        found["why"] = by_why(test, log, elf)
    return found


def log_of(folder: str, elf: str) -> str:
    return os.path.join(folder, os.path.basename(elf)[:-4] + ".log")


def tests_in(folder: str) -> List[Test]:
    memcheck = os.path.join(folder, "valgrind", "memcheck", "tests")
    return [*gcc_tests(os.path.join(folder, "gcc")), *memcheck_tests(memcheck),
            *fresh_tests(os.path.join(HERE, "fresh")),
            *crash_tests(os.path.join(TOP, "tests", "crashes"))]


def results(folder: str, only: str) -> Iterator[Dict[str, Any]]:
    for test in (test for test in tests_in(folder) if test.name.startswith(only)):
        for level in test.levels:
            elf = built(test, folder, level)
            told = by_peers(test, folder, level) if elf and not test.elf else {}
            lines = test.lines or frozenset(lines_by(told.get("AddressSanitizer")))
            try:
                ours = tried(test, lines, folder, elf) if elf else {"memory": "doesn't build"}
            except subprocess.TimeoutExpired:
                ours = {"memory": "takes too long"}
            ends = {name: end_of(test, *each) if each else "doesn't build"
                    for name, each in told.items()}
            yield {"test": test.name, "level": level, "kind": test.kind,
                   "lines": sorted(lines), **ours, **ends}


def lines_by(told: peers.Told) -> List[int]:
    """The lines of the first frames of a peer, which are right if a test says none."""
    return told[1] if told else []


def by_peers(test: Test, folder: str, level: str) -> Dict[str, peers.Told]:
    """(memcheck takes longest by far, and GCC's tests are mostly of stacks and globals, which it
    can't see.)"""
    told = {"AddressSanitizer": peers.by_sanitizer(test, folder, level)}
    if not test.name.startswith("gcc/"):
        told["memcheck"] = peers.by_memcheck(test, folder, level)
    return told


def main(folder: str, only: str = "") -> None:
    """Results of other groups, and those of an earlier run, stay."""
    path = os.path.join(folder, "results.json")
    kept = json.loads(text_of(path)) if os.path.exists(path) else []
    kept = [each for each in kept if not each["test"].startswith(only)]
    for each in results(folder, only):
        print(*(f"{key} {value};" for key, value in each.items()), flush=True)
        kept.append(each)
        with open(path + ".new", "w", encoding="utf-8") as file:
            json.dump(kept, file, indent=0)
    os.replace(path + ".new", path)


if __name__ == "__main__":
    main(*sys.argv[1:])

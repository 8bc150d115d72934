"""Writes the tables of bench/RESULTS.md that tries.py and left_out.py have results for: tables.py
FOLDER.

Each follows a line `<!-- tests/sanitizers/tables.py NAME -->`, up to the next empty line."""
from __future__ import annotations

import json
import os
import re
import sys
from collections import Counter
from typing import Any, Callable, Dict, Iterable, List

PAGE = os.path.join(os.path.dirname(os.path.abspath(__file__)), "..", "..", "bench", "RESULTS.md")
BY = "memory", "AddressSanitizer", "memcheck"    # the last one isn't asked of all tests
ENDS = "named", "another line", "not told", "silent", "false"
SCOPE = "use-after-scope"   # in the names of GCC's tests for it
Result = Dict[str, Any]


def group_of(one: Result) -> str:
    name: str = one["test"]
    if name.startswith("gcc/"):
        return "GCC, a variable used after its block" if SCOPE in name else "GCC"
    return name.partition("/")[0]


def ran(results: Iterable[Result]) -> List[Result]:
    """Those that all that were asked could try, so that they can be compared."""
    return [one for one in results
            if one.get(BY[1]) and all(one.get(by, ENDS[0]) in ENDS for by in BY)]


def row(*cells: object) -> str:
    return f"| {' | '.join(map(str, cells))} |"


def table(head: str, rows: Iterable[str]) -> str:
    return "\n".join([head, "|---" * (head.count("|") - 1) + "|", *rows])


def errors(results: List[Result]) -> str:
    rows = []
    for name in ("GCC", "GCC, a variable used after its block", "memcheck", "fresh"):
        bad = [one for one in results if group_of(one) == name and one["kind"]]
        tried = ran(bad)
        ends = [[sum(one.get(by) == end for one in tried) for end in ENDS[:3]] for by in BY]
        rows.append(row(name, len(tried), len(bad) - len(tried),
                        *(" / ".join(map(str, each)) if any(each) else "-" for each in ends)))
    return (table("| tests with an error, named / another line / not told | tried | not built by "
                  "all | `memory` | AddressSanitizer | memcheck |", rows))


def good(results: List[Result]) -> str:
    rows = []
    for name in ("GCC", "memcheck"):
        without = [one for one in results if group_of(one).startswith(name) and not one["kind"]]
        tried = ran(without)
        rows.append(row(name, len(tried), len(without) - len(tried),
                        *(sum(one[by] == "false" for one in tried)
                          if all(by in one for one in tried) else "-" for by in BY)))
    return table("| tests without an error | tried | not built by all | told by `memory` | "
                 "AddressSanitizer | memcheck |", rows)


def kinds(results: List[Result]) -> str:
    """The ablation by check: which tests a kind names, and which are named by no other."""
    has: Counter[str] = Counter(kind for one in results for kind in one.get("kinds", ()))
    names: Counter[str] = Counter(kind for one in results if one["kind"]
                                  for kind in one.get("by", ()))
    alone: Counter[str] = Counter(one["by"][0]
                                  for one in results if one["kind"] and len(one.get("by", ())) == 1)
    return table("| kind | tests and programs with one | it names the line | no other kind does |",
                 (row(f"`{kind}`", has[kind], names[kind], alone[kind])
                  for kind in sorted(has, key=lambda each: -has[each])))


def fresh(results: List[Result]) -> str:
    return table("| program | `memory` tells first | by `memory` | by `why` | AddressSanitizer | "
                 "memcheck |", (row(f"`{one['test'][6:-2]}`", one["told"].split("; ")[0]
                                    or "nothing", *(one[by] for by in ("memory", "why", *BY[1:])))
                                for one in results if one["test"].startswith("fresh/")))


def without(found: Result, which: str) -> str:
    """The ablation by parts: which errors aren't named and which good programs are told if one is
    left out, with the first of each."""
    rows = []
    for name in found[which]:
        ends = [(f"`{test}`", each["nothing"], each[name])
                for test, each in sorted(found["ends"].items()) if name in each]
        lost = [test for test, whole, end in ends if whole == "named" != end] or ["-"]
        false = [test for test, whole, end in ends if (whole, end) == ("silent", "false")] or ["-"]
        rows.append((name, len(lost) - (lost == ["-"]), lost[0],
                     len(false) - (false == ["-"]), false[0]))
    return table("| left out | errors not named then | as | good ones told then | as |",
                 (row(*each) for each in sorted(rows, key=lambda each: (-each[1], -each[3]))))


def checks(found: Result) -> str:
    return without(found, "checks")


def rules(found: Result) -> str:
    return without(found, "rules")


# Of each file of results the tables that are made of it.
TABLES: Dict[str, Dict[str, Callable[[Any], str]]] = {
    "results.json": {"errors": errors, "good": good, "kinds": kinds, "fresh": fresh},
    "ablation.json": {"checks": checks, "rules": rules}}


def with_table(text: str, name: str, made: str) -> str:
    mark = f"<!-- tests/sanitizers/tables.py {name} -->\n"
    if text.count(mark) != 1:
        sys.exit(f"bench/RESULTS.md has {text.count(mark)} lines {mark}")
    before, _, after = text.partition(mark)
    return before + mark + made + "\n" + re.sub(r"\A(.+\n)*", "", after)


def main(folder: str) -> None:
    with open(PAGE, encoding="utf-8") as file:
        text = file.read()
    for file_name, tables in TABLES.items():
        path = os.path.join(folder, file_name)
        if os.path.exists(path):
            with open(path, encoding="utf-8") as file:
                found = json.load(file)
            for name, made in tables.items():
                text = with_table(text, name, made(found))
    with open(PAGE, "w", encoding="utf-8") as file:
        file.write(text)


if __name__ == "__main__":
    main(*sys.argv[1:])

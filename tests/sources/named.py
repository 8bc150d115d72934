#!/usr/bin/env python3
"""Checks that each mutant which must be refused still has what refuses it.

tests/sources/named.py

A mutant is a fault put into one function. A must-fail edit writes it, and the prover has to refuse
it; if no contract can see the fault, a test has to. Edits whose refusal shows most of what is
promised have a line `# Telling: THE FAULT`. Each of them is tried alone: it has no `# NAME` before
a change, as edits with several have (tools/mutants.py). MUTANTS has the faults that a test has to
see.

It fails if an edit no longer fits its file, if fewer edits are telling than MOST, or if a test is
gone. The edits themselves are tried by the merge gate, which also runs the tests.
"""
import pathlib
import re
import sys

CRATES = pathlib.Path(__file__).resolve().parents[2] / "crates"
MOST = 116

# Faults, and the test functions (FILE: NAME) or cases of a crate's script (CRATE: BEGINNING OF THE
# HEADLINE) that see them.
MUTANTS = {
    "The harts run one after another, or hold the lock of the bus while they wait at their gate.": (
        "thread_tests/src/threads.rt: harts_meet_before_their_first_turns",
        "program_cases: they meet before their first turns",
        "program_cases: sixteen harts meet before their first turns",
    ),
    "The threads stop early, "
    "or their run is given up and one with chosen turns is made in its place.": (
        "thread_tests/src/threads.rt: harts_take_their_turns_in_a_lists_order",
        "thread_tests/src/threads.rt: the_list_that_is_given_is_that_order",
        "program_cases: harts that run in threads leave the log of their list of turns",
        "program_cases: four harts of a generated program in threads take the turns of a list",
    ),
    "LOG is overwritten by BOOK under another name.": (
        "host_tests/src/saving.rt: a_save_never_destroys_what_was_saved",
    ),
    "A reader is read again after it said that it ended.": (
        "host_tests/src/streams.rt: a_reader_that_has_ended_is_not_read_again",
    ),
    "Each command ends out of memory (9). Contracts let any allocation fail.": (
        "program_cases: a recording saves its log and its turns",
    ),
    "A salvage keeps a block that comes before a damaged one.": (
        "program_cases: "
        "of a damaged log of version 2 the blocks behind the last bad one are salvaged",
    ),
}


def edit_fault(edit, text):
    """Says what is wrong with an edit: None if it fits its file, each change after those before
    it."""
    if "\n# Telling: " in f"\n{text}" and re.search(r"^# [a-z0-9_]+$", text, re.M):
        return "has several changes: the refusal of one could hide that another is not refused"
    files = {}
    name = ""
    old = ""
    for line in text.splitlines():
        key, _, rest = line.partition(":")
        rest = rest[1:]
        if key == "file":
            name = rest
            files.setdefault(name, (edit.parent.parent / name).read_text(encoding="utf-8"))
        elif key == "old":
            old = rest
            if files.get(name, "").count(old) != 1:
                return f"does not fit its file, which must have this text exactly once: {line}"
        elif key == "new":
            files[name] = files[name].replace(old, rest)
    return None if old else "changes nothing"


def test_fault(place, name):
    """Says what is wrong with a test: None if it is there."""
    file = CRATES / place
    if file.suffix == ".rt":
        found = re.search(rf"^#\[test\]\nfn {name}\(", file.read_text(encoding="utf-8"), re.M)
        return None if found else "is gone"
    cases = (file / "stdin").read_text(encoding="utf-8").splitlines()
    there = sum(line.startswith(f"# {name}") for line in cases)
    return None if there == 1 else f"stands {there} times"


def main():
    edits = {edit: edit.read_text(encoding="utf-8")
             for edit in sorted(CRATES.glob("*/must-fail/*.edit"))}
    told = [(str(edit.relative_to(CRATES.parent)), edit_fault(edit, text))
            for edit, text in edits.items()]
    told += [(test, test_fault(*test.split(": ", 1)))
             for tests in MUTANTS.values() for test in tests]
    telling = sum(text.startswith("# Telling: ") for text in edits.values())
    told.append(("crates/*/must-fail", None if telling >= MOST
                 else f"has {telling} telling edits, and {MOST} were there"))
    faults = [f"tests/sources/named.py: {what} {fault}" for what, fault in told if fault]
    print(*faults, f"{len(told) - len(faults)} passed, {len(faults)} failed", sep="\n")
    return 1 if faults else 0


sys.exit(main())

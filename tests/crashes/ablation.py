#!/usr/bin/env python3
"""Leaves out one rule of `why` at a time: of how many programs is the guilty line still among the
first three suspects?

    ablation.py [WORD..]        all rules, or those whose names begin with one of these words

Each line is a rule, the share of all programs and of each group without it, and which go out (-) or
come in (+). One in brackets is named by a fact as well: an error of memory, a lock in a deadlock,
what is said of the fault."""
import copy
import importlib
import multiprocessing
import os
import re
import sys
from typing import Any, Dict

HERE = os.path.dirname(os.path.abspath(__file__))
sys.path[:0] = [os.path.join(HERE, "..", "companions", part) for part in ("lib", "why")]
from common import crashes, record                  # noqa: E402
from companion.why import analysis, facts, locks, memory_use, report, suspects       # noqa: E402
from companion.why.deadlock import deadlock_lines       # noqa: E402
from companion.why.history import History               # noqa: E402
from companion.why.memory_part import MemoryErrors      # noqa: E402
from companion.recording.opened import opened           # noqa: E402
from crashes_test import FIRST, rank_of              # noqa: E402

AT_ONCE = 2
ALL = "all rules"
PURE = ((facts, "Loop"), (facts, "setting"), (locks, "accesses"),
        (memory_use, "Blocks"), (suspects, "Ways"))
SEARCHES = (analysis, "History"), (suspects, "History")
FINDERS = (suspects, "unlocked"), (suspects, "failed_stores")


def nothing(*_given):
    return []


def no_row(*_given):
    return 0


# Of each rule the words that the report says of it, if there are any, and the names of `companion`
# that leave it out, with their values then. A program of which the words aren't said at all isn't
# tried again.
RULES: Dict[str, Any] = {
    ALL: ("", {}),
    "another hart": ("another hart stored it", {"suspects.OTHER_HART": 0}),
    "stored in parts": ("stored as", {"suspects.NARROW": 0}),
    "a race": ("a race:", {"suspects.RACE": 0}),
    "another function": ("over what", {"suspects.OTHER_FUNCTION": 0}),
    "a rare pair": ("rare here", {"suspects.RARITY": 0}),
    "a usual pair": ("so in all", {"suspects.COMMON": 0}),
    "a near store": ("earlier", {"suspects.NEAR_STORE": 0}),
    "closed a circle": ("closed a circle", {"suspects.CLOSES": 0}),
    "a line told again": ("", {"suspects.AGAIN": 0, "suspects.NOTHING_NEW": 0}),
    "behind a wrong place": ("behind the address of the store", {"suspects.FIRST_ONES": 0}),
    "source of one's own": ("", {"facts.Facts.own": lambda _facts, _row: None}),
    "given back": ("given back", {"memory_use.GIVEN_BACK": 0}),
    "copies of a pointer": ("a copy of the pointer", {"memory_use.MemoryUse.add_copy": nothing}),
    "an older pointer": ("the pointer is older", {"memory_use.MemoryUse.kept_pointer": no_row}),
    "all of memory": ("", {"memory_use.MemoryUse.judge": nothing,
                           "memory_use.MemoryUse.given_back_twice": nothing}),
    "equal bounds": ("which are the same", {"branches.EQUAL": 0}),
    "a usual way": ("it went this way", {"branches.USUAL": 0}),
    "compared lost bits": ("comes from a part of", {"branches.cut_behind": nothing}),
    "ran before any call": ("before any call", {"branches.ENTRY": 0}),
    "who stored what it compared": ("a value that it compared was",
                                    {"branches.add_stored": nothing}),
    "branches": ("", {"suspects.branch_suspects": nothing}),
    "an access without its lock": ("their hart holds", {"suspects.unlocked": nothing}),
    "a deep recursion": ("calls deep", {"recursion.DEEP": 1 << 32}),
    "a failed store-conditional": ("a store-conditional failed",
                                   {"suspects.failed_stores": nothing}),
    "what a library formatted": ("", {"analysis.begin_at_argument": nothing}),
    "branches just before": ("", {"history.MOST_BRANCHES": 0}),
    "what decided a row": ("before", {"history.MOST_CONTROL": 0}),
    "what kept a value": ("so this kept its value", {"history.MOST_KEPT": 0}),
    "what spared a word": ("so a word beside", {"history.MOST_SPARED": 0}),
    "what others wait for": ("goes on waiting", {"history.NEAR_LOOP": -1}),
    "words beside": ("", {"history.MOST_FILLED": 0}),
    "the first copy": ("", {"history.History.first_copied": lambda _history, load: load}),
}


def key_of(value):
    """What tells an argument from others: all else belongs to the one program."""
    if isinstance(value, list):
        return tuple(value)
    if isinstance(value, set):
        return frozenset(value)
    return value if isinstance(value, int) else None


def remember(module, name, given_out=lambda result: result):
    """A function of a module gives its first result again for the same arguments."""
    function = getattr(module, name)
    known = {}

    def again(*given, **named):
        key = tuple(map(key_of, given)), tuple((word, key_of(value))
                                               for word, value in sorted(named.items()))
        if key not in known:
            known[key] = function(*given, **named)
        return given_out(known[key])
    setattr(module, name, again)
    return function


def set_all(changes):
    """Sets names of `companion`, and gives what they were."""
    before = {}
    for name, value in changes.items():
        first, *path, last = name.split(".")
        holder = importlib.import_module("companion.why." + first)
        for part in path:
            holder = getattr(holder, part)
        before[name] = getattr(holder, last)
        setattr(holder, last, value)
    return before


def analysed(asked, program):
    return analysis.analysis_of(asked, "",
                                facts.asked_byte(program.wrong) if program.wrong else None)


def place(found, program):
    """The guilty line's place among the suspects, behind a deadlock's sentence, or 0."""
    lines = report.suspect_lines(found, report.MORE_SUSPECTS)
    said = [f"  {line}\n" for line in lines]
    deadlock = [f"  {line}\n" for line in deadlock_lines(found)]
    return rank_of(program.guilty, "".join([*deadlock, "SUSPECTS\n", *said, "END"]))


def is_fact(found, program):
    """Whether a fact names the guilty line."""
    said = report.head_lines(found) + deadlock_lines(found) + MemoryErrors(found).lines()
    return re.search(re.escape(program.guilty) + r"(?!\d)", "\n".join(said)) is not None


def tried(given):
    """A program's name, {rule: the guilty line's place}, and whether a fact names it. What no rule
    changes is done once."""
    name, rules = given
    program = crashes()[name]
    for module, word in PURE:
        remember(module, word)
    for module, word in FINDERS:
        remember(module, word, copy.deepcopy)
    with opened(record(name, program.elf, *program.options), program.elf) as asked:
        return name, *without(asked, program, rules)


def without(asked, program, rules):
    searches = [(module, word, remember(module, word), getattr(module, word))
                for module, word in SEARCHES]
    first = analysed(asked, program)
    said = "\n".join(word for item in first.suspects
                     for word in item.why + [extra.words for extra in item.extra])
    got = dict.fromkeys(rules, place(first, program))
    named = is_fact(first, program)
    analysis.read_trace = lambda *_given, **_named: first.trace
    first.races.read = nothing
    analysis.Races = lambda *_given: first.races
    History.lines = nothing
    for rule, (words, changes) in ((rule, RULES[rule]) for rule in rules):
        if changes and words in said:
            before = set_all(changes)
            is_searched = any(word.startswith("history") for word in changes)
            for module, word, new, known in searches:
                setattr(module, word, new if is_searched else known)
            got[rule] = place(analysed(asked, program), program)
            set_all(before)
    return got, named


def main(words):
    rules = [ALL] + [rule for rule in RULES
                     if rule != ALL and (not words or rule.startswith(tuple(words)))]
    programs = crashes()
    with multiprocessing.Pool(AT_ONCE, maxtasksperchild=1) as pool:
        tries = list(pool.imap_unordered(tried, [(name, rules) for name in programs], 1))
    found = {name: places for name, places, _ in tries}
    named = {name for name, _, is_named in tries if is_named}
    groups = list(dict.fromkeys(program.group for program in programs.values()))
    print("| without | all | %s | |" % " | ".join(groups))
    good = {rule: {name for name in found if 0 < found[name][rule] <= FIRST} for rule in rules}

    def told(sign, names):
        return [f"({sign}{name})" if name in named else sign + name for name in sorted(names)]
    for rule in rules:
        shares = [sum(programs[name].group == group for name in good[rule]) for group in groups]
        changed = told("-", good[ALL] - good[rule]) + told("+", good[rule] - good[ALL])
        print("| %s | %d | %s | %s |" % (rule, len(good[rule]),
                                         " | ".join(map(str, shares)), " ".join(changed)))
    print("By a fact %d: %s" % (len(named), " ".join(sorted(named))))
    print("By either %d" % len(good[ALL] | named))


if __name__ == "__main__":
    main(sys.argv[1:])

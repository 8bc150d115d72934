"""Branches as suspects: the one before which a value was chosen, and the one that would have ended
a loop."""
from __future__ import annotations

from collections import Counter
from typing import NamedTuple

from ..call.text import number
from .facts import Facts
from .history import History
from .loops import codes_of, operands_of, pairs_of, code_times
from .lost import cut_behind
from .suspect import Extra, Suspect

# What a sign is worth, in steps of a history along values (an address is 12)
EQUAL = 10                  # bounds that are the same are seldom compared by `<` on purpose
CUT = 8                     # a value that lost bits: less, since hashes lose them on purpose
USUAL = 2                   # less, if it went its usual way: weak, as a bad value goes it, too
USUAL_ROWS = 20             # so often that one in twenty would be seen
ENTRY = 12                  # less: the code that sets up a hart is right in all other runs
MOST = 40                   # branches that are looked at: twelve suspects are told at most
ORDERS = "blt", "bge"
BEFORE = {"control": "before", "kept": "so this kept its value in",
          "spared": "so a word beside what it compared kept its value in",
          "awaited": "so this goes on waiting in"}


def branch_suspects(facts: Facts, history: History, ways: Ways) -> list[Suspect]:
    """The nearest branches that decided of the history's rows, one of each source line."""
    found: dict[str, Suspect] = {}
    for row in sorted(history.branches, key=lambda n: (history.branches[n].cost, -n))[:MOST]:
        line = facts.line(row)
        decided = history.branches[row]
        if row in facts.starts:
            continue
        if line in found:
            found[line].rows += 1
            continue
        suspect = found[line] = Suspect("branch", row, row, decided.cost)
        judge_values(facts, suspect)
        way = ways.of(row)
        if decided.how == "awaited":            # it left its loop, wherever that continues
            way = way._replace(is_back=False)
        judge_way(suspect, way)
        if suspect.shown:
            add_stored(facts, suspect)
        if way.all_times == 1 and not facts.calls.node_of(row) and not facts.rows.is_cut(row):
            suspect.sign(-ENTRY, "it ran once, before any call")
        suspect.extra.append(Extra(BEFORE[decided.how], decided.row))
    return list(found.values())


def judge_values(facts: Facts, suspect: Suspect) -> None:
    rows = facts.rows
    row = suspect.guilty
    writers = facts.writers
    one = rows.result_of(writers.first[row]) if rows.code_of(row).rs1 else 0
    other = rows.result_of(writers.second[row]) if rows.code_of(row).rs2 else 0
    if one is not None and other is not None:
        words = f"it compared {one:08x} with {other:08x}"
        if one == other and rows.code_of(row).name.startswith(ORDERS):
            suspect.sign(EQUAL, words + ", which are the same")
        else:
            suspect.why.append(words)
    cut = cut_behind(facts.trace, writers.first[row]) or cut_behind(facts.trace,
                                                                    writers.second[row])
    if cut:
        suspect.sign(CUT, "one of them comes from a part of a value")
        suspect.extra.append(Extra(cut.words + " in", cut.row))


def add_stored(facts: Facts, suspect: Suspect) -> None:
    """Tells who stored a word that a branch compared as it was loaded, if it was another line."""
    for operand in operands_of(facts.trace, suspect.guilty):
        if (operand.store and operand.load == operand.row
                and not facts.rows.is_spill(operand.load, operand.store)):
            told = {facts.line(n)
                    for n in [suspect.guilty] + [extra.row for extra in suspect.extra]}
            if facts.line(operand.store) not in told:
                suspect.extra.append(Extra("a value that it compared was stored in", operand.store))


class BranchWay(NamedTuple):
    """How often a branch went as it did in a row, how often it ran, and whether that way leads
    back."""
    times: int
    all_times: int
    is_back: bool


def judge_way(suspect: Suspect, way: BranchWay) -> None:
    if way.is_back:
        suspect.shown = bool(suspect.extra)
    elif way.all_times >= USUAL_ROWS and way.times * 10 >= way.all_times * 9:
        suspect.sign(-USUAL,
                     f"it went this way {number(way.times)} of {number(way.all_times)} times")


class Ways:
    """How often each branch went each way."""

    def __init__(self, facts: Facts) -> None:
        self.rows = facts.rows
        self.times: Counter[tuple[int, int]] = Counter()
        for loop in facts.loops:
            self.times.update(loop.pairs + pairs_of(loop.codes[:loop.begin + 1]))
        for hart in set(self.rows.last) - {loop.hart for loop in facts.loops}:
            self.times.update(pairs_of(codes_of(self.rows, hart)))
        self.all_times = code_times(self.times)

    def of(self, row: int) -> BranchWay:
        rows = self.rows
        n = self.rows.following(row)
        if not n:
            return BranchWay(0, 0, False)
        at = rows.code[row]
        return BranchWay(self.times[at, rows.code[n]], self.all_times[at],
                         rows.code_of(n).pc < rows.code_of(row).pc)

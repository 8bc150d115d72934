"""The groups of races, by the program's own list of them."""
from __future__ import annotations

import random
from typing import Any, Dict, List, NamedTuple, Set, Tuple

from .asking import Asked
from .machine import Row, lines_of

MOST = 20000  # pairs
NEAR = 3  # instructions between an access and its fence
FENCE = 0x0f  # the opcode
Places = Tuple[str, ...]


class Pair(NamedTuple):
    one: Row
    other: Row
    word: int


def pairs_of(asked: Asked) -> List[Pair]:
    found = []
    for line in lines_of(asked.environment["ZELKUMA_PROGRAM"], "races", asked.recorded.log,
                         asked.recorded.elf, str(MOST)):
        words = line.split(" ")
        if words[0] == "race":
            one, other = (asked.machine.at.get((int(words[at]), int(words[at + 1])), -1)
                          for at in (1, 3))
            if one >= 0 and other >= 0:
                found.append(Pair(asked.machine.rows[one],
                                  asked.machine.rows[other], int(words[5], 16)))
    return found


def did(row: Row) -> str:
    if row.code.name == "ecall":
        return "makes a system call"
    if row.load and row.store:
        return "updates"
    return "stores" if row.store else "loads"


def ask_race(asked: Asked, _draw: random.Random) -> None:
    if asked.recorded.harts == 1:
        return
    told = asked.json("race")
    if told is None:
        return
    true = pairs_of(asked)
    asked.program.fetch({row.code.pc for pair in true for row in pair[:2]})
    if not asked.same("race: pairs", [], told["pairs"], len(true)):
        return
    asked.same("race: pairs of all groups", [],
               sum(group["pairs"] for group in told["groups"]), len(true))
    sizes: Dict[Places, int] = {}
    # (a word's pairs are in two groups if fences stand around some of them)
    words: Dict[Places, Set[int]] = {}
    for group in told["groups"]:
        ask_group(asked, group, true)
        places = places_of(asked, group)
        sizes[places] = sizes.get(places, 0) + group["pairs"]
        words.setdefault(places, set()).update(int(word, 16) for word in group["words"])
    for places, size in sizes.items():
        alike = [pair for pair in true if pair.word in words[places]
                 and tuple(sorted(text_of(asked, row) for row in pair[:2])) == places]
        asked.same("race: pairs of the same places", [], (places, size), (places, len(alike)))


def places_of(asked: Asked, group: Dict[str, Any]) -> Tuple[str, ...]:
    rows = [asked.machine.rows[asked.machine.at[end["hart"], end["count"]]]
            for end in (group["one"], group["other"])]
    return tuple(sorted(text_of(asked, row) for row in rows))


def text_of(asked: Asked, row: Row) -> str:
    places = asked.program.places(row.code.pc)
    return places[0].text() if places else f"{row.code.pc:08x}"


def ask_group(asked: Asked, group: Dict[str, Any], true: List[Pair]) -> None:
    """Its pair is a race, and what both rows did is so."""
    ends = group["one"], group["other"]
    keys = [(end["hart"], end["count"]) for end in ends]
    found = [pair
             for pair in true if sorted(keys) == sorted((row.hart, row.ic) for row in pair[:2])]
    asked.same("race: its pair", [], (keys, bool(found)), (keys, True))
    if not found:
        return
    rows = [asked.machine.rows[asked.machine.at[end["hart"], end["count"]]] for end in ends]
    ask_judged(asked, group, rows)
    for end, row in zip(ends, rows):
        asked.same("race: row", [], end["row"], row.text)
        asked.same("race: place", [], end["place"], asked.place(row.code.pc))
        if "did" in end:
            asked.same("race: did", [], (end["row"], end["did"]), (row.text, did(row)))


def ask_judged(asked: Asked, group: Dict[str, Any], rows: List[Row]) -> None:
    """What is said of a group beside its pair."""
    if group["kind"] == "fenced":
        for row in rows:
            asked.same("race: beside a fence", [],
                       (row.text, stands_beside_fence(asked, row)), (row.text, True))
    if "in the function that faulted" in group["judged"]:
        faulted = {place.function for row in asked.machine.rows if row.fault
                   for place in asked.program.places(row.code.pc)}
        mine = {place.function for row in rows for place in asked.program.places(row.code.pc)}
        asked.same("race: in the function that faulted", [],
                   (group["judged"], bool(faulted & mine)), (group["judged"], True))


def stands_beside_fence(asked: Asked, row: Row) -> bool:
    """An atomic, a load with a fence behind it, or a store with one before."""
    step = -4 if row.store else 4
    words = [asked.machine.image.word(row.code.pc + step * distance)
             for distance in range(1, NEAR + 1)]
    return row.code.name.startswith(("amo", "lr", "sc")) or any(word & 127 == FENCE
                                                                for word in words)

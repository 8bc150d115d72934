"""Races that are known, and not told: a file names their words and places."""
from __future__ import annotations

import re
from itertools import permutations
from typing import List, NamedTuple, Pattern, Sequence

from ..call.errors import REFUSED, CompanionError
from ..call.files import check_regular
from ..recording.places import Frame
from ..recording.races import RaceGroup, Races

MOST_LINES = 10000          # each is compared with each group of races
LONGEST = 200               # letters
MOST_STARS = 4              # each multiplies the ways in which a pattern can be tried
AND = " and "


class Ignored(NamedTuple):
    """patterns  of each line one or two: of a word or a place, or of both places"""
    patterns: List[List[Pattern[str]]]

    @classmethod
    def of(cls, name: str) -> Ignored:
        """What a file says. CompanionError if a line isn't of its form."""
        if not name:
            return cls([])
        check_regular(name)
        with open(name, encoding="utf-8", errors="surrogateescape") as file:
            lines = [line.partition("#")[0].strip()
                     for line in file.readlines(MOST_LINES * LONGEST)]
        wrong = next((at for at, line in enumerate(lines, 1) if line.count(AND) > 1
                      or line.count("*") > MOST_STARS or len(line) > LONGEST), 0)
        if wrong or len(lines) > MOST_LINES:
            raise CompanionError(f"{name}:{wrong or MOST_LINES}: a line of --ignore names a word, "
                                 f"a place, or two places with \"{AND}\" between them, "
                                 f"in at most {LONGEST} letters with {MOST_STARS} *; "
                                 f"there are at most {MOST_LINES} lines", REFUSED)
        return cls([[re.compile(re.escape(name).replace(r"\*", ".*")) for name in line.split(AND)]
                    for line in lines if line])

    def fits(self, races: Races, group: RaceGroup) -> bool:
        """Whether a line names the word of a group, one of its places, or both."""
        if not self.patterns:
            return False
        holder = races.named.object_at(group.word)
        words = [f"{group.word:08x}", races.members.name(group.word), holder.name if holder else ""]
        places = [names_of(races.places.innermost(access.pc)) for access in group.first[0]]
        return any(is_one(found, words, places) for found in self.patterns)


def names_of(frame: Frame) -> List[str]:
    """The ways in which a place can be named."""
    line = f"{frame.file}:{frame.line}"
    return [frame.function, line, f"{frame.function} {line}"]


def is_one(patterns: Sequence[Pattern[str]], words: Sequence[str],
           places: Sequence[Sequence[str]]) -> bool:
    def fits(pattern: Pattern[str], names: Sequence[str]) -> bool:
        return any(name and pattern.fullmatch(name) for name in names)

    if len(patterns) == 1:
        return any(fits(patterns[0], names) for names in (words, *places))
    return any(all(map(fits, patterns, order)) for order in permutations(places))

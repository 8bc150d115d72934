"""Groups the races of a log."""
from __future__ import annotations

from typing import Any, Callable, List, Optional

from ..call import streams
from ..call.errors import FOUND, CompanionError
from ..call.help import Help
from ..call.options import read_words, whole
from ..call.text import counted, number
from ..recording.answers import LONGEST, place_of, put_answer
from ..recording.elf import Symbol
from ..recording.log import At
from ..recording.opened import opened
from ..recording.races import FENCED, ORDERED, TOO_MANY, AccessPair, RaceGroup, Races, RacingAccess
from ..recording.recent import FIRST_ROWS, LogFile
from ..recording.story import STORY_HEAD, Teller, asked_story
from ..recording.trace import Trace, read_trace
from .history import History
from .ignored import Ignored

HELP = Help(
    "race LOG ELF [--names ELF] [--source DIR] [--max N] [--ignore FILE] [--book BOOK] "
    "[--input FILE] [--more] [--json] [--fail]",
    "races, grouped by the two places and the word",
    """Groups the races of a log by the two places and the word, the likeliest cause of its fault
first. Words of one object with the same places, as an array's, are told together.""", {
        "--max": "how many pairs are asked for at most, 1 to 1000000; without it 200000",
        "--ignore": "leaves out what a file names, a line each: an object or a word (counter, "
                    "00011450), a function (drop), a line (queue.c:12), or two places with \" and "
                    "\" between them; * is any letters, and # begins a comment",
        "--more": "tells all groups; without it the first twelve",
        "--fail": "the status is 23 if a group is left that no fences order",
    },
    """First come groups on the chain of values behind the fault, then those in the function that
faulted, then the others. Behind them come groups that fences order, if they are meant so. Last come
the fenced accesses themselves: loads and stores beside a `fence`, as GCC writes acquire and
release. That order and the grouping are this command's own judgement. The exact list is that of
`zelkuma races`: pairs of accesses that no atomic instruction orders.""")
FAR = 1 << 20                                # what a row costs that isn't on the chain
MOST = 200000                                # lines of `races`, if --max doesn't say so
GROUPS_TOLD = 12                             # a screen; --more tells all
BRIEF_TOLD = 6                               # of each of the families behind the first
KINDS = ("", ORDERED, FENCED)                # in the order in which groups are told
ON_CHAIN, CHAIN_WORD, IN_FAULT, OTHER = range(4)
HEADS = {ORDERED: "ORDERED BY FENCES: "
         "these pairs are ordered if the fenced accesses below are meant as acquire and release",
         FENCED: "FENCED: both accesses stand beside a fence, as GCC writes acquire and release"}
Beside = Callable[[RacingAccess], List[str]]        # what is told beside a row
RANK_WORDS = {ON_CHAIN: "on the chain of values behind the fault",
              CHAIN_WORD: "touches a word of that chain",
              IN_FAULT: "in the function that faulted", OTHER: ""}


class Judged:
    """The groups of a log in the order in which they are told, and why each has its place.

    A family is the groups of one object's words that have the same places. It is told as one
    group."""

    def __init__(self, races: Races, trace: Optional[Trace] = None,
                 history: Optional[History] = None, ignored: Ignored = Ignored([])) -> None:
        """`history` is of the rows behind the fault, or None if no hart faulted."""
        self.races = races
        self.rows = trace and trace.rows
        self.chain: dict[int, int] = {}
        self.fault_function = ""
        if trace and history:
            self.chain = {row: cost
                          for row, cost in history.cost.items() if row not in history.decided}
            self.fault_function = races.places.function(trace.rows.code_of(history.start).pc)
        self.costs: list[Optional[int]] = [None] * len(races.groups)
        self.words: dict[int, int] = {}
        self.follow_chain()
        self.groups = sorted((group for group in races.groups if not ignored.fits(races, group)),
                             key=self.key)
        self.left_out = len(races.groups) - len(self.groups)

    def follow_chain(self) -> None:
        """The least cost of a pair with a row on the chain, for each group and each word."""
        if not self.chain:
            return
        for hart, count, other, other_count, at, _ in zip(*self.races.pairs):
            cost = self.cost(At(hart, count)) + self.cost(At(other, other_count))
            if cost < 2 * FAR:
                word = self.races.groups[at].word
                least = self.costs[at]
                self.costs[at] = cost if least is None else min(cost, least)
                self.words[word] = min(cost, self.words.get(word, cost))

    def cost(self, access: At) -> int:
        """How far a row is from the fault. A pair with both rows on the chain comes before one with
        one: there the load got what the other access stored."""
        return (self.chain.get(self.rows.row_of(access.hart, access.count), FAR) if self.rows
                else FAR)

    def rank(self, group: RaceGroup) -> int:
        if self.costs[group.number] is not None:
            return ON_CHAIN
        if group.word in self.words:
            return CHAIN_WORD
        functions = {self.races.places.function(access.pc) for access in group.first[0]}
        return IN_FAULT if self.fault_function in functions else OTHER

    def key(self, group: RaceGroup) -> tuple[int, ...]:
        cost = self.costs[group.number]
        return (KINDS.index(group.kind), self.rank(group), 0 if cost is None else cost,
                self.words.get(group.word, 0), -group.pairs, group.number)

    def pair(self, group: RaceGroup) -> AccessPair:
        """The pair that tells most of a group: of those that are kept the one nearest to the fault
        on its chain."""
        if not self.chain:
            return group.first[0]
        return min(group.first, key=lambda pair: sum(self.cost(access.at()) for access in pair))

    @property
    def is_finding(self) -> bool:
        """Whether a group is left that no fences order."""
        return any(not group.kind for group in self.groups)

    def families(self) -> list[list[RaceGroup]]:
        found: dict[tuple[str, Symbol | int, str, str], list[RaceGroup]] = {}
        for group in self.groups:
            holder = self.races.named.object_at(group.word) or group.word
            found.setdefault((group.kind, holder, group.places[0], group.places[1]),
                             []).append(group)
        return list(found.values())

    def reason(self, group: RaceGroup) -> str:
        return ", ".join(word for word in (RANK_WORDS[self.rank(group)], group.kind) if word)


def family_lines(races: Races, family: list[RaceGroup], place: int, judged: Judged,
                 beside: Beside) -> list[str]:
    """A family with a pair of its first group, and what is told beside the later access."""
    reason = judged.reason(family[0])
    said = [f"{place:2}. {counted(race_pairs(family), 'pair')} on "
            f"{family_word(races, family)}{f'   ({reason})' if reason else ''}"]
    pair = judged.pair(family[0])
    for access in pair:
        source = races.places.source(access.pc)
        said.append(f"      hart {access.hart} {access.verb()} in {races.places.where(access.pc)}"
                    f"{'   ' + source if source else ''}")
        said.append("        " + access.row)
    return said + ["        " + line for line in beside(pair[1])]


def race_pairs(family: list[RaceGroup]) -> int:
    return sum(group.pairs for group in family)


def family_word(races: Races, family: list[RaceGroup]) -> str:
    """NAME+OFFSET (ADDRESS) of the first word, and how many more there are."""
    word = family[0].word
    name = races.members.name(word)
    said = f"{name} ({word:08x})" if name else f"{word:08x}"
    return said + (f" and {counted(len(family) - 1, 'more word')}" if len(family) > 1 else "")


def brief_line(races: Races, family: list[RaceGroup]) -> str:
    one, other = family[0].places
    return (f"    {number(race_pairs(family)):>7}  {family_word(races, family):<28} {one}  "
            f"and  {other}")


def race_report(races: Races, judged: Judged, more: bool, beside: Beside) -> list[str]:
    families: dict[str, list[list[RaceGroup]]] = {kind: [] for kind in KINDS}
    for family in judged.families():
        families[family[0].kind].append(family)
    total = sum(map(len, families.values()))
    lines = [f"RACES: {counted(races.total, 'pair')} in {counted(total, 'group')}. "
             "Grouping and order are this command's own judgement; zelkuma races lists each."]
    for kind, found in families.items():
        most = BRIEF_TOLD if kind else GROUPS_TOLD
        told = found if more else found[:most]
        if kind and found:
            lines.append(f"{HEADS[kind]} ({counted(sum(map(race_pairs, found)), 'pair')})")
        elif total and not kind and not found:
            lines.append("  none but those below")
        for place, family in enumerate(told, 1):
            lines += ([brief_line(races, family)] if kind
                      else family_lines(races, family, place, judged, beside))
        if len(told) < len(found):
            lines.append(f"    .. {counted(len(found) - len(told), 'more group')} (--more) ..")
    ignored = ([f"left out: {counted(judged.left_out, 'group')} that --ignore names"]
               if judged.left_out else [])
    return lines + ignored + races.places.trouble()


def judge(source: LogFile, elf_name: str, races: Races, ignored: Ignored) -> Judged:
    """The groups in order; if a hart faulted, the chain behind its fault is followed in the last
    rows."""
    log = source.end(FIRST_ROWS) if races.groups else None
    if not log or not log.faulted:
        return Judged(races, ignored=ignored)
    trace = read_trace(log, elf_name, most=2 * FIRST_ROWS)
    fault = trace.rows.fault
    with streams.working("what is behind the fault is looked for"):
        return Judged(races, trace, History(trace, [fault.row]) if fault else None, ignored)


def family_answer(races: Races, judged: Judged, family: list[RaceGroup]) -> dict[str, Any]:
    one, other = judged.pair(family[0])
    return {"pairs": race_pairs(family),
            "words": [f"{group.word:08x}" for group in family[:LONGEST]],
            "name": family_word(races, family), "kind": family[0].kind,
            "judged": judged.reason(family[0]), "one": access_answer(races, one),
            "other": access_answer(races, other)}


def access_answer(races: Races, access: RacingAccess) -> dict[str, Any]:
    return {"hart": access.hart, "count": access.count, "did": access.verb(), "row": access.row,
            "place": place_of(races.places, access.pc)}


def main(words: list[str]) -> int:
    (log_name, elf_name), given = read_words(words, HELP.form)
    most = whole(given.get("--max", str(MOST)), 1, 1000000, "--max")
    ignored = Ignored.of(given.get("--ignore", ""))
    with opened(log_name, elf_name, given) as found:
        source = found.source
        races = Races(found.named, found.places).read(source.head.harts, log_name, elf_name, most)
        if races.over:
            raise CompanionError(f"races: more than {most} pairs; --max takes up to 1000000",
                                 TOO_MANY)
        judged = judge(source, elf_name, races, ignored)
        teller = Teller(found.named, races.places)
        story = asked_story(given, source.end(FIRST_ROWS), elf_name) if "--book" in given else None
        if "--json" in given:
            groups = [family_answer(races, judged, family) for family in judged.families()]
            put_answer("race", pairs=races.total, groups=groups, ignored=judged.left_out,
                       book=teller.story_answer(story))
        else:
            def beside(access: RacingAccess) -> list[str]:
                return found.ready(access.hart, access.count)
            told = [STORY_HEAD] + ["  " + line for line in teller.story(story)] if story else []
            streams.put("\n".join(told + race_report(races, judged, "--more" in given, beside))
                        + "\n")
    return FOUND if "--fail" in given and judged.is_finding else 0

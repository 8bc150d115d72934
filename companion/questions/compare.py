"""Compares two logs of one program: which hart went another way first, and what it had loaded."""
from __future__ import annotations

import contextlib
from dataclasses import dataclass, field
from typing import Any, Dict, Iterable, Iterator, List, Mapping, NamedTuple, Optional

from ..call.errors import NO_INTERVAL, CompanionError
from ..call.help import Help
from ..call.options import read_words, whole
from ..call.text import counted, number
from ..recording.answers import place_of, put_found
from ..recording.chunks import row_at, rows_between
from ..recording.cut import PC, cut, told_in
from ..recording.inputs import Numbers, input_text
from ..recording.instruction import NAMES, Instruction
from ..recording.log import SystemCall
from ..recording.opened import HIGHEST
from .reading import Asked, asked_of
from .types import words_type
from .variables import Variable
from .waiting import Loops
from .ways import Lane
from .words import Words

HELP = Help(
    "compare GOOD BAD ELF [--names ELF] [--source DIR] [--rows N] [--json]",
    "the first branch at which two logs of a program differ",
    """Compares two logs of one program, as of two seeds or two inputs. Of each hart it tells the
first branch that went another way though all was the same before, the load behind it, and who had
stored that word in each run.""",
    {"--rows": "how many of the first rows of each log are read; without it 15 million"},
    """What a hart does while it waits, in a loop that loads but stores and counts nothing, is no
difference. Harts come in the order in which they parted in BAD. A log that has lost its beginning
can't be compared.""")
MOST_ROWS = 15000000    # of each run: 4 bytes each in arrays
LOOKED_BACK = 4000      # rows that both runs did, back from where they part
READ_BACK = 500         # rows before one that are read with it: the next that is asked for is there
MOST_FRAMES = 3         # callers in a line
# How what a load did begins
LOADED = "load "


@dataclass(frozen=True)
class ComparedRow:
    """A row of a run, its instruction, and what it did."""
    count: int
    text: str
    code: Instruction
    told: List[str]

    def tells(self, begin: str) -> str:
        """What it did that begins so, or nothing."""
        return next((each for each in self.told if each.startswith(begin)), "")


@dataclass
class ComparedRun:
    """A log, and the rows of harts that were asked for."""
    asked: Asked
    known: Dict[int, Dict[int, ComparedRow]] = field(default_factory=dict)

    def reason(self, hart: int) -> str:
        end = self.asked.log.ends.get(hart)
        return end.reason if end else "stopped"

    def end(self, hart: int) -> str:
        end = self.asked.log.ends[hart]
        return f"{end.reason} {end.value:08x} at count {number(end.count)}"

    def brought(self, call: Optional[SystemCall], loaded: Variable) -> Numbers:
        """The bytes of the input that a `read` call put into what was loaded."""
        if not call:
            return []
        first = max(call.address, loaded.address)
        end = min(call.address + call.size, loaded.end)
        return self.asked.log.input_bytes(call.hart, call.count, first - call.address,
                                          end - call.address)

    def row(self, hart: int, count: int) -> Optional[ComparedRow]:
        """A row; those before it and the next one are read with it."""
        rows = self.known.setdefault(hart, {})
        if count not in rows and count >= 0:
            for text in rows_between(self.asked.log, self.asked.elf.name, hart,
                                     max(0, count - READ_BACK), count + 2):
                for row in text[1:].split(b"\n"):
                    _, at, key, _ = cut(row)
                    said = row.decode("ascii", "replace")
                    rows[at] = ComparedRow(at, said, Instruction(0, key), told_in(said))
        return rows.get(count)


@dataclass
class Parting:
    """The branch at which a hart went another way: its last row in each run that is the same, and
    the first that isn't, if it has one. `loads` are the loads behind it, and `givers` the rows that
    had stored what they got; `inputs` are bytes of the input among it, if those were `read` calls.
    `place` is that of the row in the order of BAD."""
    lane: Lane
    same: list[ComparedRow]
    other: list[Optional[ComparedRow]]
    loads: list[Optional[ComparedRow]]
    givers: list[str] = field(default_factory=lambda: ["", ""])
    inputs: list[Numbers] = field(default_factory=lambda: [[], []])
    place: int = 0

    @property
    def hart(self) -> int:
        return self.lane.hart


def lanes_of(runs: list[ComparedRun], most: int) -> tuple[list[Lane], bool]:
    """The harts, compared up to so many rows of each run, and whether that left some out.
    Beginnings that are the same text are passed by."""
    loops = Loops(runs[0].asked.elf)
    lanes = [Lane(hart, loops) for hart in range(max(run.asked.log.harts for run in runs))]
    texts = [run.asked.chunks() for run in runs]
    rows = [0, 0]
    now = [next(each, b"") for each in texts]
    while now[0] and now[0] == now[1] and max(rows) < most:
        for lane in lanes:
            lane.good.pass_by(now[0])
            lane.bad.pass_by(now[0])
        rows = [rows[0] + now[0].count(b"\n")] * 2
        now = [next(each, b"") for each in texts]
    while any(now) and not all(lane.is_over for lane in lanes) and max(rows) < most:
        at = 0 if now[0] and (rows[0] <= rows[1] or not now[1]) else 1
        for lane in lanes:
            if not lane.is_over:
                (lane.bad if at else lane.good).add(now[at])
                lane.advance()
        rows[at] += now[at].count(b"\n")
        now[at] = next(texts[at], b"")
    is_cut = any(now) and not all(lane.is_over for lane in lanes)
    for lane in lanes:
        for way, run in zip((lane.good, lane.bad), runs):
            way.ended = not is_cut
            way.stopped = run.reason(lane.hart) in ("stopped", "limit")
        lane.advance()
    return lanes, is_cut


def has_parted(lane: Lane, runs: list[ComparedRun]) -> bool:
    """Whether a hart went another way. One that another hart or the limit has stopped did not, but
    for one that waited until then."""
    for way, run in zip((lane.good, lane.bad), runs):
        if lane.parted and not way.pcs:
            return run.reason(lane.hart) == "limit" if lane.waits else not way.stopped
    return lane.parted


def parting_of(runs: list[ComparedRun], lane: Lane) -> Optional[Parting]:
    if not has_parted(lane, runs):
        return None
    ways = lane.good, lane.bad
    same = [run.row(lane.hart, way.first - 1) for run, way in zip(runs, ways)]
    if not same[0] or not same[1]:
        return None
    other = [run.row(lane.hart, way.first) if way.pcs else None for run, way in zip(runs, ways)]
    return Parting(lane, [same[0], same[1]], other, loads_behind(runs, lane, same[0].code))


def loads_behind(runs: list[ComparedRun], lane: Lane,
                 branch: Instruction) -> list[Optional[ComparedRow]]:
    """The latest loads, in both runs the same instruction, that gave what a branch compared, and
    got different values."""
    wanted = {branch.rs1, branch.rs2} - {0}
    for one, other in rows_back(runs, lane):
        if one.code.rd not in wanted:
            continue
        wanted.discard(one.code.rd)
        if result_of(one) == result_of(other):
            continue
        if one.tells(LOADED) and other.tells(LOADED):
            return [one, other]
        wanted |= {one.code.rs1, one.code.rs2} - {0}
    return [None, None]


def rows_back(runs: list[ComparedRun], lane: Lane) -> Iterator[tuple[ComparedRow, ComparedRow]]:
    """The rows that are the same in both runs, backwards from the last but one. What one of them
    waited longer is left out."""
    good = lane.good.first - 2
    bad = lane.bad.first - 2
    skips = list(lane.skips)
    for _ in range(LOOKED_BACK):
        one = runs[0].row(lane.hart, good)
        other = runs[1].row(lane.hart, bad)
        if not one or not other:
            return
        if one.code.pc == other.code.pc:
            yield one, other
            good -= 1
            bad -= 1
        elif skips:
            skip = skips.pop()
            good, bad = ((good, good - skip.good + skip.bad) if skip.is_bad
                         else (bad - skip.bad + skip.good, bad))
        else:
            return


class StoreSearch:
    """Looks in the order of a run for the row that had stored what was loaded, and for the place at
    which a hart parted."""

    def __init__(self, run: ComparedRun, found: Parting, at: int) -> None:
        self.run = run
        self.found = found
        self.at = at
        load = found.loads[at]
        row = found.same[at]
        self.branch = b"\n%d %d " % (found.hart, row.count)
        self.load = b"\n%d %d " % (found.hart, load.count) if load else b""
        self.words = Words(run.asked, loaded_bytes(load)) if load else None

    def take(self, text: bytes, rows: int) -> bool:
        """Whether it has to look further than a chunk, before which there are so many rows."""
        if self.words:
            end = text.find(self.load)
            for change in self.words.changes(text if end < 0 else text[:end]):
                self.found.givers[self.at] = row_at(text, change.place).decode("ascii", "replace")
                self.found.inputs[self.at] = self.run.brought(change.fill, self.words.variable)
            self.words = None if end >= 0 else self.words
        end = text.find(self.branch)
        self.found.place = rows + text.count(b"\n", 0, max(0, end))
        return end < 0


def find_givers(run: ComparedRun, at: int, partings: list[Parting]) -> None:
    rows = 0
    left = [StoreSearch(run, found, at) for found in partings]
    for text in run.asked.chunks() if left else ():
        left = [search for search in left if search.take(text, rows)]
        rows += text.count(b"\n")
        if not left:
            break


def result_of(row: ComparedRow) -> str:
    """What a row put into its register."""
    return row.tells(NAMES[row.code.rd] + "=")


def loaded_bytes(load: ComparedRow) -> Variable:
    """The bytes that a row loads."""
    return Variable("", int(load.tells(LOADED)[len(LOADED):][:8], 16), words_type(load.code.width))


def compared_lines(title: str, row: Optional[ComparedRow], run: ComparedRun,
                   found: Parting) -> list[str]:
    places = run.asked.places
    if row is None:
        return [f"    {title:<5} " + ("waits there until its limit" if found.lane.waits
                                      else f"ends with {run.end(found.hart)}")]
    return [f"    {title:<5} {places.chain([row.code.pc], MOST_FRAMES)}", f"          {row.text}"]


def parting_lines(found: Parting, runs: list[ComparedRun]) -> list[str]:
    places = runs[0].asked.places
    good, bad = found.same
    source = places.source(good.code.pc)
    lines = [f"hart {found.hart} went another way after count {number(good.count)} in GOOD, "
             f"{number(bad.count)} in BAD", "  behind "
             f"{places.chain([good.code.pc], MOST_FRAMES)}{'   ' + source if source else ''}"]
    for title, row, run in zip(("GOOD", "BAD"), found.other, runs):
        lines += compared_lines(title, row, run, found)
    if found.loads[0]:
        lines.append(f"  it had loaded, in {places.chain([found.loads[0].code.pc], MOST_FRAMES)}")
    for title, load, giver, brought in zip(("GOOD", "BAD"), found.loads, found.givers,
                                           found.inputs):
        if load:
            lines.append(f"    {title:<5} {load.text}")
            lines.append(f"          stored by {giver_text(giver, brought, runs[0])}")
    return lines


def giver_text(row: str, brought: Numbers, run: ComparedRun) -> str:
    if not row:
        return "no row: it is from the beginning"
    hart, count, key, _ = cut(row.encode())
    place = run.asked.places.chain([int(key[PC], 16)], MOST_FRAMES)
    did = f"a read call, {input_text(brought)}" if brought else told_in(row)[-1]
    return f"{hart.decode()}:{count} in {place}: {did}"


def ends(title: str, run: ComparedRun) -> list[str]:
    return [f"  {title:<5} " + "; ".join(f"hart {hart} {run.end(hart)}"
                                         for hart in sorted(run.asked.log.ends))]


class Compared(NamedTuple):
    """What is told of two runs. `is_cut`: whether later rows weren't compared."""
    runs: List[ComparedRun]
    partings: List[Parting]
    harts: int
    is_cut: bool

    def lines(self) -> list[str]:
        lines = [f"COMPARE: {counted(len(self.partings), 'hart')} of {self.harts} went another way"]
        for found in self.partings:
            lines += parting_lines(found, self.runs)
        lines += ["ENDS"] + ends("GOOD", self.runs[0]) + ends("BAD", self.runs[1])
        lines += (["  Only the first rows were compared; --rows N reads more."] if self.is_cut
                  else [])
        return lines + self.runs[0].asked.places.trouble()

    def answer(self) -> dict[str, Any]:
        return {"harts": self.harts,
                "parted": [parting_answer(found, self.runs) for found in self.partings],
                "is_cut": self.is_cut}


@contextlib.contextmanager
def compared(good: str, bad: str, elf_name: str, files: Mapping[str, str],
             most: int = MOST_ROWS) -> Iterator[Compared]:
    """Compares two logs up to so many rows of each. `files` are --names and --source."""
    with contextlib.ExitStack() as opened:
        both = [opened.enter_context(asked_of(log, elf_name, {**files, "--rows": str(HIGHEST)}))
                for log in (good, bad)]
        check_logs(both)
        runs = [ComparedRun(asked) for asked in both]
        lanes, is_cut = lanes_of(runs, most)
        partings = [found for found in (parting_of(runs, lane) for lane in lanes) if found]
        for at, run in enumerate(runs):
            find_givers(run, at, partings)
        yield Compared(runs, sorted(partings, key=lambda found: found.place), len(lanes), is_cut)


def parting_answer(found: Parting, runs: list[ComparedRun]) -> dict[str, Any]:
    def point(row: Optional[ComparedRow]) -> Optional[dict[str, Any]]:
        if row is None:
            return None
        return {"hart": found.hart, "count": row.count, "row": row.text,
                "place": place_of(runs[0].asked.places, row.code.pc)}
    return {"hart": found.hart, "same": list(map(point, found.same)),
            "other": list(map(point, found.other)), "loads": list(map(point, found.loads)),
            "givers": found.givers, "inputs": [list(each) for each in found.inputs],
            "waits": found.lane.waits}


def check_logs(runs: Iterable[Asked]) -> None:
    """CompanionError if a log has lost its beginning."""
    for asked in runs:
        if asked.log.unread or any(interval.start
                                   for interval in asked.log.first_intervals().values()):
            raise CompanionError(f"{asked.log.shown} has lost its beginning, "
                                 "so nothing tells if all was the same before", NO_INTERVAL)


def main(words: list[str]) -> int:
    (good, bad, elf_name), given = read_words(words, HELP.form)
    most = whole(given.get("--rows", str(MOST_ROWS)), 1, HIGHEST, "--rows")
    files = {option: given[option] for option in ("--names", "--source") if option in given}
    with compared(good, bad, elf_name, files, most) as found:
        put_found("compare", found, Compared.lines, Compared.answer, "--json" in given)
    return 0

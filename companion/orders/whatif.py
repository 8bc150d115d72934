"""Tells how a run would have ended if one row had been done otherwise."""
from __future__ import annotations

import os
import re
from dataclasses import dataclass
from itertools import combinations
from pathlib import Path
from typing import Any, Dict, Iterator, List, Mapping, NamedTuple, Optional, Sequence, Tuple

from ..call import streams
from ..call.errors import REFUSED, CompanionError
from ..call.files import check_regular
from ..call.help import Help
from ..call.options import read_words
from ..call.scratch import Scratch
from ..call.text import counted, number
from ..questions.core import state_of
from ..questions.find import searched_value
from ..questions.reading import Asked
from ..recording.answers import put_answer
from ..recording.book import DIFFERS, check_book
from ..recording.chunks import chunks, row_at, rows_between
from ..recording.cut import count_of, cut, pc_of
from ..recording.instruction import AMO, BRANCH, CALL, JUMP, NAMES, OP_AUIPC, SP, STORE, Instruction
from ..recording.log import At, Log, asked_row, is_fault, load_log, no_row
from ..recording.opened import Opened, opened
from ..recording.places import Places
from ..recording.turn_ends import turn_lines
from .patch import PLACE, Execution, NewCode, patched, unnamed_registers
from .record import ENDS, Quick, refusal
from .shrinking import memory_folder

HELP = Help(
    "whatif LOG ELF BOOK HART:IC --skip | --turn | --set VALUE [--input FILE] [--names ELF] "
    "[--json]",
    "how the run ends if one row is done otherwise",
    """Tells how a run would have ended if one row had been done otherwise.

    zelkuma whatif LOG heap.elf BOOK 0:33817 --skip

A copy of the program is recorded by BOOK's turns, in which this execution alone is done otherwise.
It has the same accesses to memory, so the order stays. That is checked: up to the row the accesses
of all harts have to be those of LOG. If not, it says UNSOUND, and the status is 16.

A run that ends well then shows that the row was needed for the crash, not that it is wrong.""", {
        "--skip": "its store isn't done",
        "--turn": "its branch goes the other way",
        "--set": "its register gets VALUE: a number, an address of eight digits, or a symbol",
        "--input": "what the run read, if it read a file",
    },
    """LOG has to hold its whole run, of no more than 4 million rows. Calls, jumps and atomics can't
be changed, nor can rows of a program whose code names all registers.""")
MOST_ROWS = 4000000         # both runs are held in arrays
LONGEST_INTERVAL = 10000000     # the highest that `record` takes: no interval ends a turn
MORE_ROWS = 64              # at most so many instructions take the place of one
MOST_TESTS = 3              # registers by which a hart is told from the others
ACCESS = re.compile(rb"(?:load|store) \w{8}=\w{8}")
END_COUNT = re.compile(rb"end \d+ \d+ (\d+) ")
ACTIONS = "--skip", "--turn", "--set"


class EndedRun(NamedTuple):
    """How a run ended: the fault or nothing, its hart and place, and the turns of that hart."""
    reason: str
    hart: int
    pc: int
    turns: int

    def line(self, places: Places) -> str:
        if not self.reason:
            return "it ends well"
        where = f" {places.where(self.pc)}" if self.pc else ""
        return f"{self.reason}{where}, hart {self.hart} after {counted(self.turns, 'turn')}"


@dataclass(frozen=True)
class Question:
    """The row that is asked of, what is done there, and how many executions of its code its hart
    has."""
    at: At
    done: Execution
    times: int


class ComparedRuns(NamedTuple):
    """Whether both runs are the same up to the row, and how many turns were compared."""
    is_sound: bool
    turns: int


def code_at(log: Log, elf_name: str, at: At) -> Instruction:
    for text in rows_between(log, elf_name, at.hart, at.count, at.count + 1):
        return Instruction(0, cut(row_at(text, 1)).key)
    raise no_row(log.name, at)


def executions(log: Log, elf_name: str, code: Instruction) -> Dict[int, List[int]]:
    """{hart: the counts at which it did some code}"""
    found: Dict[int, List[int]] = {}
    row = re.compile(rb"\n(\d+) (\d+) %08x " % code.pc)
    for text in chunks(log.name, elf_name, log=log):
        for hart, count in row.findall(text):
            found.setdefault(int(hart), []).append(int(count))
    return found


def check_action(code: Instruction, given: Mapping[str, str]) -> None:
    """Refuses what can't be done otherwise."""
    wanted = {"--skip": code.kind == STORE, "--turn": code.kind == BRANCH, "--set": bool(code.rd)
              and code.kind not in (BRANCH, JUMP, CALL, AMO, STORE) and code.word & 127 != OP_AUIPC}
    said = {"--skip": "a store", "--turn": "a branch", "--set": "a row that puts a value into a "
            "register, and is no jump, call, atomic or auipc"}
    for option in ACTIONS:
        if option in given and not wanted[option]:
            raise CompanionError(f"{option} is for {said[option]}, and the row is {code.text}",
                                 REFUSED)


def tests_of(asked: Asked, at: At, others: Sequence[At]) -> Tuple[Tuple[int, int], ...]:
    """Registers with the values by which a hart's execution is told from those of other harts: sp
    first, which mostly does."""
    if not others:
        return ()
    mine = state_of(asked, at.hart, at.count).registers
    theirs = [state_of(asked, each.hart, each.count).registers for each in others]
    order = [SP, *(each for each in range(1, 32) if each != SP)]
    for most in range(1, MOST_TESTS + 1):
        for some in combinations(order, most):
            if not any(all(its[each] == mine[each] for each in some) for its in theirs):
                return tuple((each, mine[each]) for each in some)
    raise CompanionError("no registers tell this execution from that of another hart", REFUSED)


def question_of(found: Opened, log: Log, at: At, given: Mapping[str, str]) -> Question:
    code = code_at(log, found.elf.name, at)
    check_action(code, given)
    value = searched_value(found.named, given["--set"]) if "--set" in given else None
    counts = executions(log, found.elf.name, code)
    number_of_it = counts[at.hart].index(at.count) + 1
    others = [At(hart, its[number_of_it - 1])
              for hart, its in counts.items() if hart != at.hart and len(its) >= number_of_it]
    tests = tests_of(Asked(log, found.elf, found.named, found.places), at, others)
    return Question(at, Execution(code, number_of_it, tests, value), len(counts[at.hart]))


def registers_for(log: Log, found: Opened) -> List[int]:
    """Registers that the program never names: the first counts, so it has to be 0 in the
    beginning."""
    free = unnamed_registers(found.elf)
    counters = [each for each in free
                if not any(one.registers[each] for one in log.first_intervals().values())]
    if not counters:
        raise CompanionError("the program's code names each register: none is free to count in",
                             REFUSED)
    return [counters[0], *(each for each in free if each != counters[0])]


def options_of(found: Opened, log: Log, times: int, source: str) -> Dict[str, str]:
    """The settings of LOG. What the new code takes more may neither end an interval nor come to the
    limit."""
    options = {**found.source.head.settings(), **({"--input": source} if source else {})}
    options["--limit"] = str(int(options["--limit"]) + MORE_ROWS * times)
    if log.harts == 1 or not any(interval.reason == "length" for interval in log.intervals):
        options["--interval"] = str(max(LONGEST_INTERVAL, log.length))
    return options


def record_changed(quick: Quick, data: bytes, options: Mapping[str, str],
                   book: str) -> Tuple[Log, str]:
    """A recording of a program by BOOK's turns, and the program's name."""
    elf, log, new_book, said, err = (os.path.join(quick.folder, name)
                                     for name in ("elf", "log", "book", "said", "err"))
    Path(elf).write_bytes(data)
    words = [f"{name}={value}" for name, value in options.items()]
    status = quick.start(said, err, "record", *words, "--", elf, log, new_book,
                         schedule=f"book:{book}").wait()
    if status not in ENDS:
        raise refusal(err, status)
    return load_log(log), elf


def is_end(line: bytes) -> bool:
    """Whether a turn ended with its interval, by no row of its own."""
    return line.startswith(b"end ")


def end_count(line: bytes) -> int:
    return int(END_COUNT.match(line)[1])                # type: ignore[index]


class Turns:
    """The lines with which the turns of each hart ended, in a log that has them all."""

    def __init__(self, log: Log, elf_name: str, turns: bytes) -> None:
        self.log = log
        self.turns = turns
        self.lines = {hart: turn_lines(log, elf_name, hart, turns.count(bytes([hart])))
                      for hart in range(log.harts)}

    def before(self, at: At) -> int:
        """How many turns of all harts ended before the one that a row is in."""
        done = sum(1 for line in self.lines[at.hart]
                   if (end_count(line) <= at.count if is_end(line) else count_of(line) < at.count))
        place = -1
        for _ in range(done + 1):
            place = self.turns.find(bytes([at.hart]), place + 1)
        return place

    def accesses(self, end: int) -> Iterator[List[Tuple[bytes, ...]]]:
        """Of each hart what its turns accessed, up to a turn of all harts'."""
        for hart, lines in self.lines.items():
            yield [tuple(ACCESS.findall(line))
                   for line in lines[:self.turns[:end].count(bytes([hart]))] if not is_end(line)]

    def taken(self, hart: int) -> int:
        """How many turns a hart took, but for those that ended with an interval: the new run has
        other intervals."""
        return sum(1 for line in self.lines[hart] if not is_end(line))

    def ended(self) -> EndedRun:
        """The fault, or the hart that came to the limit, or neither."""
        for hart, end in sorted(self.log.ends.items()):
            if is_fault(end.reason):
                return EndedRun(end.reason, hart, pc_of(self.lines[hart][-1]), self.taken(hart))
        limited = [hart for hart, end in sorted(self.log.ends.items()) if end.reason == "limit"]
        return (EndedRun("limit", limited[0], 0, self.taken(limited[0])) if limited
                else EndedRun("", 0, 0, 0))


def compare(old: Turns, new: Turns, at: At) -> ComparedRuns:
    end = old.before(at)
    order = old.turns[:end]
    if old.log.harts > 1 and new.turns[:end] != order:
        return ComparedRuns(False, end)
    for hart, mine in enumerate(old.accesses(end)):
        its = [tuple(ACCESS.findall(line))
               for line in new.lines[hart] if not is_end(line)][:len(mine)]
        if mine != its:
            return ComparedRuns(False, end)
    return ComparedRuns(True, end)


class WhatIfAnswer(NamedTuple):
    question: Question
    compared: ComparedRuns
    was: EndedRun
    now: EndedRun

    def what(self) -> str:
        done = self.question.done
        if done.value is not None:
            return f"with {NAMES[done.code.rd]} = {done.value:08x} after"
        return "with the other way at" if done.code.kind == BRANCH else "without the store of"

    def lines(self, places: Places) -> List[str]:
        asked = self.question
        done = self.question.done
        first = (f"{self.what()} {asked.at.hart}:{asked.at.count} {places.where(done.code.pc)}, "
                 f"execution {number(done.number)} of {number(asked.times)}")
        if not self.compared.is_sound:
            return [first, "UNSOUND: the runs differ before it, so how it ends says nothing"]
        return [first, "before it the accesses of all harts are those of LOG, "
                f"in {counted(self.compared.turns, 'turn')}", f"LOG: {self.was.line(places)}",
                f"now: {self.now.line(places)}"]

    def json(self) -> Dict[str, Any]:
        asked = self.question
        return {"hart": asked.at.hart, "count": asked.at.count, "execution": asked.done.number,
                "executions": asked.times, "is_sound": self.compared.is_sound,
                "turns": self.compared.turns, "was": end_answer(self.was),
                "now": end_answer(self.now) if self.compared.is_sound else None}


def end_answer(end: EndedRun) -> Optional[Dict[str, Any]]:
    return ({"reason": end.reason, "hart": end.hart, "address": f"{end.pc:08x}", "turns": end.turns}
            if end.reason else None)


def whatif_answer(found: Opened, log: Log, book: str, at: At,
                  given: Mapping[str, str]) -> WhatIfAnswer:
    question = question_of(found, log, at, given)
    new_code = NewCode(question.done, registers_for(log, found))
    data = patched(found.elf, question.done.code, new_code.words)
    old = Turns(log, found.elf.name, Path(book).read_bytes())
    with Scratch(memory_folder()) as folder, Quick(folder) as quick:
        made, elf = record_changed(quick, data,
                                   options_of(found, log, question.times, given.get("--input", "")),
                                   book)
        new = Turns(made, elf, Path(quick.folder, "book").read_bytes())
        compared = compare(old, new, at)
        now = new.ended()
    if PLACE <= now.pc < PLACE + 4 * len(new_code.words):       # it is the row
        now = now._replace(pc=question.done.code.pc)
    return WhatIfAnswer(question, compared, old.ended(), now)


def main(words: list[str]) -> int:
    (log_name, elf_name, book, row), given = read_words(words, HELP.form)
    if sum(option in given for option in ACTIONS) != 1:
        raise CompanionError(f"one of {', '.join(ACTIONS)} has to be given; "
                             f"the words are: {HELP.form}", REFUSED)
    at = asked_row(row, "the row")
    source = given.get("--input", "")
    check_regular(log_name, elf_name, book, source)
    with opened(log_name, elf_name, given) as found:
        log = found.log(MOST_ROWS)
        if log.unread or log.dropped:
            raise CompanionError(f"LOG has to hold its whole run, of up to {MOST_ROWS:,} rows: "
                                 "a larger --log-size of `again` keeps all", REFUSED)
        check_book(log_name, elf_name, book, [f"--input={source}"] if source else [])
        told = whatif_answer(found, log, book, at, given)
        if "--json" in given:
            put_answer("whatif", **told.json())
        else:
            streams.put_lines(told.lines(found.places))
    return 0 if told.compared.is_sound else DIFFERS

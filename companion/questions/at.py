"""Tells what expressions were at each pass of a line: a print after the fact."""
from __future__ import annotations

import re
from collections import deque
from dataclasses import dataclass
from typing import Any, Deque, Iterator, List, Sequence

from ..call.errors import REFUSED, CompanionError
from ..call.help import Help
from ..call.options import read_words, whole
from ..call.text import clean, columns, counted, number
from ..recording.answers import LONGEST, place_of, put_found
from .bytecode import Unknown
from .expressions import Compiled, Expression, Pass, Values, compiled
from .reading import Asked, asked_of, read

HELP = Help(
    "at LOG ELF FILE:LINE EXPR.. [--if COND] [--names ELF] [--last N] [--rows N] [--json]",
    "what C expressions were at each pass of a line",
    """Tells what C expressions were at each pass of a line: a print after the fact.

    zelkuma at LOG filters.elf filters.c:68 filter '*filter' 'current->users'

An expression is C with the names that the line sees: no call, no assignment; `$a0` is a register.
Its value is the one before the line's first instruction, where gdb's `break` would stop. If the
line begins at several places, all are told.""", {
        "--if": "tells the passes alone at which this expression isn't 0",
        "--rows": "how many of the last rows are read; without it 80 million, or 8 million if "
                  "memory is read that can be over 8 MiB",
    },
    """What gdb or the rows don't tell is told as <optimized out>, or so. Rows are in the order of
`joint`: of a word that this hart doesn't access, other legal orders can have other values. It needs
gdb (gdb-multiarch, or what $ZELKUMA_GDB names).""")
TOLD = 100  # passes
MOST_TOLD = 1000000  # values
FILE_LINE = 2                       # which name it is


@dataclass(frozen=True)
class ToldPass:
    """A pass that is told: its hart, its count, the address, and the values of the expressions."""
    hart: int
    count: int
    pc: int
    values: List[str]


class Passes:
    """The latest passes of a line.

    total    how many there are; met: at how many of them the condition isn't 0, untold: or can't be
             told
    told     the latest that met it"""

    def __init__(self, asked: Asked, line: str, code: Compiled,
                 has_condition: bool, most: int) -> None:
        """The first expression is the condition, if there is one."""
        self.asked = asked
        self.line = line
        self.code = code
        self.expressions = code.expressions[has_condition:]
        self.conditions = code.expressions[:has_condition]
        self.values = Values(asked, code.expressions)
        self.pattern = re.compile(rb"\n(\d+) (\d+) (%s) " % b"|".join(b"%08x" % place
                                                                      for place in code.places))
        self.total = self.met = self.untold = 0
        self.told: Deque[ToldPass] = deque(maxlen=most)

    def take(self, text: bytes) -> None:
        self.values.take(text)
        found = [Pass(each[1], int(each[2]), int(each[3], 16), each.start())
                 for each in self.pattern.finditer(text)]
        self.total += len(found)
        if not self.conditions:
            self.met += len(found)
            found = found[-(self.told.maxlen or 0):]        # others aren't told
        for one in found:
            self.values.go_to(one)
            if all(self.is_met(each) for each in self.conditions):
                self.met += bool(self.conditions)
                self.told.append(ToldPass(int(one.hart), one.count, one.pc,
                                          [self.values.text(each) for each in self.expressions]))

    def is_met(self, condition: Expression) -> bool:
        try:
            return self.values.number(condition) != 0
        except Unknown:
            self.untold += 1
            return False

    def slid(self) -> int:
        """The line that is told in place of one without code, or 0."""
        innermost = self.asked.places.innermost(self.code.places[0])
        return (innermost.line
                if innermost.line and innermost.line != int(self.line.rpartition(":")[2]) else 0)


def passes_of(asked: Asked, line: str, texts: Sequence[str], condition: str = "",
              most: int = TOLD) -> Passes:
    code = compiled(asked.named, line, [condition] * bool(condition) + list(texts))
    if condition and code.expressions[0].error:
        raise CompanionError(f"--if {clean(condition)}: {code.expressions[0].error}", REFUSED)
    if condition and code.expressions[0].is_whole:
        raise CompanionError(f"--if {clean(condition)}: it is no number", REFUSED)
    found = Passes(asked, line, code, bool(condition), most)
    read(asked.chunks(), found)
    return found


def passes_report(found: Passes) -> List[str]:
    asked = found.asked
    places = found.code.places
    asked.places.fetch(places)
    of = (f", {number(found.met)} of them with {clean(found.conditions[0].text)}"
          if found.conditions else "")
    head = f"AT {found.line}: {number(found.total)} pass{'' if found.total == 1 else 'es'}{of}"
    rows = [[f"{entry.hart}:{entry.count}", *([f"{entry.pc:08x}"] if len(places) > 1 else []),
             *(f"{clean(each.text)} = {value}"
               for each, value in zip(found.expressions, entry.values))] for entry in found.told]
    return asked.report(head, [(entry.hart, entry.count) for entry in found.told], found.met,
                        [*("  " + line for line in of_places(found)), *columns(rows)])


def of_places(found: Passes) -> Iterator[str]:
    """The places at which the line begins, and what of them isn't as it was asked."""
    for place in found.code.places:
        yield f"before {place:08x} {found.asked.places.where(place)}"
    if found.slid():
        yield (f"Line {found.line.rpartition(':')[2]} has no code at which gdb would stop: "
               f"these are passes of line {found.slid()}.")
    if found.untold:
        yield f"At {counted(found.untold, 'more pass')} the condition can't be told."


def at_answer(found: Passes) -> dict[str, Any]:
    asked = found.asked
    return {"line": found.line,
            "places": [place_of(asked.places, place) for place in found.code.places],
            "slid": found.slid(), "passes": found.total, "met": found.met, "untold": found.untold,
            "left_out": asked.left_out(), "expressions": [each.text for each in found.expressions],
            "entries": [{"hart": entry.hart, "count": entry.count, "address": f"{entry.pc:08x}",
                         "values": entry.values} for entry in list(found.told)[-LONGEST:]]}


def main(words: list[str]) -> int:
    names, given = read_words(words, HELP.form)
    if len(names) < FILE_LINE + 2:
        raise CompanionError(f"an expression is missing; the words are: {HELP.form}", REFUSED)
    log_name, elf_name, line, *texts = names
    most = whole(given.get("--last", str(TOLD)), 1, MOST_TOLD // len(texts), "--last")
    with asked_of(log_name, elf_name, given, keeps_words=True) as asked:
        found = passes_of(asked, line, texts, given.get("--if", ""), most)
        put_found("at", found, passes_report, at_answer, "--json" in given)
    return 0

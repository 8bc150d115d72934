"""Lists what stored to a variable."""
from __future__ import annotations

import itertools
from collections import deque
from dataclasses import dataclass
from typing import Any, Deque, List, NamedTuple, Optional

from ..call.help import Help
from ..call.options import read_words, whole
from ..call.text import columns, counted
from ..recording.answers import place_of, put_found
from ..recording.chunks import row_at
from ..recording.cut import cut, hart_of
from ..recording.inputs import Numbers, input_text
from ..recording.instruction import STORE, Instruction
from ..recording.log import SystemCall
from ..recording.memory import bytes_of, words_of
from ..recording.stacks import Frame, Stacks, call_places
from .reading import Asked, asked_of, read
from .types import Leaf, leaves, value_text
from .variables import Variable, variable_of
from .words import Change, Words

HELP = Help(
    "history LOG ELF NAME [--names ELF] [--changes] [--last N] [--rows N] [--json]",
    "each store to a variable, with its values and callers",
    """Lists each store to a variable: hart and count, the value before and after it, its place and
the calls over it. Of `read` calls it lists how much they put there, and which bytes of the input.

NAME is a variable or a part of it (`orders[3].amount`), a symbol, a symbol and an offset
(`arena+56`), or an address; behind the last two a length can stand (`00011b60:4`).""",
    {"--changes": "only stores that change it"},
    """Types and parts are gdb's (gdb-multiarch, or what $ZELKUMA_GDB names). Rows are in the order
of `joint`.""")
TOLD = 100              # the last stores; --last tells more
MOST_TOLD = 1000000     # each is held in memory
MOST_FRAMES = 4         # callers in a line
LARGEST = 8             # bytes of a C scalar: larger variables are told by their parts


class Brought(NamedTuple):
    """How many bytes a `read` call moved, and which of the input came to the variable."""
    moved: int
    here: Numbers

    def text(self) -> str:
        return f"{counted(self.moved, 'byte')} of a read call, here {input_text(self.here)}"


@dataclass(frozen=True)
class ToldStore:
    """A store or a `read` call: its hart and count, its row, its address and those of the calls
    over it, the part that it stored to, and the values of that before and after."""
    hart: int
    count: int
    row: str
    pcs: list[int]
    part: str
    old: str
    new: str
    fill: Optional[Brought]

    @property
    def gave(self) -> str:
        return self.fill.text() if self.fill else self.new


class Kept(NamedTuple):
    """A change that may be told: its row, and the innermost frame there."""
    change: Change
    row: bytes
    top: Frame


class VariableHistory:
    """The latest stores to a variable.

    total, told   how many there are, and those that are told"""

    def __init__(self, asked: Asked, stacks: Stacks, variable: Variable, most: int,
                 only_changes: bool) -> None:
        """`stacks` takes each chunk before this."""
        self.asked = asked
        self.stacks = stacks
        self.variable = variable
        self.only_changes = only_changes
        self.words = Words(asked, variable)
        self.total = 0
        self.begins = dict(self.words.known)
        self.kept: Deque[Kept] = deque(maxlen=most)

    def take(self, text: bytes) -> None:
        for change in self.words.changes(text):
            if not self.only_changes or self.is_change(change):
                self.total += 1
                row = row_at(text, change.place)
                self.kept.append(Kept(change, row,
                                      self.stacks.chunk.top(hart_of(row), change.place)))

    @property
    def told(self) -> List[ToldStore]:
        return [self.entry(*each) for each in self.kept]

    def is_change(self, change: Change) -> bool:
        if self.words.is_aligned or change.after is None:
            return change.after is None or change.after != change.before[1]
        begin = max(change.word, self.variable.address)
        end = min(change.word + 4, self.variable.end)
        old, new = change.values(begin, end - begin)
        return old != new

    def entry(self, change: Change, row: bytes, top: Frame) -> ToldStore:
        hart, count, key, _ = cut(row)
        code = Instruction(0, key)
        base = self.variable.address
        first = change.word
        end = change.word + 4
        if change.fill:
            first = change.fill.address
            end = change.fill.address + change.fill.size
        elif code.kind == STORE:
            first = int(row[-17:-9], 16)
            end = first + code.width
        first = max(first, base)
        end = min(end, self.variable.end)
        fill = self.brought(change.fill, first, end) if change.fill else None
        part = self.part(first - base, end - base)
        old, new = (value_text(part, data, self.asked.name_of)
                    for data in change.values(base + part.at, part.size))
        return ToldStore(int(hart), count,
                         row.decode("ascii", "replace"), [code.pc, *call_places(top, MOST_FRAMES)],
                         part.path, old, new, fill)

    def brought(self, call: SystemCall, first: int, end: int) -> Brought:
        return Brought(call.size, self.asked.log.input_bytes(
            call.hart, call.count, first - call.address, end - call.address))

    def part(self, first: int, end: int) -> Leaf:
        """The part of the variable that has these bytes; of several the bytes as they are, by the
        first one's name."""
        parts = list(itertools.islice(leaves(self.variable.type, first, end), 2))
        if len(parts) == 1:
            return parts[0]
        return Leaf(parts[0].path if parts else f"+{first}", first,
                    {"kind": "bytes", "size": end - first, "name": ""})


def entry_line(entry: ToldStore, asked: Asked, name: str) -> list[str]:
    return [f"{entry.hart}:{entry.count}", name + entry.part, f"{entry.old} -> {entry.gave}",
            asked.places.chain(entry.pcs, MOST_FRAMES)]


def before_line(found: VariableHistory) -> list[str]:
    """What the variable was before the first row, if it has one part."""
    variable = found.variable
    asked = found.asked
    part = found.part(0, variable.size)
    if part.at or part.size != variable.size or variable.size > LARGEST:
        return []
    data = bytes_of(map(found.begins.get, words_of(variable.address, variable.size)))[
        variable.address & 3:][:variable.size]
    if None in data:
        return ["  before the first row: unknown"]
    return [f"  before the first row: {value_text(part, data, asked.name_of)}, as the file has it"]


def stores_report(found: VariableHistory) -> list[str]:
    variable = found.variable
    asked = found.asked
    asked.places.fetch(pc for entry in found.told for pc in entry.pcs)
    head = (f"HISTORY of {variable.what()}: "
            f"{counted(found.total, 'change' if found.only_changes else 'store')}")
    rows = [entry_line(entry, asked, variable.name) for entry in found.told]
    if all(row[1] == variable.name for row in rows):
        rows = [row[:1] + row[2:] for row in rows]
    return asked.report(head, [(entry.hart, entry.count) for entry in found.told], found.total,
                        before_line(found) + columns(rows))


def history_answer(found: VariableHistory) -> dict[str, Any]:
    variable = found.variable
    asked = found.asked
    return {"name": variable.name, "address": f"{variable.address:08x}", "size": variable.size,
            "type": variable.type["name"], "stores": found.total, "left_out": asked.left_out(),
            "entries": [{"hart": entry.hart, "count": entry.count, "row": entry.row,
                         "place": place_of(asked.places, entry.pcs[0]),
                         "caller": place_of(asked.places, entry.pcs[1]) if len(entry.pcs) > 1
                         else None, "part": entry.part, "old": entry.old, "new": entry.new,
                         "read": entry.fill.moved if entry.fill else 0,
                         "input": entry.fill.here[0] if entry.fill else None}
                        for entry in found.told]}


def history_of(asked: Asked, variable: Variable, most: int = TOLD,
               only_changes: bool = False) -> VariableHistory:
    stacks = asked.stacks()
    found = VariableHistory(asked, stacks, variable, most, only_changes)
    read(asked.chunks(), stacks, found)
    return found


def main(words: list[str]) -> int:
    (log_name, elf_name, name), given = read_words(words, HELP.form)
    most = whole(given.get("--last", str(TOLD)), 1, MOST_TOLD, "--last")
    with asked_of(log_name, elf_name, given) as asked:
        found = history_of(asked, variable_of(asked.named, name), most, "--changes" in given)
        put_found("history", found, stores_report, history_answer, "--json" in given)
    return 0

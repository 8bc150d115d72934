"""Lists the places at which a value occurs."""
from __future__ import annotations

import re
from dataclasses import dataclass, field
from typing import Any

from ..call.errors import MISSING, REFUSED, CompanionError
from ..call.help import Help
from ..call.options import read_words
from ..call.text import clean, columns, counted, number
from ..recording.answers import LONGEST, place_of, put_found
from ..recording.chunks import rows_with
from ..recording.cut import PC, cut
from ..recording.elf import Elf
from ..recording.inputs import InputInMemory, Numbers, input_text
from .reading import Asked, asked_of, read
from .variables import ADDRESS, OFFSET, not_found, symbol_of, variable_of

HELP = Help(
    "find LOG ELF VALUE [--names ELF] [--rows N] [--json]",
    "places at which a value occurs, first and last time",
    """Lists the places of the program at which a value occurs, in registers and in words of memory.

VALUE is a number, hexadecimal if it has eight digits or begins with 0x, or an address: that of a
symbol (`arena`, `arena+56`) or of a variable's part (`&orders[3]`). Of each place it tells the
first and the last time, how often, and what it did with the value: put it into a register, loaded
it or stored it. Of a word that a `read` call brought it tells which bytes of the input that is.""",
    more="A word that holds the value while no row touches it isn't seen.")
# With the value are told by place, which takes memory; of the others only the number is told
MOST_ROWS = 2000000
TOLD = 100                  # places: some screens
MOST_FRAMES = 3             # callers in a line
MOST_WORDS = 3              # of a place in a line
LOADED = b"load "
VERBS = {LOADED: "loads it from", b"store": "stores it to"}


@dataclass
class PlaceGroup:
    """The rows of one place that do the same with the value. `words` are those of memory, of which
    the first are kept, each with the bytes of the input that it has."""
    pc: int
    did: str
    first: str
    last: str = ""
    times: int = 0
    words: dict[int, Numbers] = field(default_factory=dict)


class FoundRows:
    """total   how many rows have the value; groups: of the first of them, by place and what they
    do"""

    def __init__(self, asked: Asked, value: int) -> None:
        self.asked = asked
        self.value = value
        self.needle = b"=%08x" % value
        self.pattern = re.compile(self.needle)
        self.groups: dict[tuple[bytes, str], PlaceGroup] = {}
        self.total = self.told = 0
        self.input = InputInMemory(asked.log)

    def take(self, text: bytes) -> None:
        if self.told >= MOST_ROWS:
            self.total += text.count(self.needle)
            return
        self.input.take(text)
        for place, row in rows_with(text, self.pattern):
            self.take_row(place, row)

    def take_row(self, place: int, row: bytes) -> None:
        self.told += 1
        self.total += 1
        hart, count, key, told = cut(row)
        # Memory before registers: a load puts the value there by itself
        for part in reversed(told):
            if part.endswith(self.needle):
                self.occurs(place, f"{hart.decode()}:{count}", key[PC], part)
                break

    def occurs(self, place: int, when: str, pc: bytes, part: bytes) -> None:
        verb = VERBS.get(part[:5], "")
        did = verb or f"puts it into {part.partition(b'=')[0].decode()}"
        group = self.groups.get((pc, did))
        if group is None:
            group = self.groups[pc, did] = PlaceGroup(int(pc, 16), did, when)
        group.last = when
        group.times += 1
        if verb and len(group.words) < MOST_WORDS:
            word = int(part[-17:-9], 16) & ~3
            if word not in group.words:
                self.input.go_to(place)
                is_load = part.startswith(LOADED)
                group.words[word] = self.input.numbers(word) if is_load else []

    def in_file(self) -> list[int]:
        """The words of the program's file that are the value, some of them."""
        needle = self.value.to_bytes(4, "little")
        found: list[int] = []
        for part in self.asked.elf.parts if self.value else ():
            body = bytes(part.body)
            at = -1
            while len(found) < MOST_WORDS and (at := body.find(needle, at + 1)) >= 0:
                if (part.address + at) % 4 == 0:
                    found.append(part.address + at)
        return found


def searched_value(elf: Elf, text: str) -> int:
    symbol = symbol_of(elf, text)
    if symbol:
        return symbol.address
    if (told := ADDRESS.fullmatch(text)):
        return int(told[1] or told[2], 16)
    if text[:1] == "&" or OFFSET.fullmatch(text):
        return variable_of(elf, text.lstrip("&")).address
    if not re.fullmatch(r"-?\d{1,10}", text):
        raise CompanionError(not_found(elf, text, elf.symbols), MISSING)
    if not -(1 << 31) <= int(text) < 1 << 32:
        raise CompanionError(f"{clean(text)} is no value of 32 bits", REFUSED)
    return int(text) & 0xffffffff


def word_text(asked: Asked, word: int) -> str:
    name = asked.named.data_name(word)
    return f"{word:08x}" + (f" <{name}>" if name else "")


def group_line(group: PlaceGroup, asked: Asked) -> list[str]:
    words = ", ".join(word_text(asked, word) + (f" ({input_text(numbers)})" if numbers else "")
                      for word, numbers in group.words.items())
    more = ", .." if len(group.words) == MOST_WORDS else ""
    return [group.first, group.last, number(group.times), " ".join(filter(None, (group.did, words)))
            + more, asked.places.chain([group.pc], MOST_FRAMES)]


def rows_report(found: FoundRows) -> list[str]:
    asked = found.asked
    groups = list(found.groups.values())
    asked.places.fetch(group.pc for group in groups[:TOLD])
    lines = [f"FIND {found.value:08x}: {counted(found.total, 'row')}, "
             f"{counted(len(groups), 'place')}"]
    if found.total > found.told:
        lines.append(f"  Places are those of the first {number(found.told)} rows that have it.")
    in_file = found.in_file()
    if in_file:
        lines.append("  in the file: " + ", ".join(word_text(asked, word) for word in in_file))
    rows = [["first", "last", "times", "", ""]] + [group_line(group, asked)
                                                   for group in groups[:TOLD]]
    lines += columns(rows) if groups else []
    if len(groups) > TOLD:
        lines.append(f"  .. and {counted(len(groups) - TOLD, 'more place')}")
    return lines + ["  " + line for line in asked.left_out()]


def find_answer(found: FoundRows) -> dict[str, Any]:
    asked = found.asked
    return {"value": f"{found.value:08x}", "rows": found.total, "rows_by_place": found.told,
            "left_out": asked.left_out(), "in_file": [f"{word:08x}" for word in found.in_file()],
            "places": [{"place": place_of(asked.places, group.pc), "did": group.did,
                        "first": group.first, "last": group.last, "times": group.times,
                        "words": [f"{word:08x}" for word in group.words],
                        "inputs": list(group.words.values())}
                       for group in list(found.groups.values())[:LONGEST]]}


def main(words: list[str]) -> int:
    (log_name, elf_name, text), given = read_words(words, HELP.form)
    with asked_of(log_name, elf_name, given) as asked:
        found = FoundRows(asked, searched_value(asked.named, text))
        read(asked.chunks(), found)
        put_found("find", found, rows_report, find_answer, "--json" in given)
    return 0

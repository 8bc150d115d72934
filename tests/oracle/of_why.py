"""The facts that `why` states: who stored what, what nothing stored, who called, who held a
lock."""
from __future__ import annotations

import random
import re
from collections import Counter
from typing import Any, Dict, List, Optional, Tuple

from .asking import Asked
from .machine import NAMES, READ, REGISTER, Machine, Row
from .of_input import Inputs

NEVER = re.compile(r"from ([\w.[\]]+(?:\+\d+)?)(?: \(a word of \w+\))?, "
                   r"zero from the start: never stored")
WORD = re.compile(r"from ([\w.[\]]+(?:\+\d+)?)(?: \(a word of \w+\))?, ")
STORED = re.compile(r"(?:, "
                    r"stored (?:last )?|[;,] (?:later )?)in .*? \(hart (\d+) at count ([\d,]+)\)")
CALLED = re.compile(r"\s+(?:by [^,]+, )?called from (.*)")
ROW = re.compile(r"\s+(\d+) (\d+) [0-9a-f]{8} ")
UNLOCKED = re.compile(r"\s*\d+\. hart (\d+) didn't hold the others' lock in ")
GOES = re.compile(r"hart (\d+) goes round ")
LEFT_STACK = re.compile(r"  The stack of hart (\d+) left its [\d,]+ bytes at ([0-9a-f]{8})(?: "
                        r"\(.*?\))?: its pointer was ([0-9a-f]{8})(?: \(.*?\))?, "
                        r"([\d,]+) bytes? below them, at count ([\d,]+) in (.*)\.")
NULL = re.compile(r"  The null is what (.*) returned to (.*)\.")
MIDDLE = re.compile(r"  The jump through a pointer in (.*) \(hart (\d+) at count ([\d,]+)\) led "
                    r"into the middle of (.*), to (\w+)\.")
BRANCH = re.compile(r"      [0-9a-f]{8} [0-9a-f]{8} b.*, [\d,]+ times?, last at count ([\d,]+)")
OPERAND = re.compile(r"      (\w+) is (\w+)")
NOW = re.compile(r"    ([0-9a-f]{8})(?: \(.*\))?, now ([0-9a-f]{8}), in ")
STOPPED = re.compile(r"    ([\d,]+) times?, last at count ([\d,]+): (.*)")
HOLD = re.compile(r"other accesses to .* their hart holds (.*?), here ")
OFTEN = 3                   # what was done less often is no line that ran often
BROUGHT = re.compile(r"a read call brought (unknown )?bytes? ([\d, and to]*)of the input "
                     r"\(hart (\d+), count ([\d,]+)\)")
LEFT_OUT = re.compile(r"Only the last|left out|--rows N")


class Bytes:
    """Of each byte of a word who stored it, row by row. (A store of the same value stored it,
    too.)"""

    def __init__(self, machine: Machine) -> None:
        self.machine = machine
        self.fills = {call.row.number: call for call in machine.calls if call.kind == READ}
        self.stores: Dict[int, List[int]] = {}          # {byte: the rows that stored it}
        self.changes: Dict[int, List[int]] = {}         # and those that changed it
        known: Dict[int, Optional[int]] = {}
        for row in machine.rows:
            fill = self.fills.get(row.number)
            for at in range(fill.address, fill.address + fill.size) if fill else ():
                self.stores.setdefault(at, []).append(row.number)
                self.changes.setdefault(at, []).append(row.number)
                known[at] = None
            if row.load:
                known.update((self.base(row.load.address) + i, row.load.value >> 8 * i & 255)
                             for i in range(4))
            if row.store:
                self.take_store(row, known)

    @staticmethod
    def base(address: int) -> int:
        return address & ~3

    def take_store(self, row: Row, known: Dict[int, Optional[int]]) -> None:
        assert row.store
        for at in range(row.store.address, row.store.address + row.code.width):
            value = row.store.value >> 8 * (at & 3) & 255
            self.stores.setdefault(at, []).append(row.number)
            before = known.get(at, self.machine.memory.image.byte(at)
                               if not self.machine.head.dropped else None)
            if before != value:
                self.changes.setdefault(at, []).append(row.number)
        known.update((self.base(row.store.address) + i, row.store.value >> 8 * i & 255)
                     for i in range(4))

    def gave(self, store: Row, load: Row) -> bool:
        """Whether a load got a byte that a row stored: none changed it since."""
        if not load.load or not store.store:
            return False
        for at in range(load.load.address, load.load.address + load.code.width):
            if (store.store.address <= at < store.store.address + store.code.width
                    and store.number < load.number):
                if not any(store.number < each < load.number for each in self.changes.get(at, [])):
                    return True
        return False

    def is_stored(self, first: int, end: int, before: int) -> bool:
        return any(each < before for at in range(first, end) for each in self.stores.get(at, []))


def address_of(asked: Asked, name: str) -> Optional[int]:
    """Of an object, its member by gdb, and an offset, or of eight digits."""
    path, _, offset = name.partition("+")
    for base in (path, re.split(r"[.\[]", path)[0]):
        found = [each.address
                 for each in asked.program.symbols if each.name == base and each.kind == "OBJECT"]
        told = asked.program.types["variables"].get(base, {"leaves": []})["leaves"]
        places = [0] * (path == base) + [at for leaf, at, _ in told if leaf == path[len(base):]]
        if len(found) == 1 and places:
            place: int = found[0] + places[0] + int(offset or 0)
            return place
    return int(name, 16) if re.fullmatch("[0-9a-f]{8}", name) else None


def ask_why(asked: Asked, _draw: random.Random, *words: str) -> None:
    if not asked.machine.rows or len(asked.machine.rows) > 200000 and not words:
        return
    told = asked.json("why", "--more", *words)
    if told is None:
        return
    stored = Bytes(asked.machine)
    ask_facts(asked, told, words)
    for suspect in told["suspects"]:
        ask_suspect(asked, words, suspect, stored)
    hart = count = 0
    for line in told["hang"]:
        goes = GOES.match(line)
        hart = int(goes[1]) if goes else hart
        branch = BRANCH.match(line)
        count = int(branch[1].replace(",", "")) if branch else count
        operand = OPERAND.match(line)
        if operand and operand[1] in REGISTER:
            value = register_at(asked, hart, count, operand[1])
            asked.same("why: compared", words, (line, operand[2]), (line, f"{value:08x}"))
        ask_hang(asked, words, line, stored)
        ask_now(asked, words, line)
        if told["rows"] >= len(asked.machine.rows) - 1:
            ask_stopped(asked, words, line, hart)
    for each in told["before"]:
        ask_before(asked, words, each, stored)
    text = asked.text("why", "--more", *words)
    if told["rows"] < len(asked.machine.rows) - 1:
        asked.same("why: says what it left out", words, any(map(LEFT_OUT.search, text)), True)
    ask_text(asked, words, text)


def row_at(asked: Asked, point: Dict[str, Any]) -> Row:
    return asked.machine.rows[asked.machine.at[point["hart"], point["count"]]]


def stack_of(asked: Asked, row: Row) -> List[Tuple[str, str]]:
    """The functions and addresses of a row's calls, with what is inlined."""
    pcs = [row.code.pc, *asked.machine.chain(asked.machine.frames[row.number])]
    found = []
    for pc in pcs:
        places = asked.program.places(pc)
        found += [(f"{pc:08x}", place.function) for place in places] or [(f"{pc:08x}", "")]
    return found


def ask_facts(asked: Asked, told: Dict[str, Any], words: Tuple[str, ...]) -> None:
    row = row_at(asked, told["start"])
    asked.same("why: row", words, told["start"]["row"], row.text)
    asked.same("why: place", words, told["start"]["place"], asked.place(row.code.pc))
    if told["rows"] >= len(asked.machine.rows) - 1:
        stack = [(call["address"], call["function"]) for call in told["calls"]]
        asked.same("why: calls", words, stack,
                   stack_of(asked, row)[:len(stack)] if len(stack) >= 200 else stack_of(asked, row))
    if told["registers"]:
        values = asked.machine.harts[row.hart].registers
        asked.same("why: registers", words, told["registers"],
                   {name: f"{value:08x}" for name, value in zip(NAMES, values)})
    own = [each.text
           for each in asked.machine.rows if each.hart == row.hart and each.number <= row.number]
    asked.same("why: last rows", words, told["last_rows"], own[-len(told["last_rows"]):])


def ask_suspect(asked: Asked, words: Tuple[str, ...],
                suspect: Dict[str, Any], stored: Bytes) -> None:
    points: List[Dict[str, Any]] = [suspect["guilty"], suspect["store"],
                                    suspect["load"], *suspect["extra"]]
    for point in filter(None, points):
        asked.same("why: row of a suspect", words, point["row"], row_at(asked, point).text)
        asked.same("why: place of a suspect", words, point["place"],
                   asked.place(row_at(asked, point).code.pc))
    if suspect["kind"] == "store" and suspect["store"] and suspect["load"]:
        pair = suspect["store"]["row"], suspect["load"]["row"]
        asked.same("why: stored it", words,
                   (pair, stored.gave(row_at(asked, suspect["store"]),
                                      row_at(asked, suspect["load"]))), (pair, True))


def ask_hang(asked: Asked, words: Tuple[str, ...], line: str, stored: Bytes) -> None:
    never = NEVER.search(line)
    word = WORD.search(line)
    if never:
        address = address_of(asked, never[1])
        if address is not None:
            asked.same("why: which no row of the log stored", words,
                       (line, stored.is_stored(address, address + 1, 1 << 60)), (line, False))
    address = address_of(asked, word[1]) if word else None
    if address is None:
        return
    for hart, count in STORED.findall(line):
        number = asked.machine.at.get((int(hart), int(count.replace(",", ""))), -1)
        rows = [each for i in range(4) for each in stored.stores.get((address & ~3) + i, [])]
        asked.same("why: stored last", words, (line, number in rows), (line, True))


def register_at(asked: Asked, hart: int, count: int, name: str) -> int:
    """What a hart's register holds before its row of a count."""
    value = asked.machine.head.first[hart][1][REGISTER[name]]
    for row in asked.machine.rows:
        if row.hart == hart and row.ic < count and row.register == name:
            value = row.result
    return value


def ask_now(asked: Asked, words: Tuple[str, ...], line: str) -> None:
    """What a word holds at the end."""
    now = NOW.match(line)
    value = asked.machine.memory.word(int(now[1], 16)) if now else None
    if now and value is not None:
        asked.same("why: now", words, (line, now[2]), (line, f"{value:08x}"))


def ask_stopped(asked: Asked, words: Tuple[str, ...], line: str, hart: int) -> None:
    """Of all rows the last one of the line, but for what was done seldom, and how often the line
    was done most."""
    stopped = STOPPED.match(line)
    if not stopped:
        return
    row = asked.machine.rows[asked.machine.at[hart, int(stopped[2].replace(",", ""))]]
    mine = [each for each in asked.machine.rows if each.hart == hart]
    runs = Counter(each.code.pc for each in mine)
    often = {pc for pc, times in runs.items()
             if times >= OFTEN and line_at(asked, pc) == line_at(asked, row.code.pc)}
    true = (f"{max(runs[pc] for pc in often):,} times, "
            f"last at count {[each.ic for each in mine if each.code.pc in often][-1]:,}")
    asked.same("why: never again", words, line.partition(": ")[0].strip(), true)
    asked.same("why: place of what stopped", words,
               (line, stopped[3].startswith(text_of(asked, row))), (line, True))


def ask_before(asked: Asked, words: Tuple[str, ...], told: Dict[str, Any], stored: Bytes) -> None:
    """Of the loads at its place one has a byte that no row had stored, and that is 0."""
    brought = BROUGHT.fullmatch(told["words"])
    if brought:
        ask_brought(asked, words, told, brought)
    if told["words"] != "zero from the start: never stored":
        return
    unset = [unset_bytes(row, stored)
             for row in asked.machine.rows if row.load and text_of(asked, row) == told["place"]]
    is_so = any(each and not any(each) for each in unset)
    asked.same("why: never stored", words, (told["words"], told["place"], is_so),
               (told["words"], told["place"], True))


def ask_brought(asked: Asked, words: Tuple[str, ...], told: Dict[str, Any],
                brought: "re.Match[str]") -> None:
    """A load at its place has these bytes of the call."""
    inputs = Inputs(asked.machine)
    call = inputs.reads[row_of(asked, brought[3], brought[4]).number]
    here = inputs.numbers(call, 0, call.size)
    numbers = [int(each.replace(",", "")) for each in re.findall(r"[\d,]+", brought[2])]
    if " to " in brought[2]:
        numbers = list(range(numbers[0], numbers[-1] + 1))
    found = []
    for row in asked.machine.rows:
        if row.load and text_of(asked, row) == told["place"]:
            first = row.load.address & 3
            has = inputs.loads.get(row.number, {})
            found.append([has[i] for i in range(first, first + row.code.width)
                          if i in has and has[i] in here])
    asked.same("why: bytes of the input", words, (told["words"], numbers in found
                                                  or bool(brought[1]) and here[0] is None),
               (told["words"], True))


def unset_bytes(row: Row, stored: Bytes) -> List[int]:
    """The bytes that a load got and that no row had stored."""
    assert row.load
    first = row.load.address
    return [row.load.value >> 8 * (at & 3) & 255 for at in range(first, first + row.code.width)
            if not stored.is_stored(at, at + 1, row.number)]


def text_of(asked: Asked, row: Row) -> str:
    places = asked.program.places(row.code.pc)
    return places[0].text() if places else f"{row.code.pc:08x}"


def line_at(asked: Asked, pc: int) -> str:
    places = asked.program.places(pc)
    return f"{places[0].file}:{places[0].line}" if places and places[0].line else f"{pc:08x}"


def ask_text(asked: Asked, words: Tuple[str, ...], text: List[str]) -> None:
    """What only the text says."""
    unlocked = ""
    caller = ""
    for line in text:
        ask_head(asked, words, line)
        called = CALLED.fullmatch(line)
        row = ROW.match(line)
        if called:
            caller = called[1]
        elif row and caller:
            found = asked.machine.rows[asked.machine.at[int(row[1]), int(row[2])]]
            chain = asked.program.chain(
                [found.code.pc, *asked.machine.chain(asked.machine.frames[found.number])], 50)[1:]
            told = [each.strip() for each in caller.split("  <  ")]
            asked.same("why: called from", words, (line.strip(), told),
                       (line.strip(), chain[:len(told)]))
            caller = ""
        if UNLOCKED.match(line):
            unlocked = line
        held = HOLD.search(line)
        if unlocked and held:
            for name in held[1].split(", "):
                ask_lock(asked, words, unlocked.strip(), name)
            unlocked = ""


def row_of(asked: Asked, hart: str, count: str) -> Row:
    return asked.machine.rows[asked.machine.at[int(hart), int(count.replace(",", ""))]]


def ask_head(asked: Asked, words: Tuple[str, ...], line: str) -> None:
    """Of a stack that was left the row that set its pointer; of a null a call that returned it; of
    a jump the function into whose middle it led."""
    left, null, middle = (each.fullmatch(line) for each in (LEFT_STACK, NULL, MIDDLE))
    if left:
        row = row_of(asked, left[1], left[5])
        below = int(left[2], 16) - int(left[4].replace(",", ""))
        told = (row.register, f"{row.result:08x}", text_of(asked, row))
        asked.same("why: left its stack", words, told, ("sp", left[3], left[6]))
        asked.same("why: so far below", words, (line, f"{below:08x}"), (line, left[3]))
    if null:
        calls = [each for each in asked.machine.all if each.end is not None and each.result[0] == 0]
        true = {(name_at(asked, each.target), text_of(asked, each.source))
                for each in calls if each.source}
        asked.same("why: returned the null", words,
                   (line, (null[1], null[2]) in true), (line, True))
    if middle:
        row = row_of(asked, middle[2], middle[3])
        to = next(each for each in asked.machine.rows[row.number + 1:] if each.hart == row.hart)
        inside = [each.name for each in asked.program.symbols
                  if each.address < to.code.pc < each.address + each.size]
        asked.same("why: jumped into",
                   words, (line, middle[4] in inside, f"{to.code.pc:08x}", text_of(asked, row)),
                   (line, True, middle[5], middle[1]))


def name_at(asked: Asked, pc: int) -> str:
    """The outermost function at an address."""
    places = asked.program.places(pc)
    return places[-1].function if places else f"{pc:08x}"


def ask_lock(asked: Asked, words: Tuple[str, ...], line: str, name: str) -> None:
    """A lock is taken and given: atomic instructions and stores set it to two values at most."""
    address = address_of(asked, name)
    if address is None:
        return
    values = {row.store.value
              for row in asked.machine.rows if row.store and row.store.address & ~3 == address & ~3}
    asked.same("why: held no lock", words, (line, name, len(values) <= 2), (line, name, True))

"""Lists the calls of a function."""
from __future__ import annotations

import operator
import re
from collections import deque
from dataclasses import dataclass, field
from typing import (Any, Callable, Deque, Dict, Iterator, List, Mapping, NamedTuple,
                    Optional, Sequence, Union)

from ..call.errors import REFUSED, CompanionError
from ..call.help import Help
from ..call.options import read_words, whole
from ..call.text import clean, columns, counted
from ..recording.answers import place_of, put_found
from ..recording.chunks import occurrences, row_at
from ..recording.cut import count_of, cut, hart_of
from ..recording.elf import Elf
from ..recording.instruction import JUMP, Instruction
from ..recording.places import Frame
from ..recording.stacks import HEAD, Chunk, Move
from .functions import PAIR, PLAIN, WORD, Begin, Function, function_of
from .reading import Asked, asked_of, read
from .registers import Registers
from .texts import MOST_TEXT, Pointer, texts_of
from .types import Leaf, Type, signed, value_text
from .variables import ADDRESS
from .window import CountWindow

HELP = Help(
    "calls LOG ELF FUNCTION [--names ELF] [--where ARG==VALUE] [--last N] [--rows N] [--json]",
    "each call of a function: arguments, result, how long",
    """Lists each call of a function: hart and count, its arguments and its result, how long it ran,
and from where.""",
    {"--where": "only calls whose argument, or whose result, compares so: == != < <= > >=, and "
                "`result` is the result's name: 'size>100'"},
    """Arguments have names and types if gdb tells them (gdb-multiarch, or what $ZELKUMA_GDB names),
else they are a0 to a7. An inlined call has neither arguments nor a result. How long a call ran is
in instructions of its hart.""")
TOLD = 100              # the last calls; --last tells more
MOST_TOLD = 1000000     # each is held in memory
MOST_FRAMES = 3         # callers in a line
WHERE = re.compile(r"\s*(\w+)\s*(==|!=|<=|>=|<|>)\s*(-?\w+)\s*")
COMPARE: dict[str, Callable[[int, int], bool]] = {"==": operator.eq, "!=": operator.ne,
                                                  "<": operator.lt, "<=": operator.le,
                                                  ">": operator.gt, ">=": operator.ge}
# The name of a result in --where, and the registers that have it
RESULT = "result"
RESULTS = ("a0", "a1")
# Calls that haven't returned are kept of a hart: of more, as of a recursion without an end, the
# inner half
MOST_OPEN = 1000000
DECIMAL = "int", "enum", "bool"             # types whose values are told in decimal


@dataclass
class Call:
    """A call: the place of its first row, the address from which it came, 0 if that isn't known,
    and whether by a jump.

    depth    how deep its frame is
    values   what each parameter's registers held, None if nothing tells it
    rows     how long it ran, None if it didn't return; end: its hart's count then; back: the place
    result   what a0 and a1 held then
    texts    to which pointers led in memory that a run can change"""
    hart: bytes
    count: int
    place: int
    begin: Begin
    source: int
    jumped: bool
    depth: int = 0
    values: list[Optional[int]] = field(default_factory=list)
    rows: Optional[int] = None
    end: int = 0
    back: int = 0
    result: Optional[int] = None
    is_told: bool = True
    texts: Mapping[Pointer, str] = field(default_factory=dict)

    def pointers(self) -> Iterator[Pointer]:
        """Its arguments and its result that may lead to a text."""
        for each, value in zip(self.begin.parameters, self.values):
            if value and is_text(each.type):
                yield Pointer(self.place, value)
        if self.result and self.begin.result and is_text(self.begin.result):
            yield Pointer(self.back, self.result)


class Where:
    """The condition of --where."""

    def __init__(self, text: str, function: Function) -> None:
        told = WHERE.fullmatch(text)
        names = (sorted({each.name for begin in function.begins for each in begin.parameters})
                 + [RESULT])
        if not told:
            raise CompanionError(f"--where: {clean(text)!r} is no condition as 'ARG==VALUE'",
                                 REFUSED)
        self.name = told[1]
        self.compare = COMPARE[told[2]]
        if all(begin.inlined for begin in function.begins):
            raise CompanionError(f"--where: {function.name} is inlined everywhere, "
                                 "so its calls have neither arguments nor a result", REFUSED)
        if self.name not in names:
            raise CompanionError(f"--where: {function.name} has no {clean(self.name)}; "
                                 f"it has {', '.join(names)}", REFUSED)
        self.value = number_of(told[3])
        self.text = told[3]

    def takes(self, call: Call) -> bool:
        """Whether a call has such an argument, or such a result."""
        if self.name == RESULT:
            return self.fits(call.result, call.begin.result or PLAIN)
        return any(self.fits(value, each.type) for each, value
                   in zip(call.begin.parameters, call.values) if each.name == self.name)

    def fits(self, value: Optional[int], kind: Type) -> bool:
        is_decimal = kind["kind"] in DECIMAL and self.text.isdigit() and self.text[0] != "0"
        wanted = int(self.text) if is_decimal else self.value
        return (value is not None
                and self.compare(signed(kind, value, 64 if 4 < kind["size"] <= 8 else 32), wanted))


def number_of(text: str) -> int:
    """A number of --where: decimal, or hexadecimal of eight digits or behind 0x. (Eight digits are
    decimal, too, for what is told so.)"""
    if (found := ADDRESS.fullmatch(text)):
        return int(found[1] or found[2], 16)
    if not re.fullmatch(r"-?\d{1,20}", text):
        raise CompanionError(f"--where: {clean(text)} is no number", REFUSED)
    return int(text)


class Arrival(NamedTuple):
    """A call's first row: its place in the chunk, and the row of its hart before it, if there is
    one."""
    place: int
    begin: Begin
    source: Optional[Instruction]


class WaitingChunk(NamedTuple):
    """A chunk that waits, its place, its calls, and {hart: its last row before it}."""
    text: bytes
    base: int
    arrivals: List[Arrival]
    last: Dict[bytes, bytes]


class FoundCalls:
    """The latest calls of a function.

    total, told   how many there are, and those that are told
    open          {hart: its calls that haven't returned, innermost last}
    last          {hart: its last row}
    asks          (place, call, whether of its result): whose registers are looked for before the
                  text there is forgotten
    waiting       chunks that wait, and waiting_calls: how many calls they have"""

    def __init__(self, asked: Asked, function: Function, most: int, where: Optional[Where]) -> None:
        self.asked = asked
        self.function = function
        self.where = where
        self.begins = {b" %08x " % begin.address: begin
                       for begin in function.begins if not is_part(asked, function, begin)}
        self.stacks = asked.stacks(begin.address
                                   for begin in self.begins.values() if not begin.inlined)
        self.window = CountWindow()
        self.registers = Registers(asked.log, self.window, registers_of(function))
        self.open: dict[bytes, list[Call]] = {}
        self.last: dict[bytes, bytes] = {}
        self.sources: dict[bytes, Instruction] = {}
        self.kept: Deque[Call] = deque(maxlen=most)
        self.asks: Deque[tuple[int, Call, bool]] = deque()
        self.waiting: Deque[WaitingChunk] = deque()
        self.total = self.waiting_calls = 0
        # Whether the chunk before the first that waits was passed
        self.is_passing = False

    @property
    def told(self) -> list[Call]:
        """In the order of their first rows; --where can know of a result only later."""
        return sorted(self.kept, key=lambda call: call.place)

    def take(self, text: bytes) -> None:
        """While later ones may have all calls that are told, only its calls are counted."""
        self.window.add(text)
        base = self.window.begins[-1]
        last = dict(self.last)
        self.waiting.append(WaitingChunk(text, base, list(self.arrivals(text)), last))
        self.waiting_calls += len(self.waiting[-1].arrivals)
        while self.waiting and (self.where or self.is_passed()
                                or self.window.end - self.waiting[0].base > self.window.kept // 2):
            self.take_waiting()
        while self.window.surplus():
            self.answer(self.window.surplus())
            self.registers.forget(self.window.texts[0])
            self.window.drop()

    def finish(self) -> None:
        while self.waiting:
            self.take_waiting()
        self.answer(self.window.end + 1)

    def is_passed(self) -> bool:
        """Whether the first chunk that waits has no call that is told: those behind it have
        enough."""
        return (not self.where
                and self.waiting_calls - len(self.waiting[0].arrivals) >= (self.kept.maxlen or 0))

    def take_waiting(self) -> None:
        """Takes the first of the chunks that wait. If none of its calls is told, they are only
        counted."""
        is_passed = self.is_passed()
        first = self.waiting.popleft()
        self.waiting_calls -= len(first.arrivals)
        if is_passed:
            self.total += len(first.arrivals)
            self.is_passing = True
        else:
            self.follow(first)

    def arrivals(self, text: bytes) -> Iterator[Arrival]:
        """The calls of the next chunk."""
        for needle, begin in self.begins.items():
            for at in occurrences(text, needle):
                place = text.rfind(b"\n", 0, at)
                row = self.row_before(text, place)
                source = self.source_of(row) if row else None
                if source is None or self.is_call(begin, source):
                    yield Arrival(place, begin, source)
        for hart in range(self.asked.log.harts):
            at = text.rfind(b"\n%d " % hart)
            if at >= 0:
                self.last[b"%d" % hart] = row_at(text, at + 1)

    def row_before(self, text: bytes, place: int) -> bytes:
        """The row of a hart before one that begins there, or nothing if that is its first."""
        hart = text[place + 1:text.index(b" ", place)]
        at = text.rfind(b"\n" + hart + b" ", 0, place)
        return row_at(text, at + 1) if at >= 0 else self.last.get(hart, b"")

    def source_of(self, row: bytes) -> Instruction:
        key = cut(row).key
        if key not in self.sources:
            self.sources[key] = Instruction(0, key)
        return self.sources[key]

    def is_call(self, begin: Begin, source: Instruction) -> bool:
        """Whether a function's first row behind another one is a call: its own code can lead there
        too."""
        if begin.inlined:
            own, other = (self.asked.places.frames(pc) for pc in (begin.address, source.pc))
            return inlined_call(own, begin) != inlined_call(other, begin)
        return (source.call or source.kind == JUMP and not source.ret
                and self.stacks.entries.are_led_to(source.pc, begin.address))

    def follow(self, first: WaitingChunk) -> None:
        """Takes the calls and the returns of a chunk. How these calls are nested is known without
        what was passed before."""
        if self.is_passing:
            self.stacks.begin_behind(first.last)
            self.open.clear()
            self.is_passing = False
        self.stacks.take(first.text)
        chunk = self.stacks.chunk
        base = first.base
        moves = {move.place: move for move in chunk.moves()}
        calls = {each.place: each for each in first.arrivals}
        for place in sorted({*moves, *calls}):
            move = moves.get(place)
            if move and not move.jump.frame:
                self.back(move, base)
            if place in calls:
                self.call(chunk, base, calls[place])

    def call(self, chunk: Chunk, base: int, arrival: Arrival) -> None:
        head = chunk.text[arrival.place + 1:arrival.place + HEAD]
        hart = hart_of(head)
        source = arrival.source
        begin = arrival.begin
        call = Call(hart, count_of(head), base + arrival.place, begin, source.pc if source else 0,
                    bool(source and not source.call))
        if begin.inlined:
            if not self.where:
                self.keep(call)
            return
        call.depth = chunk.top(hart, arrival.place + 1)[2]
        if self.where:
            self.take_arguments(call, call.place)
            call.is_told = self.where.name == RESULT or self.where.takes(call)
        else:
            self.asks.append((call.place, call, False))
        calls = self.open.setdefault(hart, [])
        calls.append(call)
        if len(calls) > MOST_OPEN:
            del calls[:MOST_OPEN // 2]
        if call.is_told and (not self.where or self.where.name != RESULT):
            self.keep(call)

    def keep(self, call: Call) -> None:
        self.total += 1
        if len(self.kept) == self.kept.maxlen:
            self.kept[0].is_told = False
        self.kept.append(call)

    def back(self, move: Move, base: int) -> None:
        """A return: the call that it returns from has ended, and so have the functions that were
        jumped to from there. Calls in these that didn't return, as behind a longjmp, never will."""
        calls = self.open.get(move.hart, [])
        depth = move.behind[2]
        ended = []
        while move.behind is not move.before and calls and calls[-1].depth > depth:
            ended.append(calls.pop())
        for call in reversed(ended):
            if call.depth == depth + 1 or call.jumped and call.depth == depth + 2:
                call.rows = move.ic - call.count
                call.end = move.ic
                self.result(call, base + move.place)

    def result(self, call: Call, place: int) -> None:
        call.back = place
        if not self.where:
            self.asks.append((place, call, True))
        elif call.is_told:
            self.take_result(call, place)
            if self.where.name == RESULT and self.where.takes(call):
                self.keep(call)

    def answer(self, end: int) -> None:
        """Looks for the registers of calls whose text is forgotten next."""
        while self.asks and self.asks[0][0] < end:
            place, call, is_result = self.asks.popleft()
            if call.is_told:
                (self.take_result if is_result else self.take_arguments)(call, place)

    def take_arguments(self, call: Call, place: int) -> None:
        call.values = [self.value_of(each.registers, call.hart, place)
                       for each in call.begin.parameters]

    def take_result(self, call: Call, place: int) -> None:
        if call.begin.result:
            call.result = self.value_of(
                RESULTS[:2 if PAIR >= call.begin.result["size"] > WORD else 1], call.hart, place)

    def value_of(self, names: Sequence[str], hart: bytes, place: int) -> Optional[int]:
        values = [self.registers.value(hart, name.encode(), place) for name in names]
        if not values or None in values:
            return None
        return sum((value or 0) << 32 * i for i, value in enumerate(values))


def registers_of(function: Function) -> set[str]:
    """Those that have its arguments or its result."""
    return {name for begin in function.begins for each in begin.parameters
            for name in each.registers} | set(RESULTS)


def is_part(asked: Asked, function: Function, begin: Begin) -> bool:
    """Whether inlined code is but a part of the function's own: what a compiler took out of it to
    inline the rest elsewhere, and put back. It is in the line that names the function: no call of
    itself can be there."""
    if not begin.inlined:
        return False
    frames = asked.places.frames(begin.address)[-begin.depth - 1:]
    own = [frame.line for each in function.begins if not each.inlined
           for frame in asked.places.frames(each.address)[-1:]]
    return (len(frames) > 1 and frames[0].function == frames[1].function
            and any(frames[1].line <= line for line in own))


def inlined_call(frames: list[Frame], begin: Begin) -> list[Union[str, Frame]]:
    """What the code of one inlined call has in common: the function, and the frames over it."""
    over = len(frames) - begin.depth
    return [frames[over - 1].function, *frames[over:]] if over > 0 else []


def is_text(kind: Type) -> bool:
    return bool(kind["kind"] == "pointer" and "char" in kind["name"])


def add_texts(asked: Asked, calls: Sequence[Call]) -> None:
    """Looks for the texts of calls that are told."""
    found = texts_of(asked, [each for call in calls for each in call.pointers() if each.address
                             < asked.log.memory and not asked.named.is_read_only(each.address)])
    for call in calls:
        call.texts = found


def said_value(asked: Asked, kind: Type, value: Optional[int], text: str = "") -> str:
    if value is None:
        return "unknown"
    if kind["kind"] in ("fields", "array"):
        return f"{value:08x}"
    said = value_text(Leaf("", 0, kind),
                      value.to_bytes(8, "little")[:max(1, kind["size"])], asked.name_of)
    if text:
        return f"{said} {text!r}"
    return said + (literal(asked.named, value) if is_text(kind) else "")


def literal(named: Elf, address: int) -> str:
    """The text at an address that no run can change."""
    found = named.part_of(address)
    if not found or not named.is_read_only(address):
        return ""
    body = bytes(found.body[address - found.address:][:MOST_TEXT]).partition(b"\0")[0]
    return f" {body.decode('ascii')!r}" if body and all(32 <= byte < 127 for byte in body) else ""


def said_result(asked: Asked, call: Call) -> Optional[str]:
    """None if there is none."""
    if call.begin.result is None or call.rows is None:
        return None
    return said_value(asked, call.begin.result, call.result,
                      call.texts.get(Pointer(call.back, call.result or 0), ""))


def said_arguments(asked: Asked, call: Call) -> dict[str, str]:
    return {each.name: said_value(asked, each.type,
                                  value, call.texts.get(Pointer(call.place, value or 0), "")
                                  if is_text(each.type) else "")
            for each, value in zip(call.begin.parameters, call.values)}


def call_line(call: Call, asked: Asked) -> list[str]:
    position = f"{call.hart.decode()}:{call.count}"
    places = asked.places
    if call.begin.inlined:
        return [position, "(inlined)", "", "", places.chain([call.begin.address], MOST_FRAMES)]
    arguments = ", ".join(f"{name}={text}" for name, text in said_arguments(asked, call).items())
    result = said_result(asked, call)
    came = "jumps from " if call.jumped else "from "
    return [position, f"({arguments})", f"-> {result}" if result else "",
            counted(call.rows, "row") if call.rows is not None else "no return",
            came + places.chain([call.source], MOST_FRAMES) if call.source
            else "from before the first row"]


def calls_report(found: FoundCalls) -> list[str]:
    asked = found.asked
    asked.places.fetch(call.source or call.begin.address for call in found.told)
    return asked.report(f"CALLS of {found.function.title()}: {counted(found.total, 'call')}",
                        [(int(call.hart), call.count) for call in found.told], found.total,
                        columns([call_line(call, asked) for call in found.told]))


def calls_answer(found: FoundCalls) -> dict[str, Any]:
    asked = found.asked
    return {"function": found.function.name, "calls": found.total, "left_out": asked.left_out(),
            "entries": [{"hart": int(call.hart), "count": call.count, "place":
                         place_of(asked.places, call.begin.address), "inlined": call.begin.inlined,
                         "from": place_of(asked.places, call.source) if call.source else None,
                         "arguments": said_arguments(asked, call), "rows": call.rows,
                         "result": said_result(asked, call)} for call in found.told]}


def calls_of(asked: Asked, function: Function, most: int = TOLD,
             where: Optional[Where] = None) -> FoundCalls:
    found = FoundCalls(asked, function, most, where)
    read(asked.chunks(), found)
    found.finish()
    add_texts(asked, found.told)
    return found


def main(words: list[str]) -> int:
    (log_name, elf_name, name), given = read_words(words, HELP.form)
    most = whole(given.get("--last", str(TOLD)), 1, MOST_TOLD, "--last")
    with asked_of(log_name, elf_name, given) as asked:
        function = function_of(asked.named, name)
        where = Where(given["--where"], function) if "--where" in given else None
        found = calls_of(asked, function, most, where)
        put_found("calls", found, calls_report, calls_answer, "--json" in given)
    return 0

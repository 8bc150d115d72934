"""What stored to a variable, by all rows that touch a word of it."""
from __future__ import annotations

import random
import re
from typing import Any, Dict, Iterator, List, NamedTuple, Optional, Tuple

from .asking import Asked
from .machine import Machine, Row, SystemCall
from .of_input import Inputs
from .program import number_text

WORDS: Dict[str, Any] = {"kind": "bytes"}
FRAMES = 4                  # of a store and the calls over it are told
Bytes = List[Optional[int]]


class Leaf(NamedTuple):
    """A part of a variable that has no parts. Its type is None if it is one of bits."""
    path: str
    at: int
    size: int
    type: Optional[Dict[str, Any]]


class Variable(NamedTuple):
    """`name` is how it is asked for."""
    name: str
    address: int
    size: int
    leaves: List[Leaf]


class Stored(NamedTuple):
    """A store, or a `read` call, and the bytes of the variable before and after it."""
    row: Row
    fill: Optional[SystemCall]
    first: int
    end: int
    old: Bytes
    new: Bytes


class Index:
    """Of each word the rows that touch it."""

    def __init__(self, machine: Machine) -> None:
        self.machine = machine
        self.rows: Dict[int, List[int]] = {}
        self.stored: Dict[int, int] = {}        # {word: how many rows store to it}
        for row in machine.rows:
            for word in {access.address & ~3 for access in (row.load, row.store) if access}:
                self.rows.setdefault(word, []).append(row.number)
            if row.store:
                self.stored[row.store.address & ~3] = self.stored.get(row.store.address & ~3, 0) + 1
        self.inputs = Inputs(machine)
        self.fills = self.inputs.reads

    def at_start(self, address: int) -> Optional[int]:
        image = self.machine.image
        return (image.byte(address) if not self.machine.head.dropped or image.is_read_only(address)
                else None)

    def stores(self, address: int, size: int) -> List[Stored]:
        """In the order of rows."""
        words = range(address & ~3, address + size, 4)
        known = {at: self.at_start(at) for word in words for at in range(word, word + 4)}
        numbers = {number for word in words for number in self.rows.get(word, [])} | set(self.fills)
        found = []
        for number in sorted(numbers):
            row = self.machine.rows[number]
            fill = self.fills.get(number)
            first, end = self.touched(row, fill)
            # Of an atomic: it tells what was there before
            if row.load and row.load.address & ~3 in words:
                known.update((row.load.address & ~3 | i, row.load.value >> 8 * i & 255)
                             for i in range(4))
            old = [known[address + i] for i in range(size)]
            if fill and first < address + size and address < end:
                for word in words:
                    if word < end and first < word + 4:
                        known.update(dict.fromkeys(range(word, word + 4)))
                found.append(Stored(row, fill, first, end, old,
                                    [known[address + i] for i in range(size)]))
            if row.store and row.store.address & ~3 in words:
                known.update((row.store.address & ~3 | i, row.store.value >> 8 * i & 255)
                             for i in range(4))
            if row.store and first < address + size and address < end:
                found.append(Stored(row, None, first, end, old,
                                    [known[address + i] for i in range(size)]))
            if number < self.machine.begun:     # a lost row may store there before the next one
                known.update(dict.fromkeys(known))
        return found

    def touched(self, row: Row, fill: Optional[SystemCall]) -> Tuple[int, int]:
        if fill:
            return fill.address, fill.address + fill.size
        return (row.store.address, row.store.address + row.code.width) if row.store else (0, 0)


def words_of(name: str, address: int, size: int) -> Variable:
    """Bytes without a type: words, if they are more than one."""
    if size <= 4:
        return Variable(name, address, size, [Leaf("", 0, size, WORDS)])
    leaves = [Leaf(f"+{at}" if at else "", at, min(4, size - at), WORDS)
              for at in range(0, size, 4)]
    return Variable(name, address, size, leaves)


def variable_of(asked: Asked, name: str) -> Variable:
    """The variable of a symbol."""
    symbol = next(each
                  for each in asked.program.symbols if each.name == name and each.kind == "OBJECT")
    told = asked.program.types["variables"].get(name)
    if not told:
        return words_of(name, symbol.address, symbol.size)
    leaves = [Leaf(path, at, kind["size"] if kind else 0, kind)
              for path, at, kind in told["leaves"]]
    return Variable(name, told["address"], told["size"], leaves)


def variables(asked: Asked, index: Index, draw: random.Random, most: int) -> Iterator[Variable]:
    """Some variables, those that rows stored to before others; and bytes that rows stored to, by
    their address."""
    objects = [each
               for each in asked.program.symbols if each.kind == "OBJECT" and 0 < each.size <= 4096]
    names = [each.name for each in objects]
    objects = [each for each in objects if names.count(each.name) == 1]
    draw.shuffle(objects)
    objects.sort(key=lambda each: not any(word in index.stored for word
                                          in range(each.address & ~3, each.address + each.size, 4)))
    for symbol in objects[:most]:
        variable = variable_of(asked, symbol.name)
        yield variable
        some = [leaf for leaf in variable.leaves if leaf.path[:1] not in ("", "+") and leaf.type]
        for leaf in draw.sample(some, min(1, len(some))):
            yield Variable(symbol.name + leaf.path, variable.address + leaf.at, leaf.size,
                           [leaf._replace(path="", at=0)])
    stored = sorted(index.stored)
    for word in draw.sample(stored, min(2, len(stored))):
        at = word + draw.randrange(4)
        size = draw.choice([1, 2, 4, 4])
        yield words_of(f"{at:08x}:{size}", at, size)


def entry(asked: Asked, inputs: Inputs, variable: Variable, stored: Stored) -> Dict[str, Any]:
    """As docs/JSON.md has it. `old` and `new` are left out if this doesn't know the type."""
    first = max(stored.first - variable.address, 0)
    end = min(stored.end - variable.address, variable.size)
    caller = asked.machine.caller(stored.row.number)
    said: Dict[str, Any] = {"hart": stored.row.hart, "count": stored.row.ic, "row": stored.row.text,
                            "place": asked.place(stored.row.code.pc),
                            "caller": None if caller is None else asked.place(caller),
                            "read": stored.fill.size if stored.fill else 0, "input": None}
    if stored.fill:
        said["input"] = inputs.numbers(stored.fill, first + variable.address - stored.first,
                                       end + variable.address - stored.first)[0]
    leaves = [leaf for leaf in variable.leaves if leaf.at < end and first < leaf.at + leaf.size]
    if (leaves and all(leaf.type for leaf in variable.leaves)
            and not (stored.fill and len(leaves) > 1)):
        # Of several the bytes as they are
        leaf = leaves[0] if len(leaves) == 1 else Leaf(leaves[0].path, first, end - first, WORDS)
        values = [number_text(leaf.type or {}, data[leaf.at:leaf.at + leaf.size], asked.program)
                  for data in (stored.old, stored.new)]
        if None not in values:
            said.update(part=leaf.path, old=values[0], new=values[1])
    return said


def ask_history(asked: Asked, draw: random.Random, most: int = 5) -> None:
    index = Index(asked.machine)
    for variable in list(variables(asked, index, draw, most)):
        ask(asked, index, variable)
        if draw.random() < 0.3:
            ask_changes(asked, index, variable)
        if draw.random() < 0.3:
            ask_text(asked, index, variable)


def ask_variable(asked: Asked, name: str) -> None:
    index = Index(asked.machine)
    variable = variable_of(asked, name)
    ask(asked, index, variable)
    ask_text(asked, index, variable)


def ask(asked: Asked, index: Index, variable: Variable) -> None:
    words = [variable.name, "--last", "1000000"]
    told = asked.json("history", *words)
    if told is None:
        return
    true = index.stores(variable.address, variable.size)
    asked.program.fetch({each.row.code.pc for each in true})
    if asked.same("history: stores", words, (told["stores"], len(told["entries"])),
                  (len(true), len(true))):
        for one, stored in zip(told["entries"], true):
            at = f"{one['hart']}:{one['count']}"
            for key, value in entry(asked, index.inputs, variable, stored).items():
                asked.same(f"history: {key}", words, (at, one[key]),
                           (f"{stored.row.hart}:{stored.row.ic}", value))


def ask_text(asked: Asked, index: Index, variable: Variable) -> None:
    """The calls over each store, as the text has them."""
    words = [variable.name, "--last", "1000000"]
    lines = [line for line in asked.text("history", *words) if re.match(r"  \d+:\d+ ", line)]
    true = index.stores(variable.address, variable.size)
    if asked.same("history: lines", words, len(lines), len(true)):
        for line, stored in zip(lines, true):
            pcs = [stored.row.code.pc,
                   *asked.machine.chain(asked.machine.frames[stored.row.number])]
            chain = "  <  ".join(asked.program.chain(pcs, FRAMES))
            told = line[-len(chain):] if chain else ""
            asked.same("history: calls over it", words, (line, told), (line, chain))


def ask_changes(asked: Asked, index: Index, variable: Variable) -> None:
    """What was unknown has changed."""
    words = [variable.name, "--changes", "--last", "1000000"]
    told = asked.json("history", *words)
    if told is not None:
        true = [each for each in index.stores(variable.address, variable.size)
                if each.fill or each.old != each.new]
        asked.same("history: --changes", words,
                   [(each["hart"], each["count"]) for each in told["entries"]],
                   [(each.row.hart, each.row.ic) for each in true])

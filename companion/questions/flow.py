"""How the harts of a log called functions, and how often each address was done."""
from __future__ import annotations

import re
from collections import Counter
from dataclasses import dataclass, field
from typing import Callable

from ..recording.stacks import Move, Stacks

PCS = re.compile(rb"\n\d+ \d+ (\w{8}) ")


@dataclass(frozen=True)
class Open:
    """A call that hasn't returned: its function's address, that of the call, the hart's count, the
    row's number, and how deep it is."""
    function: int
    call: int
    count: int
    place: int
    depth: int


@dataclass
class Flow:
    """times   {address: how often}, as text
    open    {hart: its calls that haven't returned, innermost last}
    left    is told of the end of a hart's call: the count and the row's number then"""
    stacks: Stacks
    left: Callable[[int, Open, int, int], None]
    times: Counter[bytes] = field(default_factory=Counter)
    open: dict[bytes, list[Open]] = field(default_factory=dict)
    rows: int = 0

    def take(self, text: bytes) -> None:
        self.times.update(PCS.findall(text))
        for move in self.stacks.chunk.moves():
            self.go(move, self.rows + text.count(b"\n", 0, move.place))
        self.rows += text.count(b"\n")

    def go(self, move: Move, place: int) -> None:
        calls = self.open.setdefault(move.hart, [])
        if not move.jump.frame:
            while calls and calls[-1].depth > move.behind[2]:
                self.left(int(move.hart), calls.pop(), move.ic, place)
        if move.is_call:
            calls.append(Open(int(move.target, 16), move.jump.code.pc, move.ic,
                              place, move.behind[2]))

"""Which bytes of the input memory has: each `read` call took what the one before it left, in the
order in which the log has their Ends."""
from __future__ import annotations

from typing import Dict, Optional, Sequence

from .asking import Asked
from .machine import READ, Machine, Row, SystemCall

Numbers = Sequence[Optional[int]]


class Inputs:
    """reads   {row: its `read` call}
    begins  {row: the first byte of the input that it got, or None}
    loads   {row: of each byte of the word that it loaded which of the input it was}, those alone
            that a call brought and that no row stored since"""

    def __init__(self, machine: Machine) -> None:
        self.reads = {call.row.number: call for call in machine.calls if call.kind == READ}
        self.begins: Dict[int, Optional[int]] = dict.fromkeys(self.reads)
        self.loads: Dict[int, Dict[int, Optional[int]]] = {}
        at = 0
        for hart, count in machine.head.called if not machine.head.dropped else ():
            number = machine.at.get((hart, count - 1), -1)
            if number in self.reads:
                self.begins[number] = at
                at += self.reads[number].size
        known: Dict[int, Optional[int]] = {}
        for row in machine.rows if self.reads else ():
            self.take(row, known)

    def take(self, row: Row, known: Dict[int, Optional[int]]) -> None:
        call = self.reads.get(row.number)
        if call:
            known.update(zip(range(call.address, call.address + call.size),
                             self.numbers(call, 0, call.size)))
        if row.load:
            word = row.load.address & ~3
            self.loads[row.number] = {i: known[word + i] for i in range(4) if word + i in known}
        for at in (range(row.store.address, row.store.address + row.code.width) if row.store
                   else ()):
            known.pop(at, None)

    def numbers(self, call: SystemCall, first: int, end: int) -> Numbers:
        begin = self.begins[call.row.number]
        return [None if begin is None else begin + at for at in range(first, end)]


def ask_bytes(asked: Asked, words: Sequence[str], row: Row, told: Numbers, true: Numbers) -> None:
    """What is told of a load; and the input has there what the row loaded."""
    asked.same("input: its bytes", words, (row.text, list(told)), (row.text, list(true)))
    if told and None not in told and len(told) == 4 and row.load:
        read = asked.recorded.read
        asked.same("input: is what was loaded", words,
                   (row.text, [read[at] for at in told if at is not None]),
                   (row.text, list(row.load.value.to_bytes(4, "little"))))

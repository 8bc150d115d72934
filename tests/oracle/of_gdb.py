"""gdb over the bridge: registers, memory and backtraces at drawn rows."""
from __future__ import annotations

import json
import os
import random
import subprocess
import sys
import tempfile
from typing import Any, Dict, List, Optional, Sequence

from .asking import Asked
from .machine import NAMES, REGISTER, Frame, Memory
from .program import GDB

INSIDE = os.path.join(os.path.dirname(os.path.abspath(__file__)), "gdb_states.py")
ROWS = 6
WORDS = 4
DEEPEST = 3
MOST_ROWS = 100000


class State:
    """What is true before a row."""

    def __init__(self, registers: List[int], pc: int, words: Dict[int, Optional[int]],
                 backs: List[int]) -> None:
        self.registers = registers
        self.pc = pc
        self.words = words
        self.backs = backs


def backs_of(frame: Optional[Frame]) -> List[int]:
    """The addresses to which the calls over a row return, innermost first. (A tail call returns
    with the call that it stands in.)"""
    found: List[int] = []
    while frame and len(found) < DEEPEST:
        if not frame.is_tail and frame.back is not None:
            found.append(frame.back)
        frame = frame.parent
    return found


def states(asked: Asked, numbers: Sequence[int], draw: random.Random) -> List[State]:
    """Before these rows, in order."""
    machine = asked.machine
    registers = {hart: list(values) for hart, (_, values) in machine.head.first.items()}
    memory = Memory(machine.image, not machine.head.dropped)
    fills = {call.row.number: call for call in machine.calls if call.size and call.kind == 63}
    touched = sorted({access.address & ~3 for row in machine.rows
                      for access in (row.load, row.store) if access})
    wanted = set(numbers)
    found: List[State] = []
    for row in machine.rows:
        if row.number in wanted:
            words = {word: memory.word(word)
                     for word in draw.sample(touched, min(WORDS, len(touched)))}
            found.append(State(list(registers[row.hart]), row.code.pc, words,
                               backs_of(machine.frames[row.number])))
        if row.number in fills:
            memory.fill(fills[row.number].address, fills[row.number].size)
        for access in (row.load, row.store):
            if access:
                memory.words[access.address & ~3] = access.value
        if row.register:
            registers[row.hart][REGISTER[row.register]] = row.result
    return found


def told_by_gdb(asked: Asked, places: Sequence[Any], questions: Sequence[str]) -> Dict[str, Any]:
    bridge = (f"{sys.executable} -B {os.path.join(asked.server.project, 'companion')} gdb "
              f"{asked.recorded.log} {asked.recorded.elf}")
    with tempfile.TemporaryDirectory() as folder:
        wanted = os.path.join(folder, "asked")
        answer = os.path.join(folder, "answer")
        with open(wanted, "w", encoding="utf-8") as file:
            json.dump({"places": places, "questions": questions}, file)
        done = subprocess.run(
            [GDB, "-q", "-nx", "-batch", "-ex", "set remotetimeout 300", "-ex",
             f"file {asked.recorded.named}", "-ex", f"target remote | {bridge}", "-x", INSIDE],
            stdout=subprocess.PIPE, stderr=subprocess.STDOUT, check=False,
            env={**os.environ, **asked.environment, "ASKED": wanted, "ANSWER": answer},
            text=True, errors="replace")
        if not os.path.exists(answer):
            asked.differs("gdb: no answer", ["gdb"], done.stdout[-300:], "an answer")
            return {"states": [], "answers": []}
        with open(answer, encoding="utf-8") as file:
            found: Dict[str, Any] = json.load(file)
    return found


def ask_gdb(asked: Asked, draw: random.Random) -> None:
    rows = asked.machine.rows
    if not rows or len(rows) > MOST_ROWS or "ZELKUMA_GDB" in asked.environment:
        return
    numbers = sorted(draw.sample(range(len(rows)), min(ROWS, len(rows))))
    true = states(asked, numbers, draw)
    objects = [each.name
               for each in asked.program.symbols if each.kind == "OBJECT" and 0 < each.size <= 64]
    names = [f"history {draw.choice(objects)}"] if objects and not asked.names() else []
    told = told_by_gdb(asked, [[rows[number].hart, rows[number].ic, sorted(state.words)]
                               for number, state in zip(numbers, true)], names)
    for question, answer in zip(names, told["answers"]):
        word, what = question.split(" ")
        told_lines = [line for line in answer.splitlines() if not line.startswith("zelkuma: ")]
        asked.same("gdb: monitor", [question], told_lines, asked.text(word, what))
    for number, state, one in zip(numbers, true, told["states"]):
        at = f"at {rows[number].hart}:{rows[number].ic}"
        asked.same("gdb: pc", [at], one["pc"], state.pc)
        for name, value in zip(NAMES, one["registers"]):
            asked.same("gdb: registers", [at], (at, name, value),
                       (at, name, state.registers[REGISTER[name]]))
        for address, value in state.words.items():
            # (gdb may know more: what the session has seen further ahead. Of several harts the
            # others stand as they are once the row is its hart's next, and not as they are at its
            # place in the order of `joint`.)
            if value is not None and asked.recorded.harts == 1:
                asked.same("gdb: memory", [at], (at, f"{address:08x}", one["words"][str(address)]),
                           (at, f"{address:08x}", value))
        # (gdb has its own guess of the library's code that puts registers aside, which is called by
        # t0)
        is_saving = any(place.function.startswith("__riscv_")
                        for place in asked.program.places(state.pc))
        if (asked.program.types["functions"] and asked.recorded.is_whole and one["backs"]
                and one["is_described"] and not is_saving):
            size = min(len(one["backs"]), len(state.backs))
            asked.same("gdb: backtrace", [at], (at, one["backs"][:size]), (at, state.backs[:size]))

"""The rows at which two logs part, and who stored what was loaded for it."""
from __future__ import annotations

import json
from typing import Any, Dict, List, Optional

from .asking import Asked
from .machine import READ, Machine, Row
from .of_input import Inputs

TITLES = "GOOD", "BAD"


def giver(machine: Machine, load: Row) -> Optional[Row]:
    """The latest row before a load that stored to a byte of it, or the `read` call that filled
    one."""
    if not load.load:
        return None
    first = load.load.address
    end = load.load.address + load.code.width
    fills = {call.row.number: call for call in machine.calls if call.kind == READ}
    for number in range(load.number - 1, -1, -1):
        row = machine.rows[number]
        fill = fills.get(number)
        if fill and fill.address < end and first < fill.address + fill.size:
            return row
        if row.store and row.store.address < end and first < row.store.address + row.code.width:
            return row
    return None


def brought(machine: Machine, load: Row, by: Optional[Row]) -> List[Optional[int]]:
    """The bytes of the input that a `read` call put into what a row loads."""
    inputs = Inputs(machine)
    call = inputs.reads.get(by.number) if by else None
    if not call or not load.load:
        return []
    first = max(load.load.address, call.address)
    end = min(load.load.address + load.code.width, call.address + call.size)
    return list(inputs.numbers(call, first - call.address, end - call.address))


def way_of(machine: Machine, hart: int) -> List[int]:
    return [row.code.pc for row in machine.rows if row.hart == hart]


def ask_compare(good: Asked, bad: Asked) -> None:
    """Of each hart that parted."""
    words = [bad.recorded.log, good.recorded.elf, *good.names()]
    done = good.run("compare", good.recorded.log, *words, "--json")
    if done.returncode:
        good.differs("compare: no answer", words, done.stderr, "an answer")
        return
    told: Dict[str, Any] = json.loads(done.stdout)
    machines = good.machine, bad.machine
    parted = {each["hart"]: each for each in told["parted"]}
    for hart in range(told["harts"]):
        ways = [way_of(machine, hart) for machine in machines]
        first = next((at for at, (one, other) in enumerate(zip(*ways)) if one != other),
                     min(map(len, ways)))
        differs = first < max(map(len, ways))
        if hart in parted and not differs:
            good.differs("compare: parted", words, f"hart {hart} parted", "its rows are the same")
        if good.recorded.harts == 1:            # (several can wait, which is no difference)
            good.same("compare: parted", words, (hart, hart in parted), (hart, differs))
        if hart in parted:
            ask_parting(good, words, parted[hart], machines, first)


def ask_parting(asked: Asked, words: List[str], told: Dict[str, Any],
                machines: Any, first: int) -> None:
    for at, machine in enumerate(machines):
        same = told["same"][at]
        load = told["loads"][at]
        row = machine.rows[machine.at[told["hart"], same["count"]]]
        asked.same("compare: row", words, (TITLES[at], same["row"]), (TITLES[at], row.text))
        asked.same("compare: not before they part", words,
                   (TITLES[at], same["count"] + 1 >= first), (TITLES[at], True))
        if not load:
            continue
        row = machine.rows[machine.at[load["hart"], load["count"]]]
        asked.same("compare: load", words, (TITLES[at], load["row"]), (TITLES[at], row.text))
        true = giver(machine, row)
        asked.same("compare: stored by", words, (row.text, told["givers"][at]),
                   (row.text, true.text if true else ""))
        asked.same("compare: bytes of the input", words, (row.text, told["inputs"][at]),
                   (row.text, brought(machine, row, true)))
    if asked.recorded.harts == 1 and told["same"][0]["count"] == told["same"][1]["count"]:
        asked.same("compare: where", words, told["same"][0]["count"], first - 1)

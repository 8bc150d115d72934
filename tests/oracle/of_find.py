"""The rows that have a value."""
from __future__ import annotations

import random
from typing import Any, Dict, List, Optional, Tuple

from .asking import Asked
from .machine import Access, Row
from .of_input import Inputs, ask_bytes

LONGEST = 200               # places of an answer


def ask_find(asked: Asked, draw: random.Random, most: int = 3) -> None:
    rows = asked.machine.rows
    for row in draw.sample(rows, min(most, len(rows))):
        values = [row.result] if row.register else []
        values += [access.value for access in (row.load, row.store) if access]
        ask_value(asked, draw.choice(values or [row.code.pc]))


def use_of(row: Row, value: int) -> Tuple[str, Optional[Access]]:
    """What a row does with a value, or nothing, and by which access."""
    if row.store and row.store.value == value:
        return "stores it to", row.store
    if row.load and row.load.value == value:
        return "loads it from", row.load
    return (f"puts it into {row.register}" if row.register and row.result == value else ""), None


def ask_value(asked: Asked, value: int) -> None:
    words = [f"{value:08x}"]
    told = asked.json("find", *words)
    if told is None:
        return
    places: Dict[Tuple[int, str], Dict[str, Any]] = {}
    touched: Dict[Tuple[int, str], List[Row]] = {}      # the first row of each word that is told
    inputs = Inputs(asked.machine)
    total = 0
    for row in asked.machine.rows:
        did, access = use_of(row, value)
        if not did:
            continue
        total += 1
        at = f"{row.hart}:{row.ic}"
        group = places.setdefault((row.code.pc, did),
                                  {"did": did, "first": at, "times": 0, "words": []})
        group.update(last=at, times=group["times"] + 1)
        if access and f"{access.address & ~3:08x}" not in group["words"]:
            group["words"].append(f"{access.address & ~3:08x}")
            touched.setdefault((row.code.pc, did), []).append(row)
    asked.same("find: rows", words, told["rows"], total)
    asked.program.fetch(pc for pc, _ in places)
    wanted: List[Dict[str, Any]] = [{**group, "place": asked.place(pc), "words": group["words"][:3]}
                                    for (pc, _), group in places.items()]
    asked.same("find: places", words, len(told["places"]), min(len(wanted), LONGEST))
    for one, group, key in zip(told["places"], wanted, places):
        for what, true in group.items():
            asked.same(f"find: {what}", words, one[what], true)
        rows = touched.get(key, [])[:3]
        if asked.same("find: words of the input", words, len(one["inputs"]), len(rows)):
            for row, numbers in zip(rows, one["inputs"]):
                is_load = key[1].startswith("loads")
                ask_bytes(asked, words, row, numbers,
                          list(inputs.loads.get(row.number, {}).values()) if is_load else [])

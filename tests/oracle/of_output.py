"""What the guest wrote."""
from __future__ import annotations

import random

from typing import List

from .asking import Asked
from .machine import WRITE, SystemCall


def ask_output(asked: Asked, draw: random.Random) -> None:
    told = asked.json("output")
    if told is None:
        return
    true = [call for call in asked.machine.calls if call.kind == WRITE]
    if not asked.same("output: writes", [], len(told["writes"]), len(true)):
        return
    for one, call in zip(told["writes"], true):
        wanted = {"stream": call.stream, "bytes": call.data, "row": call.row.text,
                  "place": asked.place(call.row.code.pc)}
        for key, value in wanted.items():
            asked.same(f"output: {key}", [], (call.row.ic, one[key]), (call.row.ic, value))
    ask_last(asked, true, str(draw.randrange(1, len(asked.machine.rows) + 1)))


def ask_last(asked: Asked, true: List[SystemCall], rows: str) -> None:
    """Of fewer rows the last writes are told, and what isn't known then is said to be unknown."""
    words = ["--rows", rows]
    told = asked.json("output", *words)
    if told is None or not asked.same("output: writes before", words,
                                      told["writes_before"] + len(told["writes"]), len(true)):
        return
    for one in told["writes"]:
        call = true[one["number"]]
        known = [None if byte is None else value for byte, value in zip(one["bytes"], call.data)]
        for key, value in (("stream", call.stream), ("bytes", known), ("row", call.row.text)):
            asked.same(f"output: {key} --rows", words,
                       (call.row.ic, one[key]), (call.row.ic, value))

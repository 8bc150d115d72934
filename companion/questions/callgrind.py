"""Callgrind's format: instructions by function and line, and calls with those that they took."""
from __future__ import annotations

import os
from collections import Counter
from typing import Tuple

from ..recording.places import Frame
from .flow import Flow, Open
from .reading import Asked, read

Where = Tuple[str, str, int]        # a file and a function, and the line in it


class Costs:
    """own     {where: instructions}
    times, inner   {(where, function that is called): how often, and its instructions}"""

    def __init__(self, asked: Asked) -> None:
        self.asked = asked
        self.own: Counter[Where] = Counter()
        self.times: Counter[tuple[Where, Where]] = Counter()
        self.inner: Counter[tuple[Where, Where]] = Counter()

    def where(self, pc: int) -> Where:
        """The outermost frame's place: the function whose code it is, whatever is inlined there."""
        frames = self.asked.places.frames(pc)
        frame = frames[-1] if frames else Frame(f"{pc:08x}", "", 0, "")
        return frame.path or "?", frame.function, frame.line

    def left(self, _hart: int, call: Open, count: int, _place: int) -> None:
        key = self.where(call.call), self.where(call.function)
        self.times[key] += 1
        self.inner[key] += count - call.count

    def lines(self) -> list[str]:
        said = ["# callgrind format", "version: 1", "creator: zelkuma",
                f"cmd: {os.path.basename(self.asked.elf.name)}", "positions: line",
                "events: Instructions", ""]
        functions: dict[tuple[str, str], list[str]] = {}
        for place, cost in sorted(self.own.items()):
            functions.setdefault(place[:2], []).append(f"{place[2]} {cost}")
        for (source, callee), times in sorted(self.times.items()):
            functions.setdefault(source[:2], []).extend([
                f"cfi={callee[0]}", f"cfn={callee[1]}", f"calls={times} {callee[2]}",
                f"{source[2]} {self.inner[source, callee]}"])
        for (file, function), costs in functions.items():
            said += [f"fl={file}", f"fn={function}", *costs, ""]
        return said


def callgrind(asked: Asked) -> str:
    costs = Costs(asked)
    stacks = asked.stacks()
    flow = Flow(stacks, costs.left)
    read(asked.chunks(), stacks, flow)
    pcs = {int(pc, 16): times for pc, times in flow.times.items()}
    asked.places.fetch(pcs)
    for hart, calls in flow.open.items():       # of those that didn't return: up to the hart's end
        end = asked.log.ends[int(hart)].count
        for call in calls:
            costs.left(int(hart), call, end, 0)
    for pc, times in pcs.items():
        costs.own[costs.where(pc)] += times
    return "\n".join(costs.lines()) + "\n"

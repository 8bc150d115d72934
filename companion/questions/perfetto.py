"""Trace events as JSON, which ui.perfetto.dev and others read: a thread for each hart, and a
microsecond for each row."""
from __future__ import annotations

import json
import re
from array import array
from typing import Any, Iterator

from ..recording.cut import last_count
from ..recording.log import is_fault
from .flow import Flow, Open
from .reading import Asked, read
from .waiting import Loops, Waits

# A viewer in a browser holds all in memory.
MOST_EVENTS = 500000
MOST_EDGES = 2000       # arrows: more of them hide what they lie over
# A tenth of them each, so that calls have the most
MOST_TURNS = 50000
MOST_WAITS = 50000
PROCESS = 1  # of the harts
ORDER = 2  # of the order of `joint`
WAITS = 3  # of the harts' waits


class Events:
    def __init__(self, asked: Asked) -> None:
        self.asked = asked
        self.events: list[dict[str, Any]] = []
        self.left_out = 0

    def add(self, name: str, kind: str, hart: int, place: int, **more: Any) -> None:
        if len(self.events) < MOST_EVENTS:
            self.events.append({"name": name, "ph": kind, "pid": PROCESS, "tid": hart,
                                "ts": place, **more})
        else:
            self.left_out += 1

    def left(self, hart: int, call: Open, count: int, place: int) -> None:
        """A call is told once it has ended."""
        frames = self.asked.places.frames(call.function)
        self.add(frames[-1].function if frames else f"{call.function:08x}", "X", hart, call.place,
                 dur=max(1, place - call.place),
                 args={"count": call.count, "instructions": count - call.count,
                       "from": self.asked.places.where(call.call)})


class TurnEvents:
    """When each hart's rows stand together in the order of `joint`, when it waits, and the rows of
    Edges."""

    def __init__(self, asked: Asked) -> None:
        self.asked = asked
        self.rows = 0
        self.hart = b""
        self.waits = Waits(Loops(asked.elf), asked.log.harts, MOST_WAITS)
        self.begins = array("Q")
        self.harts = array("B")
        self.wanted = {(hart, count): -1 for pair in self.edges() for hart, count in pair}
        self.order = {hart: sorted(count for of, count in self.wanted if of == hart)
                      for hart in range(asked.log.harts)}

    def edges(self) -> Iterator[tuple[tuple[int, int], tuple[int, int]]]:
        """The last Edges: from the hart and count that came first to those that came after it."""
        edges = self.asked.log.edges
        for at in range(max(0, len(edges.counts) - MOST_EDGES), len(edges.counts)):
            yield (edges.sources[at], edges.source_counts[at]), (edges.harts[at], edges.counts[at])

    def take(self, text: bytes) -> None:
        self.turns(text)
        self.waits.take(text)
        for hart, counts in self.order.items():
            known = last_count(text, hart) if counts else -1
            while counts and counts[0] <= known:
                at = text.find(b"\n%d %d " % (hart, counts[0]))
                self.wanted[hart, counts.pop(0)] = (self.rows + text.count(b"\n", 0, at) if at >= 0
                                                    else -1)
        self.rows += text.count(b"\n")

    def turns(self, text: bytes) -> None:
        at = 0
        while 0 <= at < len(text) and len(self.begins) < MOST_TURNS:
            hart = text[at + 1:text.index(b" ", at + 1)]
            if hart != self.hart:
                self.hart = hart
                self.begins.append(self.rows + text.count(b"\n", 0, at))
                self.harts.append(int(hart))
            found = re.compile(rb"\n(?!%s )" % hart).search(text, at + 1)
            at = found.start() if found else -1

    def events(self) -> Iterator[dict[str, Any]]:
        ends = list(self.begins[1:]) + [self.rows]
        for begin, end, hart in zip(self.begins, ends, self.harts):
            yield {"name": f"hart {hart}", "ph": "X", "pid": ORDER, "tid": 0,
                   "ts": begin, "dur": max(1, end - begin)}
        waits = self.waits.all()
        self.asked.places.fetch(wait.address for wait in waits)
        for wait in waits:
            yield {"name": f"waits in {self.asked.places.where(wait.address)}", "ph": "X",
                   "pid": WAITS, "tid": wait.hart, "ts": wait.begin, "dur": wait.end - wait.begin,
                   "args": {"rows": wait.rows}}
        for number, (source, other) in enumerate(self.edges()):
            if self.wanted[source] >= 0 and self.wanted[other] >= 0:
                for kind, (hart, count) in (("s", source), ("f", other)):
                    yield {"name": "Edge", "cat": "Edge", "id": number, "ph": kind, "pid": PROCESS,
                           "tid": hart, "ts": self.wanted[hart, count], "args": {"count": count}}


def perfetto(asked: Asked) -> str:
    events = Events(asked)
    turns = TurnEvents(asked)
    stacks = asked.stacks()
    flow = Flow(stacks, events.left)
    read(asked.chunks(), stacks, turns, flow)
    for hart, end in sorted(asked.log.ends.items()):
        for call in flow.open.get(b"%d" % hart, []):
            events.left(hart, call, end.count, flow.rows)
        events.add(end.reason, "i", hart, flow.rows, s="t",
                   args={"value": f"{end.value:08x}", "count": end.count,
                         "fault": is_fault(end.reason)})
    names = [{"name": "thread_name", "ph": "M", "pid": pid, "tid": hart,
              "args": {"name": f"hart {hart}"}} for pid in (PROCESS, WAITS)
             for hart in range(asked.log.harts)]
    names += [{"name": "process_name", "ph": "M", "pid": pid, "tid": 0, "args": {"name": name}}
              for pid, name in ((PROCESS, "harts"), (ORDER, "order of joint"), (WAITS, "waits"))]
    return json.dumps({"otherData": {"creator": "zelkuma", "events left out": events.left_out},
                       "displayTimeUnit": "ns",
                       "traceEvents": names + events.events + list(turns.events())}) + "\n"

"""Whether a build is mended: the order of a crash is carried over to it, and orders near that are
tried."""
from __future__ import annotations

from dataclasses import dataclass, field
from typing import Any, Dict, List, Optional, Sequence, Tuple

from ..call.errors import UNSURE, WRONG
from ..call.text import counted, number
from ..recording.answers import LONGEST
from ..recording.turns import Pieces
from .carry import GONE, KEPT, Carrier, CarriedStep
from .marks import FAULT, LIMIT, WELL, Ended, Order, Power
from .neighbours import FARTHEST, at_accesses, neighbours, shared_turns
from .order_file import point_text
from .record import FAULT as STATUS_FAULT
from .record import LIMIT as STATUS_LIMIT
from .runs import GROWN, AskedTurns, Runs

HOLDS = 0                           # the status
TRIES = 300                         # two seconds of processor time for a short run
MOST_TRIES = 100000
MOST_INSTRUCTIONS = 20000000000     # of all orders near one; a run that is longer has fewer of them
# So many of the orders tried would crash if the build were the recorded one: that none does is then
# no chance, of which there is one in e^20.
ENOUGH = 20
MOST_ENDINGS = 5                    # are told
STATUS = {WELL: HOLDS, FAULT: STATUS_FAULT, LIMIT: STATUS_LIMIT}


@dataclass
class BadEnding:
    """A bad end, how many orders end so, and the first of them."""
    end: Ended
    first: AskedTurns
    count: int = 0


@dataclass
class Near:
    """Orders near one: how many were tried, how many end well only with a greater limit, and the
    bad ends. `left_out` weren't tried, since the run is long."""
    tried: int = 0
    slow: int = 0
    left_out: int = 0
    endings: List[BadEnding] = field(default_factory=list)

    @property
    def bad(self) -> int:
        return sum(ending.count for ending in self.endings)


@dataclass
class Checked:
    """What is found of a build.

    carried   how it ends by the order that was carried over, and that order
    shown     the bad end that the verdict is of, if there is one
    status    that of the verdict"""
    order: Order
    steps: Sequence[CarriedStep]
    carried: Ended
    near: Near
    recordings: int
    verdict: str = ""
    status: int = HOLDS
    shown: Optional[BadEnding] = None


def near_of(runs: Runs, asked: Sequence[AskedTurns]) -> Near:
    """Tries these orders near one."""
    most = min(len(asked), MOST_INSTRUCTIONS // max(1, runs.longest))
    found = Near(left_out=len(asked) - most)
    # What called a line counts as far as that makes it the recorded end
    by_end: Dict[Tuple[Ended, bool], BadEnding] = {}
    for done in runs.each(asked[:most]):
        found.tried += 1
        if done.end.kind == WELL:
            found.slow += done.is_slow
            continue
        key = (done.end._replace(caller=None),
               runs.wanted is not None and done.end.is_as(runs.wanted))
        by_end.setdefault(key, BadEnding(done.end, done.asked)).count += 1
    found.endings = sorted(by_end.values(), key=lambda ending: -ending.count)
    return found


def power_of(runs: Runs, pieces: Pieces, harts: int, tries: int) -> Optional[Power]:
    """How many of so many orders near that of a crash end badly."""
    near = near_of(runs, neighbours(pieces, harts, tries)) if tries else None
    return Power(near.bad, near.tried) if near else None


def checked_order(runs: Runs, order: Order, tries: int) -> Checked:
    carrier = Carrier(runs, order)
    pieces = carrier.run()
    asked = AskedTurns(pieces) if order.harts > 1 else AskedTurns()
    carried = runs.one(asked).end
    near = Near()
    if carried.kind == WELL and order.harts > 1:
        asked_near = neighbours(pieces, order.harts, tries)
        if tries and is_kept(carrier.steps):
            shared = shared_turns(runs.accesses(pieces, FARTHEST))
            asked_near += at_accesses(pieces, shared)[:tries]
        near = near_of(runs, asked_near)
    found = Checked(order, carrier.steps, carried, near, runs.count)
    if carried.kind != WELL:
        found.shown = BadEnding(carried, asked, 1)
    elif near.endings:
        found.shown = next((ending for ending in near.endings if is_same(ending.end, order)),
                           near.endings[0])
    judge_order(found)
    return found


def is_kept(steps: Sequence[CarriedStep]) -> bool:
    return all(step.how == KEPT for step in steps)


def is_same(end: Ended, order: Order) -> bool:
    return order.end is not None and end.is_as(order.end)


def judge_order(found: Checked) -> None:
    order = found.order
    near = found.near
    if found.shown:
        by = "by an order near it" if near.endings else "by the order itself"
        if is_same(found.shown.end, order):
            found.verdict = f"STILL CRASHES, {by}" + call_apart(found.shown.end, order.end)
        else:
            found.verdict = "ENDS BADLY, " + ("but otherwise, " if order.end else "") + by
        found.status = STATUS.get(found.shown.end.kind, WRONG)
    elif order.harts == 1:
        found.verdict = "HOLDS for this input: one hart has one order"
    elif GONE in {step.how for step in found.steps} and expected(found) < ENOUGH:
        found.verdict = "UNSURE: nothing ends badly, but the order could not be carried over"
        found.status = UNSURE
    else:
        found.verdict = "HOLDS, as far as was tried: the order " + (
            "comes, and ends well" if is_kept(found.steps) else "can't come any more")


def call_apart(end: Ended, recorded: Optional[Ended]) -> str:
    if end.kind != FAULT or recorded is None or end.is_here(recorded):
        return ""
    return "; one of the two lines calls the other's function"


def expected(found: Checked) -> float:
    """How many of the orders that were tried would end badly if the build were the recorded one."""
    power = found.order.power
    return power.met * found.near.tried / power.tried if power and power.tried else 0.0


def lines(found: Checked) -> List[str]:
    order = found.order
    said = [f"looked for: {order.end.text()}"] if order.end else []
    for at, step in enumerate(found.steps, 1):
        point = step.mark.point
        said.append(f"{at:>3}. "
                    f"hart {step.mark.hart} until {point.what()} in {point.place()}: {step.said}")
    kept = sum(step.how == KEPT for step in found.steps)
    switches = counted(len(found.steps), "switch")
    are = "is as it was" if len(found.steps) == 1 else "are as they were"
    by = f"{kept} of {switches} {are}; by this order: " if found.steps else ""
    return said + [by + found.carried.text()] + near_lines(found) + [found.verdict]


def near_lines(found: Checked) -> List[str]:
    near = found.near
    power = found.order.power
    if not near.tried:
        return []
    end, do = ("ends", "does") if near.tried == 1 else ("end", "do")
    said = [f"{number(near.tried - near.bad)} of {counted(near.tried, 'order')} near it {end} well"]
    if power:
        said[0] += (f"; of the recorded build {number(power.tried - power.met)} of "
                    f"{number(power.tried)} {do}")
    else:
        said[0] += f"; how many of the recorded build {do} isn't known"
    if power and not power.met:
        said.append("    none near it crashes in the recorded build, "
                    "so these say nothing: the order alone does")
    if near.slow:
        said.append(f"    {number(near.slow)} of them need more than the limit, "
                    f"and end well with {GROWN} times as much")
    if near.left_out:
        said.append(f"    {number(near.left_out)} more are left out, since a run is long")
    for ending in near.endings[:MOST_ENDINGS]:
        said.append(f"    {number(ending.count)}: {ending.end.text()}; "
                    f"first by {ending.first.text()}")
    more = len(near.endings) - MOST_ENDINGS
    return said + ([f"    .. {counted(more, 'more end')} .."] if more > 0 else [])


def verdict_answer(found: Checked) -> Dict[str, Any]:
    order = found.order
    near = found.near
    return {"program": order.program, "verdict": found.verdict, "status": found.status,
            "end": order.end.text() if order.end else "", "carried": found.carried.text(),
            "switches": [{"hart": step.mark.hart, "point": point_text(step.mark.point),
                          "how": step.how, "said": step.said} for step in found.steps[:LONGEST]],
            "tried": near.tried, "well": near.tried - near.bad, "slow": near.slow,
            "left_out": near.left_out, "power": list(order.power) if order.power else None,
            "endings": [{"end": ending.end.text(), "count": ending.count,
                         "first": ending.first.text()} for ending in near.endings[:LONGEST]],
            "recordings": found.recordings}

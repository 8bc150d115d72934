"""The findings as text and for other programs."""
from __future__ import annotations

from typing import Any, List, Optional, Sequence

from ..call.text import counted, number
from ..recording.answers import LONGEST, place_of
from ..recording.places import Places
from .findings import UNINITIALIZED, Finding
from .leaks import Leak
from .run import CheckedRun
from .state import Event

TOLD = 10  # findings that the text tells
MOST_CALLERS = 4  # callers of each place
MOST_LEAKS = 10  # groups of leaks
NO_ALLOCATOR = ("No function that takes or gives back memory is known: "
                "--alloc FN and --free FN name the program's own.")
LOST = ("The log lost its beginning: of what was taken, "
        "written or called before its first row nothing is said.")


class MemoryAnswer:
    """What was found, in names and lines. `notes` are lines on what wasn't read."""

    def __init__(self, run: CheckedRun, places: Places, notes: Sequence[str],
                 leaks: List[Leak]) -> None:
        self.run = run
        self.places = places
        self.program = run.program
        self.findings = run.findings.in_order()
        self.leaks = leaks[:MOST_LEAKS]
        self.notes = list(notes) + self.own_notes()
        pcs = {pc for each in self.findings[:LONGEST]
               for event in events_of(each) for pc in event.pcs}
        pcs.update(each.origin for each in self.findings[:LONGEST] if each.origin)
        pcs.update(pc for leak in self.leaks for pc in leak.callers)
        places.fetch(pcs)

    def own_notes(self) -> List[str]:
        run = self.run
        said = [] if run.is_whole else [LOST]
        if not run.heap.hooks:
            said.append(NO_ALLOCATOR)
        if run.program.dwarf.left_out or not run.program.entries:
            said.append("Types and variables aren't known of all code: "
                        "it has no debug information that can be read (gcc -g).")
        for hook in run.heap.hooks.values():
            times = run.program.inlined[hook.name]
            said += [f"{hook.name} was inlined in {counted(times, 'place')}, too: "
                     "what it does there isn't known."] if times else []
        said += [f"Unknown: {number(times)} times {what}."
                 for what, times in run.findings.unknown.items()]
        inside = [hart for hart in run.harts if hart.awaited]
        return said + [f"Hart {hart.number} is in {hart.awaited.name} to the end, "
                       "whose rows aren't looked at." for hart in inside if hart.awaited]

    # Places: the user's first.

    def split(self, pcs: Sequence[int]) -> tuple[str, Sequence[int]]:
        """The library's function that a place is in, and the places from the user's call of it
        on."""
        at = next((at for at, pc in enumerate(pcs) if not self.program.is_library(pc)), 0)
        return (self.program.function_of(pcs[0]) if at else ""), pcs[at:]

    def chain(self, pcs: Sequence[int]) -> str:
        library, pcs = self.split(pcs)
        return (f"{library}, called in " if library else "") + (self.places.chain(pcs, MOST_CALLERS)
                                                                or "?")

    def event(self, what: str, event: Event, also: str = "") -> str:
        return (f"     {what} in {self.chain(event.pcs)}, "
                f"hart {event.hart} at count {number(event.count)}{also}")

    # As text.

    def lines(self) -> List[str]:
        found = self.findings
        run = self.run
        head = f"MEMORY: {counted(len(found), 'finding')} in {counted(run.read, 'row')}"
        lines = [head + (", as they happened" if len(found) > 1 else "")]
        for at, each in enumerate(found[:TOLD], 1):
            lines += self.finding(at, each)
        left = len(found) + run.findings.more - TOLD
        lines += ([f"  .. and {counted(left, 'more finding')} (--json tells {LONGEST})"] if left > 0
                  else [])
        lines += self.failed() + [self.leak_line(each) for each in self.leaks]
        return lines + ["  " + each for each in self.notes]

    def finding(self, at: int, found: Finding) -> List[str]:
        times = f" ({number(found.times)} times)" if found.times > 1 else ""
        lines = [f"  {at}. {found.kind}: {found.text}", self.event("it is", found.when, times)]
        if found.origin:
            what = "value" if found.kind == UNINITIALIZED else "pointer"
            lines.append(f"     the {what} was {found.origin_does} in "
                         f"{self.chain((found.origin,))}")
        thing = found.thing
        if thing is not None and thing.taken is not None:
            lines.append(self.event("the block was asked for" if thing.kind == "null"
                                    else "the block was taken", thing.taken))
        if thing is not None and thing.gone is not None and thing.gone.pcs:
            does = "its memory was given out again" if thing.is_again else "it was given back"
            lines.append(self.event(does, thing.gone,
                                    ": another hart" if thing.gone.hart != found.when.hart else ""))
        return lines

    def failed(self) -> List[str]:
        if self.run.heap.failed is None:
            return []
        when, size, blocks, held = self.run.heap.failed
        return [f"  An allocator gave 0 first for {number(size)} bytes, in {self.chain(when.pcs)}: "
                f"{counted(blocks, 'block')} of {number(held)} bytes were live."]

    def leak_line(self, leak: Leak) -> str:
        kind = "memory-leak" if leak.unreached else "live at the end"
        return (f"  {kind}: {counted(leak.blocks, 'block')} of {number(leak.size)} bytes, "
                f"{number(leak.unreached)} of them reached by no pointer, "
                f"taken in {self.chain(leak.callers)}")

    # For other programs.

    def answer(self) -> dict[str, Any]:
        stacks = [{"hart": hart.number, "deepest": hart.top - hart.lowest,
                   "deepest_at": self.event_of(hart.lowest_at)}
                  for hart in self.run.harts if self.run.is_whole]
        return {"rows": self.run.read,
                "findings": [self.finding_of(each) for each in self.findings[:LONGEST]],
                "more": len(self.findings[LONGEST:]) + self.run.findings.more,
                "unknown": dict(self.run.findings.unknown),
                "leaks": [{"blocks": leak.blocks, "bytes": leak.size, "unreached": leak.unreached,
                           "calls": self.calls(leak.callers)} for leak in self.leaks],
                "stacks": stacks, "notes": self.notes}

    def finding_of(self, found: Finding) -> dict[str, Any]:
        thing = found.thing
        return {"kind": found.kind, "text": found.text, "times": found.times,
                **(self.event_of(found.when) or {}), "pointer": place_of(self.places, found.origin)
                if found.origin else None, "taken": self.event_of(thing.taken) if thing else None,
                "given_back": self.event_of(thing.gone) if thing and thing.gone and thing.gone.pcs
                else None}

    def event_of(self, event: Optional[Event]) -> Optional[dict[str, Any]]:
        if event is None:
            return None
        library, pcs = self.split(event.pcs) if event.pcs else ("", ())
        return {"hart": event.hart, "count": event.count, "in": library, "calls": self.calls(pcs)}

    def calls(self, pcs: Sequence[int]) -> List[dict[str, Any]]:
        return [place_of(self.places, pc) for pc in pcs]


def events_of(found: Finding) -> List[Event]:
    thing = found.thing
    return ([found.when] + [event for event in (thing.taken, thing.gone) if event] if thing
            else [found.when])

"""`why` for other programs."""
from __future__ import annotations

from typing import Any

from ..recording.answers import LONGEST, place_of
from ..recording.instruction import NAMES
from .analysis import Analysis
from .fault import fault_words
from .hang import hang_lines
from .loops import Loop
from .suspect import ALONE, DID, Suspect


def row_of(facts: Analysis, n: int) -> dict[str, Any]:
    return {"hart": facts.rows.hart[n], "count": facts.rows.count_of(n), "row": facts.rows.text(n),
            "place": place_of(facts.places, facts.pc_of(n))}


def why_answer(facts: Analysis) -> dict[str, Any]:
    rows = facts.rows
    log = facts.log
    stack = facts.stack(facts.start, LONGEST)
    hart = rows.hart[facts.start]
    end = log.ends[hart]
    return {
        "log": log.shown, "elf": facts.elf.name, "faulted": facts.faulted,
        "ends": [{"hart": each, "count": one.count, "reason": one.reason,
                  "value": f"{one.value:08x}"}
                 for each, one in sorted(log.ends.items())],
        "reason": end.reason, "value": f"{end.value:08x}", "start": row_of(facts, facts.start),
        "words": fault_words(rows, rows.fault, facts.named) if rows.fault and facts.faulted else [],
        "calls": [{"address": f"{frame.address:08x}",
                   "function": frame.function, "place": frame.place,
                   "inlined": frame.inlined} for frame in stack.frames],
        "calls_cut": stack.is_cut,
        "hang": hang_lines(facts, True) if facts.loops else [],
        "loops": [loop_answer(facts, loop) for loop in facts.loops],
        "registers": {} if facts.asked or facts.output
        else {name: f"{value:08x}" for name, value in zip(NAMES, rows.final[hart])},
        "last_rows": [rows.text(n) for n in facts.last],
        "suspects": [suspect_answer(facts, item) for item in facts.shown[:LONGEST]],
        "values": [{"hart": line.hart, "place": line.place, "rows": line.rows, "cost": line.cost,
                    "latest": rows.text(line.latest)} for line in facts.lines[:LONGEST]],
        "before": [{"words": origin.words, "place": origin.place, "loads": loads.times}
                   for origin, loads in facts.origin.items()],
        "races": None if facts.races.over else facts.races.total,
        "rows": rows.size, "unread_bytes": log.unread, "passed_rows": rows.passed,
        "dropped_records": 0 if log.unread else log.dropped,
        "notes": facts.notes + facts.places.trouble()}


def loop_answer(facts: Analysis, loop: Loop) -> dict[str, Any]:
    """The loop of a hart at its limit; `places` is empty if none is seen."""
    codes = facts.rows.codes
    return {"hart": loop.hart, "since": facts.rows.count_of(loop.first), "rows": loop.size,
            "rounds": loop.rounds,
            "places": [f"{pc:08x}" for pc in sorted(codes[at].pc for at in loop.places)[:LONGEST]],
            "exits": [{"times": item.times, **row_of(facts, item.row)}
                      for item in loop.exits[:LONGEST] if item.leads_out], "stopped":
            [{"times": item.times, **row_of(facts, item.row)} for item in loop.stopped[:LONGEST]]}


def suspect_answer(facts: Analysis, item: Suspect) -> dict[str, Any]:
    has_load = item.kind not in ALONE
    return {"kind": item.kind, "did": DID[item.kind], "where": facts.own_where(item.guilty),
            "guilty": row_of(facts, item.guilty), "store": row_of(facts, item.store) if has_load
            else None, "load": row_of(facts, item.load) if has_load else None,
            "extra": [{"words": words, **row_of(facts, n)} for words, n in item.extra],
            "because": item.why, "cost": item.cost,
            "score": round(item.score, 2), "pairs": item.rows}

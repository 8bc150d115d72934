"""The files that `export` saves: callgrind's, lcov's, Perfetto's."""
from __future__ import annotations

import json
import os
import random
from collections import Counter
from typing import Any, Dict, Iterator, List, Tuple

from .asking import Asked
from .machine import RESTORES, Frame
from .program import Place

Where = Tuple[str, str, int]
MOST_EVENTS = 20000         # calls of a log, for Perfetto's


def outermost(asked: Asked, pc: int) -> Where:
    places = asked.program.places(pc)
    place = places[-1] if places else Place(f"{pc:08x}", "", 0)
    return place.path or "?", place.function, place.line


def calls_of(asked: Asked) -> Iterator[Tuple[Frame, int, int]]:
    """Calls, with the count and the row behind their end: if they didn't return, behind their
    hart's last row."""
    for frame in asked.machine.all:
        if frame.source and not frame.is_hidden:
            yield (frame, *(frame.left or (asked.machine.head.ends[frame.hart].count,
                                           len(asked.machine.rows))))


def saved(asked: Asked, option: str) -> str:
    """The text of what it saves, or nothing."""
    name = asked.recorded.log + ".saved"
    words = ["export", asked.recorded.log, asked.recorded.elf, option, name, *asked.names()]
    done = asked.run(*words)
    if done.returncode:
        asked.differs("export: no answer", words,
                      f"status {done.returncode}: {done.stderr}", "an answer")
        return ""
    with open(name, encoding="utf-8", errors="replace") as file:
        text = file.read()
    os.remove(name)
    return text


def same_counts(asked: Asked, kind: str, option: str, told: Dict[Any, Any],
                true: Dict[Any, Any]) -> None:
    for key in sorted(set(told) | set(true), key=str):
        asked.same(kind, [option], (key, told.get(key)), (key, true.get(key)))


def ask_callgrind(asked: Asked) -> None:
    asked.program.fetch({row.code.pc for row in asked.machine.rows})
    own: Counter[Where] = Counter(outermost(asked, row.code.pc) for row in asked.machine.rows)
    times: Counter[Tuple[Where, Where]] = Counter()
    inner: Counter[Tuple[Where, Where]] = Counter()
    for frame, count, _ in calls_of(asked):
        assert frame.source
        key = outermost(asked, frame.source.code.pc), outermost(asked, frame.target)
        times[key] += 1
        inner[key] += count - frame.count
    told_own, told_calls = read_callgrind(saved(asked, "--callgrind"))
    same_counts(asked, "export: callgrind's lines", "--callgrind", told_own, dict(own))
    same_counts(asked, "export: callgrind's calls", "--callgrind", told_calls,
                {key: (times[key], inner[key]) for key in times})


def read_callgrind(text: str) -> Tuple[Dict[Where, int],
                                       Dict[Tuple[Where, Where], Tuple[int, int]]]:
    own: Dict[Where, int] = {}
    calls: Dict[Tuple[Where, Where], Tuple[int, int]] = {}
    said = {"fl": "", "fn": "", "cfi": "", "cfn": ""}
    lines = iter(text.split("\n"))
    for line in lines:
        key, _, value = line.partition("=")
        if key in said:
            said[key] = value
        elif key == "calls":
            times, begin = map(int, value.split(" "))
            source, cost = map(int, next(lines).split(" "))
            calls[(said["fl"], said["fn"], source), (said["cfi"], said["cfn"], begin)] = times, cost
        elif line[:1].isdigit():
            number, cost = map(int, line.split(" "))
            own[said["fl"], said["fn"], number] = cost
    return own, calls


def ask_lcov(asked: Asked) -> None:
    done = Counter(row.code.pc for row in asked.machine.rows)
    asked.program.fetch(done)
    lines: Dict[Tuple[str, int], int] = {}
    for pc, times in done.items():
        for place in asked.program.places(pc)[:1]:
            if place.line:
                lines[place.file, place.line] = max(lines.get((place.file, place.line), 0), times)
    calls = Counter(frame.target for frame in asked.machine.all if frame.source or not frame.count)
    told_lines, told_calls = read_lcov(saved(asked, "--lcov"))
    same_counts(asked, "export: lcov's lines", "--lcov",
                {key: times for key, times in told_lines.items() if times}, dict(lines))
    for symbol in asked.program.symbols:
        if symbol.kind == "FUNC" and symbol.name in told_calls:
            # (the library's end of functions is a part of each: it is done as often as its first
            # row)
            true = (done[symbol.address] if symbol.name.startswith(RESTORES)
                    else calls[symbol.address])
            asked.same("export: lcov's functions", ["--lcov"],
                       (symbol.name, told_calls[symbol.name]), (symbol.name, true))


def read_lcov(text: str) -> Tuple[Dict[Tuple[str, int], int], Dict[str, int]]:
    lines: Dict[Tuple[str, int], int] = {}
    calls: Dict[str, int] = {}
    path = ""
    for line in text.split("\n"):
        key, _, value = line.partition(":")
        if key == "SF":
            path = os.path.basename(value)
        elif key == "DA":
            number, times = map(int, value.split(","))
            lines[path, number] = times
        elif key == "FNDA":
            count, _, name = value.partition(",")
            calls[name] = int(count)
    return lines, calls


def ask_perfetto(asked: Asked) -> None:
    if len(asked.machine.all) > MOST_EVENTS:
        return
    true: List[Any] = []
    for frame, count, row in calls_of(asked):
        assert frame.source
        places = asked.program.places(frame.target)
        name = places[-1].function if places else f"{frame.target:08x}"
        source = asked.program.places(frame.source.code.pc)
        where = source[0].text() if source else f"{frame.source.code.pc:08x}"
        true.append((frame.hart, frame.row, max(1, row - frame.row), name,
                     count - frame.count, where))
    text = saved(asked, "--perfetto")
    told = [(each["tid"], each["ts"], each["dur"], each["name"], each["args"]["instructions"],
             each["args"]["from"]) for each in (json.loads(text)["traceEvents"] if text else [])
            if each["ph"] == "X" and "instructions" in each.get("args", {})]
    asked.same("export: Perfetto's calls", ["--perfetto"], len(told), len(true))
    for one, other in zip(sorted(told), sorted(true)):
        asked.same("export: Perfetto's call", ["--perfetto"], one, other)


def ask_export(asked: Asked, _draw: random.Random) -> None:
    ask_callgrind(asked)
    ask_lcov(asked)
    ask_perfetto(asked)

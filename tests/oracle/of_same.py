"""The same question has the same answer: as text, as JSON, by the library and from gdb, whatever
`--last` and `--rows` say."""
from __future__ import annotations

import json
import os
import random
import re
import subprocess
import sys
from typing import Any, Dict, List, Sequence

from .asking import Asked

MANY = "1000000"
LAST = 3
HUGE = str(1 << 40)         # rows: more than any log has
LIBRARY = """
import json, sys
from zelkuma import Recording
log, elf, names, word, name, last = sys.argv[1:]
with Recording(log, elf, names) as run:
    found = run.history(name, int(last)) if word == "history" else run.calls(name, int(last))
    print(json.dumps([each._asdict() for each in found]))
"""
CLEAN = re.compile(r"\s+")


def ask_same(asked: Asked, draw: random.Random) -> None:
    """Of a variable and a function that are drawn."""
    objects = [each.name
               for each in asked.program.symbols if each.kind == "OBJECT" and 0 < each.size <= 64]
    functions = [each.name
                 for each in asked.program.symbols if each.kind == "FUNC" and "." not in each.name]
    if objects:
        same(asked, "history", draw.choice(objects))
    if functions:
        same(asked, "calls", draw.choice(functions))


def same(asked: Asked, word: str, name: str) -> None:
    whole = asked.json(word, name, "--last", MANY)
    if whole is None:
        return
    some = asked.json(word, name, "--last", str(LAST), "--rows", HUGE)
    if some is not None:
        asked.same(f"same: {word} --last", [word, name], some["entries"], whole["entries"][-LAST:])
        total = "stores" if word == "history" else "calls"
        asked.same(f"same: {word} --last", [word, name], some[total], whole[total])
    same_rows(asked, word, name, whole["entries"])
    same_text(asked, word, name, whole["entries"])
    same_by_library(asked, word, name, whole["entries"])


def same_rows(asked: Asked, word: str, name: str, entries: Sequence[Dict[str, Any]]) -> None:
    """With fewer rows the last of them are told, as with all; what isn't known then is said to be
    unknown. That rows are left out is said."""
    words = [name, "--rows", str(max(1, len(asked.machine.rows) // 2)), "--last", MANY]
    told = asked.json(word, *words)
    if told is None:
        return
    if len(told["entries"]) < len(entries):
        asked.same(f"same: {word} --rows says what it left out", words,
                   bool(told["left_out"]), True)
    # (rows of several harts can have another order)
    by_position = {position(entry): entry for entry in entries}
    for one in told["entries"]:
        at = position(one)
        entry = by_position.get(position(one))
        if (not asked.same(f"same: {word} --rows", words, (at, entry is not None), (at, True))
                or entry is None):
            continue
        pairs = [(one[key], entry[key]) for key in ("old", "new") if key in one]
        pairs += [(value, entry["arguments"].get(key))
                  for key, value in one.get("arguments", {}).items()]
        for value, other in pairs:
            asked.same(f"same: {word} --rows", words, (at, value),
                       (at, value if value == "unknown" else other))


def position(entry: Dict[str, Any]) -> str:
    return f"{entry['hart']}:{entry['count']}"


def same_text(asked: Asked, word: str, name: str, entries: Sequence[Dict[str, Any]]) -> None:
    """Each entry is a line, and what it says is in that line."""
    lines = [line
             for line in asked.text(word, name, "--last", MANY) if re.match(r"  \d+:\d+ ", line)]
    if not asked.same(f"same: {word} as text", [word, name], len(lines), len(entries)):
        return
    for line, entry in zip(lines, entries):
        for said in (said_of_store(entry) if word == "history" else said_of_call(entry)):
            asked.same(f"same: {word} as text", [word, name],
                       (line, CLEAN.sub(" ", said) in CLEAN.sub(" ", line)), (line, True))


def place_text(place: Dict[str, Any]) -> str:
    return (f"{place['function']} {place['file']}:{place['line']}" if place["line"]
            else str(place["function"] or place["address"]))


def said_of_store(entry: Dict[str, Any]) -> List[str]:
    new = f"{entry['read']} byte" if entry["read"] else entry["new"]
    return [f" {position(entry)} ", f"{entry['old']} -> {new}", place_text(entry["place"])] + \
        ([place_text(entry["caller"])] if entry["caller"] and not entry["place"]["line"] else [])


def said_of_call(entry: Dict[str, Any]) -> List[str]:
    if entry["inlined"]:
        return [f" {position(entry)} (inlined)"]
    arguments = ", ".join(f"{name}={value}" for name, value in entry["arguments"].items())
    rows = entry["rows"]
    return [f" {position(entry)} ({arguments})", f"-> {entry['result']} " if entry["result"]
            else "", "no return" if rows is None else f" {rows:,} row",
            f"from {place_text(entry['from'])}" if entry["from"] else "from before"]


def same_by_library(asked: Asked, word: str, name: str, entries: Sequence[Dict[str, Any]]) -> None:
    names = asked.recorded.named if asked.names() else ""
    done = subprocess.run([sys.executable, "-B", "-c", LIBRARY, asked.recorded.log,
                           asked.recorded.elf, names, word, name, MANY], stdout=subprocess.PIPE,
                          stderr=subprocess.PIPE, text=True, check=False,
                          env={**os.environ, **asked.environment,
                               "PYTHONPATH": os.path.join(asked.server.project, "python")})
    if done.returncode:
        asked.differs("same: library", [word, name], done.stderr[-300:], "an answer")
        return
    told = json.loads(done.stdout)
    if not asked.same("same: library", [word, name], len(told), len(entries)):
        return
    keys = ("part", "old", "new") if word == "history" else ("arguments", "result", "rows")
    for one, entry in zip(told, entries):
        # A change can lack a part or a value, a call nothing
        own, other = ({key: each[key] for key in keys if key in each or word != "history"}
                      for each in (one, entry))
        own.update(hart=one["hart"], at=one["at"])
        other.update(hart=entry["hart"], at=entry["count"])
        asked.same("same: library", [word, name], own, other)

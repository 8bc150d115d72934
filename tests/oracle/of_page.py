"""What the page says of variables and functions: the same as `history` and `calls`."""
from __future__ import annotations

import json
import random
import re
from typing import Any, Dict, List

from .asking import Asked

DATA = re.compile(r'<script type="application/json" id="data">(.*?)</script>', re.S)
MOST_ASKED = 3
MOST_ROWS = 60000


def place_text(place: List[Any]) -> str:
    """Its function and line, or its address."""
    return f"{place[0]} {place[1]}" if ":" in place[1] else str(place[0])


def ask_page(asked: Asked, draw: random.Random) -> None:
    if len(asked.machine.rows) > MOST_ROWS:
        return
    words = ["view", asked.recorded.log, asked.recorded.elf, *asked.names(), "--with-questions"]
    done = asked.run(*words)
    found = DATA.search(done.stdout)
    if not found:
        asked.differs("page: no answer", words, done.stderr, "a page")
        return
    data = json.loads(found[1])
    questions = data.get("questions") or {"variables": [], "functions": [], "most": 1}
    most = ["--last", str(questions["most"])]
    for one in draw.sample(questions["variables"], min(MOST_ASKED, len(questions["variables"]))):
        name = one["title"].split(" ")[0] if "(" in one["title"] else one["title"].split(" at ")[-1]
        told = asked.json("history", name if "(" in one["title"]
                          else f"{name}:{one['title'].split(' ')[0]}", *most)
        if told:
            asked.same("page: stores", [name], one["stores"], told["stores"])
            for row, entry in zip(one["rows"], told["entries"]):
                said = [entry["hart"], entry["count"], entry["old"], gave(entry, row[4])]
                asked.same("page: store", [name], [*row[:2], *row[3:5]], said)
                ask_place(asked, name, data["places"][row[5]], entry["place"])
    for one in draw.sample(questions["functions"], min(MOST_ASKED, len(questions["functions"]))):
        told = asked.json("calls", one["name"], *most)
        if told:
            asked.same("page: calls", [one["name"]], one["calls"], told["calls"])
            for row, entry in zip(one["rows"], told["entries"]):
                ask_call(asked, one["name"], row, entry)
                if row[5] >= 0 and entry["from"]:
                    ask_place(asked, one["name"], data["places"][row[5]], entry["from"])


def gave(entry: Dict[str, Any], told: str) -> str:
    """What a store is told to have given: of a `read` call the first byte of the input is held to
    the JSON."""
    if not entry["read"]:
        return str(entry["new"])
    first = "unknown bytes?" if entry["input"] is None else f"bytes? {entry['input']:,}"
    true = rf"{entry['read']:,} bytes? of a read call, here {first}\b.* of the input"
    return told if re.fullmatch(true, told) else true


def ask_call(asked: Asked, name: str, row: List[Any], entry: Dict[str, Any]) -> None:
    arguments = ("inlined" if entry["inlined"]
                 else ", ".join(f"{key}={value}" for key, value in entry["arguments"].items()))
    said = [entry["hart"], entry["count"], arguments, entry["result"] or "",
            -1 if entry["rows"] is None else entry["rows"]]
    asked.same("page: call", [name], row[:5], said)


def ask_place(asked: Asked, name: str, told: List[Any], place: Dict[str, Any]) -> None:
    true = (f"{place['function']} {place['file']}:{place['line']}" if place["line"]
            else place["function"])
    asked.same("page: place", [name], place_text(told), true)

"""Answers for other programs: one JSON object on a line. docs/JSON.md says what each has.

VERSION counts up when a key changes its meaning or goes; a key that is new leaves it."""
from __future__ import annotations

import json
from typing import Any, Callable, Iterable, Mapping, TypeVar

from ..call import streams
from ..call.version import version
from .places import Places

T = TypeVar("T")
VERSION = 1             # of docs/JSON.md: a key that goes or changes its meaning makes it 2
LONGEST = 200               # entries of a list at most


def put_answer(word: str, **fields: Any) -> None:
    streams.put(json.dumps({"answer": word, "version": VERSION, "zelkuma": version(), **fields})
                + "\n")


def put_found(word: str, found: T, lines: Callable[[T], Iterable[str]],
              answer: Callable[[T], Mapping[str, Any]], is_json: bool) -> None:
    """What a word found, as text or for other programs."""
    if is_json:
        put_answer(word, **answer(found))
    else:
        streams.put_lines(lines(found))


def place_of(places: Places, pc: int) -> dict[str, Any]:
    """A place of code; `line` is 0 and `file` empty if no tool tells them."""
    frame = places.innermost(pc)
    return {"address": f"{pc:08x}", "function": frame.function,
            "file": frame.file, "line": frame.line}

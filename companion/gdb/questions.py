"""`monitor why`, `monitor history NAME` and the like: each is a companion of its own, which answers
as at a shell."""
from __future__ import annotations

import subprocess
import sys
from typing import Sequence

from ..call import PACKAGE
from ..call.children import run

PATIENCE = 50               # seconds; gdb waits for 60
LONGEST = 1 << 18           # bytes of an answer
WORDS = {"why": "monitor why [HART:COUNT]: how the run came to its end, or to a row",
         "at": "monitor at FILE:LINE 'EXPR'..: what expressions were at its passes",
         "history": "monitor history NAME: the stores to a variable",
         "calls": "monitor calls FUNCTION: its calls",
         "find": "monitor find VALUE: the places of a value"}


class Questions:
    """log, elf, names: the files as they were given"""

    def __init__(self, log: str, elf: str, names: str) -> None:
        self.files = [log, elf]
        self.names = ["--names", names] if names else []

    def answer(self, word: str, words: Sequence[str]) -> str:
        asked = ["--row", *words] if word == "why" and words else list(words)
        try:
            _, out = run([sys.executable, PACKAGE, word, *self.names,
                          *(asked if word == "why" else []), "--",
                          *self.files, *([] if word == "why" else asked)], PATIENCE,
                         {}, stderr=subprocess.STDOUT)
        except subprocess.TimeoutExpired:
            return f"it takes longer than {PATIENCE} seconds: ask `zelkuma {word}` at a shell\n"
        said = out.decode("utf-8", "replace")
        return said if len(said) <= LONGEST else said[:LONGEST] + "\n.. more at a shell\n"

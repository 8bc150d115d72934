"""Asks a companion, and compares what it says with what is true."""
from __future__ import annotations

import json
from collections import Counter
from dataclasses import dataclass, field
from typing import Any, Dict, List, NamedTuple, Optional, Sequence, Tuple

from .building import Recorded
from .machine import Machine
from .program import Program
from .server import Answer, Server

MOST_KEPT = 2               # differences of a kind that are told whole, of each recording
LONGEST = 600               # letters of an answer that are told
# The processor seconds that an answer may take: a start with gdb, and more for each row, ten times
# what it needs.
PATIENCE_S = 10
ROWS_A_SECOND = 20000


class Difference(NamedTuple):
    kind: str
    recorded: List[str]
    question: str
    told: str
    true: str

    def lines(self) -> List[str]:
        return [f"DIFFERS {self.kind}", *(f"  {line}" for line in self.recorded),
                f"  asked: {self.question}", f"  told:  {self.told}", f"  true:  {self.true}"]


@dataclass
class Tally:
    """How many answers were compared, by word, and what differs."""
    compared: Counter[str] = field(default_factory=Counter)
    differing: Counter[str] = field(default_factory=Counter)
    kept: List[Difference] = field(default_factory=list)


@dataclass
class Asked:
    """A recording of which companions are asked, those of `server`, and what is true of it."""
    server: Server
    recorded: Recorded
    machine: Machine
    program: Program
    tally: Tally
    environment: Dict[str, str] = field(default_factory=dict)
    differing: Counter[str] = field(default_factory=Counter)
    # {row and address: the text there before the row}
    texts: Dict[Tuple[int, int], str] = field(default_factory=dict)

    @property
    def has_types(self) -> bool:
        return bool(self.program.types["functions"])

    def names(self) -> List[str]:
        """What tells the companion of the names."""
        return ["--names", self.recorded.named] if self.recorded.named != self.recorded.elf else []

    def run(self, *words: str) -> Answer:
        return self.server.run(words, self.environment,
                               PATIENCE_S + len(self.machine.rows) // ROWS_A_SECOND)

    def question(self, words: Sequence[str]) -> str:
        before = " ".join(f"{name}={value}"
                          for name, value in self.environment.items() if name == "ZELKUMA_GDB")
        return f"{before} zelkuma {' '.join(words)}".strip()

    def json(self, word: str, *words: str) -> Optional[Dict[str, Any]]:
        """Its answer for other programs; None if it has none, which differs."""
        asked = [word, self.recorded.log, self.recorded.elf, *words, *self.names(), "--json"]
        done = self.run(*asked)
        if done.returncode < 0:
            self.differs(f"{word}: too slow", asked,
                         f"ended by signal {-done.returncode}", "an answer")
            return None
        if done.returncode or not done.stdout.startswith("{"):
            self.differs(f"{word}: no answer", asked,
                         f"status {done.returncode}: {done.stderr}", "an answer")
            return None
        found: Dict[str, Any] = json.loads(done.stdout)
        return found

    def text(self, word: str, *words: str) -> List[str]:
        return self.run(word, self.recorded.log, self.recorded.elf, *words,
                        *self.names()).stdout.splitlines()

    def differs(self, kind: str, words: Sequence[str], told: Any, true: Any) -> None:
        tally = self.tally
        tally.differing[kind] += 1
        self.differing[kind] += 1
        if self.differing[kind] <= MOST_KEPT:
            tally.kept.append(Difference(kind, self.recorded.said, self.question(words),
                                         str(told)[:LONGEST], str(true)[:LONGEST]))

    def same(self, kind: str, words: Sequence[str], told: Any, true: Any) -> bool:
        """Compares an answer, and counts it."""
        word = kind.partition(":")[0]
        self.tally.compared[word] += 1
        if told != true:
            self.differs(kind, [word, self.recorded.log, self.recorded.elf, *words, *self.names()],
                         told, true)
        return bool(told == true)

    def place(self, pc: int) -> Dict[str, Any]:
        """A place as docs/JSON.md has it."""
        places = self.program.places(pc)
        if not places:
            return {"address": f"{pc:08x}", "function": "", "file": "", "line": 0}
        return {"address": f"{pc:08x}", "function": places[0].function,
                "file": places[0].file, "line": places[0].line}

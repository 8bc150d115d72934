"""Memory errors among the rows that were read: statements by definition, which come before the
guesses."""
from __future__ import annotations

from typing import Any

from ..call.page import PagePart
from ..memory.answer import MemoryAnswer
from ..memory.findings import UNMAPPED
from ..memory.memory import LARGEST_MEMORY
from ..memory.run import run_of
from ..recording.answers import LONGEST
from .analysis import Analysis

HEAD = "MEMORY ERRORS, as they happened (`zelkuma memory` tells all)"
TOLD = 3                    # findings: as many as suspects in brief


class MemoryErrors:
    """Those of the log's rows that `why` read."""

    def __init__(self, facts: Analysis) -> None:
        self.answer = None
        if not facts.asked and facts.log.memory <= LARGEST_MEMORY:
            self.answer = MemoryAnswer(run_of(facts.log, facts.elf.name, facts.named),
                                       facts.places, [], [])
            # The fault itself is told already.
            self.answer.findings = [each for each in self.answer.findings if each.kind != UNMAPPED]

    def lines(self) -> list[str]:
        """The first findings, with their callers."""
        if self.answer is None:
            return []
        found = self.answer.findings
        lines = [line[2:] for at, each in enumerate(found[:TOLD], 1)
                 for line in self.answer.finding(at, each)]
        return lines + [f".. and {len(found) - TOLD} more"] * (len(found) > TOLD)

    def first(self) -> str:
        """The first finding in a line with its place, or nothing."""
        if self.answer is None or not self.answer.findings:
            return ""
        found = self.answer.findings[0]
        return f"{found.kind}: {found.text}, in {self.answer.chain(found.when.pcs)}"

    def parts(self) -> list[PagePart]:
        lines = self.lines()
        return [PagePart(HEAD, lines)] if lines else []

    def entries(self) -> list[dict[str, Any]]:
        return ([self.answer.finding_of(each) for each in self.answer.findings[:LONGEST]]
                if self.answer else [])

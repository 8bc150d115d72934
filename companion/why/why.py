"""Explains a crash."""
from __future__ import annotations

import os
from typing import Mapping

from ..call import streams
from ..call.errors import REFUSED, CompanionError
from ..call.kinds import PAGE
from ..call.help import Help
from ..call.options import read_words
from ..call.page import PagePart, page
from ..call.saving import target
from ..call.text import number
from ..recording.answers import put_answer
from ..recording.opened import Opened, opened
from ..recording.story import STORY_HEAD, Teller, asked_story
from .analysis import Analysis, analysed, analysis_of
from .answer import why_answer
from .facts import Byte, asked_byte, is_byte
from .memory_part import MemoryErrors
from .output import found_text
from .report import brief, report

HELP = Help(
    "why LOG ELF [--names ELF] [--source DIR] [--row HART:IC] [--output N:BYTE|TEXT] [--rows N] "
    "[--book BOOK] [--input FILE] [--brief] [--more] [--html FILE] [--json]",
    "a crash, hang or wrong byte, and what led to it",
    """Explains a crash: what happened, where, and which store, call or branch is behind it,
likeliest first. Of a hart at its limit it tells the loop, and what never happened in it.""", {
        "--output": "asks of a byte that the guest wrote, as `zelkuma output` numbers them (N: "
                    "its first byte), or of the last letter of a text that it wrote",
        "--rows": "how many of the last rows are read; without it a million, and 2.6 million if "
                  "values near the fault come from before",
        "--brief": "the end and the first suspects alone",
        "--more": "longer lists",
        "--html": "saves the same text as a page, too",
    },
    """It reads the rows of `joint`, keeps some 30 bytes of each, and shows what they say; the
ranking is its own judgement.""")


def asked_output(asked: Opened, text: str) -> tuple[Byte, str]:
    """The byte that --output asks of, and a line for the end of the report."""
    if not text:
        raise CompanionError("--output names no text", REFUSED)
    if is_byte(text):
        return asked_byte(text), ""
    found = found_text(asked, text)
    times = (f"The text was written {number(found.times)} times: this is the last."
             if found.times > 1 else "")
    return Byte(found.write, found.place), times


def parts_of(analysis: Analysis, errors: MemoryErrors, given: Mapping[str, str]) -> list[PagePart]:
    """The report, with memory errors behind the fault."""
    head, *others = brief(analysis) if "--brief" in given else report(analysis, "--more" in given)
    return [head, *errors.parts(), *others]


def brief_of(log: str, elf: str) -> list[str]:
    """The lines of `why --brief`."""
    with analysed(log, elf) as analysis:
        return [line for part in parts_of(analysis, MemoryErrors(analysis), {"--brief": ""})
                for line in part.text()]


def main(words: list[str]) -> int:
    (log, elf), given = read_words(words, HELP.form)
    if "--brief" in given and "--more" in given:
        raise CompanionError("--brief and --more can't both be given", REFUSED)
    saved = (target(given["--html"], PAGE, [log, elf, given.get("--names", "")])
             if "--html" in given else None)
    with opened(log, elf, given) as asked:
        byte, note = asked_output(asked, given["--output"]) if "--output" in given else (None, "")
        analysis = analysis_of(asked, given.get("--row", ""), byte)
        analysis.notes += [note] * bool(note)
        story = asked_story(given, analysis.log, elf)
        teller = Teller(analysis.named, analysis.places)
        parts = [PagePart(STORY_HEAD, teller.story(story))] if story else []
        errors = MemoryErrors(analysis)
        parts += parts_of(analysis, errors, given)
        if "--json" in given:
            put_answer("why", **why_answer(analysis), memory=errors.entries(),
                       book=teller.story_answer(story))
    if saved:
        saved.save(page(f"Why {os.path.basename(elf)} ended", parts).encode("utf-8",
                                                                            "backslashreplace"))
    if "--json" in given:
        return 0
    streams.put_lines(line for part in parts for line in part.text())
    return 0

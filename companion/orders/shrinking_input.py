"""Shrinks the input of a recording: searches, saves the shortest that is found, and tells what it
does."""
from __future__ import annotations

import os
import shlex
from contextlib import closing
from dataclasses import dataclass
from typing import Any, Mapping, NamedTuple, Optional

from ..call import streams
from ..call.errors import REFUSED, CompanionError
from ..call.saving import Target
from ..call.scratch import Scratch
from ..call.text import counted, number
from ..recording.cause import Bucket, bucket_of, cause_of
from ..recording.log import load_log
from ..recording.memory import quoted
from ..recording.opened import Program
from ..why.analysis import analysed
from .input_ends import HART, InputEnds, LoopEnd
from .input_search import InputSearch
from .input_tries import InputTries
from .record import FAULT, LIMIT, Quick
from .same_end import EndedRecording, common_exit_code
from .shrinking import Signals, memory_folder


@dataclass(frozen=True)
class AskedInput:
    """What is shrunk.

    options   those of its recording
    source    the file that it read, and its bytes
    new       where the short one is saved
    program   that was recorded, with its names
    says      a text by which the end is told, or nothing
    seconds   after which the search ends, or 0"""
    log: str
    program: Program
    options: Mapping[str, str]
    source: str
    data: bytes
    new: Target
    says: str = ""
    seconds: int = 0


class FirstSuspects(NamedTuple):
    """The place of the first suspect of the short run and of LOG, and whether LOG has the first
    among its own."""
    short: str
    recorded: str
    is_known: bool

    def lines(self) -> list[str]:
        if self.is_known:
            return [f"first suspect: {self.short}"]
        return [f"first suspect: {self.short}, which is none of LOG's: its cause may be another; "
                f"`why` of LOG names first {self.recorded}"]


class ShrunkInput(NamedTuple):
    """What is told, as lines and for other programs, and the status to end with."""
    lines: list[str]
    answer: dict[str, Any]
    status: int


def suspects_of(log: str, asked: AskedInput) -> list[str]:
    """The places of the suspects of a fault, likeliest first."""
    with analysed(log, asked.program.elf.name, asked.program.given) as facts:
        return list(dict.fromkeys(facts.own_where(item.guilty) for item in facts.shown))


def first_suspects(made: EndedRecording, asked: AskedInput) -> Optional[FirstSuspects]:
    if made.status != FAULT:
        return None
    short = suspects_of(made.log, asked)
    recorded = suspects_of(asked.log, asked)
    return (FirstSuspects(short[0], recorded[0], short[0] in recorded) if short and recorded
            else None)


def begin(asked: AskedInput, quick: Quick) -> InputSearch:
    """A search whose first recording is that of the whole input, which has to end as LOG."""
    ends = InputEnds(quick, asked.program.elf, asked.says.encode("utf-8", "surrogateescape"))
    tries = InputTries(asked.options, ends, len(os.sched_getaffinity(0)))
    made = tries.record(asked.data)
    if made.read.ends[HART] != load_log(asked.log).ends.get(HART):
        raise CompanionError(f"LOG isn't the recording of {asked.source}: "
                             "with it the run ends otherwise", REFUSED)
    if asked.says and ends.says not in ends.written(made):
        raise CompanionError(f"the run of LOG doesn't write {asked.says!r}", REFUSED)
    if (not asked.says and made.status not in (FAULT, LIMIT)
            and not common_exit_code(made.read.ends)):
        raise CompanionError("the run of LOG ended well; "
                             "--says TEXT tells a text that it writes and shouldn't", REFUSED)
    tries.want(made)
    return InputSearch(tries, asked.data)


def shrink_input(asked: AskedInput) -> ShrunkInput:
    with Scratch(memory_folder()) as folder, Quick(folder) as quick:
        found = begin(asked, quick)
        with Signals(found.tries, asked.seconds) as signals:
            found.run()
            asked.new.save(found.best)
        if found.tries.is_ended():
            streams.say("the search was ended before it was done: "
                        "the input may be longer than it need be")
        options = input_options(asked, found)
        found.tries.options = dict(options)
        made = found.tries.record(found.best)
        with closing(asked.program) as program:
            bucket = bucket_of(cause_of(made.read, program.elf.name), program.elf, program.places)
        suspects = None if signals.status else first_suspects(made, asked)
        return ShrunkInput(shrunk_lines(asked, found, made, bucket, suspects),
                           input_answer(asked, found, made, bucket, suspects), signals.status)


def input_options(asked: AskedInput, found: InputSearch) -> dict[str, str]:
    """Those of LOG. A run that hangs does so under the limit that the search came to, too."""
    limit = ({"--limit": found.tries.options["--limit"]} if isinstance(found.tries.wanted, LoopEnd)
             else {})
    return {**asked.options, **limit}


def counts_of(asked: AskedInput, made: EndedRecording) -> tuple[int, int]:
    """The instructions of LOG's run, and of the short one."""
    return load_log(asked.log).ends[HART].count, made.read.ends[HART].count


def shrunk_lines(asked: AskedInput, found: InputSearch, made: EndedRecording, bucket: Bucket,
                 suspects: Optional[FirstSuspects]) -> list[str]:
    before, after = counts_of(asked, made)
    options = [f"{name}={value}" for name, value in input_options(asked, found).items()]
    again = ["zelkuma", "record", *options, f"--input={asked.new.path}", "--",
             asked.program.elf.name, "LOG", "BOOK"]
    return [f"{counted(len(asked.data), 'byte')} of input are cut to {number(len(found.best))}, "
            f"by {number(found.tries.count)} recordings; "
            f"{counted(before, 'instruction')} to {number(after)}", f"input: {quoted(found.best)}",
            f"end: {bucket.line()}", *(suspects.lines() if suspects else []), shlex.join(again)]


def input_answer(asked: AskedInput, found: InputSearch, made: EndedRecording, bucket: Bucket,
                 suspects: Optional[FirstSuspects]) -> dict[str, Any]:
    before, after = counts_of(asked, made)
    return {"recorded_bytes": len(asked.data), "bytes": len(found.best),
            "recordings": found.tries.count, "recorded_instructions": before, "instructions": after,
            "is_done": not found.tries.is_ended(), "end": bucket.line(), "suspect": suspects.short
            if suspects else None, "recorded_suspect": suspects.recorded if suspects else None,
            "is_known": suspects.is_known if suspects else None}

"""Runs a program as a command would run it, with a recording beside it."""
from __future__ import annotations

import os
import re
import time
from dataclasses import dataclass
from pathlib import Path
from typing import List, Optional

from ..call import streams
from ..call.files import check_regular
from ..call.kinds import LOG, TURNS
from ..call.help import Help
from ..call.options import decimal, parse, whole
from ..call.saving import take_together, target
from ..recording.recent import exit_code
from ..why.why import brief_of
from .record import DONE, ENDS, LIMIT, NUMBERS, RECORD_OPTIONS, SCHEDULE, Quick, last_line, refusal

HELP = Help(
    "run ELF [-- OPTION..]", "runs a program, and explains a bad end",
    """Records a program, passes on what it writes and its exit code, and explains an end that isn't
well.

    zelkuma run program.elf -- --harts 4 --limit 10M

OPTION are those of `record`. Without them it is --format 2, and --seed 1: the same words give the
same run. LOG and BOOK of program.elf are program.log and program.book, beside it. Older ones are
replaced.

The status is the program's exit code: of exit_group, else of hart 0. A fault is 139, as of a
program that a signal ends, and a hart at its limit 124, as `timeout` has it. With each of these,
and a code that isn't 0, err gets `why --brief`.

What the program writes comes in steps: it is recorded up to a limit of a million instructions, then
of eight times as many, and so on, and LOG says the last of these. With several harts it comes at
the end: one that stops changes what others do. Ctrl-C (or TERM, HUP) keeps what was run: the same
turns are recorded again, up to a limit just below. A second one keeps the last step. The status is
130 (143, 129).""")
FIRST_LIMIT = 1000000  # instructions
STEP = 8  # how many times as many the next recording may do
USUAL_LIMIT = 1000000000  # instructions of a hart: what `record` has without --limit
HIGHEST_LIMIT = 1 << 40  # that of `record`
LEAST_GAIN = 1.5  # a recording that ends earlier than so many times the last step isn't made
NEARLY = 0.9  # of what was reached
# What shells say of SIGSEGV, and `timeout`
FAULTED = 139
TIMED_OUT = 124
SUMMARY = re.compile(rb"bugnet: (turns \d+ instructions \d+ [^\n]*)\n\Z")


@dataclass
class RunStep:
    """A recording that is done, its limit, and the seconds that it took."""
    status: int
    limit: int
    seconds: float
    files: List[str]


class Run:
    """stopped  the signal that ended the last recording, or 0"""

    def __init__(self, words: List[str]) -> None:
        (self.elf,), given = parse(words, RECORD_OPTIONS, ["ELF"], HELP.form)
        given = {name: decimal(value) if name in NUMBERS else value
                 for name, value in given.items()}
        self.limit = whole(given.pop("--limit", str(USUAL_LIMIT)), 1, HIGHEST_LIMIT, "--limit")
        self.has_one_hart = given.get("--harts", "1") == "1"
        turns = {} if SCHEDULE in os.environ else {"--seed": "1"}
        self.options = {"--format": "2", **turns, **given}
        check_regular(self.elf, given.get("--input", ""))
        name = self.elf[:-len(".elf")] if self.elf.endswith(".elf") else self.elf
        read = [self.elf, given.get("--input", "")]
        self.log = target(name + ".log", LOG, read)
        self.targets = ([self.log] if "--lean" in given
                        else [self.log, target(name + ".book", TURNS, [*read, self.log.name])])
        self.told = 0, 0                        # bytes of out and err that were passed on
        self.stopped = 0

    def record(self, quick: Quick, limit: int, part: str) -> Optional[RunStep]:
        """One recording, or None if a signal came."""
        made = [os.path.join(quick.folder, f"{part}.{at}") for at in range(2)]
        said = made[0] + ".said"
        err = made[0] + ".err"
        options = [f"{name}={value}" if RECORD_OPTIONS[name] else name
                   for name, value in self.options.items()]
        began = time.monotonic()
        child = quick.start(said, err, "record", *options, f"--limit={limit}", "--", self.elf,
                            *made, schedule=os.environ.get(SCHEDULE, ""))

        def stop(number: int, _: object) -> None:
            self.stopped = number
            child.kill()

        with streams.stopping(stop), streams.working(f"up to {limit:,} instructions are recorded"):
            status = child.wait()
        if status in ENDS:
            return RunStep(status, limit, time.monotonic() - began, made)
        if self.stopped or -status in streams.STOPS:
            self.stopped = self.stopped or -status
            return None
        raise refusal(err, status)

    def pass_on(self, step: RunStep) -> None:
        """Passes on what the program wrote since the last step."""
        out, err = (Path(f"{step.files[0]}.{name}").read_bytes() for name in ("said", "err"))
        err = SUMMARY.sub(b"", err)
        streams.put_bytes(out[self.told[0]:])
        streams.put_err(err[self.told[1]:])
        self.told = len(out), len(err)

    def steps(self, quick: Quick) -> Optional[RunStep]:
        """Recordings with a limit that rises; the last that is done."""
        done = None
        limit = min(FIRST_LIMIT, self.limit)
        began = time.monotonic()
        while True:
            began = time.monotonic()
            made = self.record(quick, limit, f"step-{limit}")
            if made is None:
                return self.nearly(quick, done, time.monotonic() - began)
            done = made
            is_last = made.status != LIMIT or limit == self.limit
            if is_last:
                return done
            if self.has_one_hart:
                self.pass_on(done)
            limit = min(limit * STEP, self.limit)

    def nearly(self, quick: Quick, done: Optional[RunStep], seconds: float) -> Optional[RunStep]:
        """After a signal: a recording of nearly what the one had reached that it ended, as far as
        its time tells."""
        if done is None or done.seconds * LEAST_GAIN > seconds:
            return done
        limit = min(int(done.limit * seconds / done.seconds * NEARLY), self.limit)
        streams.say(f"stopped: what was run is recorded, up to {limit:,} instructions; "
                    f"a second Ctrl-C keeps {done.limit:,}")
        return self.record(quick, limit, "nearly") or done

    def finish(self, step: RunStep) -> int:
        """Saves the recording, and tells how it ended. The status."""
        summary = last_line(step.files[0] + ".err").partition(": ")[2]
        saved = [(place, name)
                 for place, name in zip(self.targets, step.files) if os.path.exists(name)]
        take_together(saved)                    # first: nobody may read what is passed on
        self.pass_on(step)
        streams.say(f"{' and '.join(place.name for place, _ in saved)}: {summary}")
        status = TIMED_OUT if step.status == LIMIT else FAULTED
        if step.status == DONE:
            status = exit_code(self.log.path) or 0
        if status:
            streams.show("".join(line + "\n" for line in brief_of(self.log.name, self.elf)))
            streams.say(f"`zelkuma why {self.log.name} {self.elf}` tells more")
        return status


def main(words: list[str]) -> int:
    run = Run([word for word in words if word != "--"])
    with run.log.scratch() as folder, Quick(folder) as quick:
        step = run.steps(quick)
        if step is None:
            return 128 + run.stopped
        status = run.finish(step)
    return 128 + run.stopped if run.stopped else status

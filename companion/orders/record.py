"""Recordings that a companion makes: the words of `record`, the turns that a recording takes, and
its command."""
from __future__ import annotations

import os
import shlex
from enum import IntEnum
from pathlib import Path
from typing import NamedTuple, Sequence

from ..call import program
from ..call.children import ProcessGroup, Process
from ..call.errors import REFUSED, UNREADABLE, CompanionError
from ..call.files import check_regular
from ..call.kinds import LOG, TURNS
from ..call.options import decimal, parse
from ..call.saving import Target, target
from ..call.scratch import Scratch
from ..recording.log import MOST_HARTS

RECORD_FORM = "[OPTION..] ELF LOG BOOK, as for record, but for --seed"
ELF_FORM = "[OPTION..] ELF, as for record, but for --seed; with --all no LOG and BOOK are named"
# What `record` takes at least and at most for each. Some have to be powers of two or the like too,
# which it tests itself.
RANGES = {"--format": (1, 2), "--harts": (1, MOST_HARTS), "--interval": (1, 10000000),
          "--limit": (1, 1 << 40), "--log-size": (1 << 14, 1 << 28), "--memory": (1 << 16, 1 << 26),
          "--sets": (1, 1024), "--ways": (1, 16), "--line": (1, 16),
          "--sets2": (1, 4096), "--ways2": (1, 16)}
NUMBERS = list(RANGES)
RECORD_OPTIONS = {"--lean": False, "--seed": True, "--input": True,
                  **{name: True for name in NUMBERS}}
# The name in the environment of the turns that a recording without a seed takes
SCHEDULE = "ZELKUMA_SCHEDULE"
ENDS = DONE, FAULT, LIMIT = 0, 10, 11   # the statuses of recordings that were made


class Kind(IntEnum):
    """What determines the turns of a recording."""
    SEED, BURSTS, SLEEPER, THREADS = range(4)


class Plan(NamedTuple):
    """A number, and how turns are drawn from it; of a recording in threads it only counts. Plans
    are tried in order."""
    number: int
    kind: Kind

    def __str__(self) -> str:
        return f"{self.kind.name.lower()} {self.number}"

    def options(self) -> list[str]:
        return [f"--seed={self.number}"] if self.kind is Kind.SEED else []

    def schedule(self) -> str:
        return (f"{self.kind.name.lower()}:{self.number}"
                if self.kind in (Kind.BURSTS, Kind.SLEEPER) else "")


def option_word(name: str, value: str) -> str:
    if not RECORD_OPTIONS[name]:
        return name
    return f"{name}={decimal(value) if name in NUMBERS else value}"


class RecordWords:
    """What the words of `record` name.

    names    ELF, LOG, BOOK as they were given
    options  with numbers in decimal
    folder   in which one LOG and BOOK of each ending is saved, if the words name none
    is_lean  whether no BOOK is saved"""

    def __init__(self, words: Sequence[str], folder: str = "") -> None:
        self.names, options = parse(words, RECORD_OPTIONS, ["ELF"] if folder else range(2, 4),
                                    ELF_FORM if folder else RECORD_FORM)
        self.folder = folder
        self.is_lean = "--lean" in options
        self.has_one_hart = decimal(options.get("--harts", "1")) == "1"
        if "--seed" in options:
            raise CompanionError("the seeds are FROM to TO, so --seed can't be given", REFUSED)
        if len(self.names) == 2 and not self.is_lean:
            raise CompanionError("the words of record have no BOOK", REFUSED)
        self.elf, *self.outputs = self.names
        self.options = [option_word(name, value) for name, value in options.items()]
        self.read = self.elf, options.get("--input", "")
        check_regular(*self.read)
        self.named_targets = self.saved(self.outputs)

    def saved(self, names: Sequence[str]) -> list[Target]:
        return [target(name, kind, [*self.read, *names[:at]])
                for at, (name, kind) in enumerate(zip(names, (LOG, TURNS)))]

    def outputs_of(self, plan: Plan) -> list[str]:
        """The names of LOG and BOOK in the end."""
        made = os.path.join(self.folder, str(plan).replace(" ", "-"))
        return [made + ".log", made + ".book"] if self.folder else self.outputs

    def targets(self, plan: Plan) -> list[Target]:
        return self.saved(self.outputs_of(plan)) if self.folder else self.named_targets

    def scratch(self) -> list[Scratch]:
        """A folder for trials beside each output."""
        targets = self.named_targets or self.targets(Plan(0, Kind.SEED))
        return [target.scratch() for target in targets]

    def command(self, plan: Plan, outputs: Sequence[str]) -> list[str]:
        return ["record", *self.options, *plan.options(), "--", self.elf, *outputs]

    def shown(self, plan: Plan) -> str:
        """What to type for the same recording. One in threads has its turns from BOOK, and so
        leaves it alone."""
        names = self.outputs_of(plan)
        schedule = plan.schedule()
        if plan.kind is Kind.THREADS:
            schedule = f"book:{names[1]}"
            names = [name + ".again" for name in names]
        names = [self.elf, *names]
        words = ["zelkuma", "record", *self.options, *plan.options()]
        words += ["--"] * any(name.startswith("-") for name in names) + names
        return " ".join([f"{SCHEDULE}={shlex.quote(schedule)}"] * bool(schedule)
                        + [shlex.quote(word) for word in words])


class Quick:
    """The program, started many times one after the other and side by side. What it prints goes
    into files: so a start costs little, and its group ends what is under way when this process
    ends. Use it by `with`. `folder` is for its files."""

    def __init__(self, folder: str) -> None:
        self.folder = folder
        self.group: ProcessGroup
        self.environment = {name: value for name, value in os.environ.items() if name != SCHEDULE}

    def __enter__(self) -> Quick:
        self.group = ProcessGroup()
        return self

    def __exit__(self, *_: object) -> None:
        self.group.close()

    def start(self, said: str, err: str, *words: str, schedule: str = "") -> Process:
        """A command, by these turns if it is `record`; without them its harts run in threads,
        whatever is set for this process."""
        environment = {**self.environment, SCHEDULE: schedule} if schedule else self.environment
        return self.group.start([program.path(), *words], said, err, environment)

    def text(self, *words: str) -> bytes:
        said, err = (os.path.join(self.folder, name) for name in ("text", "text.err"))
        status = self.start(said, err, *words).wait()
        if status:
            raise refusal(err, status)
        return Path(said).read_bytes()


def refusal(err: str, status: int, what: str = "the program") -> CompanionError:
    """What the program said when it ended with a status."""
    why = last_line(err).split(": ", 1)[-1] or f"{what} ended with {status}"
    return CompanionError(why, status if status > 0 else UNREADABLE)


def last_line(name: str) -> str:
    return Path(name).read_bytes().decode("utf-8", "replace").strip().split("\n")[-1]

"""How often each cause, and which logs aren't read."""
from __future__ import annotations

import shlex
import time
from dataclasses import dataclass, field

from ..call.text import counted, number
from ..recording.cause import EXITS, Bucket
from .store import File
from .work import SALVAGED, Answer


@dataclass
class Group:
    """The logs of a cause.

    example  of these, one that is whole if there is any; elf: its program
    harts    how many a log has
    error    the example's first memory error, in words, or nothing
    suspect  the same of the best suspect"""
    bucket: Bucket
    first: File
    last: File
    example: File
    elf: str
    is_whole: bool
    count: int = 0
    salvaged: int = 0
    harts: set[int] = field(default_factory=set)
    error: str = ""
    suspect: str = ""

    def command(self) -> str:
        """What tells more of the example."""
        log = shlex.quote(self.example.name)
        elf = shlex.quote(self.elf)
        if self.is_whole:
            return f"zelkuma why {log} {elf}"
        return f"zelkuma salvage {log} {log}.salvaged && zelkuma why {log}.salvaged {elf}"


class Table:
    """logs, others  how many logs there are, and how many files that are none
    good          how many are of runs that ended well
    unread        {why they aren't read: logs}"""

    def __init__(self, logs: int, others: int) -> None:
        self.logs = logs
        self.others = others
        self.good = 0
        self.groups: dict[tuple[Bucket, str], Group] = {}
        self.unread: dict[str, list[File]] = {}

    def add(self, answer: Answer, file: File, elf: str) -> None:
        """A log. They come in the order of their dates."""
        is_whole = answer.state != SALVAGED
        # A code that programs end with tells nothing of a place: each program's is a cause of its
        # own.
        key = answer.bucket, file.program if answer.bucket.reason in EXITS else ""
        group = self.groups.get(key)
        if group is None:
            group = self.groups[key] = Group(answer.bucket, file, file, file, elf, is_whole)
        if is_whole and not group.is_whole:
            group.example = file
            group.elf = elf
            group.is_whole = True
        group.last = file
        group.count += 1
        group.salvaged += not is_whole
        group.harts.add(answer.harts)

    def add_unread(self, why: str, file: File) -> None:
        self.unread.setdefault(why, []).append(file)

    def sorted(self) -> list[Group]:
        return sorted(self.groups.values(),
                      key=lambda group: (-group.count, group.bucket, group.elf))

    def sorted_unread(self) -> list[tuple[str, list[File]]]:
        return sorted(self.unread.items(), key=lambda item: (-len(item[1]), item[0]))

    def heading(self) -> str:
        salvaged = sum(group.salvaged for group in self.groups.values())
        left = sum(map(len, self.unread.values()))
        said = [f"{counted(self.logs, 'log')}: {counted(len(self.groups), 'cause')}"]
        said += [f"{number(self.good)} ended well"] * bool(self.good)
        said += ([f"{number(salvaged)} salvaged"] * bool(salvaged)
                 + [f"{number(left)} not read"] * bool(left))
        said += [f"{counted(self.others, 'other file')}"] * bool(self.others)
        return ", ".join(said)


def day(file: File) -> str:
    return time.strftime("%Y-%m-%d %H:%M", time.localtime(file.time))

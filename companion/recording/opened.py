"""What companions are asked of: LOG, ELF and --names, each opened and checked in one place."""
from __future__ import annotations

import contextlib
from contextlib import closing
from functools import cached_property
from types import MappingProxyType
from typing import Iterator, Mapping, Sequence

from ..call.options import AND, whole
from .elf import Elf
from .log import Log
from .naming import named_elf, places_of
from .places import Places
from .ready import ready
from .recent import LogFile, open_log
from .sources import source_folders

HIGHEST = 1 << 41           # the most rows that can be given: all of any log
NOTHING: Mapping[str, str] = MappingProxyType({})


class Program:
    """elf    the recorded program; named: the same with names, if --names gives them"""

    def __init__(self, elf_name: str, names: str = "", folders: Sequence[str] = (),
                 is_silent: bool = False) -> None:
        """`folders` are those of --source. Unless it is silent, it says if there is no tool for
        lines."""
        self.elf = Elf(elf_name)
        self.folders = folders
        self.is_silent = is_silent
        self.named = named_elf(self.elf, names)

    @property
    def given(self) -> dict[str, str]:
        """The options by which it can be opened again."""
        names = {"--names": self.named.name} if self.named is not self.elf else {}
        return {**names, **({"--source": AND.join(self.folders)} if self.folders else {})}

    @cached_property
    def places(self) -> Places:
        """Its lines, by a tool that runs until `close`."""
        return (Places(self.named, folders=self.folders) if self.is_silent
                else places_of(self.named, self.folders))

    def close(self) -> None:
        if "places" in self.__dict__:
            self.places.close()


class Opened(Program):
    """source   the log, checked
    rows     what --rows says, or 0"""

    def __init__(self, source: LogFile, elf_name: str, names: str,
                 folders: Sequence[str], rows: int) -> None:
        super().__init__(elf_name, names, folders)
        self.source = source
        self.rows = rows

    def log(self, most: int) -> Log:
        """The end of the log that has so many rows, or as many as --rows says."""
        rows = self.rows or most
        return self.source.end(rows) if rows < HIGHEST else self.source.whole()

    def ready(self, hart: int, count: int) -> list[str]:
        """Ready commands for a row."""
        return ready(self.source.name, self.elf, self.named, hart, count)


@contextlib.contextmanager
def opened(log_name: str, elf_name: str, given: Mapping[str, str] = NOTHING) -> Iterator[Opened]:
    """`given` are the options of a call."""
    rows = whole(given["--rows"], 1, HIGHEST, "--rows") if "--rows" in given else 0
    folders = source_folders(given)
    with closing(open_log(log_name)) as source:
        with closing(Opened(source, elf_name, given.get("--names", ""), folders, rows)) as found:
            yield found

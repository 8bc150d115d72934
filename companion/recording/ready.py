"""The command by which a row that is told can be looked at in gdb."""
from __future__ import annotations

import shlex
import sys

from .elf import Elf


def ready(log_name: str, elf: Elf, named: Elf, hart: int, count: int) -> list[str]:
    """It as a line, at a terminal; elsewhere nothing: what a script reads stays as it is."""
    if not sys.stdout.isatty():
        return []
    names = ["--names", named.name] if named is not elf else []
    words = ["zelkuma", "gdb", "--run", "--at", f"{hart}:{count}", *names, log_name, elf.name]
    return [" ".join(map(shlex.quote, words))]

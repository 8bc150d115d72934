"""Tells memory errors of a recorded run, each at its first access."""
from __future__ import annotations

from typing import List, Mapping

from ..call.errors import FOUND, REFUSED, CompanionError
from ..call.help import Help
from ..call.options import AND, read_words
from ..call.text import number
from ..recording.answers import put_found
from ..recording.log import Log
from ..recording.opened import opened
from .answer import MemoryAnswer
from .leaks import leaks_of
from .run import run_of

HELP = Help(
    "memory LOG ELF [--alloc FN] [--free FN] [--leaks] [--names ELF] [--rows N] [--json] [--fail]",
    "memory errors, each where it happens",
    """Tells each access that isn't to what its pointer was made for, with the object, the distance
and the callers; of a block the places that took it and gave it back. It also tells bytes that
nobody wrote, and pointers that are none.""", {
        "--alloc": "FN takes memory: its first argument is the size, or its Nth with FN:N; with "
                   "FN:=BYTES it always takes so many",
        "--free": "FN gives back its first argument, or its Nth with FN:N; both can be given "
                  "several times",
        "--leaks": "tells the blocks that are live at the end, by the place that took them",
        "--rows": "how many of the last rows are read; without it 20 million",
        "--fail": "the status is 23 if something was found",
    },
    """C's allocators (malloc, calloc, realloc, free, ..) are known by their names. A finding is a
statement by definition (docs/MEMORY.md); what can't be told is counted as unknown.""")
MOST_ROWS = 20000000        # some 20 seconds
LARGEST_MEMORY = 64 << 20   # bytes of the guest: of each word a tag of eight bytes is kept


def notes_of(log: Log) -> List[str]:
    if log.unread:
        return [f"Only the last {number(log.rows())} rows were read; --rows N reads more."]
    return ([f"The log gave up {number(log.dropped)} records before its first row."] if log.dropped
            else [])


def names_in(given: Mapping[str, str], option: str) -> List[str]:
    return given[option].split(AND) if option in given else []


def main(words: List[str]) -> int:
    (log_name, elf_name), given = read_words(words, HELP.form)
    with opened(log_name, elf_name, given) as found:
        log = found.log(MOST_ROWS)
        if log.memory > LARGEST_MEMORY:
            raise CompanionError(f"memory: the recorded program has {number(log.memory)} bytes of "
                                 f"memory, and this can follow {number(LARGEST_MEMORY)}", REFUSED)
        run = run_of(log, found.elf.name, found.named, names_in(given, "--alloc"),
                     names_in(given, "--free"))
        leaks = (leaks_of(run.heap, run.harts, log.name, found.elf.name) if "--leaks" in given
                 else [])
        answer = MemoryAnswer(run, found.places, notes_of(log), leaks)
        put_found("memory", answer, MemoryAnswer.lines, MemoryAnswer.answer, "--json" in given)
    return (FOUND if "--fail" in given
            and (answer.findings or any(leak.unreached for leak in leaks)) else 0)

"""Makes a recording again from its list of turns, with a larger log or other intervals."""
from __future__ import annotations

import os
from pathlib import Path
from typing import Mapping

from ..call import program, streams
from ..call.files import check_regular
from ..call.kinds import LOG, TURNS
from ..call.help import Help
from ..call.options import read_words, whole
from ..call.saving import Target, target
from ..call.text import counted, number
from ..recording.book import DIFFERS, check_book
from ..recording.recent import LogFile
from .record import ENDS, Quick, last_line, refusal

HELP = Help(
    "again LOG ELF BOOK NEWLOG [--input FILE] [--log-size N] [--interval N]",
    "records by BOOK's turns again, with a larger log",
    """Makes a recording again by the turns of BOOK, also one of harts in threads, and saves it as
NEWLOG.

    zelkuma again LOG buffers.elf BOOK NEWLOG --log-size 64M

First `audit` has to agree that LOG is the recording of BOOK's turns. NEWLOG has LOG's settings but
for those that are given. The summary of the new recording is printed, and then:

    turns: ..    whether its list of turns is BOOK. Full intervals end turns, and with format 2
                 guards do. So if they come elsewhere, the turns can be others: these are saved as
                 NEWLOG.book
    ends: ..     whether each hart ended as in LOG: its count, reason and value. If not, it is
                 another run, and the status is 16""", {
        "--input": "what the program read, if it read a file",
        "--log-size": "how many bytes of records are kept; N may end in K, M or G",
        "--interval": "how many instructions an interval has",
    },
    "`audit NEWLOG ELF BOOK` tells whether NEWLOG is the recording of its turns.")
LARGEST = 2**64 - 1                     # the program knows the ranges of its settings


def record(options: Mapping[str, str], elf: str, book: str, folder: str) -> tuple[str, str, str]:
    """A recording by BOOK's turns, in a folder: its log, its list of turns and its summary."""
    log, new_book, said = (os.path.join(folder, name) for name in ("log", "book", "said"))
    words = ["record", *(f"{name}={value}" for name, value in options.items()), "--", elf,
             log, new_book]
    with Quick(folder) as quick:
        status = quick.start(os.devnull, said, *words, schedule=f"book:{book}").wait()
    if status not in ENDS:
        raise refusal(said, status, "the recording")
    return log, new_book, last_line(said)


def first_difference(one: str, other: str) -> int:
    """The first turn that differs between two lists, or -1."""
    turns = Path(one).read_bytes()
    others = Path(other).read_bytes()
    if turns == others:
        return -1
    return next((at for at, pair in enumerate(zip(turns, others)) if pair[0] != pair[1]),
                min(len(turns), len(others)))


def ends_of(log: str) -> dict[str, str]:
    """The count, reason and value with which each hart ended that a log has an interval of."""
    lines = [line.split(None, 3) for line in program.output("list", log).splitlines()]
    return {hart: end for hart, _, _, end in lines}


def tell_turns(book: str, new_book: str, new_list: Target) -> None:
    """Says whether both lists are the same, and saves the new one if not."""
    at = first_difference(book, new_book)
    if at < 0:
        streams.put(f"turns: the {counted(os.path.getsize(book), 'turn')} of BOOK\n")
        return
    new_list.take(new_book)
    streams.put(f"turns: not those of BOOK from turn {number(at)} on; "
                f"they are saved as {new_list.path}\n")


def tell_ends(log: str, new_log: str) -> int:
    """Says whether the harts ended alike: the status. A log can have lost a hart."""
    old = ends_of(log)
    new = ends_of(new_log)
    others = sorted(hart for hart, end in old.items() if hart in new and new[hart] != end)
    if not others:
        streams.put("ends: those of LOG\n")
        return 0
    hart = others[0]
    streams.put(f"ends: not those of LOG: hart {hart} ended with {new[hart]}, "
                f"and in LOG with {old[hart]}\n")
    return DIFFERS


def main(words: list[str]) -> int:
    (log, elf, book, output), given = read_words(words, HELP.form)
    numbers = {name: str(whole(given[name], 1, LARGEST, name))
               for name in ("--log-size", "--interval") if name in given}
    source = {"--input": given["--input"]} if "--input" in given else {}
    read = log, elf, book, *source.values()
    check_regular(*read)
    new_log = target(output, LOG, read)
    new_list = target(output + ".book", TURNS, [*read, output])
    check_book(log, elf, book, [f"--input={name}" for name in source.values()])
    options = {**LogFile(log).head.settings(), **source, **numbers}
    with new_log.scratch() as folder:
        made, new_book, summary = record(options, elf, book, folder)
        new_log.take(made)
        streams.put(summary + "\n")
        tell_turns(book, new_book, new_list)
    return tell_ends(log, new_log.path)

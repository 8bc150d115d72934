"""Finds the shortest order of turns by which a program ends as its recording did."""
from __future__ import annotations

import os
from typing import Mapping, Sequence, Union

from ..call import streams
from ..call.errors import REFUSED, UNREADABLE, CompanionError
from ..call.files import check_regular
from ..call.kinds import INPUT, LOG, TURNS
from ..call.help import Help
from ..call.options import decimal, parse, read_words, whole
from ..call.saving import target
from ..recording.answers import put_answer
from ..recording.book import check_book
from ..recording.chunks import check_program
from ..recording.log import is_fault, load_log
from ..recording.opened import Program
from ..recording.recent import open_log
from ..recording.sources import source_folders
from ..why.facts import asked_byte
from .order_file import targets_of
from .record import RECORD_OPTIONS
from .same_end import common_exit_code
from .shrinking import ShrinkInput, Shrunk, shrink
from .shrinking_input import AskedInput, ShrunkInput, shrink_input

HELP = Help(
    "shrink LOG ELF BOOK NEWLOG NEWBOOK | NEW --input FILE [--says TEXT] [--seconds N] "
    "[--output N:BYTE] [--names ELF] [--source DIR] [--order FILE] [--json] [-- WORD..]",
    "finds the shortest order, or input, that ends as LOG",
    """Finds the shortest order of harts that still ends as LOG does, and saves a recording of it as
NEWLOG and NEWBOOK.

    zelkuma shrink LOG buffers.elf BOOK SHORT SHORT.book

A run ends the same if the same fault comes at the same place with the same callers. So it does if
the same harts come to the limit and wait for the same words, or if the exit code is the same, and
not 0. The order is printed as pieces, hartxturns, and then its switches: who stops where, who
continues where, and what that does to a word that was loaded. WORD are options of `record`: --input
is needed if LOG has one; others have to be those of LOG.

With one hart the input is shrunk in place of the order:

    zelkuma shrink LOG ELF NEW --input FILE

NEW is the shortest that is found by which the run still ends as LOG does. That is the same fault,
and not near 0 if LOG's isn't, the same loop at the limit, or the same exit code, if it isn't 0.
Pieces are left out, and what is left is made plain: digits 0, letters a.""", {
        "--input": "with one hart: what LOG's run read",
        "--says": "with one hart: a run ends the same if it writes this text, and its exit code "
                  "is the same",
        "--seconds": "ends the search after so long; what it has by then is saved",
        "--output": "a run ends the same if this byte of the output is the same, as `zelkuma "
                    "output` numbers them",
        "--order": "saves the order by lines and objects as well: a test of later builds "
                   "(`zelkuma recheck FILE NEW`)",
    },
    """The answer is the same on each machine. Ctrl-C, TERM and HUP end the search (130, 143, 129):
the shortest that was found is saved. BOOK has to be LOG's, as `audit` says.""")
INPUT_FORM = ("shrink LOG ELF NEW --input FILE [--says TEXT] [--seconds N] [--names ELF] [--source "
              "DIR] [--json]")
ORDER_FORM = ("shrink LOG ELF BOOK NEWLOG NEWBOOK [--seconds N] [--output N:BYTE] [--names ELF] "
              "[--source DIR] [--order FILE] [--json] [-- WORD..]")
LONGEST_SEARCH = 1 << 20    # seconds
LONGEST_INPUT = 1 << 24  # bytes
TOO_LONG = 5  # the status of a file that is too long


def recorded_options(log: str, words: Sequence[str]) -> dict[str, str]:
    """The options by which a log was recorded. Those of the words have to be the same; only the
    log's input isn't in it."""
    _, given = parse(words, RECORD_OPTIONS, range(1), "the options of record, behind --")
    for name, why in (("--lean", "a lean recording keeps no BOOK, "
                       "and without its turns nothing can be shrunk"),
                      ("--seed", "BOOK has the turns, so --seed can't be given")):
        if name in given:
            raise CompanionError(why, REFUSED)
    settings = open_log(log).head.settings()
    for name, value in given.items():
        if name != "--input" and decimal(value) != settings.get(name):
            raise CompanionError(f"{name} is {settings.get(name, 'nothing')} in LOG, not {value}",
                                 REFUSED)
    return {**settings, **({"--input": given["--input"]} if "--input" in given else {})}


def check_words(log: str, elf: str, book: str, options: Mapping[str, str], has_byte: bool) -> None:
    if options["--harts"] == "1":
        raise CompanionError("LOG is of one hart, which has one order: there is nothing to shrink; "
                             "NEW --input FILE shrinks its input", REFUSED)
    if os.path.exists(book) and os.path.samefile(log, book):
        raise CompanionError("LOG is given for BOOK: a lean recording keeps no BOOK, "
                             "and can't be shrunk", REFUSED)
    check_book(log, elf, book, [f"--input={options['--input']}"] if "--input" in options else [])
    ends = load_log(log).ends
    if not (has_byte or common_exit_code(ends)
            or any(is_fault(end.reason) or end.reason == "limit" for end in ends.values())):
        raise CompanionError("the run of LOG ended well; "
                             "--output N:BYTE asks for a byte of its output that is wrong", REFUSED)


def shrink_order(words: list[str]) -> tuple[Mapping[str, str], Union[Shrunk, ShrunkInput]]:
    at = words.index("--") if "--" in words else len(words)
    (log, elf_name, book, new_log, new_book), given = read_words(words[:at], ORDER_FORM)
    options = recorded_options(log, words[at + 1:])
    byte = asked_byte(given["--output"]) if "--output" in given else None
    read = [log, elf_name, book, options.get("--input", "")]
    check_regular(*read)
    targets = target(new_log, LOG, read), target(new_book, TURNS, [*read, new_log])
    order = (targets_of(given["--order"], options.get("--input", ""), [*read, new_log, new_book])
             if "--order" in given else None)
    check_words(log, elf_name, book, options, byte is not None)
    program = Program(elf_name, given.get("--names", ""), source_folders(given))
    return given, shrink(ShrinkInput(log, book, program, options, *targets, byte,
                                     seconds_of(given), order=order))


def shrink_its_input(words: list[str]) -> tuple[Mapping[str, str], Union[Shrunk, ShrunkInput]]:
    (log, elf_name, new), given = read_words(words, INPUT_FORM)
    source = given["--input"]
    options = recorded_options(log, [])
    if options["--harts"] != "1":
        raise CompanionError("LOG is of several harts: shrink its order first; "
                             "of one hart alone the input is shrunk", REFUSED)
    check_regular(log, elf_name, source)
    place = target(new, INPUT, [log, elf_name, source, given.get("--names", "")])
    check_program(log, elf_name)
    data = input_of(source)
    program = Program(elf_name, given.get("--names", ""), source_folders(given))
    return given, shrink_input(AskedInput(log, program, options, source, data, place,
                                          given.get("--says", ""), seconds_of(given)))


def input_of(name: str) -> bytes:
    try:
        with open(name, "rb") as file:
            data = file.read(LONGEST_INPUT + 1)
    except OSError as error:
        raise CompanionError(f"{name} can't be read: {error.strerror}", UNREADABLE)
    if len(data) > LONGEST_INPUT:
        raise CompanionError(f"{name} is longer than {LONGEST_INPUT >> 20} MiB", TOO_LONG)
    return data


def seconds_of(given: Mapping[str, str]) -> int:
    return whole(given.get("--seconds", "0"), 0, LONGEST_SEARCH, "--seconds")


def main(words: list[str]) -> int:
    of_order = words[:words.index("--")] if "--" in words else words
    is_of_input = any(word.partition("=")[0] == "--input" for word in of_order)
    given, shrunk = (shrink_its_input if is_of_input else shrink_order)(words)
    if "--json" in given:
        put_answer("shrink", **shrunk.answer)
    else:
        streams.put_lines(shrunk.lines)
    return shrunk.status

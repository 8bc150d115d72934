"""Asks if a build is mended: by the order of a recorded crash, or by order files, which are tests
of it."""
from __future__ import annotations

import os
from contextlib import closing
from dataclasses import dataclass
from pathlib import Path
from typing import Dict, List, Mapping, Optional, Sequence, Tuple

from ..call import streams
from ..call.errors import MISSING, REFUSED, UNSURE, CompanionError
from ..call.files import check_regular
from ..call.kinds import LOG, TURNS
from ..call.help import Help
from ..call.options import parse, whole
from ..call.saving import Target, save_together, target
from ..call.scratch import Scratch
from ..call.text import counted
from ..recording.answers import LONGEST, put_answer
from ..recording.book import check_book
from ..recording.log import load_log
from ..recording.opened import Program
from ..recording.sources import source_folders
from ..recording.turns import pieces_of
from ..why.facts import asked_byte
from .junit import JUNIT, Result, orders_junit
from .marks import WELL, Order
from .meaning import Meaning
from .order_file import DEFAULTS, SUFFIX, input_target, read_order, targets_of
from .record import Quick
from .runs import AskedTurns, Runs
from .same_end import Ends
from .search import Search
from .shrink import check_words as check_recording
from .shrink import recorded_options
from .shrinking import MEMORY_FOLDER, offset_of
from .told_order import Telling
from .tries import Tries
from .verdict import HOLDS, MOST_TRIES, TRIES, Checked, verdict_answer, checked_order, lines

HELP = Help(
    "recheck LOG ELF BOOK NEW | ORDER NEW | FOLDER --elfs DIR [--tries N] [--input FILE] "
    "[--output N:BYTE] [--names ELF] [--old-names ELF] [--source DIR] [--order FILE] [--save NAME] "
    "[--junit FILE] [--json]",
    "whether a later build is mended: tries the crash's order",
    """Asks if a build is mended: carries the order of harts of a crash over to it, and tries orders
near that.

    zelkuma recheck LOG buffers.elf BOOK NEW     is NEW, a later build, mended?
    zelkuma recheck buffers.order NEW            the same by an order file, as of `shrink --order`
    zelkuma recheck FOLDER --elfs DIR            all order files below FOLDER, each for the program
                                                 of its name

Each switch of the shortest order is told by its access, object, function and line, and looked for
in NEW. A hart that waits there for a lock is told, and another continues until it lets it go. If
the order ends well, orders near it are tried; how many of as many end well in the recorded build
says what that is worth. The status is

    0    it holds, as far as was tried
    10   a run ends in a fault; 11: at the limit, also with 16 times as many instructions
    25   a run ends with the wrong exit code or byte
    24   unsure: nothing ends badly, but a switch has no place in NEW, and orders near it say too
         little""", {
        "--elfs": "where the programs of a folder's orders are",
        "--tries": f"so many orders near it; without it {TRIES}",
        "--input": "what the recorded run read",
        "--output": "the end is this byte of the output, as `zelkuma output` numbers them",
        "--names": "NEW with its names and lines, if it was stripped",
        "--old-names": "the recorded program with its names and lines, if it was stripped",
        "--order": "saves the order of LOG as an order file, too",
        "--save": "saves the run that ends badly as NAME.log and NAME.book",
        "--junit": "saves the results as JUnit's XML: an order is a test, and one that is unsure "
                   "an error",
        "--json": "prints one JSON object in place of the text (docs/ORDERS.md)",
    },
    "docs/ORDERS.md tells how an order is written by hand.")
VALUES = ("--tries --input --output --names --old-names --source --order --save "
          "--elfs --junit".split())
OF_LOG = "--input", "--output", "--old-names", "--order"
OF_ONE = *OF_LOG, "--names", "--save"
MOST_ORDERS = 1000          # of a folder
# Names
IN_LOG = 4
IN_FILE = 2


@dataclass(frozen=True)
class RecheckWork:
    """What each check needs: a maker of recordings, how many orders near one are tried, and folders
    of sources."""
    quick: Quick
    tries: int
    folders: Sequence[str]

    @property
    def jobs(self) -> int:
        return len(os.sched_getaffinity(0))


@dataclass(frozen=True)
class Saved:
    """The files of a run that ends badly. `input` is that of an order file, and input_name its name
    or the user's own."""
    log: Target
    book: Target
    input: Optional[Target]
    input_name: str


def saved_as(name: str, order: Order, input_name: str, read: Sequence[str]) -> Saved:
    """CompanionError if a run may not be saved under a name."""
    beside = (input_target(name, order.input, read) if order.input is not None and not input_name
              else None)
    return Saved(target(name + ".log", LOG, read),
                 target(name + ".book", TURNS, [*read, name + ".log"]), beside,
                 beside.name if beside else input_name)


def recorded_order(names: Sequence[str], given: Mapping[str, str],
                   work: RecheckWork) -> Tuple[Order, List[str]]:
    """The order of LOG, ELF and BOOK, and what is to be said of its lines."""
    log, elf_name, book = names
    words = ["--input", given["--input"]] if "--input" in given else []
    options = recorded_options(log, words)
    byte = asked_byte(given["--output"]) if "--output" in given else None
    with closing(Program(elf_name, given.get("--old-names", ""), work.folders)) as program:
        offset = offset_of(load_log(log), program.elf, byte) if byte else None
        meaning = Meaning(program)
        telling = Telling(work.quick, meaning, options, offset, work.tries, work.jobs)
        if options["--harts"] == "1":
            check_book(log, elf_name, book,
                       [f"--input={options['--input']}"] if "--input" in options else [])
            order = telling.of_one_hart()
        else:
            check_recording(log, elf_name, book, options, byte is not None)
            tries = Tries(options, Ends(work.quick, program.elf, offset), work.jobs)
            found = Search(tries, tries.record(pieces_of(Path(book).read_bytes())))
            found.run()
            order = telling.of_search(found)
        trouble = meaning.trouble()
    if order.end is None or order.end.kind == WELL:
        raise CompanionError("the run of LOG ended well: there is nothing to recheck", REFUSED)
    return order, trouble


def check_build(order: Order, new: str, names: str, work: RecheckWork,
                saved: Optional[Saved] = None) -> Tuple[Checked, List[str]]:
    """What is found of a build, and what else is to be said."""
    options: Dict[str, str] = {**DEFAULTS, **order.settings}
    if order.input is not None:
        options["--input"] = os.path.join(work.quick.folder, "input")
        Path(options["--input"]).write_bytes(order.input)
    with closing(Program(new, names, work.folders)) as program:
        meaning = Meaning(program)
        runs = Runs(work.quick, meaning, options, order.end, work.jobs)
        found = checked_order(runs, order, work.tries)
        more = save_results(found, runs, saved) if saved and found.shown else []
        return found, more + meaning.trouble()


def save_results(found: Checked, runs: Runs, saved: Saved) -> List[str]:
    """Saves the run that ends badly, and tells how it is made again."""
    made = runs.record(found.shown.first if found.shown else AskedTurns())
    files = [(saved.log, Path(made.log).read_bytes()), (saved.book, Path(made.book).read_bytes())]
    if saved.input and found.order.input is not None:
        files.append((saved.input, found.order.input))
    save_together(files)
    return ["saved; made again by: " + runs.command(saved.book.name, saved.input_name)]


def put_results(found: Checked, more: Sequence[str], is_json: bool) -> None:
    if is_json:
        put_answer("recheck", orders=[verdict_answer(found)])
        for line in more:
            streams.say(line)
    else:
        streams.put_lines([*lines(found), *more])


def check_one(names: Sequence[str], given: Mapping[str, str], work: RecheckWork) -> List[Result]:
    *first, new = names
    input_name = given.get("--input", "")
    read = [*names, input_name]
    check_regular(*read)
    kept = targets_of(given["--order"], input_name, read) if "--order" in given else None
    trouble: List[str] = []
    if len(names) == IN_LOG:
        order, trouble = recorded_order(first, given, work)
        if kept:
            kept.save(order)
    else:
        order = read_order(first[0])
    saved = saved_as(given["--save"], order, input_name, read) if "--save" in given else None
    found, more = check_build(order, new, given.get("--names", ""), work, saved)
    if found.shown and not saved and "--json" not in given:
        more.append("--save NAME saves that run, and tells how it is made again")
    put_results(found, [*dict.fromkeys(trouble + more)], "--json" in given)
    return [Result(first[0], found)]


def find_build(folder: str, program: str) -> str:
    """The program of a name below a folder."""
    found = [os.path.join(at, program) for at, _, files in os.walk(folder) if program in files]
    if len(found) != 1:
        raise CompanionError(f"{folder} has {counted(len(found), 'file')} of the name {program}, "
                             "and not one", MISSING)
    return found[0]


def check_folder(folder: str, given: Mapping[str, str], work: RecheckWork) -> List[Result]:
    """Checks each order of a folder. One that can't be checked is told, and the others are."""
    names = sorted(str(name) for name in Path(folder).rglob("*" + SUFFIX))
    if not names or len(names) > MOST_ORDERS:
        raise CompanionError(f"{folder} has {counted(len(names), 'order file')} (NAME{SUFFIX}), "
                             f"and not 1 to {MOST_ORDERS}", MISSING)
    found = []
    for name in names:
        result = Result(os.path.relpath(name, folder)[:-len(SUFFIX)])
        try:
            order = read_order(name)
            result.found, _ = check_build(order, find_build(given["--elfs"], order.program),
                                          "", work)
        except CompanionError as error:
            result.refused = str(error)
            result.refusal = error.status
        found.append(result)
        if "--json" not in given:
            streams.put(f"{result.status:>3}  {result.name}: {result.text()}\n")
    if "--json" in given:
        put_answer("recheck", orders=[result.answer() for result in found[:LONGEST]])
    return found


def recheck_status(results: Sequence[Result]) -> int:
    """The first bad end's, else that of one that isn't sure or can't be checked."""
    all_of_them = [result.status for result in results if result.status != HOLDS]
    return next((status for status in all_of_them if status != UNSURE),
                UNSURE if all_of_them else HOLDS)


def main(words: List[str]) -> int:
    known = {**dict.fromkeys(VALUES, True), "--json": False}
    names, given = parse(words, known, range(1, IN_LOG + 1), HELP.form)
    wanted = IN_LOG if any(option in given for option in OF_LOG) else len(names)
    if "--elfs" in given:
        wanted = 1
    if (len(names) != wanted or wanted not in (IN_LOG, IN_FILE, 1)
            or (wanted == 1 and "--elfs" not in given)):
        raise CompanionError(f"{len(names)} names are given; the words are: {HELP.form}", REFUSED)
    alone = [option for option in OF_ONE if option in given]
    if wanted == 1 and alone:
        raise CompanionError(f"{alone[0]} is for one order, and can't be given with --elfs",
                             REFUSED)
    tries = whole(given.get("--tries", str(TRIES)), 0, MOST_TRIES, "--tries")
    junit = target(given["--junit"], JUNIT, names) if "--junit" in given else None
    with Scratch(MEMORY_FOLDER if os.access(MEMORY_FOLDER, os.W_OK)
                 else "") as folder, Quick(folder) as quick:
        work = RecheckWork(quick, tries, source_folders(given))
        results = (check_folder(names[0], given, work) if wanted == 1
                   else check_one(names, given, work))
    if junit:
        junit.save(orders_junit(results).encode())
    return recheck_status(results)

"""Searches for turns by which a program ends as wanted."""
from __future__ import annotations

import contextlib
import os
import re
from typing import Mapping, Optional, Sequence

from ..call import streams
from ..call.errors import FOUND, NO_INTERVAL, NOT_FOUND, REFUSED, CompanionError
from ..call.kinds import LOG, TURNS
from ..call.help import Help
from ..call.options import read_words, whole
from ..call.saving import Target, target
from ..call.text import number
from ..recording.answers import LONGEST, put_answer
from ..recording.opened import Program
from ..recording.recent import LogFile
from ..questions.compare import compared
from .record import FAULT, Kind, Plan, RecordWords
from .shrinking import ShrinkInput, Shrunk, shrink
from .trials import MOST_KEPT, Count, Ending, Numbers, TrialSearch
from .wanted import Wanted, wanted_of

HELP = Help(
    "seeds [-j N] [--until END] [--only KIND,..] [--all DIR] [--part K/N] [--shrink] [--compare] "
    "[--json] [--fail] FROM TO -- RECORD-WORDS",
    "records with each number's turns; keeps the first hit",
    """Records a program by one order of turns after another, on all processors, until a run ends as
wanted.

    zelkuma seeds 1 1000 -- --harts 4 buffers.elf LOG BOOK

RECORD-WORDS are those of `record` but for --seed. Of each number from FROM to TO all kinds of turns
are tried:

    seeds            a hart is drawn for each turn
    bursts           one hart keeps its turns for a while, then another is drawn
    sleepers         one hart takes no turn for a while
    threads          no number draws them: the harts run side by side

LOG and BOOK are those of the first run that ends as END says; if a number draws its turns, no lower
one does. Its kind and number are printed, and the command that makes it again. A table tells how
the runs up to it ended: status, count, the first of them, and of a fault the line of `bucket`. If
none ends so, nothing is saved, and the status is 22. Ctrl-C (or TERM, HUP) ends the search: the
table is printed, what was found is kept, and the status is 130 (143, 129).""", {
        "-j": "so many recordings at a time; without it, as many as there are processors",
        "--until": "10 (a fault), which it is without it; 11 (a hart came to the limit), 0 "
                   "(done), exit:N (done, with this exit code), output:TEXT (the program wrote "
                   "this), or bad (10, 11, or an exit code but 0)",
        "--only": "these kinds alone. Without it runs in threads are left out with --all, and for "
                  "11 and bad, since a slow run isn't a hang; that is said",
        "--all": "makes all runs, and saves LOG and BOOK of the first with each ending in DIR, as "
                 "KIND-NUMBER.log and .book; an ending is a line of the table. RECORD-WORDS end "
                 "with ELF then",
        "--part": "every Nth number alone, from the Kth on: the parts 1/N to N/N together are all "
                  "numbers",
        "--shrink": "does what `zelkuma shrink` does with what was found: LOG and BOOK are those "
                    "of the short run",
        "--compare": "does that, moves one switch of the short run as far as it takes for a run "
                     "that ends well, saves that as LOG.good and BOOK.good, and does what "
                     "`zelkuma compare` does with both",
        "--fail": "for a gate: the status is 23 if a run is found, or with --all one that ended "
                  "badly, and else 0",
    },
    """One recording in threads is under way at a time, and the others wait for it. One that spins
on a busy machine takes long: give a --limit. Numbers may end in K, M or G. Trials are saved beside
LOG and BOOK, in folders that are taken away again.

Over machines, each of which has a part; `triage` joins what they found:

    parallel --sshloginfile MACHINES \\
        zelkuma seeds --all found/{} --part {}/8 1 1000 -- program.elf ::: 1 2 3 4 5 6 7 8
    zelkuma triage found --elfs .""")
KINDS = {"seeds": Kind.SEED, "bursts": Kind.BURSTS,
         "sleepers": Kind.SLEEPER, "threads": Kind.THREADS}
HEAD = "status", "count", "first", "place"
LAST_NUMBER = 2**64 - 1


def split_words(words: list[str]) -> tuple[list[str], list[str]]:
    """The words before the first `--`, with -j as an option of its full name, and those behind
    it."""
    at = words.index("--") if "--" in words else len(words)
    own = ["--jobs" if word == "-j" else re.sub("^-j", "--jobs=", word) for word in words[:at]]
    return own, words[at + 1:]


def kinds_of(options: Mapping[str, str], is_lean: bool, wanted: Optional[Wanted]) -> list[Kind]:
    """The kinds of turns, in order. Turns of threads can be taken again only from BOOK; a slow run
    in threads comes to its limit without a hang; and parts that make all runs are to give what the
    whole gives."""
    leaves_out = is_lean or wanted is None or wanted.has_slow_runs
    words = (options["--only"].split(",") if "--only" in options
             else [name for name in KINDS if name != "threads" or not leaves_out])
    for word in words:
        if word not in KINDS:
            raise CompanionError(f"--only takes some of {', '.join(KINDS)}, "
                                 f"with commas between them, not {word!r}", REFUSED)
    if is_lean and "threads" in words:
        raise CompanionError("with --lean there is no BOOK, "
                             "by which a recording in threads could be made again", REFUSED)
    return sorted({KINDS[word] for word in words})


def in_order(counts: Mapping[Ending, Count]) -> list[tuple[Ending, Count]]:
    return sorted(counts.items(), key=lambda item: (item[0].status, item[1].first))


def endings_table(counts: Mapping[Ending, Count]) -> str:
    rows = [HEAD] + [(str(ending.status), number(count.count), str(count.first), ending.place)
                     for ending, count in in_order(counts)]
    widths = [max(len(row[column]) for row in rows) for column in range(3)]
    return "".join("  ".join([cell.ljust(width) for cell, width in zip(row, widths)] + [row[3]])
                   + "\n" for row in rows)


def said_end(search: TrialSearch) -> str:
    """How the run ended that was found."""
    assert search.wanted and search.found
    if not search.wanted.is_bad:
        return search.wanted.said()
    return f"exit:{search.found.code}" if search.found.code else f"status {search.found.status}"


def tell_run(search: TrialSearch) -> None:
    text = ""
    found = search.found
    if found is not None:
        text = f"{found.plan}: {said_end(search)}\n{search.words.shown(found.plan)}\n"
    if search.endings.counts:
        text += endings_table(search.endings.counts)
    streams.put(text)


def fields_of(plan: Optional[Plan]) -> dict[str, object]:
    return {"kind": plan.kind.name.lower() if plan else None,
            "number": plan.number if plan else None}


def shrunk(words: RecordWords, plan: Plan, good: Sequence[Target]) -> Shrunk:
    """Shrinks the recording that was saved, in its place, and looks for a run that ends well if it
    has a place."""
    log, book = words.targets(plan)
    source = {option: value for option, _, value in (word.partition("=") for word in words.options)
              if option == "--input"}
    options = {**LogFile(log.path).head.settings(), **source}
    return shrink(ShrinkInput(log.path, book.path, Program(words.elf), options, log,
                              book, good=good))


def goods_of(words: RecordWords) -> list[Target]:
    """The targets of the nearest run that ends well."""
    log, book = words.outputs
    return [target(name + ".good", kind, [*words.read, log, book])
            for name, kind in ((log, LOG), (book, TURNS))]


def tell_difference(short: Shrunk, words: RecordWords, good: Sequence[Target],
                    is_json: bool) -> Optional[dict[str, object]]:
    if not short.nearest:
        streams.say("no run that ends well is found near: "
                    "one switch moved out of its window leads to no such run")
        return None
    try:
        with compared(good[0].path, words.outputs[0], words.elf, {}) as found:
            if not is_json:
                streams.put_lines([short.nearest.line(), *found.lines()])
            return {"switch": short.nearest.switch, "turns": short.nearest.turns, **found.answer()}
    except CompanionError as error:
        if error.status != NO_INTERVAL:
            raise
        streams.say(f"nothing is compared: {error}; a larger --log-size keeps all")
        return None


def tell_json(search: TrialSearch, short: Optional[Shrunk],
              difference: Optional[dict[str, object]]) -> None:
    plan = search.found.plan if search.found else None
    counts = search.endings.counts
    numbers = search.numbers
    endings = [{"status": ending.status, "place": ending.place,
                "count": count.count, **fields_of(count.first),
                "files": list(filter(os.path.exists, search.words.outputs_of(count.first)))
                if ending in search.kept else []} for ending, count in in_order(counts)]
    put_answer("seeds", **fields_of(plan), seed=plan.number if plan and plan.kind is Kind.SEED
               else None, command=search.words.shown(plan) if plan else None,
               until=search.wanted.text if search.wanted else None, status=search.wanted.statuses[0]
               if search.wanted and len(search.wanted.statuses) == 1 else None,
               kinds=[name for name, kind in KINDS.items() if kind in search.kinds],
               **{"from": numbers.first}, to=numbers.last, part=numbers.part, parts=numbers.parts,
               tried=sum(count.count for count in counts.values()), endings=endings[:LONGEST],
               shrunk=short.answer if short else None, compared=difference)


def find_run(search: TrialSearch, is_json: bool, shrinks: bool, good: Sequence[Target]) -> int:
    """Searches, saves what was found, and tells how the runs ended: as text also those before a
    refusal. The status of a signal that has ended the shrinking, or 0."""
    short = difference = None
    try:
        search.run()
    finally:
        try:
            for trial in [search.found] if search.found else search.kept.values():
                trial.save()
        finally:
            if not is_json:
                tell_run(search)
    if shrinks and search.found is not None and not search.stopped:
        short = shrunk(search.words, search.found.plan, good)
    if short and not is_json:
        streams.put_lines(short.lines)
    if short and good and not short.status:
        difference = tell_difference(short, search.words, good, is_json)
    if is_json:
        tell_json(search, short, difference)
    return short.status if short else 0


def status_of(search: TrialSearch, names: Sequence[str], fails: bool) -> int:
    if search.stopped:
        return 128 + search.stopped
    if search.found is not None:
        return FOUND if fails else 0
    if search.wanted is None:
        more = len(search.endings.counts) - len(search.kept)
        if more:
            streams.say(f"of {number(more)} endings nothing is kept: "
                        f"{number(MOST_KEPT)} others came before them")
        return FOUND if fails and any(ending.is_bad for ending in search.endings.counts) else 0
    streams.say(f"none of {', '.join(names)} from {search.numbers} ends "
                f"with {search.wanted.said()}")
    return 0 if fails else NOT_FOUND


def numbers_of(low: str, high: str, part: str) -> Numbers:
    first = whole(low, 0, LAST_NUMBER, "FROM")
    last = whole(high, 0, LAST_NUMBER, "TO")
    if last < first:
        raise CompanionError(f"TO is {last}, which is below FROM", REFUSED)
    at, slash, of = part.partition("/")
    if not slash:
        raise CompanionError(f"--part has to be K/N, not {part!r}", REFUSED)
    parts = whole(of, 1, LAST_NUMBER, "the N of --part")
    return Numbers(first, last, whole(at, 1, parts, "the K of --part"), parts)


def until_of(options: Mapping[str, str]) -> Optional[Wanted]:
    """What ends the search, or None if all are wanted."""
    if "--all" in options:
        if "--until" in options:
            raise CompanionError("with --all no status ends the search, so --until can't be given",
                                 REFUSED)
        return None
    return wanted_of(options.get("--until", str(FAULT)))


def check_shrinks(asked: str, record: RecordWords, wanted: Optional[Wanted]) -> None:
    """Refuses what can't be shrunk, before a run is made: `asked` is the option that asks for
    it."""
    if record.is_lean:
        raise CompanionError(f"{asked} needs BOOK, and with --lean there is none", REFUSED)
    if wanted is None or wanted.output or wanted.text in ("0", "exit:0"):
        raise CompanionError(f"{asked} needs one run with a fault, a hang or an exit code: "
                             "not --all, --until 0 or --until output:TEXT", REFUSED)
    if record.has_one_hart:
        raise CompanionError(f"one hart has one order, so {asked} has nothing to shrink: "
                             "--harts isn't given, or is 1", REFUSED)


def main(words: list[str]) -> int:
    own, rest = split_words(words)
    if "--" not in words:
        raise CompanionError("the options of record stand behind --, with ELF LOG BOOK; "
                             f"the words are: {HELP.form}", REFUSED)
    (low, high), options = read_words(own, HELP.form, "--jobs")
    numbers = numbers_of(low, high, options.get("--part", "1/1"))
    wanted = until_of(options)
    record = RecordWords(rest, options.get("--all", ""))
    shrinks = next((option for option in ("--compare", "--shrink") if option in options), "")
    if shrinks:
        check_shrinks(shrinks, record, wanted)
    good = goods_of(record) if "--compare" in options else []
    kinds = kinds_of(options, record.is_lean, wanted)
    processors = 1 if kinds == [Kind.THREADS] else len(os.sched_getaffinity(0))
    jobs = whole(options["--jobs"], 1, 1024, "-j") if "--jobs" in options else processors
    if not (Kind.THREADS in kinds or "--only" in options or record.has_one_hart):
        streams.say("runs in threads aren't tried; --only threads tries them")
    if record.folder:
        os.makedirs(record.folder, exist_ok=True)
    with contextlib.ExitStack() as opened:
        search = TrialSearch(record, numbers, kinds, wanted, jobs,
                             [opened.enter_context(folder) for folder in record.scratch()])
        stopped = find_run(search, "--json" in options, bool(shrinks), good)
    return stopped or status_of(search, [name for name, kind in KINDS.items() if kind in kinds],
                                "--fail" in options)

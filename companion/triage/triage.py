"""Many logs in one table: how often each cause, and an example of it."""
from __future__ import annotations

import os
import shlex
from contextlib import closing
from typing import Mapping, Sequence

from ..call import streams
from ..call.errors import FOUND, MISSING, CompanionError
from ..call.help import Help
from ..call.options import read_words
from ..call.page import PagePart, page
from ..call.kinds import PAGE
from ..call.saving import Target, target
from ..call.text import clean, counted, number
from ..recording.cause import EXITS
from .forms import JSON, JUNIT, json_text, junit_text
from .pool import answers
from .store import MOST_LOGS, File, Logs, Store, find_logs, missing_elf
from .table import Group, Table, day
from .work import MOST_BYTES, MOST_SECONDS, READ, UNREAD, WHY_SECONDS, Answer, Task

MOST_SUSPECTS = 20      # causes whose first suspect is asked for: seconds each
HELP = Help(
    "triage DIR.. --elfs DIR [--json FILE] [--junit FILE] [--html FILE] [--fail]",
    "the logs of folders in one table: how often each cause",
    """Sorts many logs by the cause of their end. It reads all logs below each DIR, on all
processors. Of each cause it prints the line of `bucket`, how many logs have it, and the first and
the last by their files' dates. It also tells how many harts they have, the first memory error, the
best suspect of `why`, and the command that says more of one of them.""", {
        "--elfs": "where the programs are: each is found by its SHA-256, which a log has. What "
                  "was found is remembered in ~/.cache/zelkuma/elfs.json ($XDG_CACHE_HOME), which "
                  "can be deleted",
        "--json": "saves the table for other programs (docs/JSON.md)",
        "--junit": "saves it as JUnit's XML: a cause is a test, and one that is no exit has failed",
        "--html": "saves it as a page",
        "--fail": "the status is 23 if a run ended otherwise than by exit code 0, or a log "
                  "couldn't be read",
    },
    f"""Runs that ended well are counted, and are no cause. A damaged log is salvaged into a
temporary place; its own file stays as it is. A log takes at most {MOST_SECONDS} s of processor
time, a suspect {WHY_SECONDS} s, and either {MOST_BYTES >> 20} MB: what else the machine does
changes nothing. Logs that can't be read are counted by the reason, as are those whose program isn't
there. Of a large log the last million rows are read. Of the {MOST_SUSPECTS} most frequent causes
the suspect is told.""")
KINDS = {"--json": JSON, "--junit": JUNIT, "--html": PAGE}


def ask(tasks: list[Task], what: str) -> dict[str, Answer]:
    """{log: the answer}. How many there are is told."""
    found: dict[str, Answer] = {}
    with closing(answers(tasks, min(len(os.sched_getaffinity(0)),
                                    len(tasks)))) as said, streams.Progress() as progress:
        for task, answer in said:
            found[task.log] = answer
            progress.tell(f"{number(len(found))} of {counted(len(tasks), what)}")
    return found


def table_of(logs: Logs, elfs: Mapping[str, str], found: Mapping[str, Answer]) -> Table:
    table = Table(len(logs.files), logs.others)
    for file in logs.files:
        answer = found.get(file.name)
        if answer is None:
            table.add_unread(missing_elf(file.program), file)
        elif answer.state == UNREAD:
            table.add_unread(answer.words, file)
        elif answer.bucket.is_good:
            table.good += 1
        else:
            table.add(answer, file, elfs[file.program])
    return table


def with_suspects(table: Table) -> None:
    """Asks for the suspects of the most frequent causes, each of one log."""
    groups = [group for group in table.sorted()
              if group.bucket.reason not in EXITS and group.is_whole][:MOST_SUSPECTS]
    found = ask([Task(group.example.name, group.elf, True) for group in groups], "suspect")
    for group in groups:
        answer = found[group.example.name]
        group.suspect = answer.words if answer.state == READ else f"none: {answer.words}"
        group.error = answer.error


def lines_of(group: Group) -> list[str]:
    first = group.first
    last = group.last
    harts = ", ".join(map(str, sorted(group.harts)))
    lines = [f"harts {harts}; {day(first)} {clean(first.name)}"
             + (f" to {day(last)} {clean(last.name)}" if first != last else "")]
    lines += [f"{counted(group.salvaged, 'log')} of them salvaged"] if group.salvaged else []
    lines += [f"memory error: {group.error}"] if group.error else []
    lines += [f"suspect: {group.suspect}"] if group.suspect else []
    return lines + [clean(group.command())]


def table_parts(table: Table) -> list[PagePart]:
    """The table, most frequent first; then what isn't read."""
    parts = [PagePart("", [table.heading()])]
    parts += [PagePart(f"{number(group.count)}  {group.bucket.line()}", lines_of(group))
              for group in table.sorted()]
    if table.unread:
        parts.append(PagePart("NOT READ",
                              [unread_line(why, files) for why, files in table.sorted_unread()]))
    return parts


def unread_line(why: str, files: Sequence[File]) -> str:
    return (f"{number(len(files))}  {clean(why)}: {clean(files[0].name)}"
            + (" and others" if len(files) > 1 else ""))


def saved_text(option: str, table: Table, parts: list[PagePart]) -> str:
    if option == "--html":
        return page(table.heading(), parts[1:])
    return json_text(table) if option == "--json" else junit_text(table)


def main(words: list[str]) -> int:
    folders, given = read_words(words, HELP.form)
    if "--elfs" not in given:
        raise CompanionError(f"--elfs isn't given; the words are: {HELP.form}")
    targets: dict[str, Target] = {}
    for option, kind in KINDS.items():
        if option in given:
            targets[option] = target(given[option], kind,
                                     [other.name for other in targets.values()])
    logs = find_logs(folders)
    if not logs.files:
        raise CompanionError(f"there is no log below {', '.join(map(shlex.quote, folders))}",
                             MISSING)
    elfs = Store([given["--elfs"]]).find({file.program for file in logs.files})
    table = table_of(logs, elfs, ask([Task(file.name, elfs[file.program])
                                      for file in logs.files if file.program in elfs], "log"))
    with_suspects(table)
    parts = table_parts(table)
    for option, place in targets.items():
        place.save(saved_text(option, table, parts).encode("utf-8", "backslashreplace"))
    streams.put_lines(line for part in parts for line in [""] * bool(part.heading) + part.text())
    if logs.are_more:
        streams.say(f"only {number(MOST_LOGS)} logs were read, and there are more")
    return FOUND if "--fail" in given and (table.sorted() or table.unread) else 0

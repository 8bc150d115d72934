"""Histories of variables, calls of functions and variables at lines for the page: of those that
what it tells of begins with."""
from __future__ import annotations

import contextlib
from typing import Any, Iterable, Iterator, Optional, Sequence, Union

from ..call.errors import CompanionError
from ..questions.at import Passes
from ..questions.calls import Call, FoundCalls, add_texts, said_arguments, said_result
from ..questions.expressions import LINE, compiled_by_gdb
from ..questions.functions import function_of
from ..questions.history import VariableHistory
from ..questions.reading import Asked, read
from ..questions.variables import Variable, variable_of
from ..recording.elf import Elf
from ..recording.races import Races
from ..why.analysis import Analysis
from ..why.suspect import Suspect
from .data import Page

# Are in the page at most, and so many of the last stores and calls of each
VARIABLES = 8
FUNCTIONS = 6
LINES = 6
TOLD = 40
LARGEST = 64  # bytes of a variable that is told as a whole
ROWS_NEAR = 60  # rows before the end
RACES = 3  # groups of races
MOST_LINE_ROWS = 2000000  # of a log with lines: for each the rows' registers and words are followed


def variables_of(named: Elf, words: Iterable[int]) -> list[Variable]:
    """What these words are in, each variable once."""
    found: dict[int, Variable] = {}
    for word in words:
        if len(found) == VARIABLES:
            break
        if not any(each.address < word + 4 and word < each.end for each in found.values()):
            symbol = named.object_at(word)
            name = (symbol.name if symbol and symbol.size <= LARGEST
                    else named.data_name(word) or f"{word:08x}")
            by_name = None
            with contextlib.suppress(CompanionError):       # a name that can't be asked of
                by_name = variable_of(named, name)
            found[word] = (by_name if by_name and by_name.size <= LARGEST
                           else variable_of(named, f"{word:08x}"))
    return list(found.values())


def calls_in(asked: Asked, names: Iterable[str]) -> Iterator[FoundCalls]:
    for name in list(dict.fromkeys(filter(None, names)))[:FUNCTIONS]:
        try:
            yield FoundCalls(asked, function_of(asked.named, name), TOLD, None)
        except CompanionError:
            continue


def passes_in(asked: Asked, lines: Iterable[str]) -> Iterator[Passes]:
    """Of lines whose functions have variables, as far as gdb tells them."""
    if asked.log.rows() > MOST_LINE_ROWS:
        return
    for line in list(dict.fromkeys(filter(LINE.fullmatch, lines)))[:LINES]:
        with contextlib.suppress(CompanionError):       # a line without code, or no gdb
            code = compiled_by_gdb(asked.named, line)
            if code.expressions:
                yield Passes(asked, line, code, False, TOLD)


def questions_data(page: Page, crash: Analysis, suspects: Sequence[Suspect],
                   races: Optional[Races]) -> dict[str, Any]:
    """Those of the words and functions that are looked at first: of suspects, of races, of the last
    rows before the end. One reading of the rows gives all."""
    rows = crash.rows
    guilty = [row for item in suspects for row in (item.guilty, item.store, item.load) if row]
    hart = rows.hart[crash.start]
    last = rows.count_of(crash.start)
    near = filter(None, (rows.row_of(hart, count)
                         for count in range(last, max(-1, last - ROWS_NEAR), -1)))
    words = words_at(crash, guilty) + [group.word for group in (races.groups[:RACES] if races
                                                                else ())] + words_at(crash, near)
    functions = [name for row in [crash.start, *guilty]
                 for name in [crash.places.function(rows.code_of(row).pc),
                              *(frame.function for frame in crash.callers(row))]]
    asked = Asked(crash.log, crash.elf, crash.named, crash.places)
    stacks = asked.stacks()
    histories = [VariableHistory(asked, stacks, variable, TOLD, False)
                 for variable in variables_of(asked.named, words)]
    calls = list(calls_in(asked, functions))
    lines = [crash.places.line(rows.code_of(row).pc) for row in [crash.start, *guilty]]
    passes = list(passes_in(asked, lines))
    every: list[Union[VariableHistory, FoundCalls, Passes]] = [*histories, *calls, *passes]
    read(asked.chunks(), stacks, *every)
    for each in calls:
        each.finish()
    add_texts(asked, [call for each in calls for call in each.told])
    return {"most": TOLD, "leftOut": asked.left_out(),
            "variables": [history_data(page, found) for found in histories], "functions":
            [{"name": found.function.name, "title": found.function.title(), "calls": found.total,
              "rows": [call_row(page, call, asked) for call in found.told]} for found in calls],
            "lines": [{"line": found.line, "passes": found.total,
                       "names": [each.text for each in found.expressions],
                       "rows": [[entry.hart, entry.count, *entry.values] for entry in found.told]}
                      for found in passes]}


def history_data(page: Page, found: VariableHistory) -> dict[str, Any]:
    variable = found.variable
    return {"title": variable.what(), "first": variable.address & ~3, "end": variable.end,
            "stores": found.total,
            "rows": [[entry.hart, entry.count, variable.name + entry.part, entry.old,
                      entry.gave, page.place(entry.pcs[0])]
                     for entry in found.told]}


def words_at(crash: Analysis, rows: Iterable[int]) -> list[int]:
    found = (access for row in rows
             for access in (crash.rows.load_of(row), crash.rows.store_of(row)))
    return [access.address & ~3 for access in found if access]


def call_row(page: Page, call: Call, asked: Asked) -> list[Any]:
    """Hart and count, the arguments, the result, how many rows it took, and the place that it came
    from, -1 if that isn't known."""
    arguments = ", ".join(f"{name}={text}" for name, text in said_arguments(asked, call).items())
    place = (page.place(call.source or call.begin.address) if call.source or call.begin.inlined
             else -1)
    return [int(call.hart), call.count, "inlined" if call.begin.inlined else arguments,
            said_result(asked, call) or "", -1 if call.rows is None else call.rows, place]

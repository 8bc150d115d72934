"""The text of `why`."""
from __future__ import annotations

from ..call.page import PagePart
from ..call.text import as_text, counted, number, short
from ..recording.instruction import NAMES
from ..recording.places import CALLED_FROM
from ..recording.ready import ready
from .analysis import MOST_RACES, Analysis
from .facts import Written
from .fault import fault_words
from .hang import hang_lines
from .history import ADDRESS
from .origins import advice
from .returned import middle_lines, null_lines
from .stack_room import stack_lines
from .suspect import ALONE, DID, NEW_OWNER, Suspect

# How many are told: in brief a dozen lines, else a screen, and with --more several
BRIEF_SUSPECTS = 3
FIRST_SUSPECTS = 5
MORE_SUSPECTS = 12
LINES = 10
MORE_LINES = 40
ORIGINS = 6
MORE_ORIGINS = 20
# Letters of a row and of a line of text, so that with what stands before a line fits most terminals
ROW_WIDTH = 84
TEXT_WIDTH = 78
MOST_CALLS = 9              # calls over a place; of more the outermost are the same for all
SUSPECTS = ("likeliest first (a load and the store that it got; "
            "what a call did to the memory; a branch)")


def report(facts: Analysis, more: bool = False) -> list[PagePart]:
    parts = [PagePart(heading(facts), head_lines(facts))]
    if facts.loops:
        parts.append(PagePart("HANG", hang_lines(facts, more)))
    parts.append(PagePart("CALLS", call_lines(facts)))
    if not facts.asked and not facts.output:
        parts.append(PagePart("REGISTERS", register_lines(facts)))
    parts += [PagePart("LAST ROWS", row_lines(facts)),
              PagePart(suspects_head(facts),
                       suspect_lines(facts, MORE_SUSPECTS if more else FIRST_SUSPECTS)),
              value_part(facts, MORE_LINES if more else LINES),
              PagePart(f"FROM BEFORE: loads behind it whose value {facts.no_row} gave",
                       origin_lines(facts, MORE_ORIGINS if more else ORIGINS))]
    if facts.log.harts > 1:
        parts.append(race_part(facts))
    return parts + [PagePart("", last_lines(facts))]


def brief(facts: Analysis) -> list[PagePart]:
    """The end, and the first suspects: what each did and from where."""
    suspects = [line for place, item in enumerate(facts.shown[:BRIEF_SUSPECTS], 1)
                for line in guilty(facts, place, item)]
    return [PagePart(heading(facts), head_lines(facts)),
            *[PagePart("HANG", hang_lines(facts, False))] * bool(facts.loops),
            PagePart(suspects_head(facts), suspects or no_suspect(facts)),
            PagePart("", unread(facts) + facts.notes + facts.places.trouble())]


def suspects_head(facts: Analysis) -> str:
    among = f" among the last {counted(facts.rows.size, 'row')}" if facts.is_part else ""
    return f"SUSPECTS{among}, {SUSPECTS}"


def heading(facts: Analysis) -> str:
    if facts.output:
        return "OUTPUT"
    if facts.asked:
        return "ROW"
    return "FAULT" if facts.faulted else "END"


def head_lines(facts: Analysis) -> list[str]:
    rows = facts.rows
    start = facts.start
    hart = rows.hart[start]
    count = number(rows.count_of(start))
    at = start
    verb = "In"
    if rows.fault and facts.faulted:
        said = [f"{rows.fault.name} {rows.fault.value:08x}, hart {hart} at count {count}"]
        said += fault_words(rows, rows.fault, facts.named)
        if rows.fault.name == "FetchOutside" and len(facts.last) > 1:
            at = facts.last[-2]
            verb = "By the jump in"
    elif facts.output:
        said = output_lines(facts, facts.output)
    elif facts.asked:
        said = [f"Asked of hart {hart} at count {count} (not the fault)"]
    else:
        what = "a branch that would have ended the loop" if facts.hangs else "the last row"
        said = ["No hart faulted: " + facts.ends(), f"Below is {what} of hart {hart}."]
        said += [f"hart {each} is in {facts.where(n)}" for each, n in sorted(rows.last.items())]
    source = facts.source(at)
    place = facts.where(at) + (f":  {source}" if source else "")
    return said + null_lines(facts) + middle_lines(facts) + stack_lines(facts) + [f"{verb} {place}"]


def output_lines(facts: Analysis, byte: Written) -> list[str]:
    """What was written, and who stored the byte."""
    rows = facts.rows
    call = byte.call
    row = rows.row_of(call.hart, call.count)
    said = [f"Asked of byte {byte.place} of write {byte.write}, "
            f"which took {counted(call.size, 'byte')} from {call.address:08x}",
            f"hart {call.hart} wrote it at count {number(call.count)} in {facts.where(row)}"]
    if facts.stored == row:
        return said + [f"{facts.no_row.capitalize()} stored the byte: below is the write."]
    told = rows.store_of(facts.stored)
    place = call.address + byte.place & 3
    value = bytes([told.value >> 8 * place & 255]) if told else b""
    said.append(f"The byte is {repr(value)[1:]}: hart {rows.hart[facts.stored]} stored it at count "
                f"{number(rows.count_of(facts.stored))}.")
    if facts.start != facts.stored:
        said.append("A library made it of what it was given: below is that.")
    return said


def call_lines(facts: Analysis) -> list[str]:
    """The call stack, innermost first, with what is inlined."""
    stack = facts.stack(facts.start, MOST_CALLS)
    said = []
    for i, frame in enumerate(stack.frames):
        inlined = "  (inlined)" if frame.inlined else ""
        said.append(f"{'from' if i else 'at':<5} {frame.address:08x} "
                    f"{frame.function}  {frame.place}{inlined}")
    if stack.left_out:
        said.insert(-1, f"      .. {counted(stack.left_out, 'more call')} ..")
    first = "the first row that was read" if facts.is_part else "the log's first row"
    return said + ([f"      (calls from before {first} aren't known)"] if stack.is_cut else [])


def register_lines(facts: Analysis) -> list[str]:
    values = facts.rows.final[facts.rows.hart[facts.start]]
    return [" ".join(f"{NAMES[i]:>4} {values[i]:08x}" for i in range(row, row + 8))
            for row in range(0, 32, 8)]


def row_lines(facts: Analysis) -> list[str]:
    return [f"{short(facts.rows.text(n), ROW_WIDTH):<{ROW_WIDTH}} {facts.line(n)}"
            for n in facts.last]


def suspect_lines(facts: Analysis, most: int) -> list[str]:
    said: list[str] = []
    for place, item in enumerate(facts.shown[:most], 1):
        said += one_suspect(facts, place, item)
    return said or no_suspect(facts)


def no_suspect(facts: Analysis) -> list[str]:
    return [f"none: {facts.no_row} stored the value"]


def guilty(facts: Analysis, place: int, item: Suspect) -> list[str]:
    return [f"{place}. {did(facts, item.guilty, DID[item.kind])}"] + guilty_lines(facts,
                                                                                  item.guilty)


def one_suspect(facts: Analysis, place: int, item: Suspect) -> list[str]:
    said = guilty(facts, place, item)
    for words, n in item.extra:
        said += ([f"   {words} {facts.own_where(n)}   {facts.own_source(n)}"]
                 + guilty_lines(facts, n))
    if item.kind == "back":
        said += ["   " + did(facts, item.store, NEW_OWNER),
                 "      " + short(facts.rows.text(item.store))]
    if item.kind not in ALONE:
        said += ["   " + did(facts, item.load, "loaded it in"),
                 "      " + short(facts.rows.text(item.load)) + data_words(facts, item.load)]
    times = f" ({number(item.rows)} such pairs)" if item.rows > 1 else ""
    commands = ready(facts.log.shown, facts.elf, facts.named, facts.rows.hart[item.guilty],
                     facts.rows.count_of(item.guilty))
    return (said + ["   because: " + "; ".join([distance(item)] + item.why) + times]
            + ["   " + line for line in commands])


def did(facts: Analysis, n: int, words: str) -> str:
    return f"hart {facts.rows.hart[n]} {words} {facts.own_where(n)}   {facts.own_source(n)}"


def guilty_lines(facts: Analysis, n: int) -> list[str]:
    """The calls over a row, and the row."""
    callers = [frame.text() for frame in facts.callers(n)]
    inner = [f"by {facts.where(n)}"] if facts.own(n) and not facts.source(n) else []
    said = inner + ["called from " + CALLED_FROM.join(callers)] * bool(callers)
    return ["      " + ", ".join(said)] * bool(said) + ["      " + short(facts.rows.text(n))]


def data_words(facts: Analysis, n: int) -> str:
    """The object that a load's word is in, and its text if it is one."""
    told = facts.rows.load_of(n)
    if told is None:
        return ""
    name = facts.members.name(told.address)
    text = as_text(told.value)
    return (f" [{name}]" if name else "") + (f" '{text}'" if text else "")


def distance(item: Suspect) -> str:
    if item.cost < ADDRESS:
        return f"{counted(item.cost, 'step')} of value from it"
    return f"behind an address or a branch (at a cost of {item.cost})"


def value_part(facts: Analysis, most: int) -> PagePart:
    history = facts.history
    said = []
    for line in facts.lines[:most]:
        latest = short(facts.rows.text(line.latest), TEXT_WIDTH)
        place, *callers = line.place.split(CALLED_FROM)
        said.append(f"{f'hart {line.hart}':<6} {short(place, 36):<36} {number(line.rows):>7} rows  "
                    f"latest {latest}")
        said += ["       inlined in " + CALLED_FROM.join(callers)] if callers else []
    if len(facts.lines) > most:
        said.append(f"       .. {counted(len(facts.lines) - most, 'more place')} (--more) ..")
    rows = number(len(history.cost) - len(history.decided))
    all_rows = number(facts.rows.size)
    cut = " (cut off there)" if history.cut else ""
    return PagePart(f"VALUES: {rows} of {all_rows} rows stand behind it{cut}, "
                    "by place, nearest first", said)


def origin_lines(facts: Analysis, most: int) -> list[str]:
    nearest = sorted(facts.origin.items(), key=lambda item: facts.history.cost[item[1].nearest])
    said = [f"{number(loads.times):>5}  {origin.words:<42} loaded by {origin.place}"
            for origin, loads in nearest[:most]]
    return (said or ["nothing: all values behind it come from constants"]) + advice(facts.log)


def race_part(facts: Analysis) -> PagePart:
    races = facts.races
    left = len(facts.unordered)
    if races.over:
        return PagePart("RACES", [f"more than {MOST_RACES} races: not listed"])
    fenced = f", of which fences order {number(races.total - left)}" if left < races.total else ""
    return PagePart("RACES", [f"{counted(races.total, 'pair')}{fenced}; `zelkuma race` groups them"
                              if races.total else "none"])


def last_lines(facts: Analysis) -> list[str]:
    return ([f"read: {counted(facts.rows.size, 'row')}"] + unread(facts)
            + facts.notes + facts.places.trouble())


def unread(facts: Analysis) -> list[str]:
    """What of the log wasn't looked at."""
    log = facts.log
    passed = facts.rows.passed
    before = ([f"{number(log.unread)} bytes of records"] * bool(log.unread)
              + [counted(passed, "row")] * bool(passed))
    if not before:
        return []
    last = f"up to {facts.asked or 'the write'}" if facts.asked or facts.output else "of the log"
    but = f", but for what stored {counted(len(facts.earlier), 'word')}" if facts.earlier else ""
    rows = counted(facts.rows.size, "row")
    return [f"Only the last {rows} {last} were read: "
            f"{' and '.join(before)} before them weren't{but}. --rows N reads the last N."]

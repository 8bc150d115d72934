"""What `why` says of harts that came to their limit: their loops, what would have ended these, what
stopped before."""
from __future__ import annotations

from typing import NamedTuple, Optional

from ..call.text import counted, number, short
from ..recording.instruction import NAMES
from .deadlock import deadlock_lines
from .facts import Facts
from .loops import Exit, Loop, Operand
from .origins import came_from

# How many are told: all is to fit a screen, and with --more two
EXITS = 4
STOPPED = 6
WORDS = 6
MORE_EXITS = 12
MORE_STOPPED = 20
FUNCTIONS = 5
ROW_WIDTH = 60


def hang_lines(facts: Facts, more: bool) -> list[str]:
    said = deadlock_lines(facts)
    for loop in facts.loops:
        said += loop_lines(facts, loop, more) if loop.places else [
            f"hart {loop.hart}: no loop is seen; its last row is in {facts.where(loop.last)}"]
    return said


def loop_lines(facts: Facts, loop: Loop, more: bool) -> list[str]:
    rows = facts.rows
    since = f"since count {number(rows.count_of(loop.first))}"
    if not loop.begin and rows.is_cut(loop.first):
        since = "since before the first row that was read"
    said = [f"hart {loop.hart} goes round {since}: {counted(loop.size, 'row')}, "
            f"{counted(loop.rounds, 'round')}", f"  in {functions(facts, loop)}"]
    exits = [item for item in loop.exits if item.leads_out]
    said.append("  These branches would have left it, and never went the other way:" if exits else
                "  No branch of it leads out.")
    for item in exits[:MORE_EXITS if more else EXITS]:
        said += exit_lines(facts, loop, item)
    return said + stopped_lines(facts, loop,
                                MORE_STOPPED if more else STOPPED) + changing_lines(facts, loop)


def functions(facts: Facts, loop: Loop) -> str:
    codes = facts.rows.codes
    facts.places.fetch({codes[at].pc for at in loop.places})
    names = list(dict.fromkeys(facts.places.function(codes[at].pc) for at in sorted(loop.places)))
    rest = len(names) - FUNCTIONS
    return ", ".join(names[:FUNCTIONS]) + (f", and {counted(rest, 'more function')}" if rest > 0
                                           else "")


def with_source(facts: Facts, n: int) -> str:
    source = facts.source(n)
    return facts.where(n) + (f"   {source}" if source else "")


def exit_lines(facts: Facts, loop: Loop, item: Exit) -> list[str]:
    row = short(facts.rows.code_of(item.row).row, ROW_WIDTH)
    said = [f"    {with_source(facts, item.row)}", f"      {row}, {counted(item.times, 'time')}, "
            f"last at count {number(facts.rows.count_of(item.row))}"]
    said += [f"      {operand_words(facts, loop, operand)}" for operand in item.operands]
    return said + (["      the other value is 0"] if len(item.operands) < 2 else [])


def stored_value(facts: Facts, loop: Loop, operand: Operand) -> Optional[int]:
    """What a branch compared. A register that no row wrote, and the loop doesn't, is as it is at
    the end."""
    if operand.row:
        return facts.rows.result_of(operand.row)
    is_written = any(facts.rows.codes[at].rd == operand.register for at in loop.places)
    return None if is_written else facts.rows.final[loop.hart][operand.register]


def operand_words(facts: Facts, loop: Loop, operand: Operand) -> str:
    """What a value is, which row loaded it, and who stored it last."""
    rows = facts.rows
    writers = facts.writers
    value = stored_value(facts, loop, operand)
    told = rows.load_of(operand.load) if operand.load else None
    said = f"{NAMES[operand.register]} is " + ("unknown" if value is None else f"{value:08x}")
    if told is None:
        return said + (f", computed in {facts.where(operand.row)}" if operand.row else "")
    said += f", from {facts.members.name(told.address) or f'{told.address:08x}'}"
    if told.value != value:
        said += f" (a word of {told.value:08x})"
    latest = writers.word[operand.load]
    kept = (f"in {moment(facts, latest)} an atomic stored it as it was" if latest != operand.store
            else "")
    if not operand.store:
        return f"{said}, {came_from(facts, operand.load)}" + (f"; {kept}" if kept else "")
    said += f", stored {'' if kept else 'last '}in {moment(facts, operand.store)}"
    before = writers.word[operand.store]
    told = (rows.store_of(before) if before and facts.line(before) != facts.line(operand.store)
            else None)
    return (said + (f", over {told.value:08x} of {moment(facts, before)}" if told else "")
            + (f"; later {kept}" if kept else ""))


def moment(facts: Facts, n: int) -> str:
    return f"{facts.where(n)} (hart {facts.rows.hart[n]} at count {number(facts.rows.count_of(n))})"


class StoppedLine(NamedTuple):
    """A source line that ran often and then never again: its latest row, how often it ran, and
    whether it stored what an exit loads."""
    latest: int
    times: int
    is_wanted: bool


def stopped_lines(facts: Facts, loop: Loop, most: int) -> list[str]:
    """Latest first; lines that stored what an exit loads come before."""
    wanted = {operand.store for item in loop.exits for operand in item.operands}
    running = {facts.places.line(facts.rows.codes[at].pc) for at in loop.places}
    facts.places.fetch({facts.pc_of(item.row) for item in loop.stopped})
    lines: dict[str, StoppedLine] = {}
    for row, times in loop.stopped:             # (of a line the latest row comes first)
        name = facts.line(row)
        if name not in running:
            line = lines.get(name, StoppedLine(row, times, False))
            lines[name] = StoppedLine(line.latest, max(line.times, times),
                                      line.is_wanted or row in wanted)
    found = sorted(lines.values(), key=lambda line: (not line.is_wanted, -line.latest))
    said = ["  These ran often, and then never again:"] if found else []
    for line in found[:most]:
        count = number(facts.rows.count_of(line.latest))
        said.append(f"    {counted(line.times, 'time')}, last at count {count}: "
                    f"{with_source(facts, line.latest)}")
    rest = len(found) - most
    return said + ([f"    .. {counted(rest, 'more line')} (--more) .."] if rest > 0 else [])


def changing_lines(facts: Facts, loop: Loop) -> list[str]:
    """The words that the loop still changes, by its latest stores."""
    values: dict[int, set[int]] = {}
    latest: dict[int, int] = {}
    for n in loop.stores:
        told = facts.rows.store_of(n)
        if told:
            values.setdefault(told.address & ~3, set()).add(told.value)
            latest.setdefault(told.address & ~3, n)
    changing = [word for word in latest if len(values[word]) > 1]
    if not changing:
        return ["  No word that it stores changes." if loop.stores else "  It stores nothing."]
    said = ["  These words still change:"]
    for word in changing[:WORDS]:
        name = facts.members.name(word)
        last = facts.rows.last_access(word, facts.rows.size + 1)        # another hart's, maybe
        told = facts.rows.store_of(last) or facts.rows.access(last)
        said.append(f"    {word:08x}{f' ({name})' if name else ''}, now {told.value:08x}, "
                    f"in {facts.where(latest[word])}")
    rest = len(changing) - WORDS
    return said + ([f"    .. {counted(rest, 'more word')} .."] if rest > 0 else [])

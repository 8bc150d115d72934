"""The switches of a list of turns, each with the rows between which it has to come."""
from __future__ import annotations

from typing import Any, NamedTuple, Optional, Sequence

from ..recording.row import Row, parse_row
from ..recording.story import Switch, Teller, frame_text, switches_of
from ..recording.turns import Pieces
from .windows import Window


class Bounded(NamedTuple):
    """A switch, and the rows of its hart between which it has to come, if they are known."""
    switch: Switch
    after: Optional[Row]
    before: Optional[Row]


def bounded(pieces: Pieces, lines: Sequence[Sequence[bytes]],
            windows: Sequence[Window]) -> list[Bounded]:
    """The switches between the pieces that have lines. Windows are known of all, or of none."""
    found = []
    for at, switch in enumerate(switches_of(pieces, lines)):
        after = None
        before = None
        if at < len(windows):
            done = [line for piece, each in zip(lines[:at + 1], pieces) if each.hart == switch.hart
                    for line in piece]
            after = parse_row(done[-1 - windows[at].earlier])
            before = windows[at].before
        found.append(Bounded(switch, after, before))
    return found


def window_lines(teller: Teller, one: Bounded) -> list[str]:
    if one.after is None:
        return []
    if one.before is None:
        return [f"     it has to come after {teller.where(one.after)}"]
    after, before = (teller.where(row) + "".join(f" (in {place})" for place in inlined)
                     for row, inlined in zip((one.after, one.before),
                                             parted(teller, one.after, one.before)))
    return [f"     it has to come between {after} and {before}"]


def parted(teller: Teller, *rows: Row) -> list[list[str]]:
    """Of each row the place of the call in which the rows part, if that is a call into which it is
    inlined; else of the next one."""
    frames = [list(teller.places.frames(row.pc)) for row in rows]
    while all(frames) and len({each[-1] for each in frames}) == 1:
        for each in frames:
            each.pop()
    is_one_function = all(frames) and len({each[-1].function for each in frames}) == 1
    place = -1 if is_one_function else 1
    return [[frame_text(each[place])] if len(each) > 1 else [] for each in frames]


def switch_answer(teller: Teller, one: Bounded) -> dict[str, Any]:
    after = teller.point(one.after)
    before = teller.point(one.before)
    if one.after and one.before and after and before:
        after["inlined"], before["inlined"] = parted(teller, one.after, one.before)
    return {**teller.answer(one.switch), "after": after, "before": before}

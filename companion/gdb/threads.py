"""Harts as gdb's threads: thread N is hart N - 1, and all harts are always listed.

If harts without a state were left out, gdb would give them new numbers when they get one.
"""
from __future__ import annotations

from typing import Optional

from .session import Session

ANY = ("", "0", "-1")  # thread ids that name no thread


class Threads:
    """Which threads there are, and which ones the next packets speak of."""

    def __init__(self, session: Session) -> None:
        self.session = session
        self.shown = 0  # the hart whose registers are asked for
        self.moved: Optional[int] = None  # the hart that is to move alone, or None: all harts move
        self.ids = {f"{hart + 1:x}": hart for hart in session.positions}

    def hart_of(self, text: str) -> Optional[int]:
        """The hart of a thread id, or None if it names no thread; ValueError if it is none."""
        if text in ANY:
            return None
        if text not in self.ids:
            raise ValueError(text)
        return self.ids[text]

    def choose(self, text: str) -> None:
        """Takes `g` or `c` and a thread id, behind H."""
        hart = self.hart_of(text[1:])
        if text[0] == "c":
            self.moved = hart
        elif hart is not None:
            self.shown = hart

    def moving(self) -> tuple[int, bool]:
        """The hart that moves by a packet without a thread, and whether it moves alone."""
        return (self.shown, False) if self.moved is None else (self.moved, True)

    def listed(self) -> str:
        return ",".join(sorted(self.ids, key=lambda name: self.ids[name]))

    def about(self, hart: int) -> str:
        """What `info threads` shows of a hart."""
        position = self.session.positions.get(hart)
        if not position:
            return f"hart {hart} done"
        text = f"hart {hart} count {position.at}"
        if position.pc is None:
            text += " not in the log yet"
        if position.waits:
            text += f" waits for hart {position.waits.hart} count {position.waits.count}"
        else:
            text += f" {self.session.last_reason(hart) or ''}".rstrip()
        return text

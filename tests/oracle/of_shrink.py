"""The switches of a short order: what `shrink` says that they have to come between is tried by
recordings."""
from __future__ import annotations

import itertools
import json
import os
import random
import subprocess
from typing import Any, Dict, List, Optional, Sequence, Tuple

from .asking import Asked
from .machine import Machine

MOST_ROWS = 20000
SHARE = 0.3
SLACK = 64                  # turns that the last hart may need more for the same end
Piece = Tuple[int, int]     # a hart, and its turns


def pieces_of(turns: bytes) -> List[Piece]:
    return [(hart, len(list(same))) for hart, same in itertools.groupby(turns)]


class Orders:
    """Recordings of a program by lists of turns."""

    def __init__(self, asked: Asked, short: str) -> None:
        self.asked = asked
        self.files = [short + ".log", short + ".book"]
        self.tried = [short + ".tried.log", short + ".tried.book", short + ".turns"]
        self.program = asked.environment["ZELKUMA_PROGRAM"]
        self.machine = Machine(self.program, self.files[0], asked.recorded.elf,
                               asked.program.functions())
        with open(self.files[1], "rb") as file:
            self.pieces = pieces_of(file.read())
        self.end = self.end_of(self.files[0])

    def end_of(self, log: str) -> str:
        return self.asked.run("bucket", log, self.asked.recorded.elf).stdout

    def turns_of(self, hart: int) -> List[int]:
        """The counts with which a hart's turns end: each shared access and system call ends one."""
        return [row.ic for row in self.machine.rows if row.hart == hart
                and (row.load or row.store or row.fault or row.code.name == "ecall"
                     or row.code.name.startswith("sc."))]

    def ends_the_same(self, at: int, later: int) -> bool:
        """With a switch that comes so many turns later: its hart's next piece gives them, or gets
        them."""
        pieces = [list(piece) for piece in self.pieces]
        again = next((i for i in range(at + 1, len(pieces)) if pieces[i][0] == pieces[at][0]), -1)
        pieces[at][1] += later
        if again >= 0:
            pieces[again][1] -= later
        pieces[-1][1] += SLACK
        turns = b"".join(bytes([hart]) * number for hart, number in pieces)
        with open(self.tried[2], "wb") as file:
            file.write(turns)
        options = self.asked.recorded.options
        subprocess.run([self.program, "record", *options, self.asked.recorded.elf, *self.tried[:2]],
                       check=False, stdout=subprocess.DEVNULL, stderr=subprocess.DEVNULL,
                       env={**os.environ, "ZELKUMA_SCHEDULE": f"book:{self.tried[2]}"})
        return (self.end_of(self.tried[0]) == self.end
                and os.path.getsize(self.tried[1]) <= len(turns))


def ask_shrink(asked: Asked) -> None:
    """Of a recording that ends with a fault."""
    short = asked.recorded.log + ".short"
    settings = asked.recorded.settings
    read = settings[settings.index("--input") + 1]
    words = [asked.recorded.book, short + ".log", short + ".book", "--json", "--", "--input", read]
    done = asked.run("shrink", asked.recorded.log, asked.recorded.elf, *words)
    if done.returncode:
        asked.differs("shrink: no answer", ["shrink", *words], done.stderr, "an answer")
        return
    told: Dict[str, Any] = json.loads(done.stdout)
    orders = Orders(asked, short)
    asked.same("shrink: end", words, (told["end"], orders.end.strip()),
               (orders.end_of(asked.recorded.log).strip(),) * 2)
    asked.same("shrink: order", words, told["order"],
               " ".join(f"{hart}x{turns}" for hart, turns in orders.pieces))
    for at, switch in enumerate(told["switches"]):
        ask_switch(asked, orders, words, at, switch)


def ask_shrink_seldom(asked: Asked, draw: random.Random) -> None:
    """Of some recordings that a fault ended: each search takes hundreds of recordings."""
    recorded = asked.recorded
    rows = asked.machine.rows
    if (recorded.harts > 1 and recorded.is_whole and any(row.fault for row in rows)
            and len(rows) < MOST_ROWS and draw.random() < SHARE):
        ask_shrink(asked)


def ask_switch(asked: Asked, orders: Orders, words: Sequence[str], at: int,
               switch: Dict[str, Any]) -> None:
    hart = orders.pieces[at][0]
    counts = orders.turns_of(hart)
    done = sum(turns for of, turns in orders.pieces[:at + 1] if of == hart)
    asked.same("shrink: harts", words, (switch["hart"], switch["other"]),
               (hart, orders.pieces[at + 1][0]))
    asked.same("shrink: stopped", words,
               switch["stopped"] and switch["stopped"]["count"], counts[done - 1])
    after, before = (place_of(switch[key], counts) for key in ("after", "before"))
    if after is not None:
        asked.same("shrink: it may come right after", words,
                   (at, orders.ends_the_same(at, after + 1 - done)), (at, True))
        if after + orders.pieces[at][1] > done:
            asked.same("shrink: it has to come after", words,
                       (at, orders.ends_the_same(at, after - done)), (at, False))
    if before is not None:
        asked.same("shrink: it may come right before", words,
                   (at, orders.ends_the_same(at, before - done)), (at, True))
        asked.same("shrink: it has to come before", words,
                   (at, orders.ends_the_same(at, before + 1 - done)), (at, False))
    for key in ("store", "load"):
        if switch[key]:
            row = orders.machine.rows[orders.machine.at[switch[key]["hart"], switch[key]["count"]]]
            asked.same(f"shrink: {key}", words,
                       bool(row.store if key == "store" else row.load), True)


def place_of(point: Optional[Dict[str, Any]], counts: Sequence[int]) -> Optional[int]:
    """The number of a row's turn among those of its hart, from 0."""
    return counts.index(point["count"]) if point and point["count"] in counts else None

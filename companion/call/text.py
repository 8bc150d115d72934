"""Words for people: numbers, cut lines, and what a hostile file must not get into a terminal."""
from __future__ import annotations

from typing import Sequence


def clean(text: str) -> str:
    """The text without control characters: a name in an ELF can hold any bytes."""
    if text.isprintable():
        return text
    return "".join(c if c.isprintable() else "?" for c in text.replace("\t", " "))


def number(value: int) -> str:
    return f"{value:,}"


def counted(value: int, noun: str) -> str:
    ending = "es" if noun.endswith("ch") else "s"
    return f"{number(value)} {noun}{'' if value == 1 else ending}"


def short(text: str, width: int = 92) -> str:
    return text if len(text) <= width else text[:width - 2] + ".."


def as_text(value: int) -> str:
    """A word's four bytes as text if at least three of them are, and the rest are zeros; else
    nothing."""
    body = value.to_bytes(4, "little").rstrip(b"\0")
    good = len(body) >= 3 and all(32 <= c < 127 or c in (9, 10, 13) for c in body)
    return repr(body.decode())[1:-1] if good else ""


def columns(rows: Sequence[Sequence[str]], most: int = 60) -> list[str]:
    """Lines in which the cells of each row stand one below the other; a cell of more letters than
    `most` widens none."""
    widths = [max((len(cell) for cell in column if len(cell) <= most), default=0)
              for column in zip(*rows)]
    return ["  " + "  ".join(cell.ljust(width) for cell, width in zip(row, widths)).rstrip()
            for row in rows]

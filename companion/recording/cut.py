"""The parts of a row's text, `HART COUNT ADDRESS WORD INSTRUCTION | WHAT IT DID ..`, which modules
outside of recording/ cut here alone.

A place in a text is anywhere in a row, or at the newline before it."""
from __future__ import annotations

from typing import NamedTuple

# Letters of a key before the word, and before the instruction's text
WORD = 9
OPERATION = 18
PC = slice(0, 8)            # of a key
LONGEST_HEAD = 40           # letters of a hart and a count
WIDTHS = {b"sb": 1, b"sh": 2}


class Cut(NamedTuple):
    """A row, taken apart: the hart as its digits, the count, the key (address, word and
    instruction), and what it did: `REGISTER=VALUE`, `load ADDRESS=VALUE`, `store ADDRESS=VALUE` or
    `fault NAME VALUE`."""
    hart: bytes
    ic: int
    key: bytes
    told: list[bytes]


def cut(row: bytes) -> Cut:
    head, *told = row.split(b" | ")
    hart, count, key = head.split(b" ", 2)
    return Cut(hart, int(count), key, told)


def told_in(row: str) -> list[str]:
    """What a row did, as texts; of one that did nothing else its instruction."""
    return row.split(" | ")[1:] or row.split(" ", 4)[4:]


def hart_of(row: bytes) -> bytes:
    return row[:row.index(b" ")]


def count_of(row: bytes) -> int:
    return int(row.split(b" ", 2)[1])


def rest_of(row: bytes) -> bytes:
    """What follows its hart and count."""
    return row.split(b" ", 2)[2]


def pc_of(row: bytes) -> int:
    return int(row.split(b" ", 3)[2], 16)


def word_of(row: bytes) -> int:
    """The word of its instruction, 0 if there is no code."""
    word = row.split(b" ", 4)[3]
    return 0 if word[:1] == b"-" else int(word, 16)


def operation_of(row: bytes) -> bytes:
    """The name of its instruction."""
    return row.split(b" ", 5)[4]


def stored_bytes(row: bytes) -> int:
    """How many bytes a store's row writes."""
    return WIDTHS.get(operation_of(row), 4)


def hart_at(text: bytes, place: int) -> bytes:
    """The hart of the row that a place is in."""
    begin = text.rfind(b"\n", 0, place) + 1
    return text[begin:text.index(b" ", begin)]


def last_count(text: bytes, hart: int) -> int:
    """The count of a hart's last row in a chunk, or -1."""
    at = text.rfind(b"\n%d " % hart)
    return count_of(text[at:at + LONGEST_HEAD]) if at >= 0 else -1


def loaded_before(text: bytes, place: int) -> bytes:
    """What an atomic loaded, as eight digits, by the place of the value that it stored: before that
    stands `load ADDRESS=VALUE | store ADDRESS=`. Nothing of other rows: a store-conditional loads
    nothing."""
    return text[place - 26:place - 18] if text.startswith(b"load ", place - 40) else b""

"""The rows of `joint` and `replay` in chunks of text: a question is one search over some thousand
rows at once.

A chunk holds whole rows and nothing else. Each begins with a newline, and nothing follows the last
one."""
from __future__ import annotations

import re
from itertools import islice
from typing import Callable, Iterable, Iterator, Optional, Pattern

from ..call import streams
from ..call.program import Output
from ..call.text import number
from .cut import LONGEST_HEAD, count_of
from .log import Log, is_fault

CHUNK = 1 << 18             # bytes of a chunk, about
OTHER_LINES = re.compile(rb"\n[a-z][^\n]*")
WORDS = b"\nword "
LOAD = b"load"
STORE = b"store"
FIRST_HART = b"\n0 "
DIGITS = "0123456789abcdef"
TOP = 1 << 32               # addresses


def chunks(log_name: str, elf_name: str, *asked: str,
           log: Optional[Log] = None) -> Iterator[bytes]:
    """All rows that a command prints, `joint` unless another is asked, and at a terminal how many
    have been read, of how many if it prints a whole `log`. It ends with the iterator, if that is
    dropped before."""
    of_all = f" of {number(log.rows())}" if log else ""
    ends = [interval.end for interval in reversed(log.intervals)] if log and log.harts == 1 else []
    command, *words = asked or ("joint",)
    with Output(command, log_name, elf_name, *words) as out, streams.Progress() as progress:
        rest = b"\n"
        is_behind = False
        passed = 0
        while True:
            read = out.out.read(CHUNK)
            end = read.rfind(b"\n")
            text, rest = ((rest + memoryview(read)[:end], read[end:]) if end >= 0
                          else (b"", rest + read))
            if can_have_others(text, ends):
                # Words come behind all rows
                is_behind = text.startswith(WORDS, text.rfind(b"\n"))
                text = OTHER_LINES.sub(b"", text)
            if text:
                passed += text.count(b"\n") if progress.is_shown else 0
                progress.tell(f"{number(passed)}{of_all} rows are read")
                yield text
            if not read or is_behind:
                break
        if not is_behind:
            out.finish()


def can_have_others(text: bytes, ends: list[int]) -> bool:
    """Whether a chunk can have lines that are no rows. `ends` are the counts at which the intervals
    of the only hart end, the last one first, or nothing; those that the chunk's last row is behind
    are taken away."""
    at = text.rfind(FIRST_HART) if ends else -1
    if at < 0:
        return True
    count = int(text[at + len(FIRST_HART):].split(b" ", 1)[0])
    # The end of a row's interval comes behind it, maybe in the next chunk
    is_near = ends[-1] <= count + 1
    while len(ends) > 1 and ends[-1] < count:
        ends.pop()
    return is_near


def after(rows: int, texts: Iterable[bytes],
          skip: Optional[Callable[[bytes], None]] = None) -> Iterator[bytes]:
    """The chunks after so many rows; those before are handed to `skip`."""
    for text in texts:
        if rows:
            here = text.count(b"\n")
            end = len(text)
            if rows < here:
                *_, last = islice(re.finditer(b"\n", text), rows + 1)
                end = last.start()
            if skip:
                skip(text[:end])
            rows = max(0, rows - here)
            text = text[end:]
        if text:
            yield text


def check_program(log_name: str, elf_name: str) -> None:
    """Refuses an ELF file that isn't the recorded one."""
    next(chunks(log_name, elf_name), b"")


def rows_between(log: Log, elf_name: str, hart: int, first: int, end: int) -> Iterator[bytes]:
    """The rows of a hart from one count up to another, as far as the log has them. The intervals
    that they are in are replayed, and no others."""
    for interval in log.intervals:
        # A fault's row is at the end
        if interval.hart == hart and interval.start < end and first <= interval.end:
            for text in chunks(log.name, elf_name, "replay", str(hart), str(interval.number)):
                begin = max(0, text.find(b"\n%d %d " % (hart, first)))
                behind = text.find(b"\n%d %d " % (hart, end))
                if first_count(text) + text.count(b"\n") > first and first_count(text) < end:
                    yield text[begin:] if behind < 0 else text[begin:behind]


def last_rows(log: Log, elf_name: str, most: int) -> dict[int, bytes]:
    """{hart: so many of its last rows}"""
    behind = {hart: end.count + is_fault(end.reason) for hart, end in sorted(log.ends.items())}
    return {hart: b"".join(rows_between(log, elf_name, hart, end - most, end))
            for hart, end in behind.items()}


def first_count(text: bytes) -> int:
    """The count of a chunk's first row."""
    return count_of(text[:LONGEST_HEAD])


def occurrences(text: bytes, word: bytes, at: int = 0, end: Optional[int] = None) -> Iterator[int]:
    """The places of a word in a part of a text."""
    at = text.find(word, at, end)
    while at >= 0:
        yield at
        at = text.find(word, at + 1, end)


def row_at(text: bytes, place: int) -> bytes:
    """The row that a place is in, without its newline."""
    end = text.find(b"\n", place)
    return text[text.rfind(b"\n", 0, place) + 1:len(text) if end < 0 else end]


def rows_with(text: bytes, pattern: Pattern[bytes]) -> Iterator[tuple[int, bytes]]:
    """The rows in which a pattern is found, each once and without its newline, with the place of
    its beginning."""
    end = -1
    for found in pattern.finditer(text):
        if found.end() > end:
            begin = text.rfind(b"\n", 0, found.end()) + 1
            end = text.find(b"\n", found.end())
            end = len(text) if end < 0 else end
            yield begin, text[begin:end]


def few_ranges(ranges: Iterable[tuple[int, int]], most: int) -> list[tuple[int, int]]:
    """Ranges of addresses, made so few: those that lie near to each other are one."""
    found = sorted((first, min(end, TOP)) for first, end in ranges)
    near = 1
    while True:
        merged: list[tuple[int, int]] = []
        for first, end in found:
            if merged and first <= merged[-1][1] + near:
                merged[-1] = merged[-1][0], max(end, merged[-1][1])
            else:
                merged.append((first, end))
        if len(merged) <= most:
            return merged
        found = merged
        near = near * 4


def touching(first: int, end: int, *kinds: bytes) -> Pattern[bytes]:
    """What rows have that access a word with a byte from an address up to another, by loads, stores
    or both."""
    return touching_any([(first, end)], *kinds)


def touching_any(ranges: Iterable[tuple[int, int]], *kinds: bytes) -> Pattern[bytes]:
    """The same of several ranges. It begins with a letter that few rows have, so that a search is
    fast."""
    words = words_in(ranges)
    kind = b"|".join(kind[-2:] for kind in kinds or (LOAD, STORE))
    return re.compile(rb"o(?:%s) (?:%s)=" % (kind, words) if words else rb"(?!)")


def words_in(ranges: Iterable[tuple[int, int]]) -> bytes:
    """A pattern of the addresses in words that have a byte of some ranges; nothing if there are
    none."""
    return b"|".join(hexadecimal(first & ~3, (end - 1) | 3) for first, end in ranges)


def hexadecimal(low: int, high: int) -> bytes:
    """A pattern of the numbers from one to another as eight digits."""
    return digits(low, high, 8).encode()


def digits(low: int, high: int, width: int) -> str:
    if low == 0 and high == 16 ** width - 1:
        return rf"\w{{{width}}}"
    size = 16 ** (width - 1)
    first = low // size
    last = high // size
    if first == last:
        return DIGITS[first] + digits(low % size, high % size, width - 1)
    ways = []
    if low % size:
        ways.append(DIGITS[first] + digits(low % size, size - 1, width - 1))
        first += 1
    if high % size != size - 1:
        ways.append(DIGITS[last] + digits(0, high % size, width - 1))
        last -= 1
    if first <= last:
        ways.append(f"[{DIGITS[first:last + 1]}]" + (rf"\w{{{width - 1}}}" if width > 1 else ""))
    return f"(?:{'|'.join(ways)})"

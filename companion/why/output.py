"""Lists what the guest wrote.

Which calls wrote, from where and how much is in the log's records. Of its rows those are read that
touch the words that were written, and calls and returns."""
from __future__ import annotations

from typing import Any, Iterable, Iterator, NamedTuple, Optional

from ..call import streams
from ..call.errors import NO_INTERVAL, CompanionError
from ..call.help import Help
from ..call.options import read_words
from ..call.text import counted, number
from ..recording.answers import place_of as code_place, put_answer
from ..recording.calls import entries_of
from ..recording.chunks import after, chunks, few_ranges, occurrences
from ..recording.cut import count_of, hart_at
from ..recording.elf import Elf
from ..recording.followed import FollowedMemory
from ..recording.instruction import A0
from ..recording.log import WRITE_CALL, Log, SystemCall
from ..recording.memory import quoted
from ..recording.opened import Opened, opened
from ..recording.passed import PassedRows
from ..recording.places import CALLED_FROM, Places
from ..recording.stacks import Frame, Stacks, call_places

HELP = Help(
    "output LOG ELF [--names ELF] [--rows N] [--json]",
    "what the guest wrote, with rows, places and texts",
    """Lists what the guest wrote: each write with its row, its place and its text.""",
    {"--rows": "how many of the last rows are read; without it 32 million"},
    """Writes are numbered from 0, and so are the bytes of each: `why LOG ELF --output N:BYTE`
explains one. Of the calls over a write those of a library, whose source isn't here, are passed. The
text is put together from the rows of `joint`: bytes that no row loaded or stored, and that the file
doesn't give for sure, are told as unknown.""")
MOST_ROWS = 32000000        # in arrays some 30 bytes each: a gigabyte
MOST_FRAMES = 4             # calls over a write
MOST_RANGES = 8             # of bytes that aren't known, told in one line
MOST_LIBRARY_CALLS = 16     # over a write: a library's printf has eight of its own
UNKNOWN = "\ufffd"          # in place of a byte that isn't known
ASKED = b" 00000073 ecall"
SET = b"| a0="
STREAMS = {1: "the output", 2: "err"}


class Write(NamedTuple):
    """A write: its number, its call, its row, the stream, the bytes that it took, and the innermost
    frame there. A byte is None if it isn't known."""
    number: int
    call: SystemCall
    row: str
    stream: int
    data: list[Optional[int]]
    top: Frame


class OutputReader:
    """Follows the rows of `joint`: the words that are written, and a0."""

    def __init__(self, log: Log, elf: Elf, stacks: Stacks, numbers: dict[SystemCall, int],
                 passed: Optional[PassedRows]) -> None:
        """`numbers` are those of the writes of the whole log; `passed` has taken the rows before
        those that come, if there are any."""
        ranges = few_ranges(((call.address, call.address + call.size)
                             for call in numbers if call.size), MOST_RANGES)
        self.followed = FollowedMemory(log, elf, not log.dropped and not passed, ranges)
        self.stacks = stacks
        self.numbers = numbers
        self.passed = passed
        self.calls = {(call.hart, call.count): call
                      for call in log.system_calls() if call in numbers}
        self.wanted = sorted(numbers[call] for call in self.calls.values())
        # As it was last set
        self.a0 = {b"%d" % hart: interval.registers[A0]
                   for hart, interval in log.first_intervals().items()}

    def writes(self, texts: Iterator[bytes]) -> Iterator[Write]:
        """In the order of their numbers."""
        ready: dict[int, Write] = {}
        at = 0
        for text in texts:
            if self.passed:
                self.a0 = {b"%d" % hart: values[A0]
                           for hart, values in self.passed.registers().items()}
                self.passed = None
            self.stacks.take(text)
            for write in self.written(text):
                ready[write.number] = write
            while at < len(self.wanted) and self.wanted[at] in ready:
                yield ready.pop(self.wanted[at])
                at += 1
            if at == len(self.wanted):
                break

    def written(self, text: bytes) -> Iterator[Write]:
        self.followed.take(text)
        at = 0
        for asked in occurrences(text, ASKED):
            begin = text.rfind(b"\n", 0, asked) + 1
            end = text.find(b"\n", asked)
            name = hart_at(text, begin)
            call = self.calls.get((int(name), count_of(text[begin:asked])))
            if call:
                self.follow_a0(text, at, begin)
                at = begin
                self.followed.go_to(begin)
                row = text[begin:end if end >= 0 else len(text)].decode("ascii", "replace")
                yield Write(self.numbers[call], call, row, self.a0[name],
                            self.followed.memory.read(call.address, call.size),
                            self.stacks.chunk.top(name, begin))
        self.follow_a0(text, at, len(text))

    def follow_a0(self, text: bytes, begin: int, end: int) -> None:
        """Of each hart the latest a0 between two places of a chunk."""
        left = set(self.a0)
        while left and end >= begin:
            end = text.rfind(SET, begin, end)
            name = hart_at(text, end) if end >= 0 else b""
            if name in left:
                left.remove(name)
                self.a0[name] = int(text[end + len(SET):end + len(SET) + 8], 16)


def output_place(places: Places, write: Write) -> str:
    """The place of a write, and the calls over it, innermost first. Those of a library, whose
    source isn't here, are passed if others have theirs."""
    pcs = [write.call.pc, *call_places(write.top, MOST_LIBRARY_CALLS)]
    frames = [frame for pc in pcs for frame in places.frames(pc)]
    own = [frame for frame in frames if frame.line and places.sources.lines(frame.path)]
    told = own if own[:1] == frames[:1] else frames[:1] + own
    told = told[:MOST_FRAMES] if own else frames[:MOST_FRAMES]
    return CALLED_FROM.join(frame.text() for frame in told) or f"{write.call.pc:08x}"


def write_answer(places: Places, write: Write) -> dict[str, Any]:
    """A write for other programs. Bytes are numbers, and null if they aren't known."""
    return {"number": write.number, "stream": write.stream, "bytes": write.data, "row": write.row,
            "place": code_place(places, write.call.pc)}


def numbered(log: Log) -> dict[SystemCall, int]:
    """The writes of a log, and their numbers."""
    return {call: at for at, call in enumerate(call for call in log.system_calls()
                                               if call.kind == WRITE_CALL)}


def writes_of(log: Log, elf: Elf, stacks: Stacks, numbers: dict[SystemCall, int],
              most: int) -> Iterator[Write]:
    """The writes among about so many of the last rows of a log. `numbers` are those of the whole
    log's."""
    first = log.rows() - most if log.rows() > 2 * most else 0
    passed = PassedRows(log, elf.name)
    texts = after(first, chunks(log.name, elf.name, log=log), passed.take)
    return OutputReader(log, elf, stacks, numbers, passed if first else None).writes(texts)


class Found(NamedTuple):
    """The last letter of a text: its write, its place in that, and how often the text was
    written."""
    write: int
    place: int
    times: int


def find_text(writes: Iterable[Write], text: str) -> Found:
    """The last place of a text, if it was written. It may have come in pieces, to one stream."""
    wanted = text.encode().decode("latin-1")
    found = Found(0, 0, 0)
    # {stream: what was written last, less than the text}
    before: dict[int, str] = {}
    for write in writes:
        tail = before.get(write.stream, "")
        said = tail + "".join(UNKNOWN if byte is None else chr(byte) for byte in write.data)
        at = said.rfind(wanted)
        if at >= 0:
            times = found.times + said.count(wanted)
            found = Found(write.number, at + len(wanted) - len(tail) - 1, times)
        before[write.stream] = said[-len(wanted) + 1:] if len(wanted) > 1 else ""
    return found


def found_text(asked: Opened, text: str, most: int = MOST_ROWS) -> Found:
    """The same by the rows of a log."""
    numbers = numbered(asked.source.whole())
    log = asked.source.end(most)
    found = find_text(writes_of(log, asked.elf, Stacks(entries_of(asked.elf), log.harts),
                                numbers, most), text)
    if not found.times:
        raise CompanionError(f"the last {number(most)} rows wrote no "
                             f"{quoted(list(text.encode()))}: "
                             "`zelkuma output` lists what was written", NO_INTERVAL)
    return found


def said_of(places: Places, write: Write) -> str:
    stream = STREAMS.get(write.stream, f"stream {write.stream}")
    return (f"{write.number:>3}. {counted(len(write.data), 'byte')} to {stream}, "
            f"in {output_place(places, write)}\n"
            f"     {quoted(write.data)}\n     {write.row}\n")


def main(words: list[str]) -> int:
    (log_name, elf_name), given = read_words(words, HELP.form)
    with opened(log_name, elf_name, given) as found:
        all_rows = found.source.whole()
        log = found.log(MOST_ROWS)
        stacks = Stacks(entries_of(found.named), log.harts)
        numbers = numbered(all_rows)
        listed = []
        count = size = unknown = 0
        for write in writes_of(log, found.elf, stacks, numbers, found.rows or MOST_ROWS):
            if "--json" in given:
                listed.append(write_answer(found.places, write))
            else:
                beside = found.ready(write.call.hart, write.call.count)
                streams.put(said_of(found.places, write)
                            + "".join(f"     {line}\n" for line in beside))
            count += 1
            size = size + len(write.data)
            unknown = unknown + write.data.count(None)
    before = len(numbers) - count
    if "--json" in given:
        put_answer("output", writes=listed, writes_before=before, dropped_records=all_rows.dropped)
        return 0
    said = f"OUTPUT: {counted(count, 'write')}, {counted(size, 'byte')}"
    streams.put(said + (f", of which {number(unknown)} aren't known\n" if unknown else "\n"))
    if before:
        streams.put(f"  Only the last {counted(log.rows(), 'row')} were read: "
                    f"{counted(before, 'write')} before them aren't listed. "
                    "--rows N reads the last N.\n")
    if all_rows.dropped:
        streams.put(f"  The log gave up {number(all_rows.dropped)} records before its first: "
                    "earlier writes are lost.\n")
    return 0

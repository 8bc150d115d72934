"""Order files: an order of harts as text, which is kept beside the sources as a test.
docs/ORDERS.md has their grammar.

A file that is written is read again to the same order, and that is written as the same bytes."""
from __future__ import annotations

import codecs
import os
import re
from dataclasses import dataclass, field, replace
from pathlib import Path
from typing import Any, Callable, Dict, List, NoReturn, Optional, Pattern, Sequence, Tuple

from ..call.errors import REFUSED, CompanionError
from ..call.files import check_regular
from ..call.kinds import FileKind
from ..call.options import decimal
from ..call.saving import Target, save_together, target
from ..call.text import clean
from .marks import EXIT, FAULT, LIMIT, NO_SYMBOL, OUTPUT, Ended, Mark, Order, Point, Power
from .record import RANGES

HEAD = "zelkuma order 1"
NUMBERED = "zelkuma order "  # what each version begins with
FIRST_LINE = 100  # bytes that are looked at for it
SUFFIX = ".order"
INPUT_SUFFIX = ".input"
# What a setting is that a file doesn't name; it stays so for files of this version.
DEFAULTS = {"--format": "2", "--harts": "1", "--interval": "100000", "--limit": "1000000000",
            "--log-size": "1048576", "--memory": "1048576", "--sets": "64",
            "--ways": "4", "--line": "8"}
# Bytes of a file, and switches in it
LARGEST = 1 << 20
MOST_MARKS = 1000
LONGEST_TEXT = 4096  # bytes of an input that stands in the file
MOST_INPUT = 1 << 24  # that record takes
LARGEST_BYTE = 255
LONGEST_NUMBER = 40                         # digits of a setting: 20, of which `G` makes ten more
PART = 64                                   # bytes of an input in a line
BARE = r'[^\s"|#<\\]+'
WORD = rf'(?:"(?:[^"\\]|\\.)*"|{BARE})'
COUNT = r"[1-9][0-9]{0,8}"
COUNTS = rf"(?: #(?P<nth>{COUNT})(?:/(?P<in_function>{COUNT}))?)?"
PLACE = (rf"(?P<function>{WORD}){COUNTS}(?: (?P<file>{WORD}):(?P<line>{COUNT}))?(?: "
         r"\| (?P<text>.*))?")
POINT = rf"(?P<access>load|store|atomic|call)(?: (?P<symbol>{WORD}))? in {PLACE}"
HART = r"(?P<hart>[0-9]{1,2})"
ESCAPES = {"n": 10, "t": 9, "\\": 92, '"': 34}
ESCAPE = re.compile(rb'\\(?:x([0-9a-f]{2})|([nt\\"]))')


def quoted_name(data: bytes) -> str:
    """Bytes as a word in quotes."""
    letters = {value: "\\" + letter for letter, value in ESCAPES.items()}
    return '"' + "".join(letters.get(c) or (chr(c) if 32 <= c < 127 else f"\\x{c:02x}")
                         for c in data) + '"'


def unquoted(word: str) -> bytes:
    """The bytes of a word, in quotes or not. ValueError if an escape isn't one."""
    data = word.encode()
    if word[:1] != '"':
        return data
    if b"\\" in ESCAPE.sub(b"", data):
        raise ValueError("an escape is none of \\n \\t \\\\ \\\" \\xNN")
    return ESCAPE.sub(lambda found: bytes([int(found[1], 16) if found[1]
                                           else ESCAPES[found[2].decode()]]), data[1:-1])


def quoted_word(name: str) -> str:
    """A name as a word: in quotes if it needs them."""
    return name if re.fullmatch(BARE, name) else quoted_name(name.encode())


def name_of(word: str) -> str:
    """What a word names. ValueError if that would be no name on a terminal."""
    name = unquoted(word).decode()
    if not name.isprintable():
        raise ValueError(f"a name has a control character: {name!r}")
    return name


def place_text(point: Point, counts: str = "") -> str:
    line = f" {quoted_word(point.file)}:{point.line}" if point.line else ""
    return quoted_word(point.function) + counts + line + (f" | {point.text}" if point.text else "")


def point_text(point: Point, counts: str = "") -> str:
    symbol = "" if point.symbol == NO_SYMBOL else " " + quoted_word(point.symbol)
    return f"{point.access}{symbol} in {place_text(point, counts)}"


def counts_text(nth: int, in_function: int) -> str:
    """Counts that are 1 aren't written; nor is the second one if it is the first."""
    if in_function != nth:
        return f" #{nth}/{in_function}"
    return f" #{nth}" if nth != 1 else ""


def mark_lines(mark: Mark) -> List[str]:
    said = [f"hart {mark.hart} until "
            f"{point_text(mark.point, counts_text(mark.nth, mark.in_function))}"]
    if mark.point.callers:
        under = " < ".join(map(quoted_word, mark.point.callers))
        said.append(f"  under {under}" + (f" #{mark.under}" if mark.under != 1 else ""))
    if mark.after:
        said.append("  not before "
                    f"{point_text(mark.after, counts_text(mark.nth_after, mark.nth_after))}")
    return said + ([f"  not after {point_text(mark.before)}"] if mark.before else [])


def end_lines(end: Ended) -> List[str]:
    if end.kind == FAULT:
        said = [f"end fault {end.reason}" + (f" in {place_text(end.point)}" if end.point else "")]
        return said + ([f"  from {place_text(end.caller)}"] if end.caller else [])
    if end.kind == LIMIT:
        return ["end limit"] + [f"  hart {hart} waits for "
                                f"{' '.join(map(quoted_word, words)) or NO_SYMBOL}"
                                for hart, words in end.waits]
    return [f"end exit {end.value}" if end.kind == EXIT else f"end output {end.place} {end.value}"]


def input_lines(order: Order, name: str) -> List[str]:
    """An input that is short stands in the file, and another in one beside it."""
    if order.input is None:
        return []
    if len(order.input) > LONGEST_TEXT:
        return [f"input-file {quoted_word(os.path.basename(name) + INPUT_SUFFIX)}"]
    parts = [line[at:at + PART] for line in order.input.splitlines(True)
             for at in range(0, len(line), PART)]
    return [f"input {quoted_name(part)}" for part in parts or [b""]]


def order_text(order: Order, name: str) -> str:
    """What a file of this name gets."""
    said = [HEAD, f"program {quoted_word(order.program)}"]
    said += (["set " + " ".join(f"{option}={value}" for option, value in order.settings.items())]
             if order.settings else [])
    said += input_lines(order, name)
    said += end_lines(order.end) if order.end else []
    said += [f"power {order.power.met} of {order.power.tried}"] if order.power else []
    said += [line for mark in order.marks for line in mark_lines(mark)]
    return ("\n".join(said + ([f"hart {order.last} to the end"] if order.last is not None else []))
            + "\n")


def is_order(name: str) -> bool:
    try:
        read_order(name)
    except CompanionError:
        return False
    return True


ORDER = FileKind("an order of harts", is_order)


@dataclass(frozen=True)
class Targets:
    """The files of an order: its own, and that of its input, if that is long."""
    file: Target
    input: Optional[Target]

    def save(self, order: Order) -> None:
        files = [(self.file, order_text(order, self.file.path).encode())]
        if self.input and order.input is not None and len(order.input) > LONGEST_TEXT:
            files.append((self.input, order.input))
        save_together(files)


def targets_of(name: str, input_name: str, read: Sequence[str]) -> Targets:
    """CompanionError if an order may not be saved under a name."""
    is_long = input_name and os.path.getsize(input_name) > LONGEST_TEXT
    beside = input_target(name, Path(input_name).read_bytes(), [*read, name]) if is_long else None
    return Targets(target(name, ORDER, read), beside)


def input_target(name: str, data: bytes, read: Sequence[str]) -> Target:
    """The file of an input, beside one of a name. An old one is kept unless it is the same."""
    return target(name + INPUT_SUFFIX,
                  FileKind("the same input", lambda old: Path(old).read_bytes() == data), read)


@dataclass
class Reading:
    """What is known up to a line of a file.

    parts  of its input; open: the line that lines with blanks before them belong to"""
    name: str
    order: Order = field(default_factory=lambda: Order(""))
    parts: List[bytes] = field(default_factory=list)
    open: str = ""

    def refuse(self, why: str) -> NoReturn:
        raise ValueError(why)

    def put(self, **parts: Any) -> None:
        self.order = replace(self.order, **parts)

    def once(self, is_known: bool, what: str) -> None:
        if is_known:
            self.refuse(f"it says {what} twice")

    def program(self, found: Dict[str, str]) -> None:
        self.once(bool(self.order.program), "the program")
        self.put(program=name_of(found["word"]))

    def settings(self, found: Dict[str, str]) -> None:
        self.once(bool(self.order.settings), "the settings")
        settings: Dict[str, str] = {}
        for each in found["rest"].split():
            option, equals, value = each.partition("=")
            if option not in RANGES or not equals or not re.fullmatch("[0-9]+", decimal(value)):
                self.refuse(f"{each} is no setting of record with a number, as --harts=4")
            self.once(option in settings, option)
            low, high = RANGES[option]
            settings[option] = decimal(value)
            # (Python makes no number of thousands of digits)
            if len(settings[option]) > LONGEST_NUMBER or not low <= int(settings[option]) <= high:
                self.refuse(f"{option} is {low} to {high}, not {value}")
        self.put(settings=settings)

    def input(self, found: Dict[str, str]) -> None:
        self.parts.append(unquoted(found["word"]))
        data = b"".join(self.parts)
        if len(data) > LONGEST_TEXT:
            self.refuse(f"an input of over {LONGEST_TEXT} bytes has to stand in a file of its own: "
                        "input-file NAME")
        self.put(input=data)

    def input_file(self, found: Dict[str, str]) -> None:
        self.once(self.order.input is not None, "the input")
        beside = name_of(found["word"])
        if beside != os.path.basename(beside):      # an order may come from elsewhere
            self.refuse(f"{beside} is no file beside this one")
        name = os.path.join(os.path.dirname(self.name), beside)
        check_regular(name)
        if os.path.getsize(name) > MOST_INPUT:
            self.refuse(f"{name} has over {MOST_INPUT} bytes")
        self.put(input=Path(name).read_bytes())

    def end(self, end: Ended) -> None:
        self.once(self.order.end is not None, "the end")
        self.put(end=end)

    def fault(self, found: Dict[str, str]) -> None:
        point = marked_place(FAULT, found) if found["function"] else None
        self.end(Ended(FAULT, found["reason"], point))
        self.open = FAULT

    def called_from(self, found: Dict[str, str]) -> None:
        end = self.order.end
        if self.open != FAULT or end is None:
            self.refuse("it has to stand below 'end fault'")
        self.once(end.caller is not None, "what called it")
        self.put(end=end._replace(caller=marked_place(FAULT, found)))

    def limit(self, _: Dict[str, str]) -> None:
        self.end(Ended(LIMIT))
        self.open = LIMIT

    def waits(self, found: Dict[str, str]) -> None:
        words = [name_of(word) for word in re.findall(WORD, found["rest"])]
        end = self.order.end
        if self.open != LIMIT or end is None:
            self.refuse("it has to stand below 'end limit'")
        self.put(end=end._replace(waits=(*end.waits,
                                         (self.hart(found),
                                          tuple(word for word in words if word != NO_SYMBOL)))))

    def exit(self, found: Dict[str, str]) -> None:
        self.end(Ended(EXIT, value=int(found["value"])))

    def output(self, found: Dict[str, str]) -> None:
        if int(found["value"]) > LARGEST_BYTE:
            self.refuse(f"a byte is 0 to {LARGEST_BYTE}")
        self.end(Ended(OUTPUT, place=int(found["place"]), value=int(found["value"])))

    def power(self, found: Dict[str, str]) -> None:
        self.once(self.order.power is not None, "the power")
        power = Power(int(found["met"]), int(found["tried"]))
        if not 0 <= power.met <= power.tried:
            self.refuse("no more orders can crash than are tried")
        self.put(power=power)

    def hart(self, found: Dict[str, str]) -> int:
        hart = int(found["hart"])
        if hart >= self.order.harts:
            self.refuse(f"there is no hart {hart}: a line 'set --harts=N' before it says how many "
                        f"there are, here {self.order.harts}")
        return hart

    def until(self, found: Dict[str, str]) -> None:
        if self.order.last is not None:
            self.refuse("it stands behind 'to the end'")
        if len(self.order.marks) >= MOST_MARKS:
            self.refuse(f"an order has at most {MOST_MARKS} switches")
        nth = int(found["nth"] or 1)
        self.put(marks=(*self.order.marks, Mark(self.hart(found), point_of(found), nth,
                                                int(found["in_function"] or nth))))
        self.open = "hart"

    def change(self, **parts: Any) -> None:
        """Something more of the last mark."""
        if self.open != "hart":
            self.refuse("it has to stand below a line 'hart N until ..'")
        last = self.order.marks[-1]
        if "callers" in parts:
            last = replace(last, point=last.point._replace(callers=parts.pop("callers")))
        self.put(marks=(*self.order.marks[:-1], replace(last, **parts)))

    def under(self, found: Dict[str, str]) -> None:
        callers = map(name_of, re.findall(rf"(?:^| < )({WORD})", found["rest"]))
        self.change(callers=tuple(callers), under=int(found["nth"] or 1))

    def not_before(self, found: Dict[str, str]) -> None:
        self.change(after=point_of(found), nth_after=int(found["nth"] or 1))

    def not_after(self, found: Dict[str, str]) -> None:
        self.change(before=point_of(found))

    def to_the_end(self, found: Dict[str, str]) -> None:
        self.once(self.order.last is not None, "which hart runs to the end")
        self.put(last=self.hart(found))


def marked_place(access: str, found: Dict[str, str], symbol: str = NO_SYMBOL) -> Point:
    file, line = (name_of(found["file"]), int(found["line"])) if found["file"] else ("", 0)
    return Point(access, symbol, name_of(found["function"]), file, line, clean(found["text"] or ""))


def point_of(found: Dict[str, str]) -> Point:
    return marked_place(found["access"], found,
                        name_of(found["symbol"]) if found["symbol"] else NO_SYMBOL)


# The lines of a file, each with what reads it. The last two blanks of a line that belongs to
# another are part of it.
LINES: Tuple[Tuple[Pattern[str], Callable[[Reading, Dict[str, str]], None]], ...] = tuple(
    (re.compile(form), read) for form, read in (
        (rf"program (?P<word>{WORD})", Reading.program),
        (r"set (?P<rest>.+)", Reading.settings),
        (r'input (?P<word>"(?:[^"\\]|\\.)*")', Reading.input),
        (rf"input-file (?P<word>{WORD})", Reading.input_file),
        (rf"end fault (?P<reason>[A-Za-z]+)(?: in {PLACE})?", Reading.fault),
        (rf"  from {PLACE}", Reading.called_from),
        (r"end limit", Reading.limit),
        (rf"  hart {HART} waits for (?P<rest>{WORD}(?: {WORD})*)", Reading.waits),
        (r"end exit (?P<value>[1-9][0-9]{0,9})", Reading.exit),
        (r"end output (?P<place>[0-9]{1,9}) (?P<value>[0-9]{1,3})", Reading.output),
        (r"power (?P<met>[0-9]{1,9}) of (?P<tried>[0-9]{1,9})", Reading.power),
        (rf"hart {HART} until {POINT}", Reading.until),
        (rf"  under (?P<rest>{WORD}(?: < {WORD})*)(?: #(?P<nth>{COUNT}))?", Reading.under),
        (rf"  not before {POINT}", Reading.not_before),
        (rf"  not after {POINT}", Reading.not_after),
        (rf"hart {HART} to the end", Reading.to_the_end),
    ))


def take_line(reading: Reading, line: str) -> None:
    """ValueError if it is none."""
    if not line.strip() or line.lstrip()[:1] == "#":
        return
    for form, read in LINES:
        found = form.fullmatch(line)
        if found:
            if line[0] != " ":
                reading.open = ""
            read(reading, found.groupdict())
            return
    raise ValueError("it is no line of an order")


def why_none(data: bytes) -> str:
    """Why a file is no order, by its beginning, as far as that tells it."""
    first = data[:FIRST_LINE].split(b"\n")[0].rstrip(b"\r")
    if data.startswith((codecs.BOM_UTF8, codecs.BOM_UTF16_LE, codecs.BOM_UTF16_BE)):
        return "it begins with a byte order mark: it has to be saved as UTF-8 without one"
    if not data.startswith(NUMBERED.encode()):
        return f"its first line has to be '{HEAD}'"
    if first != HEAD.encode():
        return (f"its first line has to be '{HEAD}'; "
                f"it is of another version than {HEAD[len(NUMBERED):]}")
    return f"it has over {LARGEST} bytes" if len(data) > LARGEST else "it isn't UTF-8"


def order_lines(name: str) -> List[str]:
    check_regular(name)
    with open(name, "rb") as file:
        data = file.read(LARGEST + 1)
    try:
        lines = data.decode().split("\n")
    except UnicodeDecodeError:
        lines = [""]
    if len(data) > LARGEST or lines[0].rstrip("\r") != HEAD:
        raise CompanionError(f"{name} is no order of harts: {why_none(data)}", REFUSED)
    return lines


def read_order(name: str) -> Order:
    lines = order_lines(name)
    reading = Reading(name)
    for number, line in enumerate(lines[1:], 2):
        try:
            take_line(reading, line.rstrip("\r"))
        except (ValueError, OSError) as error:
            why = (f"{error.filename}: {error.strerror}" if isinstance(error, OSError)
                   else str(error))
            raise CompanionError(f"{name}: line {number}: {line[:80]!r}: {why}", REFUSED)
    return checked(reading.order, name)


def checked(order: Order, name: str) -> Order:
    """An order that says all that it has to."""
    said: Optional[str] = None
    if not order.program:
        said = "no line 'program NAME' says whose it is"
    elif order.harts > 1 and order.last is None and not order.marks:
        said = "it has no line 'hart N until ..'"
    if said:
        raise CompanionError(f"{name}: {said}", REFUSED)
    return order

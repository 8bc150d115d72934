"""The calls of a function, by the frames that the machine has made."""
from __future__ import annotations

import operator
import random
from typing import Any, Dict, List, Optional, Sequence, Set, Tuple

from .asking import Asked
from .machine import A0, Frame
from .of_core import along
from .program import number_text

COMPARE = {"==": operator.eq, "!=": operator.ne, "<": operator.lt, "<=": operator.le,
           ">": operator.gt, ">=": operator.ge}
PLAIN: Dict[str, Any] = {"kind": "bytes", "size": 4}
LONGEST_TEXT = 40
MOST = 12
# Addresses of the recordings' memory
LOWEST = 4096
MEMORY = 1 << 20
Parameter = Tuple[str, Dict[str, Any], str]     # its name, its type, its register by DWARF


def parameters(asked: Asked, symbol: str) -> List[Parameter]:
    told = asked.program.types["functions"].get(symbol)
    if told is None:
        return [(f"a{i}", PLAIN, f"a{i}") for i in range(8)]
    return [(name, kind, register) for name, kind, register in told["parameters"]]


def registers_of(parameters: Sequence[Parameter],
                 is_clone: bool) -> List[Optional[Tuple[int, int]]]:
    """Of each parameter the first register of its arguments, and how many it has, by the calling
    convention; of what the compiler cloned by DWARF; None if it isn't known."""
    found: List[Optional[Tuple[int, int]]] = []
    number = 0
    for _, kind, register in parameters:
        size = 2 if 4 < kind["size"] <= 8 else 1
        if is_clone:
            found.append((int(register[1]), 1) if register[:1] == "a" and kind["size"] <= 4
                         else None)
        else:
            found.append((number, size) if number + size <= 8 and kind["kind"] != "other" else None)
        number += size
    return found


def take_texts(asked: Asked, symbol: str, frames: Sequence[Frame]) -> None:
    """Of pointers that may lead to a text which changes: what was there at the call, or behind its
    return."""
    wanted: Dict[int, Set[int]] = {}
    told = parameters(asked, symbol)
    places = [place[0] for (_, kind, _), place in zip(told, registers_of(told, "." in symbol))
              if place and is_text(kind)]
    for frame in frames:
        wanted.setdefault(frame.row, set()).update(frame.registers[A0 + place] for place in places)
        wanted.setdefault(row_behind(asked, frame), set()).add(frame.result[0])
    for row, _, memory in (along(asked.machine, list(wanted))
                           if is_text_given(asked, symbol) or places else ()):
        for address in wanted[row]:
            data = memory.bytes(address, LONGEST_TEXT)
            end = next((at for at, byte in enumerate(data) if byte is None or not 32 <= byte < 127),
                       LONGEST_TEXT)
            is_over = end == LONGEST_TEXT or data[end] == 0
            asked.texts[row, address] = (bytes(byte or 0 for byte in data[:end]).decode("ascii")
                                         if is_over else "")


def is_text(kind: Dict[str, Any]) -> bool:
    return bool(kind["kind"] == "pointer" and "char" in kind["name"])


def is_text_given(asked: Asked, symbol: str) -> bool:
    told = asked.program.types["functions"].get(symbol)
    return bool(told) and is_text(told["result"])


def row_behind(asked: Asked, frame: Frame) -> int:
    """The number of the row behind a call's return."""
    return asked.machine.at.get((frame.hart, -1 if frame.end is None else frame.end),
                                len(asked.machine.rows))


def text_of(asked: Asked, kind: Dict[str, Any], words: Sequence[int], row: int) -> Optional[str]:
    """What registers hold before a row, as docs/COMMANDS.md shows it."""
    data = b"".join(word.to_bytes(4, "little") for word in words)[:max(1, kind["size"])]
    said = number_text(kind, list(data), asked.program)
    if said and is_text(kind):
        text = (asked.machine.image.text(words[0], LONGEST_TEXT)
                if asked.machine.image.is_read_only(words[0]) else "")
        if (not text and LOWEST <= words[0] < MEMORY
                and not asked.machine.image.is_read_only(words[0])):
            text = asked.texts.get((row, words[0]), "")
        said += f" {text!r}" if text else ""
    return said


def arguments(asked: Asked, symbol: str, frame: Frame) -> Dict[str, Tuple[Optional[str], bool]]:
    """{parameter: its value, and whether a companion has to know it}; the value is None if this
    doesn't know it."""
    told = parameters(asked, symbol)
    is_named = any(register for _, _, register in told)
    found = {}
    for (name, kind, register), place in zip(told, registers_of(told, "." in symbol)):
        value = None
        if place:
            value = text_of(asked, kind, frame.registers[A0 + place[0]:A0 + sum(place)], frame.row)
        found[name] = value, bool(register) or not is_named
    return found


def result(asked: Asked, symbol: str, frame: Frame) -> Tuple[Optional[str], bool]:
    """The result, None if it has none; and whether this knows it."""
    told = asked.program.types["functions"].get(symbol)
    kind = told["result"] if told else PLAIN
    if kind["kind"] == "void" or frame.end is None:
        return None, True
    words = frame.result[:2 if kind["size"] > 4 else 1]
    value = (text_of(asked, kind, words, row_behind(asked, frame)) if kind["kind"] != "other"
             else None)
    return value, value is not None


def ask_calls(asked: Asked, draw: random.Random, most: int = MOST) -> None:
    names = sorted({each.name.split(".")[0]
                    for each in asked.program.symbols if each.kind == "FUNC"})
    for name in draw.sample(names, min(most, len(names))):
        ask_function(asked, name, draw)


def frames_of(asked: Asked, name: str) -> List[Frame]:
    """The calls of a function. A first row of a log that lost its beginning may be in the middle of
    it."""
    starts = {each.address for each in asked.program.function(name)}
    return [frame for frame in asked.machine.all
            if frame.target in starts and (frame.source or not frame.count)]


def ask_function(asked: Asked, name: str, draw: Optional[random.Random] = None) -> None:
    """All its calls, and with numbers to draw some of them by `--where`."""
    symbols = {each.address: each.name for each in asked.program.function(name)}
    words = [name, "--last", "1000000"]
    told = asked.json("calls", *words)
    if told is None:
        return
    entries = [each for each in told["entries"] if not each["inlined"]]
    true = frames_of(asked, name)
    if (not asked.recorded.is_whole and entries and entries[0]["from"] is None
            and entries[0]["count"]):
        # From before the first row: nothing tells if it was a call
        entries = entries[1:]
    for address, symbol in symbols.items():
        take_texts(asked, symbol, [frame for frame in true if frame.target == address])
    if asked.same("calls: how many", words, len(entries), len(true)):
        for one, frame in zip(entries, true):
            compare(asked, words, symbols[frame.target], one, frame)
        ask_inlined(asked, words, [each for each in told["entries"] if each["inlined"]])
        if draw:
            ask_where(asked, name, true, symbols, draw)


def compare(asked: Asked, words: List[str], symbol: str, one: Dict[str, Any], frame: Frame) -> None:
    at = f"{frame.hart}:{frame.count}"
    asked.same("calls: which", words, f"{one['hart']}:{one['count']}", at)
    asked.same("calls: place", words, (at, one["place"]), (at, asked.place(frame.target)))
    source = asked.place(frame.source.code.pc) if frame.source else None
    asked.same("calls: from", words, (at, one["from"]), (at, source))
    rows = None if frame.end is None else frame.end - frame.count
    if not is_unsure(asked, frame):
        asked.same("calls: rows", words, (at, one["rows"]), (at, rows))
        value, is_known = result(asked, symbol, frame)
        if is_known:
            asked.same("calls: result", words, (at, one["result"]), (at, value))
    for name, (value, has_to) in arguments(asked, symbol, frame).items():
        said = one["arguments"].get(name)
        if value is not None and (has_to or said != "unknown"):
            asked.same("calls: argument", words, (at, name, said), (at, name, value))


def is_unsure(asked: Asked, frame: Frame) -> bool:
    """Whether it is a tail call of what was called before the log's first row, to a place that
    nothing tells."""
    return frame.is_tail and frame.back is None


def ask_inlined(asked: Asked, words: List[str], entries: List[Dict[str, Any]]) -> None:
    """An inlined call stands in a function that isn't the inlined one, or that calls itself."""
    for one in entries[:50]:
        places = asked.program.places(int(one["place"]["address"], 16))
        if len(places) > 1 and places[0].function == places[1].function:
            asked.same("calls: inlined", words, (one["place"], "inlined in itself"),
                       (one["place"], "its own code"))
        else:
            asked.same("calls: inlined", words, True, True)


def ask_where(asked: Asked, name: str, true: List[Frame], symbols: Dict[int, str],
              draw: random.Random) -> None:
    """By a number that occurs."""
    if not true or len(symbols) > 1:
        return
    some = draw.choice(true)
    symbol = symbols[some.target]
    told = {parameter: value for parameter, (value, has_to)
            in arguments(asked, symbol, some).items() if value and has_to}
    value, is_known = result(asked, symbol, some)
    if value and is_known:
        told["result"] = value
    if told and not any(is_unsure(asked, frame) for frame in true):
        key = draw.choice(sorted(told))
        ask_condition(asked, name, key, draw.choice(sorted(COMPARE)), told[key].split(" ")[0])


def ask_condition(asked: Asked, name: str, key: str, sign: str, number: str) -> None:
    """Of a function that is one symbol, and isn't inlined: the calls that `--where` takes. Its
    number is one that `calls` writes."""
    symbol, = asked.program.function(name)
    words = [name, "--where", f"{key}{sign}{number}", "--last", "1000000"]
    found = asked.json("calls", *words)
    if found is None:
        return
    chosen = []
    for frame in frames_of(asked, name):
        own = (result(asked, symbol.name, frame)[0] if key == "result"
               else arguments(asked, symbol.name, frame)[key][0])
        if own is not None and COMPARE[sign](value_of(own), value_of(own, number)):
            chosen.append(frame)
    entries = sorted(found["entries"], key=lambda each: (each["hart"], each["count"]))
    chosen.sort(key=lambda frame: (frame.hart, frame.count))
    if asked.same("calls: --where", words, [(each["hart"], each["count"]) for each in entries],
                  [(frame.hart, frame.count) for frame in chosen]):
        for one, frame in zip(entries, chosen):
            compare(asked, words, symbol.name, one, frame)


def value_of(own: str, number: str = "") -> int:
    """A number as `calls` writes it. Of pointers and words it is hexadecimal, of eight digits, of
    others decimal: `own` is a value of the same kind."""
    is_word = len(own.split(" ")[0]) == 8 and "(" not in own
    return int((number or own).split(" ")[0], 16 if is_word else 10)

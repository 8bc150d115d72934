"""The format of lcov: how often each line and each function was done."""
from __future__ import annotations

import os
from collections import Counter

from ..recording.addresses import code_of
from ..recording.calls import RESTORES
from ..recording.elf import FUNCTION
from .flow import PCS
from .reading import Asked


def lcov(asked: Asked) -> str:
    """A line was done as often as the address of it that was done most, and a function as often as
    it was called: its first row can be that of a loop, too. The library's end of functions isn't
    called, but a part of each."""
    done: Counter[bytes] = Counter()
    calls = Counter(each.registers[0]
                    for each in asked.log.first_intervals().values() if each.end > each.start)
    stacks = asked.stacks()
    for text in asked.chunks():
        done.update(PCS.findall(text))
        stacks.take(text)
        calls.update(int(move.target, 16) for move in stacks.chunk.moves() if move.is_call)
    times = {**dict.fromkeys(code_of(asked.named), 0),
             **{int(pc, 16): times for pc, times in done.items()}}
    asked.places.fetch(times)
    lines: dict[str, Counter[int]] = {}
    for pc, count in times.items():
        for frame in asked.places.frames(pc)[:1]:
            if frame.line:
                of_file = lines.setdefault(frame.path, Counter())
                of_file[frame.line] = max(of_file[frame.line], count)
    functions: dict[str, list[str]] = {}
    for symbol in asked.named.functions:
        frames = asked.places.frames(symbol.address)
        if symbol.kind == FUNCTION and frames and frames[-1].line:
            of_function = times if symbol.name.startswith(RESTORES) else calls
            functions.setdefault(frames[-1].path, []).extend([
                f"FN:{frames[-1].line},{symbol.name}",
                f"FNDA:{of_function.get(symbol.address, 0)},{symbol.name}"])
    said = ["TN:zelkuma"]
    for path, counts in sorted(lines.items()):
        said += [f"SF:{lcov_source(asked, path)}", *functions.get(path, [])]
        said += [f"DA:{line},{count}" for line, count in sorted(counts.items())]
        said += [f"LF:{len(counts)}",
                 f"LH:{sum(count > 0 for count in counts.values())}", "end_of_record"]
    return "\n".join(said) + "\n"


def lcov_source(asked: Asked, path: str) -> str:
    """The source's name: as the program was built, or beside the ELF file."""
    beside = os.path.join(os.path.dirname(asked.named.name), os.path.basename(path))
    return os.path.abspath(path if os.path.exists(path) or not os.path.exists(beside) else beside)

"""Straight code that runs often, as one function of all its rows: the fast way along a text.

A row of an instruction always has as many letters, so a function knows where its rows have what it
needs, and takes nothing else from the text. It has what most rows of an instruction do, and calls
the instruction's own action (actions.py) for all else: so both say the same."""
from __future__ import annotations

from typing import Any, Callable, Dict, Iterator, List, Sequence

from ..recording.instruction import BRANCH, CALL, JUMP, OP_BRANCH, OP_JAL, OP_JALR, OP_SYSTEM
from .actions import KEY, Actions
from .operation import Operation
from .state import CODE, ENDED, ZEROS, Act, nothing

HOT = 100                   # runs: to make a function takes as long as some 100 runs row by row
LONGEST = 64                # instructions of a block
LETTERS = 160               # of a row, at most: an atomic's with a long count has 145
MOST_BLOCKS = 10000         # are made, of some 5 KB each
ENDS = OP_BRANCH, OP_JAL, OP_JALR
VARIED = "sc"               # has less to tell if it fails; so has a system call
Block = Callable[[bytes, int], int]


class CompiledBlocks(Dict[bytes, Block]):
    """{address and word of an instruction: what takes the rows of a text from a place on, as far as
    straight code goes, and gives the place behind them}, of a hart. It stops early behind a row
    that changes how the next one is looked at."""

    def __init__(self, actions: Actions) -> None:
        super().__init__()
        self.actions = actions
        self.checks = actions.checks
        self.left = MOST_BLOCKS
        hart = actions.hart
        memory = self.checks.memory
        self.names: Dict[str, Any] = {
            "tags": hart.tags, "written": hart.rows, "states": memory.states, "words": memory.tags,
            "sorts": self.checks.pointers.sorts, "ENDED": ENDED,
            **{f"zeros{size}": zeros for size, zeros in ZEROS.items()}}
        self.checks.renew.append(self.renew)

    def renew(self) -> None:
        """Code was changed: from here on each row is looked at by itself."""
        self.clear()
        self.left = 0

    def __missing__(self, key: bytes) -> Block:
        actions = self.actions
        length = self.length(int(key[:8], 16))
        times = 0

        def cold(text: bytes, at: int) -> int:
            nonlocal times
            begin = actions.begin
            rows = text[at:at + LETTERS * length].split(b"\n", length)[:length]
            for row in rows:
                at += len(row) + 1
                if actions[row[begin:begin + KEY]](row):
                    return at
            times += 1
            if times == HOT and self.left:
                times = 0
                self.make([row[begin:begin + KEY] for row in rows], list(map(len, rows)), cold)
            return at
        self[key] = cold
        return cold

    def length(self, pc: int) -> int:
        """How many instructions straight code has from an address on, by the ELF file."""
        hooks = self.checks.heap.hooks
        words = (self.checks.program.elf.word(pc + 4 * at) or 0 for at in range(LONGEST))
        last = next(words)
        for size, word in enumerate(words, 1):
            if last & 127 in ENDS or word & 127 == OP_SYSTEM or pc + 4 * size in hooks:
                return size
            last = word
        return LONGEST

    def make(self, keys: List[bytes], sizes: List[int], cold: Block) -> None:
        """Makes the function of a block whose rows have these keys, and so many letters."""
        self.left -= 1
        checks = self.checks
        size = sum(sizes) + len(sizes)
        codes = [self.actions.operation(key) for key in keys]
        is_straight = all(one.pc == codes[0].pc + 4 * at for at, one in enumerate(codes))
        if not is_straight or any(one.kind in (BRANCH, JUMP) for one in codes[:-1]):
            return
        if any(one.kind == CALL or one.name == VARIED for one in codes):
            return
        acts = [self.actions[key] for key in keys]
        names: Dict[str, Any] = {**self.names, "cold": cold}
        names.update((f"act{at}", act) for at, act in enumerate(acts))
        lines = ["def block(text, at):", f"    if text[at + {size - 1}:at + {size}] != b'\\n':",
                 "        return cold(text, at)",
                 *("    " + line for line in self.lines(codes, acts, sizes)),
                 f"    return at + {size}"]
        exec("\n".join(lines), names)
        self[keys[0]] = names["block"]
        for one in codes:
            checks.pointers.sorts[one.pc >> 2] = CODE

    def lines(self, codes: Sequence[Operation], acts: Sequence[Act],
              sizes: Sequence[int]) -> Iterator[str]:
        """What the rows of a block do. Which of them wrote a register last is told only before an
        action may ask for it."""
        last: Dict[int, str] = {}               # {register: the row that wrote it last}
        begin = 0
        for at, (one, act, size) in enumerate(zip(codes, acts, sizes)):
            end = begin + size
            row = f"text[at + {begin}:at + {end}]"
            told = self.actions.hart.texts.get(act)
            begin = end + 1
            calls = [*written_rows(last), f"if act{at}({row}):", f"    return at + {begin}"]
            if told is None and act is not nothing:
                yield from calls
                last = {}
            elif told is not None:
                test, does = told
                if test:
                    yield f"place = int(text[at + {end - 17}:at + {end - 9}], 16)"
                    yield from (f"if {test}:", *("    " + line for line in calls), f"else: {does}")
                elif does:
                    yield does
                if one.rd:
                    last[one.rd] = row
        yield from written_rows(last)


def written_rows(last: Dict[int, str]) -> List[str]:
    return [f"written[{register}] = {row}" for register, row in last.items()]

"""Programs that a companion once told something wrong about: each asks just that. They are tried
before drawn programs; those whose logs are big only if they are named."""
from __future__ import annotations

import os
import random
from typing import Callable, NamedTuple, Sequence

from . import building
from .asking import Asked
from .of_calls import ask_calls, ask_condition, ask_function
from .of_core import ask_core
from .of_export import ask_export
from .of_find import ask_find
from .of_gdb import ask_gdb
from .of_history import ask_history, ask_variable
from .of_memory import ask_memory
from .of_names import ask_bucket, ask_names
from .of_output import ask_output
from .of_page import ask_page
from .of_race import ask_race
from .of_same import ask_same
from .of_shrink import ask_shrink
from .of_why import ask_why

Ask = Callable[[Asked], None]
DRAW = random.Random(1)
SOURCES = os.path.join(os.path.dirname(os.path.abspath(__file__)), "cases")


class Case(NamedTuple):
    """A program of the folder cases, or a file of the repository, that is compiled by these
    options, and recorded by those. With `second` it is recorded again of that input, to compare.
    What comes after a - in the name tells cases of one program apart."""
    name: str
    compile: Sequence[str]
    record: Sequence[str]
    ask: Ask
    harts: int = 1
    has_gdb: bool = True
    first: bytes = building.INPUT
    second: bytes = b""
    is_big: bool = False
    is_stripped: bool = False
    library: bool = False
    elf: str = ""

    def built(self, folder: str) -> str:
        """Its ELF file."""
        if self.elf:
            return os.path.join(building.TOP, self.elf)
        with open(os.path.join(SOURCES, self.name.split("-")[0] + ".c"), encoding="utf-8") as file:
            code = file.read()
        return (building.compiled_with_library if self.library
                else building.compiled)(folder, self.name, code, *self.compile)

    def can_be_built(self) -> bool:
        return not self.library or building.has_library()


def calls(*names: str, where: Sequence[Sequence[str]] = ()) -> Ask:
    def ask(asked: Asked) -> None:
        for name in names:
            ask_function(asked, name)
        for name, key, sign, number in where:
            ask_condition(asked, name, key, sign, number)
    return ask


def restores(asked: Asked) -> None:
    names = {each.name
             for each in asked.program.symbols if each.name.startswith("__riscv_restore_")}
    calls(*sorted(names))(asked)


def history(name: str) -> Ask:
    return lambda asked: ask_variable(asked, name)


def why(*words: str) -> Ask:
    return lambda asked: ask_why(asked, DRAW, *words)


def all_of(*asks: Callable[[Asked, random.Random], None], times: int = 1) -> Ask:
    """What drawn programs are asked, so many times."""
    def ask(asked: Asked) -> None:
        draw = random.Random(1)
        for each in asks * times:
            each(asked, draw)
    return ask


G = "-g"
TEXT = bytes(range(1, 256)) * 3
CASES = [
    Case("recursion", ["-O2", G], [], calls("walk", where=[("walk", "from", "==", "1")])),
    Case("tails", ["-O2", G], [], calls("even", "odd", "main")),
    Case("tails-history", ["-O2", G], [], history("turns")),
    Case("far", ["-O1", G], [], history("after")),
    Case("far-slow", ["-O1"], [], calls("leaf")),
    Case("start", ["-O2", G], [], calls("main", "raw_sum", "sized_sum", "through", "seven",
                                        where=[("main", "harts", "==", "1")])),
    Case("decimal", ["-O2", G], [], calls("much", where=[("much", "result", "==", "72149959")])),
    Case("saved", ["-Os", G, "-msave-restore"], [], restores),
    Case("saved-export", ["-Os", G, "-msave-restore"], [], all_of(ask_export)),
    Case("loops", ["-Os", G], [], all_of(ask_export)),
    Case("gcd", ["-Os", G], [], why()),
    Case("texts", ["-O1", G], [], calls("touch", "weigh", "change"), first=b"read and more"),
    Case("texts-harts", ["-O0", G], ["--interval", "60"], calls("touch", "weigh", "change"),
         first=b"read and more"),
    Case("start-plain", ["-O2"], [], calls("main"), has_gdb=False),
    Case("moves", ["-O2", G], [], calls("move", where=[("move", "n", "==", "5")])),
    Case("waits", ["-O0", G], ["--limit", "40000", "--interval", "2000"], why("--rows", "5000")),
    Case("waits-one", ["-O0", G], ["--limit", "40000", "--interval", "10000000"],
         why("--rows", "5000")),
    Case("atomic", ["-O2", G], ["--limit", "3000"], why()),
    Case("keeps", ["-O2", G], ["--limit", "3000"], why()),
    Case("both", ["-O1", G], ["--limit", "3000"], why(), harts=2),
    Case("written_before", ["-O1", G], [], all_of(ask_output, times=9)),
    Case("last_word", ["-O2", G], [], all_of(ask_output, ask_core)),
    Case("readers", ["-O2", G], ["--seed", "3"], why(), harts=2),
    Case("other_byte", ["-O2", G], [], lambda asked: None, first=b"ab", second=b"x"),
    Case("read_call", ["-O2", G], [], history("text"), first=b"abxdefgh", second=b"abcdefgh"),
    Case("inputs", ["-O1", G], ["--seed", "3"],
         all_of(ask_history, ask_find, ask_why, ask_page, times=3), harts=3, first=TEXT),
    Case("inputs-lost", ["-O1", G], ["--seed", "3", "--log-size", "16384"],
         all_of(ask_history, ask_find, ask_why), harts=3, first=TEXT),
    Case("inputs-end", ["-O1", G], ["--seed", "3", "--interval", "100"], why("--rows", "300"),
         harts=3, first=TEXT),
    Case("read_part", ["-O2", G], [], why()),
    Case("heap", ["-O2", G], [], calls("free", "malloc"), library=True),
    Case("heap-stripped", ["-O2", G], [], calls("main"), library=True, is_stripped=True),
    Case("constants", [], ["--limit", "300000"], why(), elf="tests/crashes/jump_shape.elf"),
    Case("freed", [], [], why(), elf="tests/crashes/use_after_free.elf"),
    Case("overrun", [], [], why(), elf="tests/crashes/overrun.elf"),
    Case("shop-history", ["-O2", G], [], all_of(ask_history)),
    Case("shop-calls", ["-O1", G], [], all_of(ask_calls)),
    Case("shop-find", ["-O2", G], [], all_of(ask_find)),
    Case("shop-export", ["-O2", G], [], all_of(ask_export)),
    Case("shop-output", ["-O0", G], [], all_of(ask_output)),
    Case("shop-why", ["-O1", G], [], why()),
    Case("shop-names", ["-O2", G], [], all_of(ask_names, ask_bucket)),
    Case("shop-same", ["-Os", G], [], all_of(ask_same, times=2)),
    Case("shop-page", ["-O1", G], [], all_of(ask_page)),
    Case("shop-gdb", ["-O1", G], [], all_of(ask_gdb)),
    Case("shop-core", ["-O1", G], [], all_of(ask_core)),
    Case("read_call-core", ["-O2", G], ["--interval", "50"], all_of(ask_core)),
    Case("blocks", ["-O1", G, "-fno-builtin", building.HEAP], [], all_of(ask_memory)),
    Case("given_again", ["-O1", G, building.HEAP], [], all_of(ask_memory)),
    Case("harts", ["-O2", G], ["--limit", "8000", "--log-size", "16384"],
         all_of(ask_race, ask_history, ask_core), harts=4),
    Case("late", [], "--seed 3 --limit 20000 --interval 3000 --log-size 16384".split(),
         all_of(ask_history, times=6), harts=4,
         elf="examples/counter.elf"),
    Case("switches", [], ["--seed", "10"], ask_shrink, harts=4, elf="examples/filters.elf"),
    Case("seldom", ["-O1", G], ["--limit", "2000000"], history("rare"), is_big=True),
    Case("sift", ["-O2", G], ["--limit", "2000000"], calls("sift_down"), is_big=True),
]

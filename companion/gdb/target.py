"""What gdb is told of the processor: its registers, and the signals for faults."""
from __future__ import annotations

import struct
from typing import Sequence

from ..recording.instruction import NAMES

REGISTERS = [*NAMES, "pc"]
TYPES = {"ra": "code_ptr", "sp": "data_ptr", "pc": "code_ptr"}

# Gdb's numbers of signals
TRAP = 5
INTERRUPTED = 2
ILLEGAL = 4
MISALIGNED = 10
OUTSIDE = 11
FAULT_SIGNALS = {
    "Illegal": ILLEGAL, "Breakpoint": TRAP,
    "FetchOutside": OUTSIDE, "LoadOutside": OUTSIDE, "StoreOutside": OUTSIDE,
    "StoreReadOnly": OUTSIDE,
    "TargetMisaligned": MISALIGNED, "LoadMisaligned": MISALIGNED, "StoreMisaligned": MISALIGNED,
}


# `none` as the operating system: for Linux gdb would step by temporary breakpoints and `continue`.
DESCRIPTION = (
    '<?xml version="1.0"?><!DOCTYPE target SYSTEM "gdb-target.dtd"><target version="1.0">'
    "<architecture>riscv:rv32</architecture><osabi>none</osabi>"
    '<feature name="org.gnu.gdb.riscv.cpu">'
    + "".join(f'<reg name="{name}" bitsize="32" type="{TYPES.get(name, "int")}" regnum="{number}"/>'
              for number, name in enumerate(REGISTERS))
    + "</feature></target>")


def words_in_hex(values: Sequence[int]) -> str:
    """Registers as gdb writes them: their bytes, the lowest first."""
    return struct.pack(f"<{len(values)}I", *values).hex()


def unknown_in_hex(count: int) -> str:
    return "x" * (8 * count)

"""A fault in words: what the address, the value and the reason mean."""
from __future__ import annotations

from ..call.text import as_text
from ..recording.elf import Elf
from ..recording.instruction import AMO, LOAD, NAMES, OP_SYSTEM, STORE
from ..recording.rows import FaultRow, Rows

# Words that other processors know, and registers that words with this opcode access.
PRIVILEGED = {0x30200073: "mret", 0x10200073: "sret", 0x10500073: "wfi"}
CSRS = {0xc00: "cycle (as rdcycle does)", 0xc01: "time (as rdtime does)",
        0xc02: "instret (as rdinstret does)", 0xc80: "cycleh (as rdcycleh does)",
        0xc81: "timeh (as rdtimeh does)", 0xc82: "instreth (as rdinstreth does)", 0xf14: "mhartid",
        0x300: "mstatus", 0x301: "misa", 0x304: "mie", 0x305: "mtvec", 0x340: "mscratch",
        0x341: "mepc", 0x342: "mcause", 0x343: "mtval", 0x344: "mip", 0x001: "fflags",
        0x002: "frm", 0x003: "fcsr"}
OP_FLOAT = 0x07, 0x27, 0x43, 0x47, 0x4b, 0x4f, 0x53
FENCE_I = 0x100f            # its opcode and kind
PAGE = 4096                 # nothing below is mapped
VERBS = {"Load": "loads from", "Store": "stores to", "Fetch": "jumps to", "Target": "jumps to"}


def fault_words(rows: Rows, fault: FaultRow, elf: Elf) -> list[str]:
    value = fault.value
    ins = fault.instruction
    said = [reason(rows, elf, fault)]
    if fault.name in ("Breakpoint", "Illegal"):
        return said
    base = rows.final[fault.hart][ins.rs1] if ins.rs1 else 0
    text = next((guess for guess in (value, base) if as_text(guess)), None)
    if text is not None:
        said.append(f"As text {text:08x} is '{as_text(text)}': text was taken for a pointer.")
    if ins.rs1 and ins.kind in (LOAD, STORE, AMO):
        offset = (value - base + (1 << 31)) % (1 << 32) - (1 << 31)
        said.append(f"The address is {NAMES[ins.rs1]} = "
                    f"{base:08x}{f' {offset:+d}' if offset else ''}.")
    return said + jump_words(rows, fault)


def reason(rows: Rows, elf: Elf, fault: FaultRow) -> str:
    name = fault.name
    value = fault.value
    ins = fault.instruction
    verb = ("updates" if ins.kind == AMO
            else next((word for start, word in VERBS.items() if name.startswith(start)), ""))
    if name == "Breakpoint":
        return "It ran into an ebreak (a trap or abort)."
    if name == "Illegal":
        return f"{value:08x} is no instruction of RV32IMA{illegal_words(value)}."
    if name == "StoreReadOnly":
        return (f"It stores to {value:08x}, "
                f"which is in a read-only segment{near_address(elf, value)}.")
    if name.endswith("Misaligned"):
        return (f"It {verb} {value:08x}, "
                f"which is no multiple of {4 if name[0] == 'T' else ins.width}.")
    if value < PAGE:
        what = "a null pointer" if value == 0 else f"a null pointer and an offset of {value}"
        return f"It {verb} {value:08x}: {what} (nothing below {PAGE:08x} is mapped)."
    if value >= rows.log.memory:
        return f"It {verb} {value:08x}, which is not mapped: memory ends at {rows.log.memory:08x}."
    return f"It {verb} {value:08x}, where there is no code."


def illegal_words(word: int) -> str:
    """What a word is that isn't one of RV32IMA, as far as it is known."""
    if word in PRIVILEGED:
        return f": it is {PRIVILEGED[word]}, which is of privileged code"
    if word & 127 == OP_SYSTEM and word >> 12 & 3:
        csr = word >> 20
        return (f": it accesses {CSRS.get(csr, f'register {csr:03x}')}, "
                "a control and status register")
    if word & 3 != 3 and word:
        return ": it may be a compressed instruction, which -march=rv32ima doesn't make"
    if word & 0x707f == FENCE_I:
        return ": it is fence.i, of Zifencei: code can't be written here, so leave it out"
    return (": it is of floating point, which -march=rv32ima doesn't make" if word & 127 in OP_FLOAT
            else "")


def near_address(elf: Elf, address: int) -> str:
    name = elf.data_name(address)
    return f" ({name})" if name else ""


def jump_words(rows: Rows, fault: FaultRow) -> list[str]:
    last = rows.last_rows(fault.row, 2)
    if fault.name != "FetchOutside" or len(last) < 2:
        return []
    jump = rows.code_of(last[0])
    if jump.ret:
        return ["It was a return: the return address that its function had saved was overwritten."]
    return ["It was a call through a pointer."] if jump.call else []
